//! How rows are timed and printed.

use std::hint::black_box;
use std::time::{Duration, Instant};

/// How often every row is timed; the best round counts. The rows take turns, so
/// that another program which takes the core for a while spoils no row.
const ROUNDS: usize = 300;
/// About how long a round of one side of a row takes.
const ROUND: Duration = Duration::from_millis(1);

/// One side of a row: the work, how many calls of it make a round, and the best
/// round's nanoseconds for a call.
struct Side {
    work: Box<dyn FnMut(usize) -> Duration>,
    calls: usize,
    best: f64,
}

impl Side {
    fn new(mut call: impl FnMut() + 'static) -> Side {
        let mut work = move |calls: usize| {
            let start = Instant::now();
            for _ in 0..calls {
                call();
            }
            start.elapsed()
        };
        // The first calls warm the caches, the second tell how long one takes.
        work(100);
        let one = (work(100).as_nanos() / 100).max(1);
        let calls = (ROUND.as_nanos() / one) as usize + 1;
        Side { work: Box::new(work), calls, best: f64::MAX }
    }

    fn round(&mut self) {
        let nanoseconds = (self.work)(self.calls).as_nanos() as f64 / self.calls as f64;
        self.best = self.best.min(nanoseconds);
    }
}

struct Row {
    name: String,
    ours: Side,
    rust: Option<Side>,
}

/// Rows that are printed together.
#[derive(Default)]
pub struct Table {
    rows: Vec<Row>,
}

impl Table {
    /// A row of a call of ours and the same work in Rust.
    pub fn compare(
        &mut self,
        name: &str,
        ours: impl FnMut() + 'static,
        rust: impl FnMut() + 'static,
    ) {
        let rust = Some(Side::new(rust));
        self.rows.push(Row { name: name.to_string(), ours: Side::new(ours), rust });
    }

    /// A row of one call alone.
    pub fn alone(&mut self, name: &str, work: impl FnMut() + 'static) {
        self.rows.push(Row { name: name.to_string(), ours: Side::new(work), rust: None });
    }

    /// Prints ours, Rust's, and ours divided by Rust's.
    pub fn print_ratios(&self) {
        println!("| {:<48} | {:>12} | {:>12} | ratio", "call", "ours", "Rust");
        println!("|{:-<50}|{:-<14}|{:-<14}|------", "", "", "");
        for row in &self.rows {
            let (ours, rust) =
                (row.ours.best, row.rust.as_ref().map_or(f64::NAN, |side| side.best));
            let (name, ratio) = (&row.name, ours / rust);
            println!("| {name:<48} | {ours:>9.1} ns | {rust:>9.1} ns | {ratio:.2} x");
        }
    }

    /// Prints one time a row, under a title.
    pub fn print_times(&self, title: &str) {
        if !self.rows.is_empty() {
            println!("\n{title}");
        }
        for row in &self.rows {
            println!("| {:<48} | {:>9.1} ns", row.name, row.ours.best);
        }
    }
}

/// Times the rows of these tables whose names have this part; the others go.
pub fn measure(tables: &mut [&mut Table], part: &str) {
    for table in tables.iter_mut() {
        table.rows.retain(|row| row.name.contains(part));
    }
    for _ in 0..ROUNDS {
        for row in tables.iter_mut().flat_map(|table| &mut table.rows) {
            row.ours.round();
            row.rust.iter_mut().for_each(Side::round);
        }
    }
}

/// Keeps an answer from being left out.
#[inline(always)]
pub fn kept<T>(answer: T) {
    black_box(answer);
}

/// Data that rows share stay until the program ends.
pub fn shared<T>(data: T) -> &'static T {
    Box::leak(Box::new(data))
}
