//! Times each call of the proved libraries beside the same work in Rust
//! written for speed (`fast`), on the same buffers and in the same run. With a
//! word, only the rows whose names have it.

mod calls;
mod checks;
#[path = "../../../tests/interface/mod.rs"]
mod interface;
#[path = "../../../tests/linear/library.rs"]
mod library;
mod linear;
mod sizes;
mod sodium;
mod timing;

use service_pair_tests::random::Random;
use timing::Table;

/// What the source documents report, each on the machine that it names.
const DOCUMENTS: &str = "\
document 001 (Xeon E5-2686 v4, 2.3 GHz): 6.08 µs for one evaluation with 135 MB of tables, 18.5 µs without them;
    12.12 µs for the two-party protocol with the tables, its deal not counted
document 000 (Core i7 laptop, 512 bits for our 256, each of many evaluations): 0.4 µs for its fastest two-party
    protocol, and 7.0 µs before it to make what we call a deal";

fn main() {
    let mut random = Random::new(1);
    let (mut calls, mut sizes, mut curve) = (Table::default(), Table::default(), Table::default());
    linear::products(&mut random, &mut calls);
    calls::rows(&mut random, &mut calls);
    linear::others(&mut random, &mut calls);
    sizes::rows(&mut random, &mut sizes);
    let scalars = [0; 2].map(|_| std::array::from_fn(|_| random.byte()));
    let loaded = sodium::rows(scalars, &mut curve);
    let part = std::env::args().nth(1).unwrap_or_default();
    timing::measure(&mut [&mut calls, &mut sizes, &mut curve], &part);
    calls.print_ratios();
    sizes.print_times("other sizes, ours");
    curve.print_times("for comparison");
    if part.is_empty() {
        if !loaded {
            println!("libsodium is not installed: its Curve25519 is not measured");
        }
        println!("{DOCUMENTS}");
    }
}
