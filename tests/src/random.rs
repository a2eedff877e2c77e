//! A small deterministic generator. One seed serves a whole test binary, so
//! that a failure can be had again by giving the printed seed back.

use crate::reference::frame::Shared;
use std::env;
use std::io::{self, Write};
use std::sync::OnceLock;
use std::time::{SystemTime, UNIX_EPOCH};

/// Splitmix64: each draw mixes a counter that moves by a fixed odd number.
#[derive(Clone, Debug)]
pub struct Random {
    counter: u64,
}

impl Random {
    pub fn new(seed: u64) -> Random {
        Random { counter: seed }
    }

    /// The generator of one test. It depends on the seed and the test's name
    /// only, so that tests draw the same in any order and alone.
    pub fn for_test(name: &str) -> Random {
        let mut random = Random::new(seed());
        for byte in name.bytes() {
            random.counter = random.word() ^ u64::from(byte);
        }
        random
    }

    pub fn word(&mut self) -> u64 {
        self.counter = self.counter.wrapping_add(0x9e37_79b9_7f4a_7c15);
        let mut mixed = self.counter;
        mixed = (mixed ^ (mixed >> 30)).wrapping_mul(0xbf58_476d_1ce4_e5b9);
        mixed = (mixed ^ (mixed >> 27)).wrapping_mul(0x94d0_49bb_1331_11eb);
        mixed ^ (mixed >> 31)
    }

    /// A number below `limit`, or 0 if there is none.
    pub fn below(&mut self, limit: usize) -> usize {
        match limit {
            0 => 0,
            _ => (self.word() % limit as u64) as usize,
        }
    }

    /// True once in `times` draws.
    pub fn once_in(&mut self, times: usize) -> bool {
        self.below(times) == 0
    }

    pub fn byte(&mut self) -> u8 {
        (self.word() >> 56) as u8
    }

    /// A session and a line, mostly one of the two that are named.
    pub fn shared(&mut self) -> Shared {
        let session = (self.word() >> 32) as u32;
        let line = if self.once_in(4) { self.byte() } else { self.choose(&[0, 1]) };
        Shared { session, line }
    }

    pub fn bytes(&mut self, length: usize) -> Vec<u8> {
        (0..length).map(|_| self.byte()).collect()
    }

    /// One of the choices. They are never empty where this is called.
    pub fn choose<T: Copy>(&mut self, choices: &[T]) -> T {
        choices[self.below(choices.len())]
    }

    /// Bytes of one of the sorts that tell faults apart: random, all zero, all
    /// ones, few bits set, few bits clear.
    pub fn contents(&mut self, length: usize) -> Vec<u8> {
        match self.below(8) {
            0 => vec![0; length],
            1 => vec![0xff; length],
            2 => self.sparse(length, 0),
            3 => self.sparse(length, 0xff),
            _ => self.bytes(length),
        }
    }

    /// Equal bytes with one to three bits turned over.
    fn sparse(&mut self, length: usize, byte: u8) -> Vec<u8> {
        let mut bytes = vec![byte; length];
        for _ in 0..1 + self.below(3) {
            let place = self.below(8 * length);
            if let Some(byte) = bytes.get_mut(place / 8) {
                *byte ^= 1 << (place % 8);
            }
        }
        bytes
    }
}

/// The seed of this test binary: `SEED`, or the system clock's nanoseconds.
pub fn seed() -> u64 {
    static SEED: OnceLock<u64> = OnceLock::new();
    *SEED.get_or_init(|| {
        let seed = given_seed().unwrap_or_else(clock_seed);
        announce(&format!("seed: give SEED={seed} to run the same inputs"));
        seed
    })
}

fn given_seed() -> Option<u64> {
    let text = env::var("SEED").ok()?;
    let seed = text.trim().parse();
    Some(seed.expect("SEED is a decimal number below 2^64"))
}

fn clock_seed() -> u64 {
    let since = SystemTime::now().duration_since(UNIX_EPOCH);
    since.map_or(1, |since| since.as_nanos() as u64)
}

/// Says how many inputs a test tried, with the seed that gives them again.
pub fn report(what: &str, count: usize) {
    announce(&format!("{what}: {count} inputs tried, SEED={}", seed()));
}

/// Writes a line past the test harness, which keeps back what a passing test
/// prints.
fn announce(line: &str) {
    let mut output = io::stdout().lock();
    // A closed output is no reason to fail a test.
    let _ = writeln!(output, "{line}");
}

#[cfg(test)]
mod tests {
    use super::Random;

    #[test]
    fn equal_seeds_draw_equal_bytes() {
        let draw = |seed| Random::new(seed).bytes(40);
        assert_eq!(draw(7), draw(7));
        assert_ne!(draw(7), draw(8));
    }

    #[test]
    fn empty_ranges_are_no_fault() {
        let mut random = Random::new(1);
        assert_eq!(random.below(0), 0);
        assert!((0..100).all(|_| random.contents(0).is_empty()));
    }
}
