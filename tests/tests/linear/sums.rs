//! Sums, differences and inner shares.

use crate::lengths::{near, pairs, try_two_inputs};
use crate::library;
use service_pair_tests::reference::{bits, trits};

#[test]
fn add_bits() {
    try_two_inputs(
        "add_bits",
        |random, n| pairs(random, [n; 2]),
        library::add_bits,
        |a, b, room| bits::add_bits(a, b, room.len()),
    );
}

#[test]
fn add_bits_to() {
    try_two_inputs(
        "add_bits_to",
        |random, n| {
            let rounds = (0..8).flat_map(|_| near(random, n));
            rounds.map(|a| [a, 0]).collect()
        },
        |a, _, out| library::add_bits_to(a, out),
        |a, _, room| bits::add_bits(room, a, room.len()),
    );
}

#[test]
fn add_trits() {
    try_two_inputs(
        "add_trits",
        |random, n| pairs(random, [n; 2]),
        library::add_trits,
        |a, b, room| trits::add_trits(a, b, room.len() / 2),
    );
}

#[test]
fn subtract_trits() {
    try_two_inputs(
        "subtract_trits",
        |random, n| pairs(random, [n / 2, n]),
        library::subtract_trits,
        |w, r, room| trits::subtract_trits(w, r, room.len() / 2),
    );
}

#[test]
fn inner_share() {
    // Every side but 0 adds nothing.
    for side in [0, 1, 2, 0xff] {
        try_two_inputs(
            &format!("inner_share of side {side}"),
            |random, n| pairs(random, [n / 2, n]),
            |w, r, out| library::inner_share(side, w, r, out),
            |w, r, room| trits::inner_share(side, w, r, room.len() / 2),
        );
    }
}
