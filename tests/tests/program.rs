//! The program over standard input, which is of set 1: its sample, every number
//! that it can give, combinations where the lowest wins, and input of any length.

use service_pair_tests::matrices::{file_of, stated_matrix, stated_ties};
use service_pair_tests::random::{report, seed, Random};
use service_pair_tests::reference::program::{program, Inputs, INPUT_BYTES};
use service_pair_tests::reference::shape::SET_1;
use service_pair_tests::samples::{
    chosen_faults, damage_file, diagonal_file, fit_inputs, set_both_bits, FAULT_CHOICES,
};
use std::env;
use std::fs::OpenOptions;
use std::io::{Read, Write};
use std::path::PathBuf;
use std::process::{Child, ChildStdin, Command, Stdio};
use std::thread;
use std::time::Duration;

/// `SERVICE_PAIR_PROGRAM`, or where `rt run` links the program.
fn program_path() -> PathBuf {
    let path = match env::var_os("SERVICE_PAIR_PROGRAM") {
        Some(path) => PathBuf::from(path),
        None => PathBuf::from(env!("CARGO_MANIFEST_DIR"))
            .join("../crates/service_pair/out/service_pair"),
    };
    assert!(
        path.is_file(),
        "crates/service_pair/out/service_pair (or the file that SERVICE_PAIR_PROGRAM names) is \
         missing: ./run in the repository's root makes it."
    );
    path
}

fn start() -> Child {
    let mut command = Command::new(program_path());
    command.stdin(Stdio::piped()).stdout(Stdio::piped());
    command.spawn().expect("the program starts")
}

/// Runs the program while another thread gives it input; what it prints.
fn output_of(feed: impl FnOnce(ChildStdin) + Send + 'static) -> String {
    let mut child = start();
    let stdin = child.stdin.take().expect("standard input is piped");
    let feeder = thread::spawn(move || feed(stdin));
    let mut printed = Vec::new();
    let mut stdout = child.stdout.take().expect("standard output is piped");
    stdout.read_to_end(&mut printed).expect("the program prints");
    child.wait().expect("the program ends");
    feeder.join().expect("the input was given");
    String::from_utf8(printed).expect("the program prints text")
}

/// Gives the whole input at once. A program that has read enough may close its
/// input early.
fn whole(input: Vec<u8>) -> impl FnOnce(ChildStdin) {
    move |mut stdin| {
        let _ = stdin.write_all(&input);
    }
}

fn compare(input: &[u8]) -> String {
    let printed = output_of(whole(input.to_vec()));
    assert_eq!(printed, program(input), "SEED={}", seed());
    printed
}

#[test]
fn the_sample_is_printed() {
    let first = |byte: u8| [vec![byte], vec![0; 31]].concat();
    let inputs = Inputs {
        shape: SET_1,
        key_halves: [first(0x01), first(0)],
        label_halves: [first(0x05), first(0)],
        tape: vec![0; 256],
        file: diagonal_file(SET_1),
    };
    let expected = format!("result 0\n101{}\n", "0".repeat(78));
    assert_eq!(compare(&inputs.bytes()), expected);
}

#[test]
fn runs_print_their_digits() {
    let mut random = Random::for_test("program runs");
    let count = 60;
    for _ in 0..count {
        let printed = compare(&fit_inputs(&mut random, SET_1).bytes());
        assert_eq!(printed.len(), "result 0\n".len() + 82);
    }
    report("program: fit inputs", count);
}

#[test]
fn each_fault_and_the_lowest_of_several() {
    let mut random = Random::for_test("program faults");
    let mut count = 0;
    // Every choice of the file's faults, with a fit tape and an unfit one.
    for choice in 0..FAULT_CHOICES {
        for unfit_tape in [false, true] {
            let mut inputs = fit_inputs(&mut random, SET_1);
            damage_file(&mut random, SET_1, &mut inputs.file, &chosen_faults(choice));
            if unfit_tape {
                set_both_bits(&mut random, SET_1, &mut inputs.tape, SET_1.copied_bytes());
            }
            compare(&inputs.bytes());
            count += 1;
        }
    }
    report("program: inputs with faults", count);
}

/// The ties that the request names, each with a fit tape and with an unfit one.
#[test]
fn tied_rows_print_result_12() {
    let mut random = Random::for_test("program ties");
    let ties = stated_ties().into_iter().filter(|(shape, ..)| *shape == SET_1);
    let mut count = 0;
    for (_, row, terms) in ties {
        let mut inputs = fit_inputs(&mut random, SET_1);
        inputs.file = file_of(SET_1, &stated_matrix(SET_1, row, &terms));
        assert_eq!(compare(&inputs.bytes()), "result 12\n", "row {row} is {terms:?}");
        set_both_bits(&mut random, SET_1, &mut inputs.tape, SET_1.copied_bytes());
        assert_eq!(compare(&inputs.bytes()), "result 10\n", "row {row} is {terms:?}");
        count += 2;
    }
    report("program: inputs with tied rows", count);
}

#[test]
fn other_lengths_print_result_1() {
    let mut random = Random::for_test("program lengths");
    let long = [fit_inputs(&mut random, SET_1).bytes(), random.bytes(200_000)].concat();
    let near = INPUT_BYTES - 3..INPUT_BYTES + 4;
    let lengths: Vec<usize> =
        (0..5).chain(near).chain([32, 128, 384, 6_144, 13_056, 65_536, 200_000]).collect();
    for &length in &lengths {
        let expected = if length == INPUT_BYTES { "result 0\n" } else { "result 1\n" };
        assert!(compare(&long[..length]).starts_with(expected), "length {length}");
    }
    report("program: lengths", lengths.len());
}

/// The first byte too many is read, so that a fit input before it is not taken.
#[test]
fn a_byte_more_prints_result_1() {
    let mut random = Random::for_test("program byte more");
    let mut input = fit_inputs(&mut random, SET_1).bytes();
    assert!(compare(&input).starts_with("result 0\n"));
    input.push(0);
    assert_eq!(input.len(), 6_529);
    assert_eq!(compare(&input), "result 1\n");
    report("program: inputs with a byte more", 1);
}

/// Input that comes in pieces, as from a pipe or a terminal.
#[test]
fn input_may_come_in_pieces() {
    let mut random = Random::for_test("program pieces");
    for _ in 0..5 {
        let input = fit_inputs(&mut random, SET_1).bytes();
        let expected = program(&input);
        let mut cuts: Vec<usize> = (0..6).map(|_| random.below(input.len())).collect();
        cuts.extend([0, input.len()]);
        cuts.sort_unstable();
        let printed = output_of(move |mut stdin| {
            for cut in cuts.windows(2) {
                stdin.write_all(&input[cut[0]..cut[1]]).expect("the program reads on");
                stdin.flush().expect("the piece is given");
                thread::sleep(Duration::from_millis(3));
            }
        });
        assert_eq!(printed, expected, "SEED={}", seed());
    }
    report("program: inputs in pieces", 5);
}

/// Endless input: it stops reading and says 1, though the input goes on.
#[test]
fn endless_input_prints_result_1() {
    const FAR: usize = 1 << 26;
    let printed = output_of(|mut stdin| {
        let piece = [7; 4_096];
        let mut given = 0;
        while stdin.write_all(&piece).is_ok() {
            given += piece.len();
            assert!(given < FAR, "the program reads on without end");
        }
    });
    assert_eq!(printed, "result 1\n");
    report("program: endless inputs", 1);
}

/// What the program says on standard error of a fit input, with this standard
/// output.
fn errors_with(stdout: Stdio) -> String {
    let mut random = Random::for_test("program errors");
    let mut command = Command::new(program_path());
    command.stdin(Stdio::piped()).stdout(stdout).stderr(Stdio::piped());
    let mut child = command.spawn().expect("the program starts");
    let stdin = child.stdin.take().expect("standard input is piped");
    whole(fit_inputs(&mut random, SET_1).bytes())(stdin);
    let ended = child.wait_with_output().expect("the program ends");
    String::from_utf8(ended.stderr).expect("the program says text")
}

/// A device that takes no byte: a message says so, and no other time.
#[test]
fn a_full_device_gives_a_message() {
    let full = OpenOptions::new().write(true).open("/dev/full").expect("Linux has this device");
    assert_eq!(errors_with(full.into()), "service_pair: standard output cannot be written\n");
    assert_eq!(errors_with(Stdio::piped()), "");
    report("program: standard outputs", 2);
}
