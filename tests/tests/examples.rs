//! The examples in C, run as programs in every set: the counter reader on fit
//! files and on every refusal, both units in two processes, and the self-test.

use service_pair_tests::random::{report, seed, Random};
use service_pair_tests::reference::frame::{frame_of, HEADER_BYTES, SHARE};
use service_pair_tests::reference::join::join;
use service_pair_tests::reference::matrix::matrix_check;
use service_pair_tests::reference::numbers::{DONE, WRONG_LENGTH};
use service_pair_tests::reference::program::digits;
use service_pair_tests::reference::shape::{Shape, SETS, SET_1};
use service_pair_tests::reference::trits::pack_trits;
use service_pair_tests::samples::{damage_file, fit_file, FileFault};
use service_pair_tests::state_layout::LINE_AT;
use std::collections::{BTreeMap, BTreeSet};
use std::env;
use std::fs;
use std::path::{Path, PathBuf};
use std::process::Command;

/// An example's program in `SERVICE_PAIR_EXAMPLES`, or where `./test` puts it.
fn example(name: &str) -> PathBuf {
    let folder = match env::var_os("SERVICE_PAIR_EXAMPLES") {
        Some(folder) => PathBuf::from(folder),
        None => PathBuf::from(env!("CARGO_MANIFEST_DIR")).join("../target/c"),
    };
    let path = folder.join(name);
    assert!(
        path.is_file(),
        "target/c/{name} (or {name} in the folder that SERVICE_PAIR_EXAMPLES names) is missing: \
         ./test in the repository's root compiles it from examples/{name}.c."
    );
    path
}

/// A folder of this name, below the one that cargo gives to tests.
fn folder(name: &str) -> PathBuf {
    let folder = PathBuf::from(env!("CARGO_TARGET_TMPDIR")).join(name);
    fs::create_dir_all(&folder).expect("a folder for the files");
    folder
}

/// What a counter has, and the set that it names.
struct Files {
    shape: Shape,
    matrix: Vec<u8>,
    shares: [Vec<u8>; 2],
}

impl Files {
    /// A fit matrix and two fit share frames of one session and line.
    fn fit(random: &mut Random, shape: Shape) -> Files {
        let shared = random.shared();
        let shares = [0, 1].map(|side| frame_of(SHARE, side, shared, &fit_share(random, shape)));
        Files { shape, matrix: fit_file(random, shape), shares }
    }

    fn save(&self, folder: &Path) {
        let [share0, share1] = &self.shares;
        for (name, bytes) in [("matrix", &self.matrix), ("share0", share0), ("share1", share1)] {
            fs::write(folder.join(name), bytes).expect("the file is written");
        }
    }

    fn load(folder: &Path, shape: Shape) -> Files {
        let read = |name: &str| fs::read(folder.join(name)).expect("the file is there");
        Files { shape, matrix: read("matrix"), shares: ["share0", "share1"].map(read) }
    }

    /// The reference's number, the matrix judged first, and what is printed.
    fn expected(&self) -> (u32, String) {
        let number = matrix_check(self.shape, &self.matrix);
        if number != DONE {
            return (number, String::new());
        }
        let [share0, share1] = &self.shares;
        let answer = join(self.shape, share0, share1, self.shape.code_bytes());
        match answer.number {
            DONE => (DONE, digits(self.shape, &answer.bytes) + "\n"),
            number => (number, String::new()),
        }
    }
}

fn fit_share(random: &mut Random, shape: Shape) -> Vec<u8> {
    let trits: Vec<u8> = (0..shape.digits).map(|_| random.below(3) as u8).collect();
    pack_trits(shape.code_plane(), |i| trits.get(i).copied().unwrap_or(0))
}

/// Exit status, standard output and standard error.
fn run(command: &mut Command) -> (Option<i32>, String, String) {
    let output = command.output().expect("the example starts");
    let text = |bytes| String::from_utf8(bytes).expect("it prints text");
    (output.status.code(), text(output.stdout), text(output.stderr))
}

/// The words that name a set; the first one need not be named.
fn words(random: &mut Random, shape: Shape) -> Vec<String> {
    match shape == SET_1 && random.once_in(2) {
        true => vec![],
        false => vec![shape.set.to_string()],
    }
}

/// Runs the counter reader on these files and compares what it prints and how
/// it ends. Gives the number back and the message.
fn compare(random: &mut Random, folder: &Path, files: &Files) -> (u32, String) {
    files.save(folder);
    let (number, printed) = files.expected();
    let mut command = Command::new(example("counter_reader"));
    command.current_dir(folder).args(words(random, files.shape));
    command.args(["matrix", "share0", "share1"]);
    let (status, output, message) = run(&mut command);
    assert_eq!(output, printed, "SEED={}", seed());
    assert_eq!(status, Some(i32::from(number != DONE)), "SEED={}", seed());
    match number {
        DONE => assert_eq!(message, ""),
        _ => assert!(message.contains(&format!("refused with {number}: ")), "{message}"),
    }
    (number, message)
}

type Fault = fn(&mut Random, &mut Files);

/// Single faults, each with its number.
const FAULTS: [(u32, Fault); 16] = [
    (1, |_, files| files.matrix.truncate(files.shape.file_bytes() - 1)),
    (1, |_, files| files.matrix.push(0)),
    (1, |_, files| files.matrix.clear()),
    (8, |random, files| damage(random, files, FileFault::Check)),
    (9, |random, files| damage(random, files, FileFault::UnusedByte)),
    (10, |random, files| damage(random, files, FileFault::UnfitTrit)),
    (12, |random, files| damage(random, files, FileFault::ZeroRow)),
    (12, |random, files| damage(random, files, FileFault::TiedRows)),
    (3, |random, files| files.shares[random.below(2)].truncate(HEADER_BYTES - 1)),
    (3, |random, files| files.shares[random.below(2)][0] = 3),
    (4, |random, files| files.shares[random.below(2)].push(0)),
    (5, |random, files| files.shares[random.below(2)][2] ^= 1),
    (6, |_, files| files.shares.swap(0, 1)),
    (10, |_, files| {
        for plane in [HEADER_BYTES, HEADER_BYTES + files.shape.code_plane()] {
            files.shares[1][plane] = 1;
        }
    }),
    // The highest bit of a plane is a digit's in no set.
    (11, |random, files| files.shares[random.below(2)][files.shape.share_bytes() - 1] |= 0x80),
    (15, |random, files| files.shares[random.below(2)][LINE_AT] ^= 1),
];

fn damage(random: &mut Random, files: &mut Files, fault: FileFault) {
    damage_file(random, files.shape, &mut files.matrix, &[fault]);
}

#[test]
fn the_counter_reader_prints_the_code() {
    let mut random = Random::for_test("counter reader");
    let folder = folder("counter_reader");
    let count = 20;
    for shape in SETS {
        for _ in 0..count {
            let files = Files::fit(&mut random, shape);
            assert_eq!(compare(&mut random, &folder, &files).0, DONE);
        }
    }
    report("examples: files that the counter reader joins", SETS.len() * count);
}

#[test]
fn the_counter_reader_has_a_message_for_each_number() {
    let mut random = Random::for_test("counter reader faults");
    let folder = folder("counter_reader_faults");
    let mut texts = BTreeMap::new();
    for shape in SETS {
        for (number, fault) in FAULTS {
            let mut files = Files::fit(&mut random, shape);
            fault(&mut random, &mut files);
            let (found, message) = compare(&mut random, &folder, &files);
            assert_eq!(found, number);
            let text = message.split_once(": ").map(|parts| parts.1.to_string());
            texts.insert(text, number);
        }
    }
    // No two of the numbers 1, 3 to 6, 8 to 12 and 15 have the same text, in any set.
    assert_eq!(texts.len(), 11, "{texts:?}");
    report("examples: refusals of the counter reader", SETS.len() * FAULTS.len());
}

/// Files of one set under another's name.
#[test]
fn the_counter_reader_refuses_files_of_another_set() {
    let mut random = Random::for_test("counter reader sets");
    let folder = folder("counter_reader_sets");
    for shape in SETS {
        for named in SETS.into_iter().filter(|named| *named != shape) {
            let files = Files { shape: named, ..Files::fit(&mut random, shape) };
            assert_eq!(compare(&mut random, &folder, &files).0, WRONG_LENGTH);
        }
    }
    report("examples: files of another set", SETS.len() * (SETS.len() - 1));
}

/// A wrong call: nothing is printed, and one line says why.
fn said(command: &mut Command) -> String {
    let (status, output, message) = run(command);
    assert_eq!((status, &output[..]), (Some(2), ""));
    assert_eq!(message.lines().count(), 1, "{message}");
    message
}

#[test]
fn missing_files_and_words_are_said() {
    let mut command = Command::new(example("counter_reader"));
    command.current_dir(folder("counter_reader_missing")).args(["nothing", "share0", "share1"]);
    assert!(said(&mut command).starts_with("nothing: "));
    for (name, words) in [("counter_reader", 0), ("counter_reader", 5), ("two_units", 4)] {
        let usage = said(Command::new(example(name)).args(vec!["1"; words]));
        assert!(usage.starts_with(&format!("usage: {name} ")), "{usage}");
    }
}

#[test]
fn words_that_are_no_set_are_said() {
    let wrong = ["0", "4", "9", "", "12", "1 ", "-1", "x", "two"];
    for word in wrong {
        let expected = format!("a set is 1, 2 or 3, not '{word}'\n");
        assert_eq!(said(Command::new(example("two_units")).arg(word)), expected);
        let mut counter = Command::new(example("counter_reader"));
        assert_eq!(said(counter.args([word, "matrix", "share0", "share1"])), expected);
    }
    report("examples: words that are no set", 2 * wrong.len());
}

#[test]
fn words_that_are_no_line_are_said() {
    let wrong = ["256", "999999999999", "", "1 ", "-1", "x", "0x1"];
    for word in wrong {
        let expected = format!("a line is 0 to 255, not '{word}'\n");
        assert_eq!(said(Command::new(example("two_units")).args(["1", word])), expected);
    }
    report("examples: words that are no line", wrong.len());
}

/// The sessions that `two_units` runs.
const SESSIONS: usize = 3;

/// What `two_units` prints: each session's code twice, and that they are equal.
/// Gives the codes of the sessions before the last, whose code is given.
fn earlier_codes<'a>(output: &'a str, code: &str) -> Vec<&'a str> {
    let last = format!("two units  {code}evaluator  {code}equal\n");
    let before = output.strip_suffix(&last).expect("the last session's code, and equal");
    let lines: Vec<&str> = before.lines().collect();
    assert_eq!(lines.len(), 2 * (SESSIONS - 1), "{output}");
    let code = |session: &[&'a str]| {
        let code = session[0].strip_prefix("two units  ").expect("the units' code");
        assert_eq!(session[1].strip_prefix("evaluator  "), Some(code));
        code
    };
    lines.chunks(2).map(code).collect()
}

#[test]
fn two_units_agree_with_the_evaluator() {
    let mut random = Random::for_test("two units");
    let folder = folder("two_units");
    let count = 10;
    for shape in SETS {
        for _ in 0..count {
            let line = random.shared().line;
            let mut command = Command::new(example("two_units"));
            command.args([shape.set.to_string(), line.to_string()]).arg(&folder);
            let (status, output, message) = run(&mut command);
            assert_eq!((status, &message[..]), (Some(0), ""));
            // What the counter had last, judged by the reference.
            let files = Files::load(&folder, shape);
            assert!(files.shares.iter().all(|share| share[LINE_AT] == line));
            let (number, printed) = files.expected();
            assert_eq!(number, DONE);
            // Each session has its own code.
            let earlier = earlier_codes(&output, &printed);
            let codes: BTreeSet<&str> = earlier.into_iter().chain([printed.trim_end()]).collect();
            assert_eq!(codes.len(), SESSIONS, "{output}");
            assert!(codes.iter().all(|code| code.len() == shape.digits), "{output}");
            assert_eq!(compare(&mut random, &folder, &files).0, DONE);
        }
    }
    report("examples: sessions of two units in two processes", SETS.len() * SESSIONS * count);
}

#[test]
fn two_units_are_of_set_1_where_none_is_named() {
    let (status, output, message) = run(&mut Command::new(example("two_units")));
    assert_eq!((status, &message[..]), (Some(0), ""));
    let code = output.lines().next().and_then(|line| line.strip_prefix("two units  "));
    assert_eq!(code.map(str::len), Some(SET_1.digits), "{output}");
}

#[test]
fn the_self_test_passes_and_says_so_in_one_line() {
    let (status, output, message) = run(&mut Command::new(example("self_test")));
    assert_eq!((status, &message[..]), (Some(0), ""));
    let version = output.strip_prefix("self-test passed, interface ").expect("it passed");
    let parts: Vec<&str> = version.strip_suffix('\n').expect("a line").split('.').collect();
    assert_eq!(parts.len(), 3, "{version}");
    assert!(parts.iter().all(|part| part.parse::<u32>().is_ok()), "{version}");
}
