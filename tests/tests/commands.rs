//! The commands themselves. Most tests try them in a small tree of their own,
//! with a stand-in for the toolchain; the last ones with the toolchain.

use service_pair_tests::random::{report, seed, Random};
use service_pair_tests::reference::program::program;
use service_pair_tests::reference::shape::SET_1;
use service_pair_tests::samples::fit_inputs;
use std::env;
use std::fs::{self, File, Permissions};
use std::io::Write;
use std::os::unix::fs::{symlink, PermissionsExt};
use std::path::PathBuf;
use std::process::{self, Command, Stdio};
use std::sync::{Mutex, MutexGuard, PoisonError};

/// The repository's root.
fn repository() -> PathBuf {
    PathBuf::from(env!("CARGO_MANIFEST_DIR")).join("..")
}

/// Exit status, standard output and standard error.
type Ended = (Option<i32>, String, String);

fn ended(command: &mut Command, input: &[u8]) -> Ended {
    command.stdin(Stdio::piped()).stdout(Stdio::piped()).stderr(Stdio::piped());
    let mut child = command.spawn().expect("the command starts");
    let mut stdin = child.stdin.take().expect("standard input is piped");
    // A command that reads none of it may have closed it.
    let _ = stdin.write_all(input);
    drop(stdin);
    let output = child.wait_with_output().expect("the command ends");
    let text = |bytes| String::from_utf8(bytes).expect("it prints text");
    (output.status.code(), text(output.stdout), text(output.stderr))
}

/// A file that another thread's child still holds open for writing can't be
/// run, so one test at a time writes commands and starts them.
fn alone() -> MutexGuard<'static, ()> {
    static ONE: Mutex<()> = Mutex::new(());
    ONE.lock().unwrap_or_else(PoisonError::into_inner)
}

/// A small repository with the commands as they are, two crates without code
/// and, in `bin`, what stands for the toolchain. It stands outside of this one,
/// since the gate refuses a second `crates.txt` below the first.
struct Tree {
    root: PathBuf,
    _alone: MutexGuard<'static, ()>,
}

impl Tree {
    fn new(name: &str) -> Tree {
        let alone = alone();
        let root = env::temp_dir().join(format!("service-pair-{}-{name}", process::id()));
        // What a run that was killed left.
        let _ = fs::remove_dir_all(&root);
        for folder in ["bin", "elsewhere", "crates/first/src", "crates/service_pair/src"] {
            fs::create_dir_all(root.join(folder)).expect("a folder of the tree");
        }
        for file in ["run", "test", "tools.sh"] {
            fs::copy(repository().join(file), root.join(file)).expect("a command is copied");
        }
        let tree = Tree { root, _alone: alone };
        tree.write("crates.txt", "# A comment.\nfirst:\n\nservice_pair: first\n");
        tree.write("crates/service_pair/stdin", "sample");
        tree
    }

    fn write(&self, name: &str, text: &str) {
        fs::write(self.root.join(name), text).expect("a file of the tree");
    }

    fn script(&self, name: &str, lines: &str) {
        self.write(name, &format!("#!/bin/sh\n{lines}"));
        let executable = Permissions::from_mode(0o755);
        fs::set_permissions(self.root.join(name), executable).expect("a script of the tree");
    }

    /// A program as if it had been proved and built: it prints its input.
    fn built(&self) {
        fs::create_dir_all(self.root.join("crates/service_pair/out")).expect("a folder");
        self.script(PROGRAM, "printf 'ran on '\ncat\n");
    }

    /// A toolchain whose `rt run` says these lines, prints what a run on no
    /// input prints, and ends so.
    fn proves(&self, lines: &str, status: u8) {
        let only = format!("{}echo 'ran on '\n", in_its_folder("run"));
        self.script("bin/rt", &format!("{only}cat >&2 <<'END'\n{lines}END\nexit {status}\n"));
    }

    /// A toolchain whose `rt try` prints this, says the last line and ends so.
    /// `INPUT` stands for the input that it was given.
    fn tries(&self, printed: &str, said: &str, status: u8) {
        let mut lines = in_its_folder("try");
        lines += &format!("input=$(cat)\nsed \"s/INPUT/$input/\" <<'END'\n{printed}END\n");
        lines += "echo 'interpreter: ended status=0' >&2\n";
        self.script("bin/rt", &format!("{lines}echo '{said}' >&2\nexit {status}\n"));
    }

    /// Runs a command of the tree from a folder of the tree.
    fn ended(&self, folder: &str, command: &str, words: &[&str]) -> Ended {
        let path = format!("{}:{}", self.path("bin"), env::var("PATH").unwrap_or_default());
        let mut started = Command::new(self.root.join(folder).join(command));
        started.args(words).current_dir(self.root.join(folder)).env("PATH", path);
        ended(&mut started, b"given")
    }

    fn run(&self, words: &[&str]) -> Ended {
        self.ended(".", "run", words)
    }

    fn path(&self, name: &str) -> String {
        self.root.join(name).display().to_string()
    }
}

impl Drop for Tree {
    fn drop(&mut self) {
        let _ = fs::remove_dir_all(&self.root);
    }
}

/// Where `rt run` puts the program.
const PROGRAM: &str = "crates/service_pair/out/service_pair";

/// The first line of what stands for the toolchain: it is called with this word
/// alone, in the folder of the program.
fn in_its_folder(word: &str) -> String {
    format!("[ \"$*\" = {word} ] && [ \"${{PWD##*/}}\" = service_pair ] || exit 9\n")
}

const UNCHANGED: &str =
    "rt: nothing has changed since the last proved build, so nothing is checked now\n\
                         rt: running out/service_pair\n";
const FIRST: &str = "rt: chose --jobs 1 for first\nfn first::one: proved\n\
                     logic=proved functions=1 sum=1\n";
const SECOND: &str = "rt: chose --jobs 2 for service_pair\nfn service_pair::main: proved\n\
                      logic=proved functions=1 sum=1\nrt: running out/service_pair\n";

fn ran_on(input: &str) -> Ended {
    (Some(0), format!("ran on {input}"), String::new())
}

#[test]
fn help_is_printed() {
    let tree = Tree::new("help");
    tree.proves("", 9);
    let (status, printed, said) = tree.run(&["--help"]);
    assert_eq!((status, &said[..]), (Some(0), ""));
    assert!(printed.starts_with("usage: ./run [--quick] [FILE | -]\n"), "{printed}");
    for part in
        ["./run FILE ", "./run - ", "./run --quick ", "four to six minutes", "nothing is proved"]
    {
        assert!(printed.contains(part), "{part}: {printed}");
    }
}

#[test]
fn wrong_words_get_a_usage_line() {
    let tree = Tree::new("words");
    tree.proves("", 9);
    let wrong: [&[&str]; 7] = [
        &["--other"],
        &["-x"],
        &["--"],
        &["one", "two"],
        &["-", "-"],
        &["--quick", "one", "two"],
        &["--quick", "--other"],
    ];
    for words in wrong {
        let usage = String::from("usage: ./run [--quick] [FILE | -]\n");
        assert_eq!(tree.run(words), (Some(2), String::new(), usage), "{words:?}");
    }
}

#[test]
fn what_is_no_file_gets_one_line() {
    let tree = Tree::new("files");
    tree.proves("", 9);
    tree.write("closed", "");
    fs::set_permissions(tree.root.join("closed"), Permissions::from_mode(0o000))
        .expect("permissions");
    let refused = [
        ("nothing", "there is no file 'nothing'"),
        ("", "there is no file ''"),
        ("elsewhere", "'elsewhere' is a folder, not a file"),
        ("closed", "the file 'closed' can't be read"),
    ];
    for (name, why) in refused {
        // Root reads every file.
        if name == "closed" && File::open(tree.root.join(name)).is_ok() {
            continue;
        }
        let line = (Some(2), String::new(), format!("./run: {why}\n"));
        assert_eq!(tree.run(&[name]), line);
        assert_eq!(tree.run(&["--quick", name]), line);
    }
}

#[test]
fn the_input_is_the_sample_a_file_or_standard_input() {
    let tree = Tree::new("inputs");
    tree.proves(UNCHANGED, 0);
    tree.built();
    tree.write("input", "the root's");
    tree.write("elsewhere/input", "the caller's");
    tree.write("elsewhere/a name", "a spaced one");
    assert_eq!(tree.run(&[]), ran_on("sample"));
    assert_eq!(tree.run(&["-"]), ran_on("given"));
    assert_eq!(tree.run(&["input"]), ran_on("the root's"));
    assert_eq!(tree.run(&[&tree.path("elsewhere/input")]), ran_on("the caller's"));
    assert_eq!(tree.ended("elsewhere", "../run", &["input"]), ran_on("the caller's"));
    assert_eq!(tree.ended("elsewhere", "../run", &["a name"]), ran_on("a spaced one"));
    assert_eq!(tree.ended("elsewhere", "../run", &[]), ran_on("sample"));
}

#[test]
fn links_to_run_work() {
    let tree = Tree::new("links");
    tree.proves(UNCHANGED, 0);
    tree.built();
    tree.write("elsewhere/input", "the caller's");
    let links = [("straight", tree.path("run")), ("relative", "../run".into())];
    for (name, target) in links.into_iter().chain([("second", "relative".into())]) {
        symlink(target, tree.root.join("elsewhere").join(name)).expect("a link");
        assert_eq!(tree.ended("elsewhere", name, &[]), ran_on("sample"), "{name}");
        assert_eq!(tree.ended("elsewhere", name, &["input"]), ran_on("the caller's"), "{name}");
        let from_root = tree.ended(".", &format!("elsewhere/{name}"), &[]);
        assert_eq!(from_root, ran_on("sample"), "{name}");
    }
}

/// What is said of each crate, without the time so far.
fn crates_told(said: &str) -> Vec<String> {
    let told = said.lines().filter_map(|line| line.split_once(" crates, "));
    told.map(|(crates, so_far)| {
        assert!(so_far.ends_with(" s so far"), "{so_far}");
        crates.to_string()
    })
    .collect()
}

#[test]
fn crates_are_told_as_they_are_proved() {
    let tree = Tree::new("progress");
    // The stand-in builds the program, which is not there before.
    let build = "mkdir -p out\ncp ../../bin/program out/service_pair\n";
    tree.script("bin/program", "printf 'ran on '\ncat\n");
    tree.script("bin/rt", &format!("{build}cat >&2 <<'END'\n{FIRST}{SECOND}END\n"));
    let (status, printed, said) = tree.run(&[]);
    assert_eq!((status, &printed[..]), (Some(0), "ran on sample"));
    assert!(
        said.starts_with("== proving the program crate by crate: four to six minutes"),
        "{said}"
    );
    assert!(said.contains("./run --quick"), "{said}");
    assert_eq!(said.lines().count(), 3, "{said}");
    let told = ["first proved: 1 of 2", "service_pair proved: 2 of 2"];
    assert_eq!(crates_told(&said), told);
    // Later it only says what had to be proved again, and nothing where that is nothing.
    tree.proves(SECOND, 0);
    let (status, printed, said) = tree.run(&["-"]);
    assert_eq!((status, &printed[..]), (Some(0), "ran on given"));
    assert_eq!(crates_told(&said), told[1..]);
    tree.proves(UNCHANGED, 0);
    assert_eq!(tree.run(&["-"]), ran_on("given"));
}

#[test]
fn what_is_not_proved_is_shown_and_not_run() {
    let tree = Tree::new("refused");
    // A program from before is there, and is not run.
    tree.built();
    let lines = "src/lib.rt:1:1: error: an error\n\
                 rt: the library first did not build, so nothing above it was checked\n";
    for status in [1, 2, 3] {
        tree.proves(lines, status);
        let (found, printed, said) = tree.run(&[]);
        assert_eq!((found, &printed[..]), (Some(status.into()), ""));
        assert!(said.ends_with(lines), "{said}");
    }
}

#[test]
fn quick_prints_what_was_found_and_says_that_nothing_is_proved() {
    let tree = Tree::new("quick");
    tree.tries("result of INPUT\n101\n", BOTH_ENDED, 0);
    tree.write("elsewhere/input", "file");
    let from_file = tree.ended("elsewhere", "../run", &["--quick", "input"]);
    let cases = [
        ("sample", tree.run(&["--quick"])),
        ("given", tree.run(&["--quick", "-"])),
        ("file", from_file),
    ];
    for (input, (status, printed, said)) in cases {
        assert_eq!((status, printed), (Some(0), format!("result of {input}\n101\n")));
        assert!(said.starts_with("== nothing is proved by this: "), "{said}");
        assert_eq!(said.lines().count(), 1, "{said}");
    }
    let made = ["target", "out", "crates/service_pair/out"].map(|name| tree.root.join(name));
    assert!(!made.iter().any(|folder| folder.exists()), "nothing is built");
}

/// The last line of `rt try` where the interpreter and the compiled program did
/// the same.
const BOTH_ENDED: &str = "run=ended status=0 runners=2 proved=no";

#[test]
fn quick_wants_two_runs_that_print_the_same() {
    let tree = Tree::new("quick_refused");
    let refused = [
        ("run=none proved=no", 2),
        ("run=ended status=0 runners=1 proved=no", 0),
        ("run=differs proved=no", 5),
        ("run=fault proved=no", 4),
        ("run=ended status=7 runners=2 proved=no", 7),
        (BOTH_ENDED, 1),
    ];
    for (said_last, ended) in refused {
        tree.tries("result 0\n", said_last, ended);
        let (status, printed, said) = tree.run(&["--quick"]);
        assert_eq!((status, &printed[..]), (Some(1), ""), "{said_last}");
        assert!(said.contains(&format!("interpreter: ended status=0\n{said_last}\n")), "{said}");
        assert!(said.ends_with("its two runs did not print the same\n"), "{said}");
        assert!(!said.contains("nothing is proved"), "{said}");
    }
}

#[test]
fn a_missing_tool_is_named_with_its_line_for_debian() {
    let tree = Tree::new("tools");
    tree.script("bin/rt", "exit 9\n");
    // Of the system only what the command needs to get there.
    let path = env::var_os("PATH").unwrap_or_default();
    for tool in ["date", "dirname"] {
        let found = env::split_paths(&path).map(|folder| folder.join(tool)).find(|at| at.is_file());
        symlink(found.expect("the system has it"), tree.root.join("bin").join(tool))
            .expect("a link");
    }
    let tools = [("cargo", "cargo"), ("gcc", "build-essential"), ("g++", "build-essential")];
    for (tool, package) in tools {
        let mut command = Command::new(tree.root.join("test"));
        let (status, printed, said) = ended(command.env("PATH", tree.path("bin")), b"");
        assert_eq!((status, &printed[..]), (Some(2), ""));
        assert!(said.starts_with(&format!("{tool} is missing. It comes with ")), "{said}");
        assert!(said.contains(&format!(": apt install {package}")), "{said}");
        assert_eq!(said.lines().count(), 1, "{said}");
        tree.script(&format!("bin/{tool}"), "exit 9\n");
    }
}

/// What a shell does with these lines after those of `tools.sh`.
fn with_tools(lines: &str) -> Ended {
    let _alone = alone();
    let script = format!("set -eu\n. ./tools.sh\n{lines}");
    ended(Command::new("sh").args(["-c", &script]).current_dir(repository()), b"")
}

#[test]
fn a_part_that_fails_fails_the_whole() {
    let ended = with_tools("keep\nshown echo one\nshown sh -c 'echo two; exit 7'\necho three\n");
    assert_eq!(ended, (Some(7), "one\ntwo\n".into(), "".into()));
    // What would have written the status of the second part is killed.
    let killed = "shown sh -c 'echo two; kill -KILL \"$PPID\"'";
    let (status, printed, _) = with_tools(&format!("keep\nshown echo one\n{killed}\necho three\n"));
    assert_ne!(status, Some(0));
    assert_eq!(printed, "one\ntwo\n");
}

/// What `./test` prints of each sort that its summary counts, twice where
/// there may be several.
const LINES: &str = "\
rt: first: trying its must-fail edits (40)\n\
logic=proved functions=0 sum=1 native=nat\n\
rt: first proved\n\
logic=proved functions=20 sum=1 native=nat\n\
rt: second proved\n\
logic=proved functions=3 sum=1 native=nat\n\
rt: third_c proved\n\
logic=proved functions=0 sum=1 native=nat\n\
rt: fourth proved\n\
logic=proved functions=0 sum=1 native=nat\n\
rt: service_pair proved\n\
rt: service_pair ran, and wrote what its file stdout has\n\
rt: ok; handles allowed: none; must-fail edits: 40 refused; every proof and must-fail edit was done in this run\n\
45 passed, 0 failed\n\
slices: 600 calls between guards\n\
secrets: 7 calls, reports counted\n\
.linear: row_is_zero (5321 of them hold): 8000 inputs tried, SEED=12\n\
fast: steps: 90 inputs tried, SEED=12\n\
test result: ok. 29 passed; 0 failed; 0 ignored; 0 measured; 0 filtered out; finished in 0.88s\n\
test result: ok. 4 passed; 0 failed; 0 ignored; 0 measured; 0 filtered out; finished in 0.06s\n";

fn summary(lines: &str) -> Ended {
    let _alone = alone();
    let mut command = Command::new("awk");
    command
        .args(["-v", "seconds=702", "-f", "summary.awk"])
        .current_dir(env!("CARGO_MANIFEST_DIR"));
    ended(&mut command, lines.as_bytes())
}

#[test]
fn the_summary_counts_what_was_printed() {
    let expected = |passed_over: &str| {
        let numbers = "crates proved      5\nfunctions proved   23\nedits refused      40\n\
                       Rust tests passed  33\ninputs tried       8090\ncalls from C       607\n";
        let text = format!("{numbers}passed over        {passed_over}\nminutes            11.7\n");
        (Some(0), text, String::new())
    };
    assert_eq!(summary(LINES), expected("nothing"));
    // What was passed over, as `./test` says it.
    let (_, said, _) = with_tools("keep\npass_over secrets 'there is no valgrind'\n");
    let secrets = "secrets, since there is no valgrind";
    assert_eq!(said, format!("passed over: {secrets}\n"));
    assert_eq!(summary(&format!("{LINES}{said}")), expected(&format!("1: {secrets}")));
    let ignored = LINES.replace("0 failed; 0 ignored", "0 failed; 2 ignored");
    let tests = "4 Rust tests, since they are marked as ignored";
    assert_eq!(summary(&format!("{ignored}{said}")), expected(&format!("2: {secrets}; {tests}")));
}

/// Of a crate that an earlier run proved the gate does not say how many
/// functions it has.
#[test]
fn the_summary_says_what_earlier_runs_proved() {
    let kept =
        "is kept: an earlier run on this machine proved the same files over the same libraries";
    let second = LINES
        .replace("logic=proved functions=20 sum=1 native=nat\n", "")
        .replace("second proved", &format!("second {kept}"));
    let (status, printed, said) = summary(&second);
    assert_eq!((status, &said[..]), (Some(0), ""));
    let numbers = "crates proved      5, of which 1 by earlier runs on this machine\n\
                   functions proved   3 in this run\nedits refused      40\n";
    assert!(printed.starts_with(numbers), "{printed}");
    let all = LINES.lines().filter(|line| !line.contains("logic="));
    let all: Vec<String> = all.map(|line| line.replace(" proved", &format!(" {kept}"))).collect();
    let (status, printed, said) = summary(&all.join("\n"));
    assert_eq!((status, &said[..]), (Some(0), ""));
    assert!(printed.contains("\nfunctions proved   0 in this run\n"), "{printed}");
}

#[test]
fn a_summary_without_a_number_fails() {
    let kinds = ["logic=", "rt: ok", "calls", "inputs tried", "test result"];
    for kind in kinds {
        let rest = LINES.lines().filter(|line| !line.contains(kind));
        let (status, _, said) = summary(&rest.collect::<Vec<&str>>().join("\n"));
        assert_eq!(status, Some(1), "{kind}");
        assert!(said.starts_with("the summary finds no number: "), "{said}");
    }
}

/// `./run` of the repository itself, with the toolchain.
fn real_run(words: &[&str], input: &[u8]) -> Ended {
    let _alone = alone();
    let mut command = Command::new(repository().join("run"));
    ended(command.args(words), input)
}

fn sample() -> Vec<u8> {
    fs::read(repository().join("crates/service_pair/stdin")).expect("the sample is there")
}

#[test]
fn a_proved_program_runs_at_once() {
    assert!(
        repository().join(PROGRAM).is_file(),
        "{PROGRAM} is missing: ./run in the repository's root makes it."
    );
    assert_eq!(real_run(&[], b""), (Some(0), program(&sample()), String::new()));
}

#[test]
fn quick_prints_what_the_program_prints() {
    let mut random = Random::for_test("quick");
    let fit = fit_inputs(&mut random, SET_1).bytes();
    let cases = [sample(), fit[..fit.len() - 1].to_vec(), [&fit[..], &[0; 99]].concat(), fit];
    for input in &cases {
        let (status, printed, said) = real_run(&["--quick", "-"], input);
        assert_eq!((status, printed), (Some(0), program(input)), "SEED={}: {said}", seed());
        assert!(said.starts_with("== nothing is proved by this: "), "{said}");
    }
    report("commands: inputs run unproved", cases.len());
}
