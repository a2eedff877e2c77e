//! What `./install PREFIX` puts where: a C host built with pkg-config from
//! another folder, the names that both libraries export, versions and links,
//! and what it refuses.

use service_pair_tests::random::report;
use std::collections::BTreeSet;
use std::env;
use std::fs;
use std::ops::Deref;
use std::path::{Path, PathBuf};
use std::process::{self, Command, Output};

/// A host as in the README, which prints every byte of the code.
const HOST: &str = r#"
#include <service_pair.h>
#include <stdio.h>

/* Names of the crates beneath, which a host may have too. */
unsigned matrix_check(void) { return 0; }
unsigned add_bits(void) { return 0; }

int main(void)
{
    uint8_t input[PAIR_INPUT_BYTES], code[PAIR_CODE_BYTES] = {0};
    size_t n = fread(input, 1, sizeof input, stdin);
    printf("%u:", (unsigned)pair_run(input, n, code, sizeof code) + matrix_check() + add_bits());
    for (size_t i = 0; i < sizeof code; i++)
        printf(" %02x", (unsigned)code[i]);
    printf("\n");
    return 0;
}
"#;

/// The functions of the C library that the compiler may call by itself.
const FROM_C: [&str; 4] = ["memcmp", "memcpy", "memmove", "memset"];

fn root() -> PathBuf {
    PathBuf::from(env!("CARGO_MANIFEST_DIR")).join("..")
}

/// A folder that goes with its value. It stands outside of the repository, since
/// the gate refuses a link below that, and what is installed has some.
struct Folder(PathBuf);

impl Deref for Folder {
    type Target = Path;

    fn deref(&self) -> &Path {
        &self.0
    }
}

impl Drop for Folder {
    fn drop(&mut self) {
        let _ = fs::remove_dir_all(&self.0);
    }
}

/// An empty folder of this name.
fn folder(name: &str) -> Folder {
    let folder = env::temp_dir().join(format!("service-pair-{}-{name}", process::id()));
    // What a run that was killed left.
    let _ = fs::remove_dir_all(&folder);
    fs::create_dir_all(&folder).expect("a folder for the files");
    Folder(folder)
}

/// `./install` with these words, called in a folder of the caller's.
fn command(folder: &Path, words: &[&str]) -> Command {
    let mut command = Command::new(root().join("install"));
    command.current_dir(folder).args(words).env_remove("DESTDIR");
    command
}

fn text(bytes: &[u8]) -> String {
    String::from_utf8(bytes.to_vec()).expect("it prints text")
}

/// What a command prints, which has to succeed.
fn output(command: &mut Command) -> String {
    let Output { status, stdout, stderr } = command.output().expect("the command starts");
    assert!(status.success(), "{command:?}: {status}\n{}", text(&stderr));
    text(&stdout)
}

/// Installs in `prefix` below a new folder, and gives that and the whole path.
fn installed(name: &str) -> (Folder, PathBuf) {
    let folder = folder(name);
    output(&mut command(&folder, &["prefix"]));
    let prefix = folder.join("prefix");
    (folder, prefix)
}

/// Every file and link below a folder.
fn files(folder: &Path) -> BTreeSet<String> {
    let list = output(Command::new("find").args([".", "!", "-type", "d"]).current_dir(folder));
    list.lines().map(|line| line.trim_start_matches("./").to_string()).collect()
}

fn static_library(prefix: &Path) -> PathBuf {
    prefix.join("lib/libservice_pair.a")
}

fn shared_library(prefix: &Path) -> PathBuf {
    prefix.join("lib/libservice_pair.so")
}

/// The version that the pkg-config file states.
fn version(prefix: &Path) -> String {
    let path = prefix.join("lib/pkgconfig/service_pair.pc");
    let file = fs::read_to_string(path).expect("the pkg-config file is there");
    let line = file.lines().find_map(|line| line.strip_prefix("Version: "));
    line.expect("it has a version").to_string()
}

/// What an object file says of itself under such a word, as `NEEDED`.
fn dynamic(path: &Path, word: &str) -> Vec<String> {
    let listed = output(Command::new("objdump").arg("-p").arg(path));
    let value = |line: &str| line.trim().strip_prefix(word).map(|rest| rest.trim().to_string());
    listed.lines().filter_map(value).collect()
}

/// The names that nm lists, without the versions of the C library.
fn names(words: &[&str], library: &Path) -> BTreeSet<String> {
    let listed = output(Command::new("nm").args(["--format=posix"]).args(words).arg(library));
    let first = |line: &str| line.split(' ').next().map(str::to_string);
    let name = |word: String| word.split('@').next().map(str::to_string);
    // An archive's members stand on lines of their own, with a colon.
    listed.lines().filter(|line| !line.ends_with(':')).filter_map(first).filter_map(name).collect()
}

/// The functions that the header declares.
fn declared() -> BTreeSet<String> {
    let header = fs::read_to_string(root().join("include/service_pair.h")).expect("the header");
    let code: String = header
        .split("/*")
        .map(|part| part.split_once("*/").map_or(part, |parts| parts.1))
        .collect();
    let declarations = code.split(';').filter(|part| !part.contains("static"));
    let before = declarations.filter_map(|part| part.split_once('('));
    let last = before.filter_map(|parts| parts.0.split_whitespace().last().map(str::to_string));
    last.filter(|name| name.starts_with("pair_")).collect()
}

/// Compiles the host, in its own folder, by a line for the shell.
fn compile(host: &Path, prefix: &Path, line: &str) {
    let mut command = Command::new("sh");
    command.args(["-c", line]).current_dir(host);
    output(command.env("PKG_CONFIG_PATH", prefix.join("lib/pkgconfig")));
}

/// Runs the host on the stored sample.
fn run(host: &Path, name: &str, libraries: &Path) {
    let sample = fs::File::open(root().join("crates/service_pair/stdin")).expect("the sample");
    let mut command = Command::new(host.join(name));
    let printed = output(command.stdin(sample).env("LD_LIBRARY_PATH", libraries));
    assert_eq!(printed, format!("0: 05{}\n", " 00".repeat(21)));
}

#[test]
fn a_host_is_built_from_another_folder() {
    if Command::new("pkg-config").arg("--version").output().is_err() {
        println!(
            "passed over: a host built with pkg-config, since it is missing: apt install pkg-config, \
             or dnf install pkgconf-pkg-config"
        );
        return;
    }
    let (_folder, mut prefix) = installed("install_host");
    let host = folder("host");
    fs::write(host.join("host.c"), HOST).expect("the host is written");
    let name = format!("libservice_pair.so.{}", version(&prefix).split('.').next().unwrap_or(""));
    // As installed, then in a folder that it was moved to.
    for place in ["first", "second"] {
        let moved = prefix.with_file_name(place);
        fs::rename(&prefix, &moved).expect("it is moved");
        prefix = moved;

        compile(&host, &prefix, "gcc host.c $(pkg-config --cflags --libs service_pair) -o shared");
        run(&host, "shared", &prefix.join("lib"));
        assert!(dynamic(&host.join("shared"), "NEEDED").contains(&name));

        // The static library, and the C library as the system has it.
        compile(
            &host,
            &prefix,
            "gcc host.c -Wl,-Bstatic $(pkg-config --static --cflags --libs service_pair) \
             -Wl,-Bdynamic -o static",
        );
        run(&host, "static", &host);
        assert!(!dynamic(&host.join("static"), "NEEDED").contains(&name));
    }
    let mut modversion = Command::new("pkg-config");
    modversion.args(["--modversion", "service_pair"]);
    modversion.env("PKG_CONFIG_PATH", prefix.join("lib/pkgconfig"));
    assert_eq!(output(&mut modversion).trim(), version(&prefix));
    report("install: hosts", 4);
}

#[test]
fn the_libraries_export_the_interface_alone() {
    let (_folder, prefix) = installed("install_names");
    let functions = declared();
    assert!(functions.contains("pair_step") && functions.contains("pair_run"), "{functions:?}");
    let of_both = [
        (static_library(&prefix), vec!["--extern-only"]),
        (shared_library(&prefix), vec!["--dynamic"]),
    ];
    for (library, words) in of_both {
        let defined = names(&[&words[..], &["--defined-only"]].concat(), &library);
        assert_eq!(defined, functions, "{}", library.display());
        let undefined = names(&[&words[..], &["--undefined-only"]].concat(), &library);
        let others: Vec<&String> =
            undefined.iter().filter(|name| !FROM_C.contains(&name.as_str())).collect();
        assert!(others.is_empty(), "{}: {others:?}", library.display());
    }
    report("install: names that both libraries export", functions.len());
}

#[test]
fn versions_and_links_agree() {
    let (_folder, prefix) = installed("install_links");
    let version = version(&prefix);
    let numbers: Vec<&str> = version.split('.').collect();
    assert!(numbers.len() == 3 && numbers.iter().all(|part| part.parse::<u32>().is_ok()));
    let name = format!("libservice_pair.so.{}", numbers[0]);
    let whole = format!("libservice_pair.so.{version}");
    let link = |file: &str| fs::read_link(prefix.join("lib").join(file)).expect("a link");
    assert_eq!(link("libservice_pair.so"), Path::new(&name));
    assert_eq!(link(&name), Path::new(&whole));
    assert_eq!(dynamic(&shared_library(&prefix), "SONAME"), [name.as_str()]);
    assert_eq!(dynamic(&shared_library(&prefix), "NEEDED"), ["libc.so.6"]);

    let headers = files(&root().join("include")).into_iter().map(|file| format!("include/{file}"));
    let others = ["libservice_pair.a", "libservice_pair.so", &name, &whole].map(str::to_string);
    let others = others.into_iter().chain(["pkgconfig/service_pair.pc".to_string()]);
    let expected: BTreeSet<String> =
        headers.chain(others.map(|file| format!("lib/{file}"))).collect();
    assert_eq!(files(&prefix), expected);

    // Once more over what is there, and below another folder, as packages are made.
    let above = prefix.with_file_name("");
    output(&mut command(&above, &["prefix"]));
    assert_eq!(files(&prefix), expected);
    output(command(&above, &["/usr"]).env("DESTDIR", "package"));
    assert_eq!(files(&above.join("package/usr")), expected);
    assert_eq!(files(&above.join("package")).len(), expected.len());
    report("install: files", expected.len());
}

#[test]
fn refusals_are_one_line() {
    let folder = folder("install_refusals");
    fs::write(folder.join("file"), "").expect("the file is written");
    let help = output(&mut command(&folder, &["--help"]));
    assert!(help.contains("./install PREFIX ") && help.contains("DESTDIR"), "{help}");
    let cases: [(&[&str], &str); 6] = [
        (&[], "usage: ./install PREFIX"),
        (&[""], "usage: ./install PREFIX"),
        (&["--unknown"], "usage: ./install PREFIX"),
        (&["one", "two"], "usage: ./install PREFIX"),
        (&["file"], "/file/include cannot be written"),
        (&["/proc/nothing"], "/proc/nothing/include cannot be written"),
    ];
    for (words, line) in cases {
        let Output { status, stdout, stderr } =
            command(&folder, words).output().expect("it starts");
        assert_eq!((status.code(), text(&stdout)), (Some(2), String::new()), "{words:?}");
        let message = text(&stderr);
        assert!(
            message.ends_with(&format!("{line}\n")) && message.lines().count() == 1,
            "{message}"
        );
    }
    assert_eq!(files(&folder).len(), 1);
    report("install: refusals", cases.len());
}
