//! Property: the binaries refuse wrong arguments with a usage line and status
//! 2, and `make_corpus` writes whole files, the same each time. Catches: half
//! a corpus left behind, a file mistaken for a directory.

use second::corpus_cases::corpus;
use std::fs;
use std::path::{Path, PathBuf};
use std::process::{Command, Output};

const MAKE: &str = env!("CARGO_BIN_EXE_make_corpus");
const SHOW: &str = env!("CARGO_BIN_EXE_show_corpus");
const LIST: &str = env!("CARGO_BIN_EXE_list_reads");
const MAKE_LISTING: &str = env!("CARGO_BIN_EXE_make_listing");

fn run(program: &str, arguments: &[&str]) -> Output {
    Command::new(program).args(arguments).output().unwrap()
}

fn assert_usage(program: &str, arguments: &[&str]) {
    let output = run(program, arguments);
    assert_eq!(output.status.code(), Some(2), "{program} {arguments:?}");
    assert!(!output.stderr.is_empty() && output.stdout.is_empty());
}

/// An empty directory of this test's own.
fn directory(name: &str) -> PathBuf {
    let path = Path::new(env!("CARGO_TARGET_TMPDIR")).join(name);
    let _ = fs::remove_dir_all(&path);
    fs::create_dir_all(&path).unwrap();
    path
}

#[test]
fn wrong_arguments() {
    let missing = directory("wrong_arguments").join("missing");
    let missing = missing.to_str().unwrap();
    for program in [MAKE, SHOW, LIST, MAKE_LISTING] {
        assert_usage(program, &[]);
        assert_usage(program, &["a", "b", "c"]);
    }
    assert_usage(MAKE, &[missing]);
    assert_usage(MAKE, &[MAKE]);
    assert_usage(MAKE_LISTING, &[missing]);
    assert_usage(SHOW, &[missing]);
    assert_usage(LIST, &[missing, missing]);
    // Not a case file: status 1.
    assert_eq!(run(SHOW, &[MAKE]).status.code(), Some(1));
}

/// The crate of the program that runs the cases.
fn crate_directory() -> PathBuf {
    Path::new(env!("CARGO_MANIFEST_DIR")).join("../../crates/corpus")
}

/// The names and contents of a directory's files.
fn files(path: &Path) -> Vec<(String, Vec<u8>)> {
    let mut files: Vec<(String, Vec<u8>)> = fs::read_dir(path)
        .unwrap()
        .map(|entry| entry.unwrap())
        .filter(|entry| entry.file_type().unwrap().is_file())
        .map(|entry| (entry.file_name().into_string().unwrap(), fs::read(entry.path()).unwrap()))
        .collect();
    files.sort();
    files
}

#[test]
fn making_the_corpus_twice() {
    let made = directory("making");
    let data = made.join("data");
    let make = || assert!(run(MAKE, &[made.to_str().unwrap()]).status.success());
    make();
    let first = (files(&made), files(&data));
    fs::write(data.join("sections.txt"), "from before sections were run").unwrap();
    make();
    assert!((files(&made), files(&data)) == first);
    // Nothing else is left, and it is what the tree holds.
    assert!(first.1 == files(&crate_directory().join("data")));
    let stdout = fs::read(crate_directory().join("stdout")).unwrap();
    assert!(first.0 == [("stdout".to_string(), stdout)]);
}

#[test]
fn showing_gives_the_expected_text() {
    let data = crate_directory().join("data");
    let shown = run(SHOW, &[data.join("validate.bin").to_str().unwrap()]).stdout;
    let shown = String::from_utf8(shown).unwrap();
    let lines: Vec<&str> = shown.lines().filter(|line| !line.starts_with("# ")).collect();
    let made = corpus().into_iter().find(|file| file.name == "validate").unwrap();
    assert_eq!(lines, made.text().lines().collect::<Vec<_>>());
}
