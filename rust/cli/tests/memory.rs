//! Property: the memory that a file of blocks takes does not grow with the file, nor with the
//! threads where blocks are large. Catches: blocks, letters or texts that are kept.

mod common;
use common::*;
use ora::{Candidate, Reads, Reference};
use std::process::{Command, Stdio};
use std::time::Duration;

/// The least that a run takes once its program is loaded, in KiB.
const LOADED: u64 = 1 << 10;

/// The most memory that a run takes, in KiB. A run that was over before it was looked at is tried
/// again.
fn peak(arguments: &[&str]) -> u64 {
    (0..100).map(|_| seen_peak(arguments)).find(|&most| most > LOADED).unwrap()
}

/// The most memory that a run was seen to take, in KiB.
fn seen_peak(arguments: &[&str]) -> u64 {
    let mut command = Command::new(FRUBANTO);
    command.args(arguments).stdin(Stdio::null()).stdout(Stdio::null());
    let mut child = command.spawn().unwrap();
    let status = format!("/proc/{}/status", child.id());
    let mut most = 0;
    let ended = loop {
        let told = std::fs::read_to_string(&status).unwrap_or_default();
        // It has no such line once it has ended.
        if let Some(line) = told.lines().find_map(|line| line.strip_prefix("VmHWM:")) {
            most = line.trim().trim_end_matches(" kB").parse().unwrap();
        }
        match child.try_wait().unwrap() {
            Some(ended) => break ended,
            None => std::thread::sleep(Duration::from_millis(1)),
        }
    };
    assert!(ended.success());
    most
}

#[test]
fn memory_does_not_grow_with_the_file() {
    let folder = Folder::new("memory_of_files");
    let mut generated = Generated::new(41, 50);
    for plan in &mut generated.plans {
        plan.carried[1] = vec![7; 40_000];
    }
    let reference = folder.write("ref", generated.reference_file());
    let some = generated.file().repeat(5);
    let one = folder.write("one.ora", &some);
    let tenfold = folder.write("tenfold.ora", some.repeat(10));
    for words in [&["validate"][..], &["decode"], &["decode", "--fasta"], &["list"]] {
        for threads in ["1", "2"] {
            let with = |file| [words, &["--threads", threads, "-r", &reference, file]].concat();
            let (one, ten) = (peak(&with(&one)), peak(&with(&tenfold)));
            // Of the file 4 MiB are mapped, and what is read ahead.
            assert!(ten < one + (8 << 10), "{words:?}, {threads} threads: {one} and {ten} KiB");
        }
    }
}

#[test]
fn large_blocks_are_given_back() {
    let folder = Folder::new("memory_of_blocks");
    let bytes = [0; 25_000];
    let mut reads = Reads::new();
    for _ in 0..600 {
        reads.push(b"r", &[b'A'; 100_000], Candidate::forward(0));
    }
    let block = ora::encode(&Reference::new(100_000, &bytes).unwrap(), &reads, 0, 0).unwrap();
    let reference = folder.write("ref", reference_file(100_000, &bytes));
    let blocks = folder.write("x.ora", block.repeat(20));
    // Each takes 120 megabytes with its letters and their text: four at once are within half a
    // gigabyte.
    let most = peak(&["decode", "--threads", "12", "-r", &reference, &blocks]);
    assert!(most < 600_000, "{most} KiB");
}
