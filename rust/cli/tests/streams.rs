//! Property: whatever stands in the way is said in one line and by the exit status, and no half
//! file is left. Catches: a panic, a disk that is full and not noticed, noise after a closed pipe,
//! wrong arguments that are taken.

mod common;
use common::*;
use std::fs::Permissions;
use std::io::Read;
use std::os::unix::fs::PermissionsExt;
use std::process::{Command, Stdio};

/// A reference, a SAM file and a file of blocks that takes many writes.
fn large_sample(folder: &Folder) -> (String, String, String) {
    let genome = folder.write("g.fa", format!(">one\n{}\n", "ACGTTGCAAC".repeat(100)));
    let reference = folder.path("g.ref");
    run(&["reference", &genome, "-o", &reference]).accepted();
    let letters = "ACGTTGCAAC".repeat(10);
    let record = format!("r\t0\tone\t1\t60\t100M\t*\t0\t0\t{letters}\t*\n");
    let sam = folder.write("r.sam", record.repeat(20_000));
    let blocks = folder.path("r.ora");
    let options = ["--reads-per-block", "100", "--c-time", "0"];
    run(&[&["encode", "-r", &reference, "-o", &blocks, &sam], &options[..]].concat()).accepted();
    (reference, sam, blocks)
}

#[test]
fn wrong_arguments() {
    let wrong = |arguments: &[&str], message: &str| {
        let ran = run(arguments).failed(2, message);
        assert_eq!(ran.text(), "");
    };
    wrong(&["list"], "--reference <REFERENCE> <BLOCKS>");
    wrong(&["encode", "-r", "x"], "--output <BLOCKS>");
    wrong(&["validate", "-r", "x"], "<BLOCKS>...");
    wrong(&["decode", "-r", "x", "y", "z"], "'z'");
    wrong(&["decode", "--nothing", "-r", "x", "y"], "'--nothing'");
    wrong(&["nothing"], "'nothing'");
    wrong(&["decode", "-r", "x", "y", "--threads", "0"], "--threads");
    wrong(&["decode", "-r", "x", "y", "--threads", "1025"], "--threads");
    wrong(&["decode", "-r", "x", "y", "--threads", "many"], "--threads");
    wrong(&["blocks", "--threads", "1", "y"], "--threads");
    for number in ["0", "50001", "-1", "x"] {
        wrong(
            &["encode", "-r", "x", "-o", "y", "z", &format!("--reads-per-block={number}")],
            number,
        );
    }
    wrong(&["encode", "-r", "x", "-o", "y", "z", "--c-time=18446744073709551616"], "--c-time");
    wrong(&["encode", "-r", "x", "-o", "y", "z", "--b-id=-1"], "--b-id");
    // Nothing at all is answered with help.
    let nothing = run(&[]);
    assert_eq!((nothing.status, nothing.text()), (Some(2), ""));
    assert!(nothing.stderr.contains("Usage: frubanto <COMMAND>"));
}

#[test]
fn help_has_an_example_for_each() {
    assert!(run(&["--help"]).accepted().text().contains("Example:\n  frubanto reference"));
    assert!(run(&["--version"]).accepted().text().starts_with("frubanto "));
    for command in ["reference", "encode", "decode", "list", "validate", "blocks"] {
        let help = run(&[command, "--help"]).accepted();
        assert!(help.text().contains("Example:\n  "), "{command}");
        assert!(help.text().contains(&format!("frubanto {command} ")), "{command}");
        assert_eq!(help.stderr, "");
    }
}

#[test]
fn files_that_cannot_be_read() {
    let folder = Folder::new("unreadable");
    let reference = folder.write("ref", small_reference());
    let blocks = folder.write("x.ora", sample_block());
    let missing = folder.path("missing");
    for command in ["decode", "list"] {
        run(&[command, "-r", &missing, &blocks]).failed(2, "missing: No such file or directory");
        run(&[command, "-r", &reference, &missing]).failed(2, "missing: No such file or directory");
        run(&[command, "-r", &reference, "/"]).failed(2, "cannot read /: it is a directory");
    }
    run(&["validate", "-r", &missing, &blocks]).failed(2, "missing: No such file or directory");
    run(&["blocks", &missing]).failed(2, "missing: No such file or directory");
    run(&["encode", "-r", &missing, "-o", "x", &missing]).failed(2, "missing: No such file");
    run(&["decode", "-r", &reference, &blocks, "-o", "/"]).failed(2, "write /: it is a directory");
}

#[test]
fn a_full_disk() {
    let folder = Folder::new("full_disk");
    let (reference, sam, blocks) = large_sample(&folder);
    let full = "cannot write standard output: No space left on device";
    for arguments in [
        vec!["decode", "-r", &reference, &blocks],
        vec!["decode", "--threads", "1", "-r", &reference, &blocks],
        vec!["list", "-r", &reference, &blocks],
        vec!["validate", "-r", &reference, &blocks],
        vec!["validate", "--json", "-r", &reference, &blocks],
        vec!["blocks", &blocks],
        vec!["encode", "-r", &reference, "-o", "-", &sam],
        vec!["--help"],
    ] {
        shell("\"$0\" \"$@\" > /dev/full", &arguments).failed(2, full);
    }
    // Standard error too: there is nobody to tell, but the status is right.
    let lost = shell("\"$0\" \"$@\" > /dev/full 2> /dev/full", &["blocks", &blocks]);
    assert_eq!(lost.status, Some(2));
    // A device is written to, and stays.
    let full = "cannot write /dev/full: No space left on device";
    run(&["decode", "-r", &reference, &blocks, "-o", "/dev/full"]).failed(2, full);
    run(&["encode", "-r", &reference, "-o", "/dev/full", &sam]).failed(2, full);
    run(&["encode", "-r", &reference, "-o", "/dev/null", &sam]).accepted();
    let device = std::fs::metadata("/dev/full").unwrap().file_type();
    assert!(!device.is_file());
}

#[test]
fn a_file_that_cannot_be_completed_is_removed() {
    let folder = Folder::new("incomplete");
    let (reference, sam, blocks) = large_sample(&folder);
    let old = folder.write("old.txt", "old");
    let before = folder.names();
    // Files of more than some blocks of 512 bytes fail to be written.
    let limited = "trap '' XFSZ; ulimit -f 4; exec \"$0\" \"$@\"";
    let new = folder.path("new");
    for output in [&new, &old] {
        let too_large = format!("cannot write {output}: File too large");
        shell(limited, &["decode", "-r", &reference, &blocks, "-o", output]).failed(2, &too_large);
        shell(limited, &["encode", "-r", &reference, &sam, "-o", output]).failed(2, &too_large);
    }
    let genome = folder.write("large.fa", format!(">one\n{}\n", "ACGT".repeat(1 << 20)));
    shell(limited, &["reference", &genome, "-o", &new]).failed(2, "new: File too large");
    std::fs::remove_file(genome).unwrap();
    assert_eq!(folder.names(), before);
    assert_eq!(folder.read("old.txt"), b"old");
}

#[test]
fn a_closed_pipe_ends_quietly() {
    let folder = Folder::new("closed_pipe");
    let (reference, sam, blocks) = large_sample(&folder);
    for arguments in [
        vec!["decode", "-r", &reference, &blocks],
        vec!["decode", "--threads", "1", "-r", &reference, &blocks],
        vec!["decode", "--fasta", "-r", &reference, &blocks],
        vec!["list", "-r", &reference, &blocks],
        vec!["encode", "-r", &reference, "-o", "-", &sam],
        vec!["blocks", &blocks],
        vec!["validate", "-r", &reference, &blocks],
        vec!["--help"],
    ] {
        let mut child = Command::new(FRUBANTO)
            .args(&arguments)
            .stdin(Stdio::null())
            .stdout(Stdio::piped())
            .stderr(Stdio::piped())
            .spawn()
            .unwrap();
        drop(child.stdout.take());
        let mut said = String::new();
        child.stderr.take().unwrap().read_to_string(&mut said).unwrap();
        assert_eq!((child.wait().unwrap().code(), said.as_str()), (Some(0), ""), "{arguments:?}");
    }
    let head = shell(
        "{ \"$0\" decode -r \"$1\" \"$2\"; echo $? >&2; } | head -n 1",
        &[&reference, &blocks],
    );
    assert_eq!(
        (head.text(), &head.stderr[..]),
        (&format!("{}\n", "ACGTTGCAAC".repeat(10))[..], "0\n")
    );
}

#[test]
fn a_closed_pipe_hides_no_refusal() {
    let folder = Folder::new("closed_after_refusal");
    let reference = folder.write("ref", small_reference());
    let cut = folder.write("cut.ora", &[sample_block(), sample_block()].concat()[..200]);
    let closed = "{ sleep 0.1; \"$0\" \"$@\"; echo $? >&2; } | true";
    let validated = shell(closed, &["validate", "-r", &reference, &cut]);
    assert_eq!(validated.stderr, "1\n");
    for arguments in [
        &["decode", "-r", &reference, &cut][..],
        &["decode", "--threads", "1", "-r", &reference, &cut],
        &["list", "-r", &reference, &cut],
        &["blocks", &cut],
    ] {
        let refused = shell(closed, arguments);
        assert!(refused.stderr.contains("cut.ora: refused 2, block 1,"), "{}", refused.stderr);
        assert!(refused.stderr.ends_with("\n1\n"), "{}", refused.stderr);
    }
}

#[test]
fn a_copy_of_a_pipe_that_cannot_be_written() {
    let folder = Folder::new("copy");
    let (reference, _, blocks) = large_sample(&folder);
    let missing = folder.path("missing");
    let piped = "cat \"$3\" | TMPDIR=\"$1\" \"$0\" validate -r \"$2\" -";
    let copy = format!("cannot write a copy of standard input in {missing}: No such file");
    shell(piped, &[&missing, &reference, &blocks]).failed(2, &copy);
    let limited = format!("trap '' XFSZ; ulimit -f 4; {piped}");
    shell(&limited, &[&folder.path(""), &reference, &blocks]).failed(2, ": File too large");
    assert_eq!(folder.names(), ["g.fa", "g.ref", "g.ref.fai", "r.ora", "r.sam"]);
    // A file needs no copy.
    let file = "TMPDIR=\"$1\" \"$0\" validate -r \"$2\" - < \"$3\"";
    let validated = shell(file, &[&missing, &reference, &blocks]).accepted();
    assert!(validated.text().starts_with("standard input: accepted, blocks 200, reads 20000,"));
}

#[test]
fn a_file_that_is_replaced_stays_private() {
    let folder = Folder::new("private");
    let (reference, sam, blocks) = large_sample(&folder);
    let old = folder.write("old", "old");
    let new = folder.path("new");
    let mode = |path: &str| std::fs::metadata(path).unwrap().permissions().mode() & 0o777;
    for arguments in [
        &["decode", "-r", &reference, &blocks, "-o"][..],
        &["encode", "-r", &reference, &sam, "-o"],
    ] {
        std::fs::set_permissions(&old, Permissions::from_mode(0o600)).unwrap();
        let with_umask = "umask 022; \"$0\" \"$@\"";
        shell(with_umask, &[arguments, &[&old[..]]].concat()).accepted();
        shell(with_umask, &[arguments, &[&new[..]]].concat()).accepted();
        assert_eq!((mode(&old), mode(&new)), (0o600, 0o644));
        assert!(folder.read("old").len() > 3);
        std::fs::remove_file(&new).unwrap();
    }
}

#[test]
fn progress_is_for_terminals() {
    let folder = Folder::new("progress");
    let (reference, sam, blocks) = large_sample(&folder);
    let output = folder.path("out");
    assert_eq!(run(&["validate", "-r", &reference, &blocks]).accepted().stderr, "");
    assert_eq!(run(&["decode", "-r", &reference, &blocks, "-o", &output]).accepted().stderr, "");
    let encoded = run(&["encode", "-r", &reference, &sam, "-o", &output]).accepted();
    assert!(!encoded.stderr.contains(['\r', '\u{1b}']));
}
