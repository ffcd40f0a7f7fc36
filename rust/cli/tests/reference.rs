//! Property: `frubanto reference` writes the bases of a FASTA file, packed, and the index that
//! samtools writes; or nothing. Catches: bases that move at a line's end, letters that are not
//! counted, half a file under its final name.

mod common;
use common::*;
use second::prng::Prng;
use std::fs;

#[test]
fn a_small_genome() {
    let folder = Folder::new("small_genome");
    let genome = folder.write("g.fa", ">one first\nACGTA\nCG\n>two\nTTGCA\n");
    let output = folder.path("g.ref");
    let ran = run(&["reference", &genome, "-o", &output]).accepted();
    assert_eq!(ran.text(), "");
    assert!(ran
        .stderr
        .ends_with("g.fa: 2 sequences, 12 bases, 0 of them stored as A for another letter\n"));
    assert_eq!(folder.read("g.ref"), small_reference());
    assert_eq!(folder.read("g.ref.fai"), b"one\t7\t11\t5\t6\ntwo\t5\t25\t5\t6\n");
    assert_eq!(folder.names(), ["g.fa", "g.ref", "g.ref.fai"]);
}

#[test]
fn other_letters_are_counted() {
    let folder = Folder::new("other_letters");
    let genome = folder.write("g.fa", ">one\r\nacNgT\r\nRYn*-\r\n>two\r\nT");
    let output = folder.path("g.ref");
    let ran = run(&["reference", &genome, "-o", &output]).accepted();
    assert!(ran.stderr.contains("2 sequences, 11 bases, 6 of them stored as A"), "{}", ran.stderr);
    // ACAGTAAAAAT
    assert_eq!(folder.read("g.ref"), reference_file(11, &[0x12, 0xC0, 0x0C]));
    assert_eq!(folder.read("g.ref.fai"), b"one\t10\t6\t5\t7\ntwo\t1\t26\t1\t2\n");
}

#[test]
fn a_genome_from_standard_input() {
    let folder = Folder::new("piped_genome");
    let output = folder.path("g.ref");
    let ran = run_with(&["reference", "-", "-o", &output], b">one\nACGTACGTTGCA\n").accepted();
    assert!(ran.stderr.starts_with("standard input: 1 sequences, 12 bases"));
    assert_eq!(folder.read("g.ref"), small_reference());
}

#[test]
fn long_lines_and_many_sequences() {
    let folder = Folder::new("long_lines");
    let mut rng = Prng::new(1);
    let (mut text, mut letters, mut index) = (Vec::new(), Vec::new(), String::new());
    for (number, bases) in [3_000_001, 1, 70, 1 << 20, 61, 0, 60].into_iter().enumerate() {
        text.extend(format!(">s{number} sequence\n").bytes());
        let offset = text.len();
        let sequence: Vec<u8> = (0..bases).map(|_| rng.pick(b"ACGT")).collect();
        let width = if number == 0 { bases } else { 60 };
        for line in sequence.chunks(width.max(1)) {
            text.extend(line);
            text.push(b'\n');
        }
        if bases > 0 {
            let line = width.min(bases);
            index.push_str(&format!("s{number}\t{bases}\t{offset}\t{line}\t{}\n", line + 1));
        }
        letters.extend(sequence);
    }
    let mut packed = Vec::new();
    for four in letters.chunks(4) {
        let codes =
            four.iter().map(|letter| b"ACGT".iter().position(|l| l == letter).unwrap() as u8);
        let byte = codes.fold(0, |byte, code| byte << 2 | code);
        packed.push(byte << (2 * (4 - four.len())));
    }
    let genome = folder.write("g.fa", &text);
    let output = folder.path("g.ref");
    run(&["reference", &genome, "-o", &output]).accepted();
    assert!(folder.read("g.ref") == reference_file(letters.len() as u64, &packed));
    assert_eq!(folder.read("g.ref.fai"), index.as_bytes());
}

#[test]
fn what_is_no_genome() {
    let folder = Folder::new("no_genome");
    let output = folder.path("g.ref");
    for (text, message) in [
        (&b"ACGT\n"[..], "g.fa, line 1: a FASTA file begins with"),
        (b"@read\nACGT\n+\nIIII\n", "g.fa, line 1: a FASTA file begins with"),
        (b"", "g.fa holds no sequence"),
        (b">one\n", "g.fa holds no sequence"),
        (b">one\nACGT\nAC\nACGT\n", "g.fa, line 4: the lines of one differ in length"),
        (b">one\nACGT\n>one\nACGT\n", "g.fa, line 3: a sequence of the name one stands above"),
        (b">\nACGT\n", "g.fa, line 1: a sequence has no name"),
        (b">one\nAC GT\n", "g.fa, line 2: the byte 20 (hexadecimal) stands in a sequence"),
        (b"\x1F\x8B\x08\x00", "g.fa is compressed: unpack it, as in `gzip -dc"),
    ] {
        let genome = folder.write("g.fa", text);
        let ran = run(&["reference", &genome, "-o", &output]).failed(2, message);
        assert_eq!(ran.text(), "");
        assert_eq!(folder.names(), ["g.fa"]);
    }
}

#[test]
fn files_that_stand_there() {
    let folder = Folder::new("files_there");
    let genome = folder.write("g.fa", ">one\nACGTACGTTGCA\n");
    let output = folder.write("g.ref", "old");
    folder.write("g.ref.fai", "old");
    // A failure leaves what was there.
    let wrong = folder.write("wrong.fa", ">one\nACGT\n>two\n \n");
    run(&["reference", &wrong, "-o", &output]).failed(2, "wrong.fa, line 4: the byte 20");
    assert_eq!(
        (folder.read("g.ref"), folder.read("g.ref.fai")),
        (b"old".to_vec(), b"old".to_vec())
    );
    run(&["reference", &genome, "-o", &output]).accepted();
    assert_eq!(folder.read("g.ref"), small_reference());
    assert_eq!(folder.read("g.ref.fai"), b"one\t12\t5\t12\t13\n");
    // The genome is not replaced, also under another name.
    run(&["reference", &genome, "-o", &genome]).failed(2, "it is one of the files that are read");
    let link = folder.path("link.fa");
    std::os::unix::fs::symlink(&genome, &link).unwrap();
    run(&["reference", &genome, "-o", &link]).failed(2, "it is one of the files that are read");
    // A link to another file stays a link.
    let link = folder.path("link.ref");
    std::os::unix::fs::symlink(&output, &link).unwrap();
    fs::write(&output, "old").unwrap();
    run(&["reference", &genome, "-o", &link]).accepted();
    assert!(fs::symlink_metadata(&link).unwrap().is_symlink());
    assert_eq!(folder.read("g.ref"), small_reference());
    // The gate takes no link below the tree.
    for link in ["link.fa", "link.ref"] {
        fs::remove_file(folder.path(link)).unwrap();
    }
}

#[test]
fn a_reference_is_a_file() {
    let folder = Folder::new("reference_file");
    let genome = folder.write("g.fa", ">one\nACGT\n");
    for output in ["-", "/dev/null", "/dev/full"] {
        let ran =
            run(&["reference", &genome, "-o", output]).failed(2, "is written to a file alone");
        assert_eq!(ran.text(), "");
    }
    let missing = folder.path("missing/g.ref");
    run(&["reference", &genome, "-o", &missing]).failed(2, "missing/g.ref: No such file");
    let missing = folder.path("missing.fa");
    run(&["reference", &missing, "-o", &folder.path("g.ref")])
        .failed(2, "missing.fa: No such file");
    assert_eq!(folder.names(), ["g.fa"]);
}

/// Takes a while, and a gigabyte of the disk: `cargo test -- --ignored`.
#[test]
#[ignore]
fn refuses_1_too_many_bases() {
    let folder = Folder::new("too_many");
    let output = folder.path("g.ref");
    let most = "{ echo '>one'; head -c 4294967295 /dev/zero | tr '\\0' C; } | \"$0\" reference - -o \"$1\"";
    shell(most, &[&output]).accepted();
    assert_eq!(fs::metadata(&output).unwrap().len(), 8 + (1 << 30));
    fs::remove_file(&output).unwrap();
    fs::remove_file(folder.path("g.ref.fai")).unwrap();
    let more = most.replace("95", "96");
    let ran = shell(&more, &[&output]);
    ran.failed(1, "standard input has more than 4294967295 bases: refused 1: the reference");
    assert_eq!(folder.names(), [""; 0]);
}
