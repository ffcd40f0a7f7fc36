//! Property: the files of the programs `listing` and `listing_cases` are the
//! ones made, and the program itself, where it is built, prints what the
//! second implementation does for every file of the corpus, and says what it
//! cannot read or write. Catches: a sample gone stale, a listing that differs
//! in a refusal or in a window, a result printed of a file that was not read.

use second::blocks::read_block;
use second::corpus::parse;
use second::generator::{generate_reference, generate_with_lengths, Shape};
use second::listing::listing;
use second::listing_cases::{cases, listing_files, sample};
use second::prng::Prng;
use second::records::Kind;
use second::reference::{Reference, Strand};
use std::path::{Path, PathBuf};
use std::process::{Command, Stdio};

fn tree() -> PathBuf {
    Path::new(env!("CARGO_MANIFEST_DIR")).join("../..")
}

#[test]
fn the_tree_holds_what_is_made() {
    for (path, bytes) in listing_files() {
        let read = std::fs::read(tree().join("crates").join(&path)).unwrap();
        assert!(read == bytes, "{path} differs: make the listing's files again (make listing)");
    }
}

#[test]
fn the_program_lists_every_case() {
    let source = std::fs::read_to_string(tree().join("crates/listing_cases/src/main.rt")).unwrap();
    let mut at = 0;
    for case in cases() {
        let line = format!("list_case(rt, b\"{}\")", case.name);
        at += source[at..].find(&line).expect(case.name);
    }
    assert_eq!(source.matches("list_case(rt, b\"").count(), cases().len());
}

#[test]
fn the_sample_has_all_five_kinds() {
    let sample = sample();
    let text = listing(&sample.reference, &sample.blocks);
    assert!(text.ends_with("end blocks 4\n"));
    let bases = u64::from_le_bytes(sample.reference[..8].try_into().unwrap());
    let reference = Reference::new(bases, &sample.reference[8..]).unwrap_or_else(|_| panic!());
    let mut kinds = [0; 5];
    let mut reverse_local = 0;
    let mut rest = &sample.blocks[..];
    while !rest.is_empty() {
        let block = read_block(&reference, rest).unwrap_or_else(|_| panic!());
        for record in &block.records {
            kinds[match record.kind {
                Kind::Perfect(..) => 0,
                Kind::Global(..) => 1,
                Kind::Local(..) => 2,
                Kind::Raw(..) => 3,
                Kind::Raw4(..) => 4,
            }] += 1;
            if let (Kind::Local(place, ..), Some((_, span))) = (&record.kind, record.stretch()) {
                reverse_local += (place.strand == Strand::Reverse && span > 1) as u32;
            }
        }
        rest = &rest[block.length as usize..];
    }
    assert!(kinds.iter().all(|&count| count > 0), "{kinds:?}");
    assert!(reverse_local > 0);
}

/// The program, or nothing where it is not built.
fn program() -> Option<PathBuf> {
    Some(tree().join("target/bin/listing")).filter(|program| program.is_file())
}

/// What the program prints.
fn printed(name: &str, reference: &[u8], blocks: &[u8]) -> Option<String> {
    let program = program()?;
    let directory = Path::new(env!("CARGO_TARGET_TMPDIR")).join(name);
    std::fs::create_dir_all(&directory).unwrap();
    let paths = [directory.join("reference"), directory.join("blocks")];
    std::fs::write(&paths[0], reference).unwrap();
    std::fs::write(&paths[1], blocks).unwrap();
    let output = Command::new(program).args(&paths).output().unwrap();
    assert!(output.stderr.is_empty(), "{}", String::from_utf8_lossy(&output.stderr));
    Some(String::from_utf8(output.stdout).unwrap())
}

#[test]
fn the_program_prints_the_corpus() {
    let bytes = std::fs::read(tree().join("crates/corpus/data/validate.bin")).unwrap();
    let mut compared = 0;
    for case in parse(&bytes).unwrap() {
        let reference = [&case.call.bases.to_le_bytes()[..], &case.call.reference].concat();
        let Some(text) = printed("corpus", &reference, &case.input) else { break };
        assert_eq!(text, listing(&reference, &case.input), "{}", case.label);
        compared += 1;
    }
    println!("{compared} files of the corpus compared with target/bin/listing");
}

/// Files of many blocks, past the bytes that the program holds at a time.
#[test]
fn the_program_prints_long_files() {
    let rng = &mut Prng::new(20505);
    let shape =
        Shape { bases: 2_000, max_reads: 0, max_length: 300, max_carried: 2_000, max_name: 255 };
    for _ in 0..12 {
        let reference = generate_reference(rng, shape.bases);
        let mut blocks = Vec::new();
        while blocks.len() < 150_000 {
            let reads = rng.range(0, 60);
            let lengths = (0..reads).map(|_| rng.range(1, shape.max_length)).collect();
            blocks.extend(generate_with_lengths(rng, shape, &reference, lengths).block());
        }
        if rng.coin() {
            let cut = rng.range(0, blocks.len() as u64) as usize;
            blocks.truncate(cut);
        }
        let reference = [&reference.bases.to_le_bytes()[..], &reference.bytes].concat();
        let Some(text) = printed("long", &reference, &blocks) else { break };
        assert!(text == listing(&reference, &blocks));
    }
}

/// Standard error says what is wrong, and standard output has no result.
#[test]
fn the_program_says_what_it_cannot_read() {
    let Some(program) = program() else { return };
    let data = tree().join("crates/listing/data");
    let [reference, blocks] = ["reference", "blocks"].map(|name| data.join(name));
    let missing = data.join("missing");
    let usage = "usage: listing REFERENCE BLOCKS";
    let cases: [(&[&Path], &str); 7] = [
        (&[], usage),
        (&[&reference], usage),
        (&[&reference, &blocks, &blocks], usage),
        (&[&missing, &blocks], "missing: No such file"),
        (&[&reference, &missing], "missing: No such file"),
        (&[&data, &blocks], "data: Is a directory"),
        (&[&reference, &data], "data: Is a directory"),
    ];
    for (arguments, message) in cases {
        let output = Command::new(&program).args(arguments).output().unwrap();
        let said = String::from_utf8_lossy(&output.stderr);
        assert!(said.contains(message), "{arguments:?}: {said}");
        assert!(output.stdout.is_empty(), "{arguments:?}");
    }
}

#[test]
fn the_program_says_that_it_cannot_write() {
    let full = std::fs::OpenOptions::new().write(true).open("/dev/full");
    let (Some(program), Ok(full)) = (program(), full) else { return };
    let data = tree().join("crates/listing/data");
    let mut command = Command::new(program);
    command.arg(data.join("reference")).arg(data.join("blocks")).stdout(Stdio::from(full));
    let said = command.output().unwrap().stderr;
    let said = String::from_utf8_lossy(&said);
    assert!(said.contains("standard output: No space left"), "{said}");
}
