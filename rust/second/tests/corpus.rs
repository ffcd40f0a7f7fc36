//! Property: the corpus in the tree is the one that is made, walks front to
//! back, keeps its limits, and meets every number, every record kind, reverse
//! local records at both ends of a reference, records of 30 and 31 entries and
//! every type of a column of names.
//! Catches: a corpus gone stale, or one that no longer tests a refusal or a
//! count.

use second::blocks::read_block;
use second::corpus::*;
use second::corpus_cases::{corpus, corpus_files, RUN};
use second::records::{Kind, Record};
use second::reference::{Reference, Strand};
use std::collections::BTreeSet;
use std::path::{Path, PathBuf};

/// The crate of the program that runs the cases.
fn crate_directory() -> PathBuf {
    Path::new(env!("CARGO_MANIFEST_DIR")).join("../../crates/corpus")
}

#[test]
fn the_tree_holds_what_is_made() {
    let mut whole = 0;
    let mut names: Vec<String> = Vec::new();
    for (path, bytes) in corpus_files() {
        let read = std::fs::read(crate_directory().join(&path)).unwrap();
        assert!(read == bytes, "{path} differs: make the corpus again");
        assert!(bytes.len() < 256 * 1024, "{path}");
        whole += bytes.len();
        names.extend(path.strip_prefix("data/").map(str::to_string));
    }
    assert!(whole < 1024 * 1024, "{whole}");
    let mut found: Vec<String> = std::fs::read_dir(crate_directory().join("data"))
        .unwrap()
        .map(|entry| entry.unwrap().file_name().into_string().unwrap())
        .collect();
    names.sort();
    found.sort();
    assert_eq!(found, names);
}

/// What the program must write: the texts of the case files that it runs, one
/// after the other.
#[test]
fn stdout_is_the_texts_of_what_is_run() {
    let texts: String = corpus()
        .into_iter()
        .filter(|file| RUN.contains(&file.name))
        .map(|file| file.text())
        .collect();
    assert!(std::fs::read_to_string(crate_directory().join("stdout")).unwrap() == texts);
    assert!(RUN.iter().all(|name| corpus().iter().any(|file| file.name == *name)));
}

#[test]
fn walking_gives_the_cases_and_the_text_back() {
    for file in corpus() {
        let cases = parse(&file.bytes()).unwrap();
        assert_eq!(cases.len(), file.cases.len());
        let again = CaseFile { name: file.name, cases };
        assert_eq!(again.bytes(), file.bytes());
        assert_eq!(again.text(), file.text());
    }
}

#[test]
fn limits_hold() {
    for file in corpus() {
        let large = file.name.ends_with("_large");
        let most_letters = if large { MAX_LETTERS_LARGE } else { MAX_LETTERS };
        let most_ends = if large { MAX_ENDS_LARGE } else { MAX_ENDS };
        let most_out = if large { MAX_OUT_LARGE } else { MAX_OUT };
        for case in &file.cases {
            let call = &case.call;
            assert!(call.reference.len() <= MAX_REFERENCE, "{}", case.label);
            assert!(case.input.len() <= MAX_INPUT, "{} {}", case.label, case.input.len());
            assert!(case.letters_lent as usize <= most_letters, "{}", case.label);
            assert!(call.letters.len() <= most_letters, "{}", case.label);
            assert!(case.ends_lent as usize <= MAX_ENDS, "{}", case.label);
            assert!(case.name_bytes_lent as usize <= MAX_NAME_BYTES, "{}", case.label);
            assert!(call.names.len() <= MAX_NAME_BYTES, "{}", case.label);
            assert!(case.name_ends_lent as usize <= MAX_NAME_ENDS, "{}", case.label);
            assert!(call.name_ends.len() <= MAX_NAME_ENDS, "{}", case.label);
            assert!(call.ends.len() <= most_ends && call.positions.len() <= MAX_ENDS);
            assert!(call.strands.len() <= MAX_ENDS && call.lefts.len() <= MAX_ENDS);
            assert!(call.rights.len() <= MAX_ENDS && call.capacity <= most_out, "{}", case.label);
            assert!(case.label.len() <= MAX_LABEL);
            if case.kind == CaseKind::Lengths {
                let lengths = second::lengths(&case.input);
                assert!(lengths.map_or(0, |lengths| lengths.len()) <= MAX_ENDS);
            }
        }
    }
}

/// The numbers in a file's text, and whether some refusal is in a later block.
fn numbers(name: &str) -> (BTreeSet<u32>, bool) {
    let file = corpus().into_iter().find(|file| file.name == name).unwrap();
    let mut numbers = BTreeSet::new();
    let mut later_block = false;
    for line in file.text().lines() {
        let columns: Vec<&str> = line.split(' ').collect();
        numbers.insert(columns[2].parse().unwrap());
        later_block |= columns[3] != "0";
    }
    (numbers, later_block)
}

#[test]
fn every_number_is_met() {
    let all = |high| (0..=high).collect::<BTreeSet<u32>>();
    let and_40 = |high| (0..=high).chain([40]).collect::<BTreeSet<u32>>();
    assert_eq!(numbers("decode").0, and_40(22));
    assert_eq!(numbers("validate_block").0, and_40(21));
    assert_eq!(numbers("validate"), (and_40(21), true));
    let lengths = numbers("lengths").0;
    assert_eq!(lengths, all(10).into_iter().filter(|&number| number != 1).collect());
    assert_eq!(numbers("encode").0, BTreeSet::from([0, 1, 31, 32, 33, 34, 41]));
    assert_eq!(numbers("encode_large").0, BTreeSet::from([0, 30, 31]));
    assert_eq!(numbers("decode_large").0, BTreeSet::from([0, 22]));
}

/// The records of the accepted blocks of a case file, each with the bases of
/// its reference. Of a file of blocks the first is taken.
fn records(file: &CaseFile) -> Vec<(u64, Record)> {
    let mut records = Vec::new();
    for case in &file.cases {
        let call = &case.call;
        let mut block = case.input.clone();
        if case.kind == CaseKind::Encode {
            block = vec![0; call.capacity];
            call.run(&mut block);
        }
        let Ok(reference) = Reference::new(call.bases, &call.reference) else { continue };
        let Ok(block) = read_block(&reference, &block) else { continue };
        records.extend(block.records.into_iter().map(|record| (call.bases, record)));
    }
    records
}

const WITH_RECORDS: [&str; 4] = ["decode", "validate_block", "validate", "encode"];

#[test]
fn every_record_kind_is_met() {
    for file in corpus().iter().filter(|file| WITH_RECORDS.contains(&file.name)) {
        let mut kinds = [0; 5];
        for (_, record) in records(file) {
            kinds[match record.kind {
                Kind::Perfect(..) => 0,
                Kind::Global(..) => 1,
                Kind::Local(..) => 2,
                Kind::Raw(..) => 3,
                Kind::Raw4(..) => 4,
            }] += 1;
        }
        assert!(kinds.iter().all(|&count| count >= 20), "{} {kinds:?}", file.name);
    }
}

/// Reverse local records of two bases or more: all of them, those on the first
/// base, and those on the last.
#[test]
fn reverse_local_records_are_met() {
    for file in corpus().iter().filter(|file| WITH_RECORDS.contains(&file.name)) {
        let mut met = [0; 3];
        for (bases, record) in records(file) {
            let (Kind::Local(place, ..), Some((lowest, span))) = (&record.kind, record.stretch())
            else {
                continue;
            };
            if place.strand == Strand::Reverse && span > 1 {
                assert_eq!(place.position, lowest + (span - 1));
                met[0] += 1;
                met[1] += (lowest == 0) as u32;
                met[2] += (lowest + span == bases) as u32;
            }
        }
        assert!(met[0] >= 20 && met[1] >= 4 && met[2] >= 4, "{} {met:?}", file.name);
    }
}

/// Records of 30 and of 31 entries.
#[test]
fn full_records_are_met() {
    for file in corpus().iter().filter(|file| WITH_RECORDS.contains(&file.name)) {
        let mut met = [0; 2];
        for (_, record) in records(file) {
            met[0] += (record.entries().len() == 30) as u32;
            met[1] += (record.entries().len() == 31) as u32;
        }
        assert!(met[0] >= 1 && met[1] >= 2, "{} {met:?}", file.name);
    }
}

/// What each line of a file's text gives: its number, then READS to TOP.
fn counts(name: &str) -> Vec<(u64, Vec<u64>)> {
    let file = corpus().into_iter().find(|file| file.name == name).unwrap();
    let line = |line: &str| {
        let columns: Vec<u64> =
            line.split(' ').skip(2).map(|column| column.parse().unwrap()).collect();
        (columns[0], columns[5..10].to_vec())
    };
    file.text().lines().map(line).collect()
}

/// Each count above 0, the fifth also above 1. A refusal has none, and neither
/// has what the encoder answers.
#[test]
fn every_count_is_met() {
    for name in ["decode", "validate_block", "validate"] {
        let mut met = [0; 5];
        let mut several = 0;
        for (number, counts) in counts(name) {
            assert!(number == 0 || counts == [0; 5], "{name}");
            counts.iter().zip(&mut met).for_each(|(&count, met)| *met += (count > 0) as u32);
            several += (counts[4] > 1) as u32;
        }
        assert!(met.iter().all(|&count| count >= 2) && several >= 2, "{name} {met:?} {several}");
    }
    for name in ["encode", "encode_large"] {
        assert!(counts(name).iter().all(|(_, counts)| counts == &[0; 5]), "{name}");
    }
}

/// Types 0, 3, 4 and 5 in the names sections of accepted blocks; and accepted
/// blocks whose names stay unread.
#[test]
fn every_column_type_is_met() {
    for name in ["decode", "validate_block"] {
        let file = corpus().into_iter().find(|file| file.name == name).unwrap();
        let (mut types, mut unread) = ([0; 6], 0);
        for case in &file.cases {
            let call = &case.call;
            if second::validate_block(call.bases, &call.reference, &case.input).number != 0 {
                continue;
            }
            let names = second::section(&case.input, 1);
            if case.input[42] & 8 == 0 {
                unread += !names.is_empty() as u32;
            } else if let Some((count, rest)) = names.split_first() {
                rest[3..3 + *count as usize].iter().for_each(|&kind| types[kind as usize] += 1);
            }
        }
        assert!([0, 3, 4, 5].iter().all(|&kind| types[kind] >= 10), "{name} {types:?}");
        assert!(unread >= 10, "{name} {unread}");
    }
}

/// Every case of the sections file gives eleven lines, every other one.
#[test]
fn lines() {
    for file in corpus() {
        let each = if file.name == "sections" { 11 } else { 1 };
        assert_eq!(file.text().lines().count(), each * file.cases.len());
    }
}

/// The known values of FNV-1a for "", "a" and "foobar".
#[test]
fn hash_values() {
    assert_eq!(fnv1a(b""), 0xCBF2_9CE4_8422_2325);
    assert_eq!(fnv1a(b"a"), 0xAF63_DC4C_8601_EC8C);
    assert_eq!(fnv1a(b"foobar"), 0x8594_4171_F739_67E8);
    assert_eq!(fnv1a_numbers(&[0x006F_6F66, 0]), fnv1a(b"foo\0\0\0\0\0"));
}
