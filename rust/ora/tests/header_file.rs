//! Property: `include/ora.h` has the refusals, sections, counts and functions of this crate, with the
//! same numbers, names and sentences. Catches: a number or name added in one place alone.

use ora::{encode, has_names, raw, validate_block};
use ora::{Candidate, Reads, Reference, RefusalKind, Section};

const HEADER: &str = include_str!("../../../include/ora.h");

/// The constants of an enum in the header with their values and the comment above each.
fn constants(name: &str) -> Vec<(String, u64, String)> {
    let start = HEADER.find(&format!("enum {name} {{")).unwrap();
    let body = &HEADER[start..start + HEADER[start..].find("};").unwrap()];
    let mut found = Vec::new();
    let mut comment = String::new();
    for line in body.lines().map(str::trim) {
        if let Some(text) = line.strip_prefix("/* ") {
            comment = text.trim_end_matches(" */").to_string();
        } else if let Some((constant, value)) = line.split_once(" = ") {
            let digits: String = value.chars().take_while(char::is_ascii_digit).collect();
            found.push((constant.to_string(), digits.parse().unwrap(), comment.clone()));
        }
    }
    found
}

/// ReferenceSizeWrong as ORA_REFERENCE_SIZE_WRONG.
fn constant_name(prefix: &str, name: &str) -> String {
    let mut constant = prefix.to_string();
    for letter in name.chars() {
        if letter.is_uppercase() {
            constant.push('_');
        }
        constant.extend(letter.to_uppercase());
    }
    constant
}

#[test]
fn refusals() {
    let mut constants = constants("ora_refusal").into_iter();
    assert_eq!(constants.next().unwrap().0, "ORA_ACCEPTED");
    for &kind in RefusalKind::ALL {
        let (name, number, comment) = constants.next().unwrap();
        assert_eq!(name, constant_name("ORA", kind.name()));
        assert_eq!(number, kind.number());
        let sentence = kind.sentence();
        let capital = sentence[..1].to_uppercase() + &sentence[1..];
        assert!([format!("{sentence}."), format!("{capital}.")].contains(&comment), "{comment}");
        assert_eq!(RefusalKind::from_number(number), Some(kind));
    }
    assert_eq!(constants.next(), None);
    let numbers: Vec<u64> = RefusalKind::ALL.iter().map(|kind| kind.number()).collect();
    assert_eq!(numbers, (1..=22).chain(30..=34).chain(40..=41).collect::<Vec<_>>());
    for number in [0, 23, 29, 35, 39, 42, u64::MAX] {
        assert_eq!(RefusalKind::from_number(number), None);
    }
}

#[test]
fn sections() {
    let constants = constants("ora_section_number");
    assert_eq!(constants.len(), Section::ALL.len());
    for ((name, number, _), section) in constants.into_iter().zip(Section::ALL) {
        assert_eq!(name, constant_name("ORA_SECTION", &format!("{section:?}")));
        assert_eq!(number, section.number());
    }
}

/// The flag that tells whether names are read is the one of `has_names`.
#[test]
fn names_flag() {
    let constant = |name: &str| {
        let line = HEADER.lines().find_map(|line| line.strip_prefix(&format!("#define {name} ")));
        line.unwrap().to_string()
    };
    let offset: usize = constant("ORA_FLAGS_OFFSET").parse().unwrap();
    let flag = constant("ORA_FLAG_NAMES");
    let flag = u8::from_str_radix(flag.trim_start_matches("0x"), 16).unwrap();
    let reference = Reference::new(0, &[]).unwrap();
    let block = encode(&reference, &Reads::new(), 0, 0).unwrap();
    for set in 0..8 {
        let mut block = block.clone();
        block[offset] = 1 << set;
        // 0x40 and 0x80 are refused.
        assert_eq!(has_names(&block), 1 << set == flag && set < 6);
    }
}

#[test]
fn slots() {
    assert!(HEADER.contains(&format!("#define ORA_ANSWER_SLOTS {}\n", raw::SLOTS)));
}

/// Each count is the slot that the header names so, in a block whose counts all differ.
#[test]
fn counts() {
    let bytes = [0x1B; 500];
    let reference = Reference::new(2000, &bytes).unwrap();
    let mut reads = Reads::new();
    for changed in [&[1953][..], &[0, 1], &[], &[]] {
        let mut letters = b"ACGT".repeat(500);
        changed.iter().for_each(|&place: &usize| letters[place] = b"CGTA"[place % 4]);
        reads.push(b"0", &letters, Candidate::forward(0));
    }
    let block = encode(&reference, &reads, 0, 0).unwrap();
    let mut answer = [0; raw::SLOTS];
    raw::validate_block(2000, &bytes, &block, &mut answer);
    let constants = constants("ora_slot");
    let slot = |name: &str| {
        let (_, slot, _) = constants.iter().find(|(constant, ..)| constant == name).unwrap();
        answer[*slot as usize]
    };
    let counts = validate_block(&reference, &block).unwrap().counts;
    assert_eq!((counts.reads, slot("ORA_READS")), (4, 4));
    assert_eq!((counts.letters, slot("ORA_LETTERS")), (8000, 8000));
    assert_eq!((counts.entries, slot("ORA_ENTRIES")), (33, 33));
    assert_eq!((counts.differences, slot("ORA_DIFFERENCES")), (3, 3));
    assert_eq!((counts.top, slot("ORA_TOP")), (1, 1));
}

/// The functions, each with the names of its arguments, are those that `raw` declares.
#[test]
fn functions() {
    let source = include_str!("../src/raw.rs");
    let declared: Vec<(String, Vec<String>)> =
        source.split("pub fn ora_").skip(1).map(|text| signature(text, rust_argument)).collect();
    let in_header: Vec<(String, Vec<String>)> =
        HEADER.split("uint64_t ora_").skip(1).map(|text| signature(text, c_argument)).collect();
    assert_eq!(in_header.len(), 7);
    assert_eq!(in_header, declared);
}

/// Up to the closing parenthesis: the name, and each argument with its type in one spelling.
fn signature(text: &str, argument: fn(&str) -> String) -> (String, Vec<String>) {
    let (name, rest) = text.split_once('(').unwrap();
    let (arguments, _) = rest.split_once(')').unwrap();
    let arguments = arguments.split(',').map(str::trim).filter(|text| !text.is_empty());
    (name.to_string(), arguments.map(argument).collect())
}

fn rust_argument(text: &str) -> String {
    text.to_string()
}

fn c_argument(text: &str) -> String {
    let text =
        text.replace("[ORA_ANSWER_SLOTS]", "").replace("uint64_t answer", "uint64_t *answer");
    let (kind, name) = text.rsplit_once(' ').unwrap();
    let pointer = match (kind.starts_with("const "), name.starts_with('*')) {
        (true, true) => "*const ",
        (false, true) => "*mut ",
        _ => "",
    };
    let element = match kind.trim_start_matches("const ") {
        "uint8_t" => "u8",
        "uint32_t" => "u32",
        "uint64_t" => "u64",
        "size_t" => "usize",
        other => panic!("{other}"),
    };
    format!("{}: {pointer}{element}", name.trim_start_matches('*'))
}
