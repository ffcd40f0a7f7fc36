//! Property: the corpus' names sections by hand give the names, or 40, that 02,
//! Ticket 1, says. Catches: a width mistaken for another, a sum past the limit,
//! a start of -1 taken as a large number, two neighbours of one nature, unread
//! names judged or given, 40 before 21 or after 22.

mod common;
use common::*;
use second::cases_names::{refused_names_by_hand, stored_names_by_hand};
use second::*;

/// Label and names. Names that stay unread are none.
const READ: &[(&str, &[&str])] = &[
    ("name a", &["a"]),
    ("start 0", &["0"]),
    ("one read, steps of 16 bits", &["7"]),
    ("one read, steps of 32 bits", &["7"]),
    ("steps of 8 bits", &["5", "5", "6", "261"]),
    ("steps of 16 bits", &["0", "256", "65791"]),
    ("steps of 32 bits", &["1", "65537", "4295032832"]),
    ("step of 2^32 as strings", &["0", "4294967296"]),
    ("wider steps than need be", &["9:0", "10:255"]),
    ("digits as strings", &["1", "2"]),
    ("leading zeros", &["r007", "r08", "r0"]),
    ("falling numbers", &["10", "9", "8"]),
    ("18 digits by a step", &["999999999999999998", "999999999999999999"]),
    ("18 digits, steps of 32 bits", &["999999995705032704", "999999999999999999"]),
    ("19 digits as strings", &["1000000000000000000"]),
    ("all types", &["1-0/9x01", "2_256/65545yz1", "2-257 65545.00"]),
    ("digits and others by turns", &["1a", "a1"]),
    ("bytes 32, 47, 58, 126", &[" ", "/", ":", "~"]),
    ("nine names", &["n1", "n2", "n3", "n4", "n5", "n6", "n7", "n8", "n9"]),
    ("sequencer's names", &["A00123:45:HXY:1:1101:1000:2000", "A00123:45:HXY:1:1101:1500:1000"]),
    ("flags 4 and 8", &["n1"]),
    ("flags 8 and 10", &["n1"]),
    ("flags 4, 8 and 10", &["n1"]),
    ("no reads, flag 8", &[]),
    ("no names flag, any bytes", &[]),
    ("flag 4, any bytes", &[]),
    ("flag 10, any bytes", &[]),
    ("flags 4 and 10, names", &[]),
    ("no reads, no names flag, any bytes", &[]),
];

/// The same for names of 255 bytes.
fn read_names() -> Vec<(&'static str, Vec<String>)> {
    let mut told: Vec<(&str, Vec<String>)> = Vec::new();
    for (label, names) in READ {
        told.push((label, names.iter().map(|name| name.to_string()).collect()));
    }
    told.push(("name of 255 bytes", vec!["x".repeat(255)]));
    told.push(("name of 255 digits", vec!["9".repeat(255)]));
    told.push(("name of 255 tokens", vec!["a1".repeat(127) + "a"]));
    told
}

#[test]
fn names_that_are_read() {
    let (read, judged) = (Cases::of("decode"), Cases::of("validate_block"));
    for (label, names) in read_names() {
        let case = read.labelled(label);
        let (outcome, reads, given) = run_named(case);
        let count = reads.len() as u64;
        let counts = [count, count, 0, 0, 0];
        assert_eq!(outcome, accepted(case.input.len() as u64, counts), "{label}");
        assert_eq!(given, names, "{label}");
        let case = judged.labelled(label);
        assert_eq!(validate_block(BASES, &REFERENCE, &case.input), outcome, "{label}");
    }
}

#[test]
fn names_that_are_refused() {
    let cases = Cases::of("decode");
    for input in refused_names_by_hand() {
        let refused = refusal(NAMES_SECTION_INVALID, 0, 0);
        let case = cases.labelled(&input.label);
        assert_eq!(run_named(case), (refused, vec![], vec![]), "{}", input.label);
        assert_eq!(validate_block(BASES, &REFERENCE, &case.input), refused, "{}", input.label);
    }
}

/// None is left out above.
#[test]
fn every_section_is_told_of() {
    for input in stored_names_by_hand() {
        assert!(read_names().iter().any(|told| told.0 == input.label), "{}", input.label);
    }
}

/// "after 21, before 22, which covers names and name ends".
#[test]
fn order_and_room() {
    let cases = Cases::of("decode");
    for (label, number) in [
        ("DNA cut, names wrong", DNA_TRUNCATED),
        ("DNA left over, names wrong", DNA_TRAILING),
        ("names wrong, no room", NAMES_SECTION_INVALID),
        ("names a byte short", CAPACITY_TOO_SMALL),
        ("one name end short", CAPACITY_TOO_SMALL),
        ("letters one short, names fit", CAPACITY_TOO_SMALL),
        ("ends one short, names fit", CAPACITY_TOO_SMALL),
        ("no room for names", CAPACITY_TOO_SMALL),
    ] {
        let (outcome, _, _) = run_named(cases.labelled(label));
        let read = if number == DNA_TRUNCATED { 1 } else { 0 };
        assert_eq!(outcome, refusal(number, 0, read), "{label}");
    }
    for (label, names) in [
        ("names just fit", &["n9", "n10"][..]),
        ("room past the names", &["n9", "n10"]),
        ("unread names need no room", &[]),
        ("unread names leave the room", &[]),
        ("no reads, flag 8, no room", &[]),
    ] {
        let (outcome, _, given) = run_named(cases.labelled(label));
        assert_eq!((outcome.number, given), (0, names.iter().map(|n| n.to_string()).collect()));
    }
}

/// 32,768 bytes of names have room in what is lent, 32,769 have not.
#[test]
fn full_names() {
    let cases = Cases::of("decode");
    let (outcome, _, names) = run_named(cases.labelled("32768 bytes of names"));
    assert_eq!((outcome.number, names.concat().len()), (0, 32_768));
    assert!(names.iter().all(|name| name.len() == 128));
    let case = cases.labelled("32769 bytes of names");
    assert_eq!(run_named(case).0, refusal(CAPACITY_TOO_SMALL, 0, 0));
    assert_eq!(validate_block(BASES, &REFERENCE, &case.input).number, 0);
}

/// "Judging covers names too": the block's index is added.
#[test]
fn files() {
    let cases = Cases::of("validate");
    let judged = |label| validate(BASES, &REFERENCE, &cases.labelled(label).input);
    let three = Outcome { blocks: 3, ..accepted(0, [3, 3, 0, 0, 0]) };
    assert_eq!(judged("names, names, unread names"), three);
    let refused = |block| refusal(NAMES_SECTION_INVALID, block, 0);
    assert_eq!(judged("second block's names refused"), refused(1));
    assert_eq!(judged("third block's names refused"), refused(2));
}
