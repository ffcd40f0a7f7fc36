//! Names by hand (02, Ticket 1): names sections of raw reads of one letter,
//! and calls of the encoder. tests/names_by_hand.rs and tests/named_calls.rs
//! tell what they give.

use crate::cases_by_hand::{Hand, Input, BASES, REFERENCE};
use crate::corpus::{Case, CaseKind};
use crate::generator::ReferencePlan;
use crate::proposals::{EncodeCall, Proposal};

/// Type and set.
type Column = (u8, Vec<u8>);

const LIMIT: i64 = 999_999_999_999_999_999;

/// Type 0: each token, and a zero byte.
fn strings(tokens: &[&str]) -> Column {
    (0, tokens.iter().flat_map(|token| [token.as_bytes(), &[0]].concat()).collect())
}

/// Type 4: start and steps of 8 bits.
fn steps_8(start: i64, steps: &[u8]) -> Column {
    (4, [&start.to_le_bytes(), steps].concat())
}

/// Type 3: start and steps of 16 bits.
fn steps_16(start: i64, steps: &[u16]) -> Column {
    let steps: Vec<u8> = steps.iter().flat_map(|step| step.to_le_bytes()).collect();
    (3, [&start.to_le_bytes()[..], &steps].concat())
}

/// Type 5: start and steps of 32 bits.
fn steps_32(start: i64, steps: &[u32]) -> Column {
    let steps: Vec<u8> = steps.iter().flat_map(|step| step.to_le_bytes()).collect();
    (5, [&start.to_le_bytes()[..], &steps].concat())
}

/// The token count, the types, the sizes, the sets.
fn section(columns: &[Column]) -> Vec<u8> {
    let mut section = (columns.len() as u32).to_le_bytes().to_vec();
    section.extend(columns.iter().map(|(kind, _)| kind));
    section.extend(columns.iter().flat_map(|(_, set)| (set.len() as u64).to_le_bytes()));
    section.extend(columns.iter().flat_map(|(_, set)| set));
    section
}

/// The same with another token count.
fn recounted(columns: &[Column], count: u32) -> Vec<u8> {
    let mut section = section(columns);
    section[..4].copy_from_slice(&count.to_le_bytes());
    section
}

/// The same with other sizes.
fn resized(columns: &[Column], sizes: &[u64]) -> Vec<u8> {
    let mut section = section(columns);
    let from = 4 + columns.len();
    for (index, size) in sizes.iter().enumerate() {
        section[from + 8 * index..][..8].copy_from_slice(&size.to_le_bytes());
    }
    section
}

/// So many raw reads A with a names section. Flags 0x1 and `flags`.
fn named(reads: usize, flags: u32, names: &[u8]) -> Hand {
    let mut dna = Vec::new();
    for read in 0..reads {
        if read % 8 == 0 {
            dna.extend([0; 4]);
        }
        dna.extend([2, 0]);
    }
    Hand { flags: 1 | flags, names: names.to_vec(), ..Hand::same(1, reads as i32, &dna) }
}

/// Tokens a, 1, a, 1 and so on, one string each.
fn by_turns(count: usize) -> Vec<Column> {
    (0..count).map(|token| strings(&[if token % 2 == 0 { "a" } else { "1" }])).collect()
}

/// Blocks that are accepted.
fn stored_names() -> Vec<(&'static str, Hand)> {
    let columns = |reads, columns: &[Column]| named(reads, 8, &section(columns));
    let one = section(&[strings(&["n"]), steps_8(1, &[])]);
    let any = [0xFF; 5];
    let long = "x".repeat(255);
    let digits = "9".repeat(255);
    vec![
        ("name a", columns(1, &[strings(&["a"])])),
        ("start 0", columns(1, &[steps_8(0, &[])])),
        ("one read, steps of 16 bits", columns(1, &[steps_16(7, &[])])),
        ("one read, steps of 32 bits", columns(1, &[steps_32(7, &[])])),
        ("steps of 8 bits", columns(4, &[steps_8(5, &[0, 1, 255])])),
        ("steps of 16 bits", columns(3, &[steps_16(0, &[256, 65_535])])),
        ("steps of 32 bits", columns(3, &[steps_32(1, &[65_536, 4_294_967_295])])),
        ("step of 2^32 as strings", columns(2, &[strings(&["0", "4294967296"])])),
        (
            "wider steps than need be",
            columns(2, &[steps_16(9, &[1]), strings(&[":", ":"]), steps_32(0, &[255])]),
        ),
        ("digits as strings", columns(2, &[strings(&["1", "2"])])),
        ("leading zeros", columns(3, &[strings(&["r", "r", "r"]), strings(&["007", "08", "0"])])),
        ("falling numbers", columns(3, &[strings(&["10", "9", "8"])])),
        ("18 digits by a step", columns(2, &[steps_8(LIMIT - 1, &[1])])),
        (
            "18 digits, steps of 32 bits",
            columns(2, &[steps_32(LIMIT - 4_294_967_295, &[u32::MAX])]),
        ),
        ("19 digits as strings", columns(1, &[strings(&["1000000000000000000"])])),
        (
            "all types",
            columns(
                3,
                &[
                    steps_8(1, &[1, 0]),
                    strings(&["-", "_", "-"]),
                    steps_16(0, &[256, 1]),
                    strings(&["/", "/", " "]),
                    steps_32(9, &[65_536, 0]),
                    strings(&["x", "yz", "."]),
                    strings(&["01", "1", "00"]),
                ],
            ),
        ),
        ("digits and others by turns", columns(2, &[strings(&["1", "a"]), strings(&["a", "1"])])),
        ("bytes 32, 47, 58, 126", columns(4, &[strings(&[" ", "/", ":", "~"])])),
        ("name of 255 bytes", columns(1, &[strings(&[&long])])),
        ("name of 255 digits", columns(1, &[strings(&[&digits])])),
        ("name of 255 tokens", columns(1, &by_turns(255))),
        ("nine names", columns(9, &[strings(&["n"; 9]), steps_8(1, &[1; 8])])),
        (
            "sequencer's names",
            columns(
                2,
                &[
                    strings(&["A", "A"]),
                    strings(&["00123", "00123"]),
                    strings(&[":", ":"]),
                    steps_8(45, &[0]),
                    strings(&[":HXY:", ":HXY:"]),
                    steps_8(1, &[0]),
                    strings(&[":", ":"]),
                    steps_8(1101, &[0]),
                    strings(&[":", ":"]),
                    steps_16(1000, &[500]),
                    strings(&[":", ":"]),
                    strings(&["2000", "1000"]),
                ],
            ),
        ),
        ("flags 4 and 8", named(1, 0x4 | 0x8, &one)),
        ("flags 8 and 10", named(1, 0x8 | 0x10, &one)),
        ("flags 4, 8 and 10", named(1, 0x4 | 0x8 | 0x10, &one)),
        ("no reads, flag 8", named(0, 0x8, &[])),
        ("no names flag, any bytes", named(1, 0, &any)),
        ("flag 4, any bytes", named(1, 0x4, &any)),
        ("flag 10, any bytes", named(1, 0x10, &any)),
        ("flags 4 and 10, names", named(1, 0x4 | 0x10, &one)),
        ("no reads, no names flag, any bytes", named(0, 0, &any)),
    ]
}

/// Names sections that are refused, with the number of reads.
fn refused_names() -> Vec<(&'static str, usize, Vec<u8>)> {
    let a = || strings(&["a"]);
    let a1 = || [a(), steps_8(1, &[])];
    let typed = |kind| section(&[(kind, steps_8(1, &[]).1)]);
    let string = |bytes: &[u8]| section(&[(0, bytes.to_vec())]);
    let with_byte = |byte| section(&[(0, vec![b'a', byte, 0])]);
    let half = 1 << 63;
    let nine = ["n", "n", "n", "n", "n", "n", "n", "n", "1"];
    vec![
        ("names missing", 1, Vec::new()),
        ("three bytes of a token count", 1, vec![1, 0, 0]),
        ("token count alone", 1, vec![1, 0, 0, 0]),
        ("token count 0", 1, vec![0; 4]),
        ("token count 0 before a column", 1, recounted(&[a()], 0)),
        ("type missing of two", 1, recounted(&[a()], 2)),
        ("token count 1 of two", 1, recounted(&a1(), 1)),
        ("token count 2^32-1", 1, recounted(&[a()], u32::MAX)),
        ("name of 256 tokens", 1, section(&by_turns(256))),
        ("size cut", 1, section(&[a()])[..12].to_vec()),
        ("type 1", 1, typed(1)),
        ("type 2", 1, typed(2)),
        ("type 6", 1, typed(6)),
        ("type 255", 1, typed(255)),
        ("size one less", 1, resized(&[a()], &[1])),
        ("size one more", 1, resized(&[a()], &[3])),
        ("size 2^64-1", 1, resized(&[a()], &[u64::MAX])),
        ("sizes one more and one less", 1, resized(&a1(), &[3, 7])),
        ("sizes one less and one more", 1, resized(&a1(), &[1, 9])),
        ("sizes that wrap around", 1, resized(&a1(), &[2 + half, 8 + half])),
        ("byte after the sets", 1, [section(&[a()]), vec![0]].concat()),
        ("set cut", 1, section(&[a()])[..14].to_vec()),
        ("string without its zero byte", 1, string(b"a")),
        ("zero byte too many", 1, string(b"a\0\0")),
        ("byte after the last string", 1, string(b"a\0b")),
        ("one string for two reads", 2, string(b"a\0")),
        ("three strings for two reads", 2, string(b"a\0b\0c\0")),
        ("empty name", 1, string(b"\0")),
        ("empty name, then one", 2, string(b"\0a\0")),
        ("empty token between", 1, section(&[a(), strings(&[""]), strings(&["1"])])),
        ("empty token last", 1, section(&[a(), strings(&[""])])),
        ("empty set", 1, string(b"")),
        ("seven bytes of a start", 1, section(&[(4, vec![0; 7])])),
        ("nine bytes for one read", 1, section(&[(4, vec![0; 9])])),
        ("step missing", 2, section(&[steps_8(1, &[])])),
        ("step too many", 2, section(&[steps_8(1, &[1, 1])])),
        ("half a step of 16 bits", 2, section(&[(3, steps_8(1, &[1]).1)])),
        ("half a step of 32 bits", 2, section(&[(5, steps_16(1, &[1]).1)])),
        ("step of 16 bits for 8", 2, section(&[(4, steps_16(1, &[1]).1)])),
        ("start -1", 1, section(&[steps_8(-1, &[])])),
        ("start -1 and a step", 2, section(&[steps_8(-1, &[2])])),
        ("lowest start", 1, section(&[steps_16(i64::MIN, &[])])),
        ("start 10^18", 1, section(&[steps_8(LIMIT + 1, &[])])),
        ("start 2^63-1", 2, section(&[steps_32(i64::MAX, &[u32::MAX])])),
        ("sum 10^18, steps of 8 bits", 2, section(&[steps_8(LIMIT, &[1])])),
        ("sum 10^18, steps of 16 bits", 3, section(&[steps_16(LIMIT - 1, &[1, 1])])),
        ("sum above, steps of 32 bits", 2, section(&[steps_32(LIMIT, &[u32::MAX])])),
        ("two columns of numbers", 1, section(&[steps_8(1, &[]), steps_8(2, &[])])),
        ("two columns of digits", 1, section(&[strings(&["1"]), strings(&["2"])])),
        ("digits beside a number", 1, section(&[strings(&["1"]), steps_8(2, &[])])),
        ("two columns of others", 1, section(&[a(), strings(&["b"])])),
        ("token of digits and others", 1, section(&[strings(&["a1"])])),
        ("token of others and digits", 1, section(&[strings(&["1a"])])),
        ("alike in the second name", 2, section(&[strings(&["a", "1"]), steps_8(1, &[0])])),
        ("alike in the last of nine", 9, section(&[strings(&nine), steps_8(1, &[1; 8])])),
        ("byte 31", 1, with_byte(31)),
        ("byte 127", 1, with_byte(127)),
        ("byte 128", 1, with_byte(128)),
        ("byte 255", 1, with_byte(255)),
        ("line feed", 1, with_byte(b'\n')),
        ("name of 256 bytes", 1, section(&[strings(&[&"x".repeat(256)])])),
        ("255 bytes and a digit", 1, section(&[strings(&[&"x".repeat(255)]), steps_8(0, &[])])),
        ("no reads, a names byte", 0, vec![0]),
        ("no reads, a token count", 0, vec![0; 4]),
        ("no reads, an empty column", 0, section(&[strings(&[])])),
    ]
}

/// Blocks whose names are read, and such whose names stay unread.
pub fn stored_names_by_hand() -> Vec<Input> {
    stored_names().iter().map(|(label, hand)| Input::by_hand(label, hand)).collect()
}

/// Blocks that get 40.
pub fn refused_names_by_hand() -> Vec<Input> {
    let mut inputs = Vec::new();
    for (label, reads, names) in refused_names() {
        inputs.push(Input::by_hand(label, &named(reads, 8, &names)));
    }
    // Whatever the other flags of names say.
    inputs.push(Input::by_hand("flags 4 and 8, names missing", &named(1, 0xC, &[])));
    inputs.push(Input::by_hand("flags 8 and 10, fallback names", &named(1, 0x18, b"n1\0")));
    inputs
}

/// Blocks with names under what is lent: 12 and 21 before 40 before 22, and
/// 22 for names and name ends.
pub fn names_lent_by_hand() -> Vec<Case> {
    let good = named(2, 8, &section(&[strings(&["n", "n"]), steps_8(9, &[1])]));
    let wrong = named(2, 8, &section(&[strings(&["n", "n"])]));
    let wrong = Hand { names: wrong.names[..12].to_vec(), ..wrong };
    let cut = Hand { dna: wrong.dna[..7].to_vec(), ..wrong.clone() };
    let left = Hand { dna: [&wrong.dna[..], &[0]].concat(), ..wrong.clone() };
    let lend = |label: &str, hand: &Hand, [letters, ends, names, name_ends]: [usize; 4]| {
        let case = Input::by_hand(label, hand).case(CaseKind::Decode);
        case.lending(letters, ends).lending_names(names, name_ends)
    };
    vec![
        lend("DNA cut, names wrong", &cut, [2, 2, 5, 2]),
        lend("DNA left over, names wrong", &left, [2, 2, 5, 2]),
        lend("names wrong, no room", &wrong, [0, 0, 0, 0]),
        lend("names just fit", &good, [2, 2, 5, 2]),
        lend("room past the names", &good, [3, 4, 7, 5]),
        lend("names a byte short", &good, [2, 2, 4, 2]),
        lend("one name end short", &good, [2, 2, 5, 1]),
        lend("letters one short, names fit", &good, [1, 2, 5, 2]),
        lend("ends one short, names fit", &good, [2, 1, 5, 2]),
        lend("no room for names", &good, [2, 2, 0, 0]),
        lend("unread names need no room", &named(2, 0, &good.names), [2, 2, 0, 0]),
        lend("unread names leave the room", &named(2, 0x14, &good.names), [2, 2, 9, 3]),
        lend("no reads, flag 8, no room", &named(0, 8, &[]), [0, 0, 0, 0]),
    ]
}

/// 256 names of 128 bytes, 32,768 in all; and one byte more, as the last
/// number has a digit more.
pub fn full_names() -> Vec<(&'static str, Hand)> {
    let names = |last: u8| {
        let mut columns = Vec::new();
        for _ in 0..6 {
            columns.push(steps_8(LIMIT, &[0; 255]));
            columns.push(strings(&[":"; 256]));
        }
        let mut steps = [0; 255];
        steps[254] = last;
        columns.push(steps_8(99_999_999_999_999, &steps));
        named(256, 8, &section(&columns))
    };
    vec![("32768 bytes of names", names(0)), ("32769 bytes of names", names(1))]
}

/// Files whose first block has names; the second block's are refused.
pub fn files_with_names() -> Vec<Case> {
    let good = named(1, 8, &section(&[strings(&["n"])])).bytes();
    let wrong = named(1, 8, &section(&[strings(&[""])])).bytes();
    let unread = named(1, 4, &[0xFF; 5]).bytes();
    let file = |label: &str, blocks: &[&[u8]]| {
        Case::reading(CaseKind::Validate, label, BASES, &REFERENCE, &blocks.concat())
    };
    vec![
        file("names, names, unread names", &[&good, &good, &unread]),
        file("second block's names refused", &[&good, &wrong]),
        file("third block's names refused", &[&unread, &good, &wrong, &good]),
    ]
}

/// Raw reads A with these names.
fn call(names: &[&str]) -> EncodeCall {
    let reference = ReferencePlan { bases: BASES, letters: Vec::new(), bytes: REFERENCE.to_vec() };
    let letters = b"A".to_vec();
    let read = Proposal { letters, position: 0, strand: 0, left: 0, right: 0 };
    EncodeCall::new(&reference, &vec![read; names.len()], 0, 0).named(names)
}

/// Calls whose names sections tests/named_calls.rs has byte by byte.
pub fn named_calls() -> Vec<(String, EncodeCall)> {
    let tokens: String = "a1".repeat(127) + "a";
    let calls: &[(&str, &[&str])] = &[
        ("written: no reads", &[]),
        ("written: a", &["a"]),
        ("written: 0 1", &["0", "1"]),
        ("written: 7 7", &["7", "7"]),
        ("written: leading zeros", &["r00", "r01"]),
        ("written: 0 00", &["0", "00"]),
        ("written: 9 10, rising though longer", &["9", "10"]),
        ("written: 10 9, falling", &["10", "9"]),
        ("written: 5 6 5, falling last", &["5", "6", "5"]),
        ("written: step 255", &["0", "255"]),
        ("written: step 256", &["0", "256"]),
        ("written: step 65535", &["1", "65536"]),
        ("written: step 65536", &["1", "65537"]),
        ("written: step 2^32-1", &["1", "4294967296"]),
        ("written: step 2^32", &["1", "4294967297"]),
        ("written: steps 1 256 0", &["0", "1", "257", "257"]),
        ("written: 18 digits", &["999999999999999998", "999999999999999999"]),
        ("written: 18 and 19 digits", &["999999999999999999", "1000000000000000000"]),
        ("written: 19 digits", &["1234567890123456789"]),
        ("written: 1 a", &["1", "a"]),
        ("written: 1a a1", &["1a", "a1"]),
        ("written: bytes 32 and 126", &[" ", "~"]),
        (
            "written: sequencer",
            &["A00123:45:HXY:1:1101:1000:2000", "A00123:45:HXY:1:1101:1500:1000"],
        ),
        ("written: 255 tokens", &[&tokens]),
    ];
    calls
        .iter()
        .map(|&(label, names)| {
            let mut call = call(names);
            call.capacity = call.run(&mut vec![0; call.enough()]).length as usize + 3;
            (label.to_string(), call)
        })
        .collect()
}

/// Calls with one fault in names or name ends: 41.
fn misnamed() -> Vec<(&'static str, usize, Vec<u8>, Vec<u32>)> {
    let long = vec![b'x'; 256];
    vec![
        ("no name ends", 1, b"a".to_vec(), vec![]),
        ("nothing for a name", 1, vec![], vec![]),
        ("one name end for two reads", 2, b"ab".to_vec(), vec![2]),
        ("two name ends for one read", 1, b"ab".to_vec(), vec![1, 2]),
        ("name end 0", 1, vec![], vec![0]),
        ("name end 0, then 1", 2, b"a".to_vec(), vec![0, 1]),
        ("name end twice", 2, b"a".to_vec(), vec![1, 1]),
        ("name ends fall", 3, b"abc".to_vec(), vec![2, 1, 3]),
        ("name bytes left", 1, b"ab".to_vec(), vec![1]),
        ("name bytes missing", 1, b"a".to_vec(), vec![2]),
        ("first name past the bytes", 2, b"ab".to_vec(), vec![3, 2]),
        ("name end 2^32-1", 1, b"a".to_vec(), vec![u32::MAX]),
        ("name of 256 bytes", 1, long.clone(), vec![256]),
        ("second name of 256 bytes", 2, [b"a", &long[..]].concat(), vec![1, 257]),
        ("name byte without reads", 0, b"a".to_vec(), vec![]),
        ("name end without reads", 0, vec![], vec![0]),
        ("name byte 0", 1, vec![0], vec![1]),
        ("name byte 31", 1, vec![31], vec![1]),
        ("name byte 127", 2, vec![b'a', 127], vec![1, 2]),
        ("name byte 128", 1, vec![128], vec![1]),
        ("token counts 1 and 2", 2, b"aa1".to_vec(), vec![1, 3]),
        ("token counts 2 and 1", 2, b"1a1".to_vec(), vec![2, 3]),
        ("token counts 3, 3, 4", 3, b"a1aa1aa1a1".to_vec(), vec![3, 6, 10]),
    ]
}

/// 41 by each fault; 31, 32 and 33 before 41 before 34; 34 counts the names.
pub fn refused_calls() -> Vec<(String, EncodeCall)> {
    let mut calls = Vec::new();
    for (label, reads, names, name_ends) in misnamed() {
        let call = EncodeCall { names, name_ends, capacity: 500, ..call(&vec!["a"; reads]) };
        calls.push((format!("41: {label}"), call));
    }
    let mut add = |label: &str, change: &dyn Fn(&mut EncodeCall)| {
        let mut call = EncodeCall { name_ends: vec![], capacity: 0, ..call(&["a"]) };
        change(&mut call);
        calls.push((label.to_string(), call));
    };
    add("no strand, no name ends, no room", &|call| call.strands.clear());
    add("end 2, no name ends, no room", &|call| call.ends = vec![2]);
    add("letter 9, no name ends, no room", &|call| call.letters = vec![9]);
    add("no name ends, no room", &|_| {});
    // 121 header bytes, 6 of DNA, 15 of names, 1 of N.
    add("name a, one byte too long", &|call| {
        call.name_ends = vec![1];
        call.capacity = 142;
    });
    add("name a, just fits", &|call| {
        call.name_ends = vec![1];
        call.capacity = 143;
    });
    calls
}
