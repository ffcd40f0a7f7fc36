//! Property: a library with one thing wrong is found out, and the report says what and where.
//! Catches: a comparison that looks away.

use compare::library::{Library, Linked, Stamp, Under};
use compare::report::report;
use compare::run::{run, Finding, Settings};
use compare::stock::Stock;
use ora::raw::Answer;
use ora::{Buffers, Columns};

/// Changes what a call answers and what it left in the buffers.
type SpoilDecode = fn(&mut Answer, Buffers);
type SpoilJudge = fn(&mut Answer, &[u8]);
type SpoilEncode = fn(&mut Answer, &mut [u8]);
type SpoilSection = fn(&mut Answer, u64);

/// The linked library with one thing wrong.
#[derive(Default)]
struct Wrong {
    decode: Option<SpoilDecode>,
    validate_block: Option<SpoilJudge>,
    validate: Option<SpoilJudge>,
    encode: Option<SpoilEncode>,
    section: Option<SpoilSection>,
    returned: Option<fn(u64) -> u64>,
    block_length: Option<fn(u64) -> u64>,
    block_id: Option<fn(u64) -> u64>,
}

impl Wrong {
    fn number(&self, number: u64) -> u64 {
        self.returned.map_or(number, |spoil| spoil(number))
    }
}

impl Library for Wrong {
    fn decode(&self, under: Under, input: &[u8], buffers: Buffers, answer: &mut Answer) -> u64 {
        let Buffers { letters, ends, names, name_ends } = buffers;
        let lent = Buffers {
            letters: &mut *letters,
            ends: &mut *ends,
            names: &mut *names,
            name_ends: &mut *name_ends,
        };
        Linked.decode(under, input, lent, answer);
        if let Some(spoil) = self.decode {
            spoil(answer, Buffers { letters, ends, names, name_ends });
        }
        self.number(answer[0])
    }

    fn validate_block(&self, under: Under, input: &[u8], answer: &mut Answer) -> u64 {
        Linked.validate_block(under, input, answer);
        if let Some(spoil) = self.validate_block {
            spoil(answer, input);
        }
        self.number(answer[0])
    }

    fn validate(&self, under: Under, file: &[u8], answer: &mut Answer) -> u64 {
        Linked.validate(under, file, answer);
        if let Some(spoil) = self.validate {
            spoil(answer, file);
        }
        self.number(answer[0])
    }

    fn encode(
        &self,
        under: Under,
        columns: &Columns,
        stamp: Stamp,
        out: &mut [u8],
        answer: &mut Answer,
    ) -> u64 {
        Linked.encode(under, columns, stamp, out, answer);
        if let Some(spoil) = self.encode {
            spoil(answer, out);
        }
        self.number(answer[0])
    }

    fn section(&self, input: &[u8], number: u64, answer: &mut Answer) -> u64 {
        Linked.section(input, number, answer);
        if let Some(spoil) = self.section {
            spoil(answer, number);
        }
        self.number(answer[0])
    }

    fn block_length(&self, input: &[u8]) -> u64 {
        let length = Linked.block_length(input);
        self.block_length.map_or(length, |spoil| spoil(length))
    }

    fn block_id(&self, input: &[u8]) -> u64 {
        let id = Linked.block_id(input);
        self.block_id.map_or(id, |spoil| spoil(id))
    }
}

const SEED: u64 = 5;

fn found(stock: &Stock, library: &dyn Library, count: u64) -> Option<Finding> {
    let settings = Settings { seed: SEED, first: 0, count, threads: 2, say: false };
    run(library, stock, settings, |_| {}).0
}

/// The wrong library is found out in a call, by a difference whose description has these words.
fn expect(stock: &Stock, wrong: Wrong, call: &str, what: &str) {
    let finding = found(stock, &wrong, 20_000).unwrap_or_else(|| panic!("{call}, {what}: missed"));
    assert_eq!(finding.disagreement.call, call, "{:?}", finding.disagreement);
    assert!(finding.disagreement.what.contains(what), "{:?}", finding.disagreement);
    let text = report(&wrong, SEED, &finding);
    for part in [
        format!("case {} of seed {SEED}", finding.number),
        format!("CASE={}", finding.number),
        format!("call      {call}, "),
        "  reference ".to_string(),
        "made smaller:".to_string(),
    ] {
        assert!(text.contains(&part), "{part} is missing in\n{text}");
    }
}

fn accepted(answer: &Answer) -> bool {
    answer[0] == 0
}

/// The entries of the first record of an accepted block with reads.
fn first_count(input: &[u8]) -> u8 {
    let dna = second::section(input, 0);
    let perfect = dna[0] >= 0x80;
    if perfect {
        0
    } else {
        dna[4] >> 3
    }
}

#[test]
fn nothing_is_found_in_what_is_right() {
    assert!(found(&Stock::new(), &Wrong::default(), 2_000).is_none());
}

/// Each slot of each call, also those that are not used.
#[test]
fn slots() {
    let stock = &Stock::new();
    let decode: [SpoilDecode; 11] = [
        |answer, _| answer[0] += (answer[0] == 17) as u64,
        |answer, _| answer[0] -= (answer[0] == 40) as u64,
        |answer, _| answer[1] += (answer[0] == 12) as u64,
        |answer, _| answer[2] += (answer[0] == 13) as u64,
        |answer, _| answer[3] += accepted(answer) as u64,
        |answer, _| answer[7] += accepted(answer) as u64,
        // A library of four counts, one that counts a block's reads with 31 entries once, one that
        // leaves top in a refusal.
        |answer, _| answer[8] = 0,
        |answer, _| answer[8] = answer[8].min(1),
        |answer, _| answer[8] += (answer[0] == 22) as u64,
        |answer, _| answer[9] = 1,
        |answer, _| answer[15] = 1,
    ];
    for spoil in decode {
        expect(stock, Wrong { decode: Some(spoil), ..Wrong::default() }, "decode", "slots");
    }
    let judge: [SpoilJudge; 14] = [
        |answer, _| answer[0] += (answer[0] == 8) as u64,
        |answer, _| answer[2] += (answer[0] == 20) as u64,
        |answer, _| answer[2] += (answer[0] == 40) as u64,
        |answer, _| answer[3] += accepted(answer) as u64,
        |answer, _| answer[4] += (answer[0] == 9) as u64,
        |answer, _| answer[5] += accepted(answer) as u64,
        |answer, _| answer[6] -= (answer[6] == 31) as u64,
        |answer, _| answer[8] = 0,
        |answer, _| answer[8] = 1,
        |answer, _| answer[8] = answer[8].min(1),
        |answer, _| answer[8] += (answer[0] == 17) as u64,
        // A first record of 30 entries counts too.
        |answer, input| {
            let first = accepted(answer) && answer[4] > 0;
            answer[8] += (first && first_count(input) == 30) as u64
        },
        // A first record of 31 entries does not count where one of its letters is an N.
        |answer, input| {
            let with_n = accepted(answer) && answer[4] > 0 && second::section(input, 5)[0] >= 0x80;
            answer[8] -= (with_n && first_count(input) == 31) as u64
        },
        |answer, _| answer[9] = 1,
    ];
    for spoil in judge {
        let wrong = Wrong { validate_block: Some(spoil), ..Wrong::default() };
        expect(stock, wrong, "validate_block", "slots");
    }
    let judge_file: [SpoilJudge; 7] = [
        |answer, file| answer[3] += file.is_empty() as u64,
        |answer, _| answer[1] -= (answer[1] > 0) as u64,
        |answer, _| answer[3] += answer[1],
        |answer, _| answer[8] = 0,
        |answer, _| answer[8] = answer[8].min(1),
        // Left in a refusal after the first block.
        |answer, _| answer[8] += (answer[1] > 0) as u64,
        |answer, _| answer[9] = 1,
    ];
    for spoil in judge_file {
        let wrong = Wrong { validate: Some(spoil), ..Wrong::default() };
        expect(stock, wrong, "validate", "slots");
    }
    let write: [SpoilEncode; 5] = [
        |answer, _| answer[0] += (answer[0] == 32) as u64,
        |answer, _| answer[0] -= (answer[0] == 41) as u64,
        |answer, _| answer[3] -= accepted(answer) as u64,
        |answer, _| answer[4] += accepted(answer) as u64,
        |answer, _| answer[8] += accepted(answer) as u64,
    ];
    for spoil in write {
        expect(stock, Wrong { encode: Some(spoil), ..Wrong::default() }, "encode", "slots");
    }
    let tell: [SpoilSection; 4] = [
        |answer, number| answer[3] += (number == 5 && answer[4] != 0) as u64,
        |answer, _| answer[4] += (answer[4] != 0) as u64,
        |answer, number| answer[3] += (number > 8) as u64,
        |answer, _| answer[8] = 1,
    ];
    for spoil in tell {
        expect(stock, Wrong { section: Some(spoil), ..Wrong::default() }, "section", "slots");
    }
}

#[test]
fn returned_numbers() {
    let stock = &Stock::new();
    let returned: Option<fn(u64) -> u64> = Some(|number| if number == 22 { 21 } else { number });
    expect(stock, Wrong { returned, ..Wrong::default() }, "decode", "returned number");
    let block_id: Option<fn(u64) -> u64> = Some(|id| id & 0xFFFF_FFFF);
    expect(stock, Wrong { block_id, ..Wrong::default() }, "block_id", "b_id");
    let block_length: Option<fn(u64) -> u64> = Some(|length| length.min(121));
    expect(stock, Wrong { block_length, ..Wrong::default() }, "block_length", "length");
}

/// What is written, what lies past it, and what a refusal leaves.
#[test]
fn buffers() {
    let stock = &Stock::new();
    let decode: [(&str, SpoilDecode); 13] = [
        ("letters", |answer, to| {
            if accepted(answer) && answer[5] > 0 {
                to.letters[answer[5] as usize - 1] = b'a';
            }
        }),
        ("letters", |answer, to| {
            if accepted(answer) {
                to.letters.iter_mut().skip(answer[5] as usize).for_each(|letter| *letter = 0);
            }
        }),
        ("letters", |answer, to| {
            if answer[0] == 22 {
                to.letters.iter_mut().take(1).for_each(|letter| *letter = b'A');
            }
        }),
        ("ends", |answer, to| {
            if accepted(answer) && answer[4] > 1 {
                to.ends[1] += 1;
            }
        }),
        ("ends", |answer, to| {
            if accepted(answer) {
                to.ends.iter_mut().skip(answer[4] as usize).for_each(|end| *end = 0);
            }
        }),
        ("ends", |answer, to| {
            if answer[0] == 22 {
                to.ends.iter_mut().take(1).for_each(|end| *end = 0);
            }
        }),
        // A byte of a name, or of names that stay unread.
        ("names", |answer, to| {
            if accepted(answer) {
                to.names.iter_mut().take(1).for_each(|byte| *byte ^= 1);
            }
        }),
        ("names", |answer, to| {
            if accepted(answer) {
                let ends = to.name_ends.iter().take(answer[4] as usize);
                let length = ends.copied().max().unwrap_or(0);
                to.names.iter_mut().skip(length as usize).for_each(|byte| *byte = 0);
            }
        }),
        ("names", |answer, to| {
            if answer[0] == 22 || answer[0] == 40 {
                to.names.iter_mut().take(1).for_each(|byte| *byte = b'A');
            }
        }),
        ("name_ends", |answer, to| {
            if accepted(answer) {
                to.name_ends.iter_mut().take(2).skip(1).for_each(|end| *end ^= 1);
            }
        }),
        ("name_ends", |answer, to| {
            if accepted(answer) {
                to.name_ends.iter_mut().skip(answer[4] as usize).for_each(|end| *end = 0);
            }
        }),
        ("name_ends", |answer, to| {
            if answer[0] == 22 {
                to.name_ends.iter_mut().take(1).for_each(|end| *end = 0);
            }
        }),
        ("name_ends", |answer, to| {
            if answer[0] == 40 {
                to.name_ends.iter_mut().take(1).for_each(|end| *end = 0);
            }
        }),
    ];
    for (what, spoil) in decode {
        expect(stock, Wrong { decode: Some(spoil), ..Wrong::default() }, "decode", what);
    }
    let write: [SpoilEncode; 3] = [
        |answer, out| {
            if accepted(answer) {
                out[64] = 41;
            }
        },
        |answer, out| {
            if accepted(answer) {
                out.iter_mut().skip(answer[3] as usize).take(1).for_each(|byte| *byte = 0);
            }
        },
        |answer, out| {
            if answer[0] == 34 {
                out.iter_mut().take(2).for_each(|byte| *byte = 0x49);
            }
        },
    ];
    for spoil in write {
        expect(stock, Wrong { encode: Some(spoil), ..Wrong::default() }, "encode", "out");
    }
}

/// Wrong only on blocks that are seldom drawn.
#[test]
fn rare_blocks() {
    let stock = &Stock::new();
    let rare: [SpoilJudge; 8] = [
        // A read of more than 65,535 letters.
        |answer, _| answer[7] += (answer[4] == 1 && answer[5] > 65_535) as u64,
        // A block of 50,000 reads.
        |answer, _| answer[6] += (answer[4] == 50_000) as u64,
        // A block length above 32 bits.
        |answer, input| {
            if answer[0] == 8 && input[9] >= 0x80 && input[13] >= 0x80 {
                answer[0] = 12;
            }
        },
        // A first read that is reverse local and ends at base 0, but starts below it.
        |answer, input| {
            let dna = second::section(input, 0);
            let turned = answer[0] == 15 && answer[2] == 0 && dna[0] < 0x80 && dna[1] < 0x80;
            let at_0 = turned && dna[3] < 0x80 && dna[4] & 7 == 0 && dna[5..9] == [0; 4];
            answer[0] += at_0 as u64
        },
        // Names of 255 tokens.
        |answer, input| {
            let names = second::section(input, 1);
            answer[3] += (accepted(answer) && names.starts_with(&[255, 0, 0, 0])) as u64
        },
        // A start of -1.
        |answer, input| {
            let negative = input.windows(8).any(|bytes| bytes == [0xFF; 8]);
            answer[0] += (answer[0] == 40 && negative) as u64
        },
        // Names that stay unread and could be refused.
        |answer, input| {
            let unread = accepted(answer) && input[42] & 8 == 0;
            answer[0] += 40 * (unread && !second::section(input, 1).is_empty()) as u64
        },
        // A negative l_read.
        |answer, input| {
            answer[0] += (answer[0] == 9 && input[42] & 1 == 1 && input[49] >= 0x80) as u64
        },
    ];
    for spoil in rare {
        let wrong = Wrong { validate_block: Some(spoil), ..Wrong::default() };
        let finding = found(stock, &wrong, 50_000).expect("missed");
        assert_eq!(finding.disagreement.call, "validate_block");
    }
}
