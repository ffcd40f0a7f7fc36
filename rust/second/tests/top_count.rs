//! Property: a block's fifth count is the number of reads "whose record has
//! exactly 31 entries" (02, Ticket 4), in every call that gives counts and at
//! the end of the listing's block line. Catches: fillers left out of the 31;
//! entries under an N left out; 30 entries counted; more than 31 asked for; a
//! raw read counted, for its differences or for the record before it; a kind, a
//! strand or a group left out; the count missing from a file's sum, taken from
//! one of its blocks, or not modulo 2^64; not 0 in a refusal; told by the
//! writer; a block line without it or in another form.

mod common;
use common::*;
use second::blocks::read_block;
use second::cases_top::{self, top_blocks, top_by_hand, top_call};
use second::corpus::{Case, FILL};
use second::files::with_block;
use second::generator::generate_reference;
use second::listing::listing;
use second::prng::Prng;
use second::proposals::{random_proposal, EncodeCall, Proposal};
use second::reference::Reference;
use second::*;

/// ACGT forty times.
const BASES: u64 = 160;
const REFERENCE: [u8; 40] = [0x1B; 40];

/// Three reads of 40 letters. The first has 31 entries, of which eight are
/// fillers and 23 are not; one of these stands under the N at 5, a filler under
/// the N at 8. The second has 30 entries, all differences. The third is raw and
/// has another letter than the reference at all its places.
fn three_reads() -> Vec<u8> {
    let dna = [
        &[0x00, 0xC0, 0x80, 0x00][..], // Perfect, Forward, with-N, pos_t
        &[0xFC, 0, 0, 0, 0],           // global, 31 entries, at 0
        &[0x00, 0x06, 0x07, 0x04],     // A at 0, a filler; G, T, A
        &[0x04, 0x06, 0x07, 0x04].repeat(6),
        &[0x04, 0x06, 0x07],
        &[2, 5, 0, 3, 0],          // N at 5 and 8
        &[0xF4, 4, 0, 0, 0],       // global, 30 entries, at 4
        &[0x01, 0x06, 0x07, 0x04], // C at 0, then G, T, A
        &[0x05, 0x06, 0x07, 0x04].repeat(6),
        &[0x05, 0x06],
        &[0x02], // raw
        &[0x6C; 10],
    ];
    Hand::same(40, 3, &dna.concat(), &[0x80]).bytes()
}

/// What the three reads give: 31 and 30 entries, 22 and 30 differences.
const THREE_READS: [u64; 5] = [3, 120, 61, 52, 1];

/// Label, reads and counts.
fn told() -> Vec<(&'static str, Vec<String>, [u64; 5])> {
    let text = |head: &str, four: &str, times: usize, tail: &str| {
        format!("{head}{}{tail}", four.repeat(times))
    };
    let three = vec![
        text("AGTAANTANGTA", "AGTA", 4, "AGTTACGTACGT"),
        text("", "CGTA", 7, "CGGTACGTACGT"),
        "CGTA".repeat(10),
    ];
    let kinds = vec![
        text("CC", "AGTA", 7, "AGTGGG"),
        text("", "TCGT", 7, "TCGGTACG"),
        text("", "CTAC", 7, "CTAGGGGG"),
        "ACGT".repeat(9),
        "N".repeat(36),
    ];
    let no_differences = vec![text("", "ACGT", 7, "ACG"), "N".repeat(31)];
    let mut groups = vec!["A".to_string(); 9];
    groups[0] = text("", "CGTA", 7, "CGT");
    groups[8] = groups[0].clone();
    vec![
        ("31 entries, 30 entries, raw", three, THREE_READS),
        ("31 entries in every kind that has them", kinds, [5, 180, 93, 69, 3]),
        ("31 fillers, 31 entries under N", no_differences, [2, 62, 62, 0, 2]),
        ("31 entries in both groups", groups, [9, 69, 62, 62, 2]),
    ]
}

#[test]
fn blocks_that_are_read() {
    let (decoded, judged) = (Cases::of("decode"), Cases::of("validate_block"));
    for (label, reads, counts) in told() {
        let case = decoded.labelled(label);
        let expected = accepted(case.input.len() as u64, counts);
        assert_eq!(run_decode(case), (expected, reads), "{label}");
        let Case { call, input, .. } = judged.labelled(label);
        assert_eq!(validate_block(call.bases, &call.reference, input), expected, "{label}");
    }
    assert_eq!(decoded.labelled("31 entries, 30 entries, raw").input, three_reads());
}

/// 14 at the read after the one of 31 entries; 22 for a letter too few.
#[test]
fn blocks_that_are_refused() {
    let (decoded, judged) = (Cases::of("decode"), Cases::of("validate_block"));
    let label = "31 entries, then a flag byte of 3";
    let refused = refusal(RECORD_FLAG_INVALID, 0, 1);
    assert_eq!(run_decode(decoded.labelled(label)), (refused, Vec::new()));
    let Case { call, input, .. } = judged.labelled(label);
    assert_eq!(validate_block(call.bases, &call.reference, input), refused);

    let case = decoded.labelled("31 entries, one letter short");
    assert_eq!(run_decode(case), (refusal(CAPACITY_TOO_SMALL, 0, 0), Vec::new()));
    assert_eq!(case.input, three_reads());
}

/// None is left out above.
#[test]
fn every_block_is_told_of() {
    let mut labels: Vec<&str> = told().iter().map(|row| row.0).collect();
    labels.push("31 entries, then a flag byte of 3");
    let inputs = top_by_hand();
    assert_eq!(inputs.iter().map(|input| &input.label[..]).collect::<Vec<_>>(), labels);
    assert_eq!((cases_top::BASES, cases_top::REFERENCE), (BASES, REFERENCE));
}

/// "file sums included". After a block that counts, a refusal still has none.
#[test]
fn files() {
    let cases = Cases::of("validate");
    let judged = |label| {
        let Case { call, input, .. } = cases.labelled(label);
        validate(call.bases, &call.reference, input)
    };
    let two_blocks = |counts| Outcome { blocks: 2, ..accepted(0, counts) };
    assert_eq!(judged("31 entries, twice"), two_blocks([6, 240, 122, 104, 2]));
    assert_eq!(judged("31 entries, three times and once"), two_blocks([8, 300, 154, 121, 4]));
    let refused = refusal(RECORD_FLAG_INVALID, 1, 1);
    assert_eq!(judged("31 entries, then a refused block"), refused);
    // The first block alone, and the file cut inside the second.
    let file = three_reads().repeat(2);
    let one = Outcome { blocks: 1, ..accepted(0, THREE_READS) };
    assert_eq!(validate(BASES, &REFERENCE, &file[..213]), one);
    assert_eq!(validate(BASES, &REFERENCE, &file[..425]), refusal(SECTIONS_TRUNCATED, 1, 0));
}

/// "each count's sum modulo 2^64": no file is long enough, so two are added by
/// hand.
#[test]
fn the_sum_is_taken_modulo_2_to_the_64() {
    let top = |top| accepted(0, [0, 0, 0, 0, top]);
    let added = |sums, count| with_block(top(sums), top(count)).top;
    assert_eq!(added(u64::MAX, 0), u64::MAX);
    assert_eq!(added(u64::MAX, 1), 0);
    assert_eq!(added(u64::MAX - 1, 4), 2);
    assert_eq!(with_block(top(u64::MAX), top(1)), Outcome { blocks: 1, ..top(0) });
}

/// One read of 40 aligned letters at 100, with so many entries A at 0, 1, 2 and
/// so on, every fourth of them a filler.
fn one_read(count: u8, is_local: bool, forward: bool, n_list: &[u8]) -> Vec<u8> {
    let with_n = if n_list.is_empty() { 0 } else { 0x80 };
    let mut dna = vec![0, if forward { 0x80 } else { 0 }, with_n, 0];
    dna.push(count << 3 | if is_local { 0 } else { 4 });
    dna.extend([100, 0, 0, 0]);
    dna.extend((0..count).map(|place| if place == 0 { 0 } else { 4 }));
    if is_local {
        dna.extend([1, 1, 0x10]);
    }
    dna.extend(n_list);
    Hand::same(if is_local { 42 } else { 40 }, 1, &dna, &[with_n]).bytes()
}

/// 31 and no other number counts, in both kinds that have entries, on both
/// strands, without an N, with one, and with an N over each of the first 31.
#[test]
fn every_number_of_entries() {
    let many = [&[31, 0, 0][..], &[1, 0].repeat(30)].concat();
    for n_list in [&[][..], &[1, 5, 0], &many] {
        for (is_local, forward) in [(false, true), (false, false), (true, true), (true, false)] {
            // A global record has an entry at least.
            for count in !is_local as u8..=31 {
                let block = one_read(count, is_local, forward, n_list);
                let judged = validate_block(BASES, &REFERENCE, &block);
                assert_eq!((judged.number, judged.entries), (0, count as u64));
                assert!(judged.differences <= (count - count / 4) as u64);
                assert_eq!(judged.top, (count == 31) as u64, "{count} {is_local} {forward}");
                let file = validate(BASES, &REFERENCE, &block);
                assert_eq!(file, Outcome { blocks: 1, length: 0, ..judged });
            }
        }
    }
}

/// The writer: 28 differences, two fillers and one difference; 30 differences;
/// 40, which make the read raw; 31 in a reverse local read; 31 around an N. It
/// tells no count; what it wrote has three reads of 31 entries.
#[test]
fn what_is_written() {
    let cases = Cases::of("encode");
    let (label, made) = top_call();
    let call = &cases.labelled(&label).call;
    assert_eq!(call.letters, made.letters);
    let mut out = vec![FILL; call.capacity];
    let outcome = call.run(&mut out);
    assert_eq!(outcome, accepted(outcome.length, [0; 5]));
    let dna = [
        &[0x00, 0xC8, 0x08, 0xD0][..], // Perfect, Forward, with-N, pos_t
        &[0xFC, 0, 0],                 // global, 31 entries, step 0
        &[0x01, 0x06, 0x07, 0x04],     // C at 0, then G, T, A
        &[0x05, 0x06, 0x07, 0x04].repeat(6),
        &[0xFE, 0xFD, 0x07], // fillers G at 90, C at 153; T at 154
        &[0xF4, 0, 0],       // global, 30 entries, step 0
        &[0x01, 0x06, 0x07, 0x04],
        &[0x05, 0x06, 0x07, 0x04].repeat(6),
        &[0x05, 0x06],
        &[0x02], // raw
        &[0x6C; 10],
        &[0xF8, 130, 0],           // local, 31 entries, step 130
        &[0x02, 0x07, 0x04, 0x05], // G at 0, then T, A, C
        &[0x06, 0x07, 0x04, 0x05].repeat(6),
        &[0x06, 0x07, 0x04],
        &[1, 1, 0x10],                               // clips A and C
        &[0xFC, 0, 0, 0, 0],                         // global, 31 entries, back at 0
        &[0x01, 0x06, 0x07, 0x04, 0x05, 0x06, 0x07], // up to 6
        &[0x09, 0x06, 0x07, 0x04],                   // from 8
        &[0x05, 0x06, 0x07, 0x04].repeat(5),         // up to 31
        &[1, 7, 0],                                  // N at 7
    ];
    assert_eq!(section(&out, 0), dna.concat());
    let judged = validate_block(call.bases, &call.reference, &out);
    assert_eq!(judged, accepted(outcome.length, [5, 300, 123, 121, 3]));
}

/// "The listing's block line ends with `top` and the number".
#[test]
fn the_block_line() {
    let reference_file = [&BASES.to_le_bytes()[..], &REFERENCE].concat();
    let blocks = told();
    let lines = |index: usize| {
        let (_, reads, [count, letters, entries, differences, top]) = &blocks[index];
        let line = format!("reads {count} letters {letters} entries {entries}");
        format!("block 7 {line} differences {differences} top {top}\n{}\n", reads.join("\n"))
    };
    assert!(lines(0).starts_with("block 7 reads 3 letters 120 entries 61 differences 52 top 1\n"));
    let text = [lines(0), lines(1), lines(2), "end blocks 3\n".to_string()].concat();
    assert_eq!(listing(&reference_file, &top_blocks()), text);
    let cut = [three_reads(), three_reads()[..200].to_vec()].concat();
    assert_eq!(listing(&reference_file, &cut), format!("{}refused 8 1 0\n", lines(0)));
}

/// Random reads of 40 to 400 letters, as the writer writes them, with 30 and
/// with 31 entries.
#[test]
fn random_reads() {
    let mut rng = Prng::new(111);
    let mut met = [0; 2];
    for _ in 0..500 {
        let plan = generate_reference(&mut rng, 700);
        let lengths: Vec<u64> = (0..12).map(|_| rng.range(40, 400)).collect();
        let proposal = |&length: &u64| random_proposal(&mut rng, &plan, length);
        let proposals: Vec<Proposal> = lengths.iter().map(proposal).collect();
        let call = EncodeCall::new(&plan, &proposals, 1, 2);
        let mut out = vec![0; call.capacity];
        assert_eq!(call.run(&mut out).top, 0);
        let reference = Reference::new(plan.bases, &plan.bytes).unwrap();
        let records = read_block(&reference, &out).unwrap().records;
        let with =
            [30, 31].map(|count| records.iter().filter(|r| r.entries().len() == count).count());
        let judged = validate_block(plan.bases, &plan.bytes, &out);
        assert_eq!((judged.number, judged.top), (0, with[1] as u64));
        met = [met[0] + with[0], met[1] + with[1]];
    }
    assert!(met.iter().all(|&count| count > 50), "{met:?}");
}
