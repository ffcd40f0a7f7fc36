//! Property: the encoder's block is, byte for byte, the one that 01's fixed
//! rule names; the rule is worked out here a second time, on ASCII letters.
//! Catches: another choice of kind, fillers at other steps, another position
//! stored, pos_t or size bits set otherwise, a column of names in another
//! coding, header fields that should be 0.

use second::generator::{generate_reference, ReferencePlan};
use second::prng::Prng;
use second::proposals::{random_call, stepping_call, EncodeCall};

/// One read's record and its four bits, and the position that is stored.
struct Written {
    bits: [bool; 4],
    bytes: Vec<u8>,
    position: Option<i64>,
}

fn reverse_complement(letters: &[u8]) -> Vec<u8> {
    let text = String::from_utf8(letters.to_vec()).unwrap();
    text.chars()
        .rev()
        .map(|c| match c {
            'A' => b'T',
            'C' => b'G',
            'G' => b'C',
            _ => b'A',
        })
        .collect()
}

fn bits_text(letters: &[u8], width: usize) -> Vec<u8> {
    let code = |letter: &u8| "ACGTN".find(*letter as char).unwrap();
    let mut text: String =
        letters.iter().map(|letter| format!("{:0width$b}", code(letter))).collect();
    while text.len() % 8 != 0 {
        text.push('0');
    }
    text.as_bytes()
        .chunks(8)
        .map(|eight| u8::from_str_radix(std::str::from_utf8(eight).unwrap(), 2).unwrap())
        .collect()
}

fn words(value: usize) -> Vec<u8> {
    let mut words = [0x00, 0x80].repeat(value / 32768);
    words.extend(((value % 32768) as u16).to_le_bytes());
    words
}

fn n_list(places: &[usize]) -> Vec<u8> {
    let mut bytes = Vec::new();
    for (index, &place) in places.iter().enumerate() {
        if index == 0 {
            bytes.push(places.len() as u8);
        }
        bytes.extend(words(place - if index == 0 { 0 } else { places[index - 1] }));
    }
    bytes
}

/// The entries of the rule, or None where more than 31 are needed.
fn entries(read: &[u8], given: &[u8]) -> Option<Vec<u8>> {
    let differing = (0..read.len()).filter(|&at| read[at] != b'N' && read[at] != given[at]);
    let mut steps: Vec<(usize, usize, u8)> = Vec::new();
    let mut from = 0;
    for at in differing {
        // Fillers at from+63, from+126, ...; 02, Ticket 3: "(d+62)/63 rounded
        // down, less 1", "none where the gap is 0".
        let fillers = ((at - from + 62) / 63).saturating_sub(1);
        for filler in 1..=fillers {
            steps.push((from + 63 * (filler - 1), from + 63 * filler, given[from + 63 * filler]));
        }
        steps.push((from + 63 * fillers, at, read[at]));
        from = at;
    }
    let byte = |&(from, at, letter): &(usize, usize, u8)| {
        ((at - from) * 4 + "ACGT".find(letter as char).unwrap()) as u8
    };
    (steps.len() <= 31).then(|| steps.iter().map(byte).collect())
}

fn record(reference: &[u8], call: &EncodeCall, index: usize, previous: i64) -> Written {
    let start = if index == 0 { 0 } else { call.ends[index - 1] as usize };
    let read = &call.letters[start..call.ends[index] as usize];
    let n_places: Vec<usize> = (0..read.len()).filter(|&at| read[at] == b'N').collect();
    let with_n = !n_places.is_empty();
    if n_places.len() > 31 {
        let bytes = [vec![1], bits_text(read, 4)].concat();
        return Written { bits: [false, false, true, false], bytes, position: None };
    }
    let hidden: Vec<u8> = read.iter().map(|&c| if c == b'N' { b'A' } else { c }).collect();
    let raw = || Written {
        bits: [false, false, with_n, false],
        bytes: [vec![2], bits_text(&hidden, 2), n_list(&n_places)].concat(),
        position: None,
    };
    let (left, right) = (call.lefts[index] as usize, call.rights[index] as usize);
    let strand = call.strands[index];
    if (strand != 1 && strand != 2) || left + right >= read.len() {
        return raw();
    }
    let position = call.positions[index] as usize;
    let Some(stretch) = reference.get(position..position + read.len() - left - right) else {
        return raw();
    };
    let given = if strand == 1 { stretch.to_vec() } else { reverse_complement(stretch) };
    let Some(entries) = entries(&read[left..read.len() - right], &given) else { return raw() };

    let perfect = left + right == 0 && entries.is_empty();
    let mut bytes = Vec::new();
    if !perfect {
        bytes.push(entries.len() as u8 * 8 + if left + right == 0 { 4 } else { 0 });
    }
    // 02, Ticket 2: a reverse local read has its highest index stored.
    let aligned = read.len() - left - right;
    let moves = strand == 2 && left + right > 0;
    let stored = position as i64 + if moves { aligned as i64 - 1 } else { 0 };
    let step = stored - previous;
    let pos_t = (0..=65_535).contains(&step);
    let field = if pos_t { step } else { stored };
    bytes.extend(&field.to_le_bytes()[..if pos_t { 2 } else { 4 }]);
    bytes.extend(entries);
    if left + right > 0 {
        bytes.extend([left as u8, right as u8]);
        let ends = [&hidden[..left], &hidden[read.len() - right..]].concat();
        bytes.extend(bits_text(&ends, 2));
    }
    bytes.extend(n_list(&n_places));
    Written { bits: [perfect, strand == 1, with_n, pos_t], bytes, position: Some(stored) }
}

fn sizes(lengths: &[usize]) -> Vec<u8> {
    let mut bytes = Vec::new();
    for first in (0..lengths.len()).step_by(8) {
        let group = first..lengths.len().min(first + 8);
        let same = |read: usize| read > 0 && lengths[read] == lengths[read - 1];
        let one = |read: usize| !same(read) && lengths[read] < 256;
        let byte = |bit: &dyn Fn(usize) -> bool| {
            group
                .clone()
                .map(|read| if bit(read) { 0x80u8 >> (read - first) } else { 0 })
                .sum::<u8>()
        };
        bytes.extend([byte(&same), byte(&one)]);
        for read in group.clone() {
            if one(read) {
                bytes.push(lengths[read] as u8);
            } else if !same(read) {
                bytes.extend(words(lengths[read]));
            }
        }
    }
    bytes
}

/// The names section of the rule, told apart by text: a number is written as
/// it is printed.
fn names_section(call: &EncodeCall) -> Vec<u8> {
    let text = String::from_utf8(call.names.clone()).unwrap();
    let mut rows: Vec<Vec<String>> = Vec::new();
    for (read, &end) in call.name_ends.iter().enumerate() {
        let start = if read == 0 { 0 } else { call.name_ends[read - 1] };
        let mut row: Vec<String> = Vec::new();
        for c in text[start as usize..end as usize].chars() {
            let digit = |token: &String| token.ends_with(|last: char| last.is_ascii_digit());
            match row.last_mut().filter(|token| digit(token) == c.is_ascii_digit()) {
                Some(token) => token.push(c),
                None => row.push(c.to_string()),
            }
        }
        rows.push(row);
    }
    let Some(tokens) = rows.first().map(|row| row.len()) else { return Vec::new() };
    let (mut types, mut sizes, mut sets) = (Vec::new(), Vec::new(), Vec::new());
    for token in 0..tokens {
        let column: Vec<&str> = rows.iter().map(|row| row[token].as_str()).collect();
        let (kind, set) = match numbers(&column) {
            Some(numbers) => rising_set(&numbers),
            None => (0, column.join("\0").into_bytes().into_iter().chain([0]).collect()),
        };
        types.push(kind);
        sizes.extend((set.len() as u64).to_le_bytes());
        sets.extend(set);
    }
    [(tokens as u32).to_le_bytes().to_vec(), types, sizes, sets].concat()
}

/// Numbers of a column that is not written as strings.
fn numbers(column: &[&str]) -> Option<Vec<i128>> {
    let mut numbers: Vec<i128> = Vec::new();
    for token in column {
        let number: i128 = if token.len() <= 18 { token.parse().ok()? } else { return None };
        let step = number - numbers.last().unwrap_or(&number);
        if number.to_string() != *token || !(0..1 << 32).contains(&step) {
            return None;
        }
        numbers.push(number);
    }
    Some(numbers)
}

fn rising_set(numbers: &[i128]) -> (u8, Vec<u8>) {
    let steps: Vec<i128> = numbers.windows(2).map(|pair| pair[1] - pair[0]).collect();
    let fits = |bits: u32| steps.iter().all(|&step| step < 1 << bits);
    let (kind, width) = if fits(8) {
        (4, 1)
    } else if fits(16) {
        (3, 2)
    } else {
        (5, 4)
    };
    let mut set = numbers[0].to_le_bytes()[..8].to_vec();
    for step in steps {
        set.extend(&step.to_le_bytes()[..width]);
    }
    (kind, set)
}

fn expected_block(reference: &ReferencePlan, call: &EncodeCall) -> Vec<u8> {
    let reads = call.ends.len();
    let (mut dna, mut n_section, mut previous) = (Vec::new(), Vec::new(), 0);
    for first in (0..reads).step_by(8) {
        let mut group = [0u8; 4];
        let mut records = Vec::new();
        for index in first..reads.min(first + 8) {
            let written = record(&reference.letters, call, index, previous);
            for (byte, set) in group.iter_mut().zip(written.bits) {
                *byte += if set { 0x80 >> (index - first) } else { 0 };
            }
            previous = written.position.unwrap_or(previous);
            records.extend(written.bytes);
        }
        dna.extend(group);
        dna.extend(records);
        n_section.push(group[2]);
    }
    let lengths: Vec<usize> = (0..reads)
        .map(|read| (call.ends[read] - if read == 0 { 0 } else { call.ends[read - 1] }) as usize)
        .collect();
    let equal = reads > 0 && lengths.iter().all(|&length| length == lengths[0]);
    let sizes = if equal { Vec::new() } else { sizes(&lengths) };
    let u32s = |values: &[usize]| {
        values.iter().flat_map(|&value| (value as u32).to_le_bytes()).collect::<Vec<u8>>()
    };
    let mut block = vec![0x49, 0x7C];
    let names = names_section(call);
    let lengths_of = [dna.len(), names.len(), 0, 0, sizes.len(), n_section.len(), 0, 0, 0];
    block.extend(u32s(&[121]));
    block.extend(u32s(&lengths_of));
    block.extend(u32s(&[if equal { 9 } else { 8 }, if equal { lengths[0] } else { 0 }, reads]));
    block.extend(20505u16.to_le_bytes());
    block.extend(call.b_id.to_le_bytes());
    block.extend([40, 0, 0, 0, 0]);
    block.extend(u32s(&[0, call.letters.len(), 0, 0, 0]));
    block.extend(call.c_time.to_le_bytes());
    block.extend([0; 24]);
    [block, dna, names, sizes, n_section].concat()
}

fn check(rng: &mut Prng, bases: u64, reads: u64, max_length: u64) {
    let reference = generate_reference(rng, bases);
    let call = random_call(rng, &reference, reads, max_length);
    check_call(&reference, &call);
}

fn check_call(reference: &ReferencePlan, call: &EncodeCall) {
    let mut out = vec![0; call.capacity];
    let outcome = call.run(&mut out);
    assert_eq!(outcome.number, 0);
    assert_eq!(out[..outcome.length as usize], expected_block(reference, call));
}

#[test]
fn small_reads() {
    let mut rng = Prng::new(31);
    for _ in 0..3000 {
        let bases = rng.pick(&[0, 1, 5, 12, 64, 200, 700, 3000]);
        let max_length = rng.pick(&[1, 5, 40, 300, 2500]);
        check(&mut rng, bases, 20, max_length);
    }
}

#[test]
fn long_reads() {
    let mut rng = Prng::new(32);
    for _ in 0..20 {
        check(&mut rng, 150_000, 4, 100_000);
    }
}

/// Steps around both ends of what two bytes hold. The stored step and the one
/// between lowest indices fall on different sides often.
#[test]
fn steps_of_reverse_local_reads() {
    let mut rng = Prng::new(33);
    let mut other_side = 0;
    for _ in 0..400 {
        let bases = rng.pick(&[1, 12, 40, 66_000, 140_000]);
        let reference = generate_reference(&mut rng, bases);
        let call = stepping_call(&mut rng, &reference, 30);
        check_call(&reference, &call);
        let stored = stored_positions(&call);
        for read in 1..stored.len() {
            let fits = |step: i64| (0..=65_535).contains(&step);
            let lowest = call.positions[read] as i64 - call.positions[read - 1] as i64;
            other_side += (fits(stored[read] - stored[read - 1]) != fits(lowest)) as u32;
        }
    }
    assert!(other_side > 500, "{other_side}");
}

/// What is stored for the reads of a call that are all placed.
fn stored_positions(call: &EncodeCall) -> Vec<i64> {
    let ends: Vec<i64> = call.ends.iter().map(|&end| end as i64).collect();
    (0..ends.len())
        .map(|read| {
            let length = ends[read] - if read == 0 { 0 } else { ends[read - 1] };
            let clipped = call.lefts[read] as i64 + call.rights[read] as i64;
            let moves = call.strands[read] == 2 && clipped > 0;
            call.positions[read] as i64 + if moves { length - clipped - 1 } else { 0 }
        })
        .collect()
}
