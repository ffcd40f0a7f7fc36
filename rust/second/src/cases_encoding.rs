//! Cases of the corpus that write: by hand around the fixed rule's edges,
//! random candidates, and the writer's refusals.

use crate::cases_by_hand::{BASES, REFERENCE};
use crate::cases_names::{named_calls, refused_calls};
use crate::cases_reverse::reverse_calls;
use crate::cases_top::top_call;
use crate::corpus::{stream, Case};
use crate::generator::{generate_reference, ReferencePlan};
use crate::name_faults::GIVEN_FAULTS;
use crate::prng::Prng;
use crate::proposals::{random_call, spoil_call, stepping_call, EncodeCall, Proposal};

/// The length of the block that a call makes.
fn block_length(call: &EncodeCall) -> usize {
    call.run(&mut vec![0; call.enough()]).length as usize
}

pub fn encode_cases() -> Vec<Case> {
    let rng = &mut stream("encode");
    let mut calls = calls_by_hand(rng);
    for index in 0..80 {
        let bases = rng.pick(&[0, 1, 12, 64, 130, 300, 300, 600, 600]);
        let reference = generate_reference(rng, bases);
        let max_length = rng.pick(&[1, 6, 40, 150, 400]);
        let max_reads = rng.pick(&[1, 3, 9, 12]);
        calls
            .push((format!("random {index}"), random_call(rng, &reference, max_reads, max_length)));
    }
    for index in 0..6 {
        let bases = rng.pick(&[1, 12, 64, 300]);
        let reference = generate_reference(rng, bases);
        calls.push((format!("steps {index}"), stepping_call(rng, &reference, 20)));
    }
    for (_, call) in &mut calls {
        call.capacity = block_length(call) + rng.pick(&[0, 1, 7, 40]);
    }
    calls.extend(ends_by_hand());
    for number in [1, 31, 32, 33, 34, 41] {
        calls.extend(spoiled_calls(rng, &[number], 6));
    }
    for numbers in [[1, 31], [31, 32], [31, 33], [31, 34], [32, 33], [32, 34], [33, 34], [1, 34]] {
        calls.extend(spoiled_calls(rng, &numbers, 2));
    }
    for numbers in [[1, 41], [31, 41], [32, 41], [33, 41], [34, 41]] {
        calls.extend(spoiled_calls(rng, &numbers, 2));
    }
    calls.extend(misnamed_calls(rng));
    calls.extend(written_by_hand());
    calls.extend(plain_calls_by_hand());
    calls.extend(named_calls());
    calls.extend(refused_calls());
    calls.extend(reverse_calls());
    calls.push(top_call());
    calls.iter().map(|(label, call)| Case::encoding(label, call)).collect()
}

fn spoiled_calls(rng: &mut Prng, numbers: &[u32], count: usize) -> Vec<(String, EncodeCall)> {
    let mut calls = Vec::new();
    while calls.len() < count {
        let reference = generate_reference(rng, 40);
        let mut call = random_call(rng, &reference, 9, 40);
        let length = block_length(&call);
        call.capacity = length + 5;
        if numbers.iter().all(|&number| spoil_call(&mut call, number, length, rng)) {
            calls.push((format!("faults {numbers:?}"), call));
        }
    }
    calls
}

/// Each of the faults of names.
fn misnamed_calls(rng: &mut Prng) -> Vec<(String, EncodeCall)> {
    let mut calls = Vec::new();
    for (label, fault) in GIVEN_FAULTS {
        let call = loop {
            let reference = generate_reference(rng, 12);
            let mut call = random_call(rng, &reference, 4, 9);
            call.capacity = block_length(&call);
            if fault(&mut call, rng).is_some() {
                break call;
            }
        };
        calls.push((format!("fault 41: {label}"), call));
    }
    calls
}

/// The reference of 01's sums.
pub fn sums_reference() -> ReferencePlan {
    let (letters, bytes) = (b"ACGTACGTTGCA".to_vec(), REFERENCE.to_vec());
    ReferencePlan { bases: BASES, letters, bytes }
}

/// A read with its candidate.
pub fn read(letters: &str, position: u32, strand: u8, left: u8, right: u8) -> Proposal {
    Proposal { letters: letters.as_bytes().to_vec(), position, strand, left, right }
}

fn calls_by_hand(rng: &mut Prng) -> Vec<(String, EncodeCall)> {
    let sums = sums_reference();
    let mut calls = Vec::new();
    let mut add = |label: &str, proposals: &[Proposal]| {
        calls.push((label.to_string(), EncodeCall::new(&sums, proposals, 7, 9)));
    };
    add("no reads", &[]);
    add("the listing's read", &[read("ACTT", 0, 1, 0, 0)]);
    add("reverse local with N", &[read("TAACN", 6, 2, 1, 1)]);
    add("reverse global", &[read("CTAC", 6, 2, 0, 0)]);
    add("N not compared", &[read("ANGN", 0, 1, 0, 0)]);
    add("raw with N", &[read("NACGT", 0, 0, 0, 0)]);
    add("31 N", &[read(&"N".repeat(31), 0, 1, 0, 0)]);
    add("32 N", &[read(&"N".repeat(32), 0, 1, 0, 0)]);
    add("33 N", &[read(&"N".repeat(33), 0, 1, 0, 0)]);
    add("local, no entries", &[read("AACGT", 0, 1, 1, 0)]);
    add("all N, placed", &[read("NNNN", 8, 2, 0, 0)]);
    add("position past the end", &[read("ACGT", 9, 1, 0, 0)]);
    add("position 2^32-1", &[read("ACGT", u32::MAX, 1, 0, 0)]);
    add("clips make the length", &[read("ACGT", 4, 1, 2, 2)]);
    add("clips one below the length", &[read("ACGT", 11, 1, 0, 3)]);
    add("clips 255 255", &[read("ACGT", 4, 1, 255, 255)]);
    let strands: Vec<Proposal> = (0..=255).map(|strand| read("ACGT", 4, strand, 0, 0)).collect();
    add("every strand byte", &strands);
    let clip = |left, right| read("ACGTACGT", 0, 1, left, right);
    let some = [0, 1, 2, 4, 6, 7, 8, 9, 128, 255];
    let clips: Vec<Proposal> =
        some.iter().flat_map(|&left| some.iter().map(move |&right| clip(left, right))).collect();
    add("clips around the length", &clips);
    for strand in [1, 2] {
        let places: Vec<Proposal> =
            (0..14).map(|position| read("ACGT", position, strand, 0, 0)).collect();
        add(&format!("every place, strand {strand}"), &places);
    }
    let mut steps = vec![read("ACGT", 4, 1, 0, 0), read("AAAA", 9, 0, 0, 0)];
    steps.extend(vec![read("ACGT", 0, 1, 0, 0); 6]);
    steps.push(read("TGCA", 8, 1, 0, 0));
    add("steps over raw and groups", &steps);
    let long = "A".repeat(256);
    add(
        "sizes 1 256 256 255",
        &[
            read("A", 0, 0, 0, 0),
            read(&long, 0, 0, 0, 0),
            read(&long, 0, 0, 0, 0),
            read(&long[1..], 0, 0, 0, 0),
        ],
    );
    add(
        "sizes 5 5 300",
        &[read("AAAAA", 0, 0, 0, 0), read("AAAAA", 0, 0, 0, 0), read(&"C".repeat(300), 0, 0, 0, 0)],
    );
    let mut sizes = vec![read("AA", 0, 0, 0, 0); 9];
    sizes.push(read("AAA", 0, 0, 0, 0));
    sizes.push(read("AA", 0, 0, 0, 0));
    add("sizes, same over a group's edge", &sizes);
    calls.extend(differences_by_hand(rng));
    calls.push(n_by_hand(rng));
    calls
}

/// 0, 1, 30, 31, 32 and 33 N, in front of, inside and behind a placed read.
fn n_by_hand(rng: &mut Prng) -> (String, EncodeCall) {
    let reference = generate_reference(rng, 45);
    let mut proposals = Vec::new();
    for count in [0, 1, 30, 31, 32, 33] {
        for (first, left) in [(0, 0), (5, 0), (45 - count, 0), (0, 3)] {
            let mut letters = reference.letters.clone();
            letters[first..first + count].fill(b'N');
            proposals.push(Proposal {
                letters,
                position: left,
                strand: 1,
                left: left as u8,
                right: 0,
            });
        }
    }
    ("0 to 33 N".to_string(), EncodeCall::new(&reference, &proposals, 5, 6))
}

/// Ends around the rule, each with one candidate a read and room enough.
fn ends_by_hand() -> Vec<(String, EncodeCall)> {
    let edges: &[(&str, &[u32])] = &[
        ("ACG", &[1, 3]),
        ("ACG", &[0, 3]),
        ("ACG", &[3, 3]),
        ("ACG", &[1, 1, 3]),
        ("ACG", &[2, 1, 3]),
        ("ACG", &[4, 3]),
        ("ACG", &[1, 2]),
        ("ACG", &[1, 4]),
        ("ACG", &[3]),
        ("ACG", &[]),
        ("", &[0]),
        ("", &[1]),
        ("", &[]),
        ("A", &[4_294_967_295]),
        ("A", &[100_001]),
        ("aCG", &[2]),
        ("ACg", &[3]),
    ];
    let reference = ReferencePlan { bases: 0, letters: Vec::new(), bytes: Vec::new() };
    let call = |&(letters, ends): &(&str, &[u32])| {
        let mut call = EncodeCall::new(&reference, &[], 1, 2);
        call.letters = letters.as_bytes().to_vec();
        call.ends = ends.to_vec();
        call.positions = vec![0; ends.len()];
        call.strands = vec![1; ends.len()];
        call.lefts = vec![0; ends.len()];
        call.rights = vec![0; ends.len()];
        call = call.named(&vec!["a"; ends.len()]);
        call.capacity = 170;
        (format!("letters {letters:?} ends {ends:?}"), call)
    };
    edges.iter().map(call).collect()
}

/// Calls whose blocks tests/writer_by_hand.rs has byte by byte. The room past
/// a block stays.
fn written_by_hand() -> Vec<(String, EncodeCall)> {
    let sums = sums_reference();
    let mut calls = Vec::new();
    let mut add = |label: &str, reference: &ReferencePlan, b_id, c_time, reads: &[Proposal]| {
        let mut call = EncodeCall::new(reference, reads, b_id, c_time);
        call.capacity = block_length(&call) + 7;
        calls.push((label.to_string(), call));
    };
    // Perfect, reverse; local; raw with N; perfect up to the last base; local
    // on the last base; a step of 0; global, back at 0.
    let seven = [
        read("CAAC", 6, 2, 0, 0),
        read("GTACGA", 0, 1, 2, 1),
        read("NC", 0, 0, 0, 0),
        read("TGCA", 8, 1, 0, 0),
        read("CAC", 11, 1, 1, 1),
        read("A", 11, 1, 0, 0),
        read("C", 0, 1, 0, 0),
    ];
    add("seven reads", &sums, 258, 5, &seven);
    // 31 N: a raw record with an N list. 32 N: raw4.
    let n_reads = [read(&"N".repeat(31), 0, 0, 0, 0), read(&"N".repeat(32), 0, 0, 0, 0)];
    add("31 and 32 N, no place", &sums, 0, 0, &n_reads);
    // pos_t is set for a step of 0, not for a step back.
    add("step 0", &sums, 0, 0, &[read("C", 5, 1, 0, 0), read("C", 5, 1, 0, 0)]);
    add("step back", &sums, 0, 0, &[read("G", 6, 1, 0, 0), read("C", 5, 1, 0, 0)]);
    // pos_t is set for a step of 65,535, not for one of 65,536, and not back.
    // 02, Ticket 2: "Steps use the stored position", one above the place of a
    // reverse GTT.
    let letters = vec![b'A'; 65_538];
    let long = ReferencePlan { bases: 65_538, letters, bytes: vec![0; 16_385] };
    let plain = |position| read("A", position, 1, 0, 0);
    let turned = |position| read("GTT", position, 2, 1, 0);
    let steps = [
        [plain(1), plain(65_536), plain(1), plain(65_537)],
        [turned(0), plain(65_536), plain(0), turned(65_535)],
        [turned(0), turned(65_535), plain(1), turned(65_536)],
        [turned(0), plain(65_537), turned(65_536), plain(65_536)],
    ];
    add("steps 65535 and 65536", &long, 0, 0, &steps.concat());
    calls
}

/// Reads without a place, all of the name a, b_id and c_time 0: flag 0x1, the
/// writer's refusals, each with those after it, and a block that just fits.
fn plain_calls_by_hand() -> Vec<(String, EncodeCall)> {
    // Label, bases, letters, ends, candidates, capacity.
    type Plain = (&'static str, u64, &'static [u8], &'static [u32], usize, usize);
    let calls: &[Plain] = &[
        // Equal reads: flag 0x1, l_read, no size section. No reads: neither.
        ("equal reads", BASES, b"ACGT", &[2, 4], 2, 160),
        ("no reads, b_id 0", BASES, b"", &[], 0, 128),
        // 1: 13 bases take four bytes.
        ("13 bases in 3 bytes", 13, b"", &[], 0, 0),
        // 31 before 32, 33 and 34; 32 before 33 and 34; 33 before 34.
        ("no candidate, end 0, letter 9", BASES, &[9], &[0], 0, 0),
        ("end past the letters, letter 9", BASES, &[9], &[2], 1, 0),
        ("letter 9, no room", BASES, &[9], &[1], 1, 0),
        // 34: the block takes 143 bytes.
        ("block one byte too long", BASES, b"A", &[1], 1, 142),
        ("block just fits", BASES, b"A", &[1], 1, 143),
    ];
    let call = |&(label, bases, letters, ends, candidates, capacity): &Plain| {
        let mut call = EncodeCall::new(&sums_reference(), &[], 0, 0);
        call.bases = bases;
        call.letters = letters.to_vec();
        call.ends = ends.to_vec();
        call.positions = vec![0; candidates];
        call.strands = vec![0; candidates];
        call.lefts = vec![0; candidates];
        call.rights = vec![0; candidates];
        call = call.named(&vec!["a"; ends.len()]);
        call.capacity = capacity;
        (label.to_string(), call)
    };
    calls.iter().map(call).collect()
}

/// Lone differences at the edges of fillers, and 31 and 32 entries.
fn differences_by_hand(rng: &mut Prng) -> Vec<(String, EncodeCall)> {
    let mut calls = Vec::new();
    let mut add = |label: String, reference: &ReferencePlan, places: &[usize], rng: &mut Prng| {
        let mut letters = reference.letters.clone();
        for &place in places {
            letters[place] = if letters[place] == b'A' { b'C' } else { b'A' };
        }
        let proposal = Proposal { letters, position: 0, strand: 1, left: 0, right: 0 };
        calls
            .push((label, EncodeCall::new(reference, &[proposal], rng.next_u64(), rng.next_u64())));
    };
    for place in [0, 62, 63, 64, 126, 127, 128] {
        let reference = generate_reference(rng, 130);
        add(format!("lone difference at {place}"), &reference, &[place], rng);
    }
    for place in [1952, 1953, 1954] {
        let reference = generate_reference(rng, place as u64 + 1);
        add(format!("lone difference at {place}"), &reference, &[place], rng);
    }
    for gap in [62, 63, 64, 126, 127, 128] {
        let reference = generate_reference(rng, 260);
        add(format!("gap {gap}"), &reference, &[3, 3 + gap], rng);
    }
    for count in [30, 31, 32] {
        let reference = generate_reference(rng, 40);
        let places: Vec<usize> = (2..2 + count).collect();
        add(format!("{count} differences"), &reference, &places, rng);
    }
    let reference = generate_reference(rng, 200);
    let places: Vec<usize> = (0..30).chain([93]).collect();
    add("31 differences, gap 64: 32 entries".to_string(), &reference, &places, rng);
    let places: Vec<usize> = (0..30).chain([92]).collect();
    add("31 differences, gap 63".to_string(), &reference, &places, rng);
    calls
}

/// 50,001 ends, all 0, and 50,000 with no candidates; reads and N lists that
/// take words of 32768.
pub fn encode_large_cases() -> Vec<Case> {
    let rng = &mut stream("encode_large");
    let reference = generate_reference(rng, 4);
    let mut cases = Vec::new();
    for reads in [50_001, 50_000] {
        let mut call = EncodeCall::new(&reference, &[], 1, 2);
        call.ends = vec![0; reads];
        call.capacity = 16;
        cases.push(Case::encoding(&format!("{reads} ends of 0, no candidates"), &call));
    }
    let mut long: Vec<u8> = (0..65_535).map(|_| rng.pick(b"ACGT")).collect();
    for place in [0, 32_768, 65_534] {
        long[place] = b'N';
    }
    let short = b"ACN".to_vec();
    let read = |letters| Proposal { letters, position: 0, strand: 1, left: 0, right: 0 };
    let mut call = EncodeCall::new(&reference, &[read(short), read(long)], 3, 4);
    call.capacity = block_length(&call) + 5;
    cases.push(Case::encoding("3 and 65535 letters, N in words", &call));
    cases
}
