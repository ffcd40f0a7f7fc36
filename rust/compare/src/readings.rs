//! The families of cases that are read. Sound blocks, faults and damage come from the second
//! implementation's generator and mutators, which know nothing of either decoder; the modules below
//! make what they seldom do.

pub mod files;
pub mod lengths;
pub mod names;
pub mod records;
pub mod steps;

use crate::case::{bytes, Bytes, Reading, Room, Work, ENDS, LETTERS, NAMES, NAME_ENDS};
use crate::stock::Stock;
use second::generator::{generate, generate_reference, generate_saturated, Plan, Shape};
use second::header::{Header, SECTIONS};
use second::mutators::{damage, spoil, spoil_all, BLOCK_NUMBERS};
use second::prng::Prng;
use second::NAMES_SECTION_INVALID;

/// Bounds for a block that is read in microseconds.
fn small_shape(rng: &mut Prng) -> Shape {
    let max_length = rng.pick(&[1, 2, 4, 20, 40, 40, 150, 600]);
    let max_reads = if max_length > 150 { rng.range(1, 5) } else { rng.range(1, 26) };
    Shape {
        bases: rng.pick(&[0, 1, 2, 3, 4, 12, 40, 64, 65, 130, 300, 700]),
        max_reads,
        max_length,
        max_carried: rng.pick(&[0, 0, 1, 6]),
        max_name: rng.pick(&[1, 4, 12, 12, 40, 40, 60, 255]),
    }
}

fn small_plan(rng: &mut Prng) -> Plan {
    let shape = small_shape(rng);
    generate(rng, shape)
}

/// A number that no section has.
fn section_number(rng: &mut Prng) -> u64 {
    let any = rng.next_u64().max(9);
    rng.pick(&[9, 10, 15, 256, 1 << 32, 1 << 63, u64::MAX, any])
}

fn enough(rng: &mut Prng) -> Room {
    Room::More(rng.pick(&[[0; 4], [0; 4], [1; 4], [0, 3, 0, 3], [0, 0, 5, 2]]))
}

fn reading(rng: &mut Prng, bases: u64, reference: Bytes, input: Vec<u8>) -> Work {
    let room = if rng.once_in(12) { short(rng) } else { enough(rng) };
    let section = section_number(rng);
    Work::Reading(Reading { bases, reference, input: input.into(), room, section })
}

fn short(rng: &mut Prng) -> Room {
    let some = [40, 6, 40, 6].map(|bound| rng.below(bound) as usize);
    let buffer = rng.pick(&[LETTERS, ENDS, NAMES, NAME_ENDS]);
    rng.pick(&[Room::Short(buffer), Room::Short(buffer), Room::Nothing, Room::Exactly(some)])
}

fn of_plan(rng: &mut Prng, plan: &Plan) -> Work {
    let mut input = plan.block();
    if plan.block_cut.is_none() && rng.coin() {
        let count = rng.pick(&[1, 2, 121, 130]);
        input.extend(rng.bytes(count));
    }
    let reference = bytes(plan.reference.bytes.clone());
    reading(rng, plan.reference.bases, reference, input)
}

pub fn sound(rng: &mut Prng, _: &Stock) -> Work {
    let plan = small_plan(rng);
    of_plan(rng, &plan)
}

/// Most global and local records have 30 or 31 entries; now and then there is a fault.
pub fn saturated(rng: &mut Prng, _: &Stock) -> Work {
    let shape = Shape {
        bases: rng.pick(&[31, 64, 130, 300, 700]),
        max_reads: rng.pick(&[1, 2, 9, 20]),
        max_length: rng.pick(&[31, 40, 70, 200]),
        max_carried: 2,
        max_name: 12,
    };
    let reference = generate_reference(rng, shape.bases);
    let mut plan = generate_saturated(rng, shape, &reference);
    if rng.once_in(3) {
        let number = rng.pick(&BLOCK_NUMBERS[8..]);
        spoil(&mut plan, number, rng);
    }
    of_plan(rng, &plan)
}

/// Each of 1 to 21 and 40 as often, in the first plan that has a place for it.
pub fn one_fault(rng: &mut Prng, _: &Stock) -> Work {
    let number = rng.pick(&BLOCK_NUMBERS);
    let plan = spoiled(rng, &[number]);
    of_plan(rng, &plan)
}

/// Names are spoiled once.
pub fn two_faults(rng: &mut Prng, _: &Stock) -> Work {
    let numbers = loop {
        let numbers = [rng.pick(&BLOCK_NUMBERS), rng.pick(&BLOCK_NUMBERS[8..])];
        if numbers != [NAMES_SECTION_INVALID; 2] {
            break numbers;
        }
    };
    let plan = spoiled(rng, &numbers);
    of_plan(rng, &plan)
}

fn spoiled(rng: &mut Prng, numbers: &[u32]) -> Plan {
    // A pair may have no place in any plan.
    for _ in 0..50 {
        let mut plan = small_plan(rng);
        if spoil_all(&mut plan, numbers, rng).len() == numbers.len() {
            return plan;
        }
    }
    small_plan(rng)
}

/// 22: a sound block with reads, and too little of one buffer or of several.
pub fn little_room(rng: &mut Prng, _: &Stock) -> Work {
    let plan = loop {
        let plan = small_plan(rng);
        if plan.n_reads > 0 {
            break plan;
        }
    };
    let room = short(rng);
    match of_plan(rng, &plan) {
        Work::Reading(reading) => Work::Reading(Reading { room, ..reading }),
        work => work,
    }
}

pub fn damaged(rng: &mut Prng, _: &Stock) -> Work {
    let plan = small_plan(rng);
    let mut input = plan.block();
    damage(&mut input, rng);
    reading(rng, plan.reference.bases, bytes(plan.reference.bytes), input)
}

pub fn cut(rng: &mut Prng, _: &Stock) -> Work {
    let plan = small_plan(rng);
    let mut input = plan.block();
    let length = rng.below(input.len() as u64) as usize;
    input.truncate(length);
    reading(rng, plan.reference.bases, bytes(plan.reference.bytes), input)
}

/// Sections with a byte more, fewer or changed, or two exchanged; the header tells their lengths.
pub fn edited_sections(rng: &mut Prng, _: &Stock) -> Work {
    let plan = small_plan(rng);
    let mut input = plan.block();
    for _ in 0..rng.pick(&[1, 1, 2]) {
        input = edited(rng, &input);
    }
    reading(rng, plan.reference.bases, bytes(plan.reference.bytes), input)
}

fn edited(rng: &mut Prng, block: &[u8]) -> Vec<u8> {
    let header = Header::read(block).unwrap();
    let mut sections: Vec<Vec<u8>> =
        (0..SECTIONS as u64).map(|number| header.section(block, number).to_vec()).collect();
    let number = rng.pick(&[0, 0, 0, 0, 4, 4, 5, 5, 1, 1, 1, 8]);
    let section = &mut sections[number];
    let length = section.len() as u64;
    let any = rng.byte();
    let byte = rng.pick(&[0, 1, 0x20, 0x80, 0xFF, any]);
    match rng.below(6) {
        0 => section.insert(rng.range(0, length) as usize, byte),
        1 if length > 0 => {
            section.remove(rng.below(length) as usize);
        }
        2 if length > 0 => section[rng.below(length) as usize] = byte,
        3 if length > 0 => section[rng.below(length) as usize] ^= 1 << rng.below(8),
        4 if length > 1 => {
            let place = rng.below(length - 1) as usize;
            section.swap(place, place + 1);
        }
        5 if length > 0 => {
            let place = rng.below(length) as usize;
            section.insert(place, section[place]);
        }
        _ => section.push(byte),
    }
    let mut block = block[..header.header_length as usize].to_vec();
    for (number, section) in sections.iter().enumerate() {
        let length = (section.len() as u32).to_le_bytes();
        block[6 + 4 * number..10 + 4 * number].copy_from_slice(&length);
    }
    block.extend(sections.concat());
    block
}

/// One or two fields of the header that reading looks at, set to a number at an edge or near what
/// they were.
pub fn header_fields(rng: &mut Prng, _: &Stock) -> Work {
    let plan = small_plan(rng);
    let mut input = plan.block();
    for _ in 0..rng.pick(&[1, 1, 1, 2]) {
        // The sum of two such lengths is what it was, modulo 2^32.
        if rng.once_in(8) {
            for _ in 0..2 {
                let at = 6 + 4 * rng.below(9) as usize;
                input[at + 3] ^= 0x80;
            }
            continue;
        }
        let fields = [2, 6, 10, 14, 18, 22, 26, 30, 34, 38, 42, 46, 50, 52, 54, 71, 73];
        let at = rng.pick(&fields);
        let before = u32::from_le_bytes(input[at..at + 4].try_into().unwrap());
        let any = rng.next_u64() as u32;
        let edges = [
            0,
            1,
            120,
            121,
            122,
            0x40,
            0x80,
            50_000,
            50_001,
            100_000,
            100_001,
            u16::MAX as u32,
            i32::MAX as u32,
            i32::MIN as u32,
            u32::MAX,
            u32::MAX - 120,
            before.wrapping_add(1),
            before.wrapping_sub(1),
            before ^ 1,
            any,
        ];
        input[at..at + 4].copy_from_slice(&rng.pick(&edges).to_le_bytes());
    }
    let mut work = reading(rng, plan.reference.bases, bytes(plan.reference.bytes), input);
    if let Work::Reading(reading) = &mut work {
        // A block that tells more reads than it has is not given room for them.
        reading.room = Room::Exactly([4000, 40, 4000, 40].map(|bound| rng.below(bound) as usize));
    }
    work
}

/// A case of the corpus, as it is or with one or two bytes changed.
pub fn corpus(rng: &mut Prng, stock: &Stock) -> Work {
    let mut case = rng.pick(&stock.readings);
    case.section = section_number(rng);
    if rng.once_in(6) {
        return Work::Reading(case);
    }
    let mut input = case.input.to_vec();
    let byte = rng.byte();
    match rng.below(8) {
        0 => input.push(byte),
        1 => {
            input.pop();
        }
        _ => damage(&mut input, rng),
    }
    let room = if rng.once_in(4) { case.room } else { enough(rng) };
    Work::Reading(Reading { input: input.into(), room, ..case })
}
