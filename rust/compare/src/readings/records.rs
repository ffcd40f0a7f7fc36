//! Records that are made here: fields drawn without regard to each other, and lists that are full.

use super::reading;
use crate::case::{bytes, Work};
use crate::stock::Stock;
use second::cases_by_hand::Hand;
use second::generator::generate_reference;
use second::prng::Prng;
use second::records::Bits;

/// Reads of one length whose group bytes, flag bytes and fields are drawn without regard to each
/// other, most of them small. The N section is that of the groups.
pub fn wild_records(rng: &mut Prng, _: &Stock) -> Work {
    let bases = rng.pick(&[0, 4, 12, 64, 300, 300, 700]);
    let reference = generate_reference(rng, bases);
    let length = rng.pick(&[1, 2, 3, 4, 5, 8, 9, 64, 70, 200, 300]);
    let reads = rng.pick(&[1, 1, 2, 7, 8, 9, 16]);
    let mut hand = Hand::same(length, reads, &[]);
    hand.n.clear();
    for first in (0..reads).step_by(8) {
        let in_group = (reads - first).min(8);
        let used = 0xFFu8 << (8 - in_group);
        let mut group = [0; 4].map(|_: u8| rng.byte() & rng.byte() & used);
        if rng.coin() {
            group[2] = 0;
        }
        hand.n.push(group[2]);
        hand.dna.extend(group);
        for index in 0..in_group {
            let [perfect, forward, with_n, pos_t] = group.map(|byte| byte & (0x80 >> index) != 0);
            let bits = Bits { perfect, forward, with_n, pos_t };
            wild_record(rng, &mut hand.dna, length as u64, bits);
        }
    }
    if rng.once_in(8) {
        hand.dna.pop();
    }
    reading(rng, bases, bytes(reference.bytes), hand.bytes())
}

fn wild_record(rng: &mut Prng, dna: &mut Vec<u8>, length: u64, bits: Bits) {
    let count = rng.pick(&[0, 0, 1, 1, 2, 3, 30, 31]);
    let flag = rng.pick(&[0b100, 0b000, 0b010, 0b001, 0b010, 0b001]);
    let width = if bits.pos_t { 2 } else { 4 };
    let mut raw4 = false;
    if bits.perfect {
        small_number(rng, dna, 0, width);
    } else if flag == 0b100 || flag == 0 {
        let count = if flag == 0 { count } else { count.max(1) };
        dna.push(count << 3 | flag);
        // A reverse local stretch runs down from its position.
        let runs_down = flag == 0 && !bits.forward;
        let least = if runs_down && rng.coin() { length } else { 0 };
        small_number(rng, dna, least, width);
        dna.extend((0..count).map(|_| (rng.below(4) << 2 | rng.below(4)) as u8));
        if flag == 0 {
            let clips = [rng.below(3), rng.below(3)];
            dna.extend(clips.map(|clip| clip as u8));
            packed(rng, dna, clips[0] + clips[1], 2);
        }
    } else {
        raw4 = flag == 1;
        dna.push(flag | if rng.once_in(20) { count << 3 } else { 0 });
        packed(rng, dna, length, if raw4 { 4 } else { 2 });
    }
    if bits.with_n && !raw4 {
        let count = rng.pick(&[1, 1, 2, 3, 30, 31, 32]);
        dna.push(count);
        for _ in 0..count {
            small_number(rng, dna, 0, 2);
        }
    }
}

/// A number less than 8 above the least in so many bytes, and seldom any.
fn small_number(rng: &mut Prng, dna: &mut Vec<u8>, least: u64, width: usize) {
    if rng.once_in(30) {
        let any = rng.bytes(width);
        dna.extend(any);
    } else {
        let number = least + rng.below(8);
        dna.extend(&number.to_le_bytes()[..width]);
    }
}

/// Letters of 2 or 4 bits, with an N or a code above it now and then, and mostly no padding.
fn packed(rng: &mut Prng, dna: &mut Vec<u8>, letters: u64, width: u64) {
    let top = if width == 2 { 3 } else { rng.pick(&[3, 4, 4, 4, 5]) };
    let codes: Vec<u8> = (0..letters).map(|_| rng.range(0, top) as u8).collect();
    let mut packed = second::letters::pack(&codes, width);
    if let (Some(last), true) = (packed.last_mut(), rng.once_in(10)) {
        *last |= 1;
    }
    dna.extend(packed);
}

/// A global or local record with 30 or 31 entries and an N list of 30 or 31, whose last stand on the
/// last letter or one or two past it; now and then a later offset is 0.
pub fn full_lists(rng: &mut Prng, _: &Stock) -> Work {
    let reference = generate_reference(rng, 300);
    let length = rng.range(70, 200);
    let clips = rng.pick(&[(0, 0), (0, 0), (1, 2), (3, 0)]);
    let span = length - clips.0 - clips.1;
    let (forward, with_n) = (rng.coin(), rng.coin());
    let bit = |set: bool| (set as u8) << 7;
    let mut dna = vec![0, bit(forward), bit(with_n), 0];
    let entries = full_list(rng, span);
    let global = if clips == (0, 0) { 0b100 } else { 0 };
    dna.push((entries.len() as u8) << 3 | global);
    let lowest = rng.below(90);
    let runs_down = global == 0 && !forward;
    let position = if runs_down { lowest + span - 1 } else { lowest };
    dna.extend((position as u32).to_le_bytes());
    dna.extend(entries.iter().map(|&offset| (offset.min(63) << 2 | rng.below(4)) as u8));
    if global == 0 {
        dna.extend([clips.0 as u8, clips.1 as u8, 0xE4 & 0xFF << (8 - 2 * (clips.0 + clips.1))]);
    }
    if with_n {
        let n_offsets = full_list(rng, length);
        dna.push(n_offsets.len() as u8);
        dna.extend(n_offsets.iter().flat_map(|&offset| (offset as u16).to_le_bytes()));
    }
    let block = Hand::same(length as i32, 1, &dna).bytes();
    reading(rng, reference.bases, bytes(reference.bytes), block)
}

/// 30 or 31 offsets that rise to the last of so many places, or past it.
fn full_list(rng: &mut Prng, places: u64) -> Vec<u64> {
    let count = rng.pick(&[30, 31, 31]);
    let mut rising: Vec<u64> = Vec::new();
    while rising.len() < count - 1 {
        let place = rng.below(places - 1);
        if !rising.contains(&place) {
            rising.push(place);
        }
    }
    rising.push(places - 1 + rng.pick(&[0, 0, 0, 1, 2]));
    rising.sort();
    let before = [&[0], &rising[..count - 1]].concat();
    let mut offsets: Vec<u64> = rising.iter().zip(before).map(|(to, from)| to - from).collect();
    if rng.once_in(8) {
        offsets[rng.range(1, count as u64 - 1) as usize] = 0;
    }
    offsets
}
