//! The blocks that are timed: reads cut out of a random reference, encoded by the second
//! implementation. Their names are all 0, the shortest that an encoder takes; what is validated and
//! decoded is the block without them.
use crate::tuned::SLACK;
use ora::{without_names, Columns};
use second::prng::Prng;

pub const B_ID: u64 = 7;
pub const C_TIME: u64 = 9;

/// Of 100 reads, how many are of which kind.
#[derive(Clone, Copy)]
struct Mix {
    /// With 1 to 4 letters that differ from the reference.
    differing: u64,
    clipped: u64,
    /// Without a place.
    raw: u64,
    /// With more N than a list can hold.
    raw4: u64,
    /// With 1 to 3 N.
    with_n: u64,
}

const MIX: Mix = Mix { differing: 30, clipped: 7, raw: 3, raw4: 1, with_n: 3 };

/// A difference stands among so many first aligned letters, since 31 entries reach no further than
/// 1,953.
const DIFFERENCES_WITHIN: u64 = 1500;

/// What a block is made of.
#[derive(Clone, Copy)]
pub struct Shape {
    pub title: &'static str,
    pub reads: usize,
    pub length: usize,
    /// All reads are of that length, or of two thirds of it up to it.
    pub equal: bool,
    /// The bytes of the reference.
    pub bytes: usize,
}

/// Random bytes, with bytes to spare around a reference that begins at SLACK.
pub fn reference(bytes: usize, random: &mut Prng) -> Vec<u8> {
    random.bytes(bytes + 2 * SLACK)
}

/// Reads with the places that an aligner would propose.
#[derive(Default)]
struct Reads {
    letters: Vec<u8>,
    ends: Vec<u32>,
    names: Vec<u8>,
    name_ends: Vec<u32>,
    positions: Vec<u32>,
    strands: Vec<u8>,
    lefts: Vec<u8>,
    rights: Vec<u8>,
}

/// A block as it is written, the same without its names, its reads, and the reference with its
/// spare bytes.
pub struct Work<'a> {
    padded: &'a [u8],
    reads: Reads,
    pub written: Vec<u8>,
    pub block: Vec<u8>,
}

impl<'a> Work<'a> {
    pub fn new(shape: &Shape, padded: &'a [u8], random: &mut Prng) -> Work<'a> {
        let padded = &padded[..shape.bytes + 2 * SLACK];
        let mut reads = Reads::default();
        for _ in 0..shape.reads {
            let less = if shape.equal { 0 } else { random.below(shape.length as u64 / 3) };
            let length = shape.length - less as usize;
            reads.push_random(&padded[SLACK..SLACK + shape.bytes], length, random);
        }
        Work::of(padded, reads)
    }

    fn of(padded: &'a [u8], reads: Reads) -> Work<'a> {
        let mut work = Work { padded, reads, written: Vec::new(), block: Vec::new() };
        let columns = work.columns();
        let mut block = vec![0; columns.room()];
        let outcome = second::encode(
            work.bases(),
            work.reference(),
            columns.letters,
            columns.ends,
            columns.names,
            columns.name_ends,
            columns.positions,
            columns.strands,
            columns.lefts,
            columns.rights,
            B_ID,
            C_TIME,
            &mut block,
        );
        assert!(outcome.number == 0, "the second implementation refuses the reads");
        block.truncate(outcome.length as usize);
        work.block = without_names(&block);
        work.written = block;
        work
    }

    /// The same reads in several blocks, each of so many.
    pub fn cut(&self, count: usize) -> Vec<Work<'a>> {
        let reads = &self.reads;
        let starts = (0..reads.ends.len()).step_by(count);
        let cuts = starts.map(|start| start..reads.ends.len().min(start + count));
        cuts.map(|cut| Work::of(self.padded, reads.part(cut))).collect()
    }

    pub fn reference(&self) -> &'a [u8] {
        &self.padded[SLACK..self.padded.len() - SLACK]
    }

    /// Where the reference begins; SLACK bytes stand before it and after it.
    pub fn reference_pointer(&self) -> *const u8 {
        self.padded.as_ptr().wrapping_add(SLACK)
    }

    pub fn bases(&self) -> u64 {
        4 * self.reference().len() as u64
    }

    pub fn columns(&self) -> Columns<'_> {
        let Reads { letters, ends, names, name_ends, positions, strands, lefts, rights } =
            &self.reads;
        Columns { letters, ends, names, name_ends, positions, strands, lefts, rights }
    }
}

fn base(reference: &[u8], index: usize) -> u8 {
    reference[index / 4] >> (6 - 2 * (index % 4)) & 3
}

/// How many letters are clipped at either end.
fn clips(random: &mut Prng) -> (usize, usize) {
    let (left, right) = match random.below(3) {
        0 => (random.range(1, 40), 0),
        1 => (0, random.range(1, 40)),
        _ => (random.range(1, 30), random.range(1, 30)),
    };
    (left as usize, right as usize)
}

impl Reads {
    fn push_random(&mut self, reference: &[u8], length: usize, random: &mut Prng) {
        let start = random.below((4 * reference.len() - length - 200) as u64) as usize;
        let kind = random.below(100);
        let (raw, raw4) = (kind < MIX.raw, (MIX.raw..MIX.raw + MIX.raw4).contains(&kind));
        let clipped = random.below(100) < MIX.clipped;
        let (left, right) = if clipped { clips(random) } else { (0, 0) };
        let aligned = length - left - right;
        let forward = random.coin();
        let mut codes: Vec<u8> = (0..length).map(|_| random.below(4) as u8).collect();
        if !raw && !raw4 {
            for k in 0..aligned {
                codes[left + k] = if forward {
                    base(reference, start + k)
                } else {
                    3 - base(reference, start + aligned - 1 - k)
                };
            }
            if random.below(100) < MIX.differing {
                for _ in 0..random.range(1, 4) {
                    let within = (aligned as u64).min(DIFFERENCES_WITHIN);
                    let code = &mut codes[left + random.below(within) as usize];
                    *code = (*code + 1 + random.below(3) as u8) % 4;
                }
            }
        }
        let from = self.letters.len();
        self.letters.extend(codes.iter().map(|&code| b"ACGT"[code as usize]));
        let with_n = random.below(100) < MIX.with_n;
        let ns = match (raw4, with_n) {
            (true, _) => 40 + length / 20,
            (false, true) => random.range(1, 3) as usize,
            (false, false) => 0,
        };
        for _ in 0..ns {
            self.letters[from + random.below(length as u64) as usize] = b'N';
        }
        self.ends.push(self.letters.len() as u32);
        self.names.push(b'0');
        self.name_ends.push(self.names.len() as u32);
        self.positions.push(start as u32);
        self.strands.push(if raw || raw4 { 0 } else { 2 - forward as u8 });
        self.lefts.push(left as u8);
        self.rights.push(right as u8);
    }

    /// The reads from one index up to another.
    fn part(&self, cut: std::ops::Range<usize>) -> Reads {
        let from = if cut.start == 0 { 0 } else { self.ends[cut.start - 1] };
        let to = self.ends[cut.end - 1];
        Reads {
            letters: self.letters[from as usize..to as usize].to_vec(),
            ends: self.ends[cut.clone()].iter().map(|end| end - from).collect(),
            names: self.names[cut.clone()].to_vec(),
            name_ends: (1..=cut.len() as u32).collect(),
            positions: self.positions[cut.clone()].to_vec(),
            strands: self.strands[cut.clone()].to_vec(),
            lefts: self.lefts[cut.clone()].to_vec(),
            rights: self.rights[cut].to_vec(),
        }
    }
}
