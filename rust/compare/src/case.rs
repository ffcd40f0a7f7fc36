//! What a case is: an input to be read, or reads to be written.

use crate::library::Under;
use ora::Columns;
use second::proposals::EncodeCall;
use std::sync::Arc;

/// Bytes of exactly their length, so that a memory checker sees a step past them; shared, as a
/// reference can be large.
pub type Bytes = Arc<Box<[u8]>>;

pub fn bytes(bytes: Vec<u8>) -> Bytes {
    Arc::new(bytes.into_boxed_slice())
}

#[derive(Clone)]
pub struct Case {
    pub family: &'static str,
    pub work: Work,
    /// Whether lent buffers stand between margins; otherwise they have exactly their length.
    pub margins: bool,
}

#[derive(Clone)]
pub enum Work {
    Reading(Reading),
    Writing(Writing),
}

/// An input for decode, validate_block, validate, section, block_length and block_id.
#[derive(Clone)]
pub struct Reading {
    pub bases: u64,
    pub reference: Bytes,
    pub input: Box<[u8]>,
    pub room: Room,
    /// A number of no section, to be asked for beside 0 to 8.
    pub section: u64,
}

impl Reading {
    pub fn under(&self) -> Under<'_> {
        Under { bases: self.bases, reference: &self.reference }
    }
}

/// Elements of the four buffers that decode takes, in this order.
pub type Sizes = [usize; 4];
pub const LETTERS: usize = 0;
pub const ENDS: usize = 1;
pub const NAMES: usize = 2;
pub const NAME_ENDS: usize = 3;

/// How much is lent to decode.
#[derive(Clone, Copy, Debug)]
pub enum Room {
    /// So much more of each buffer than the block needs.
    More(Sizes),
    /// One element less of one buffer than the block needs, and one more of the others.
    Short(usize),
    Nothing,
    /// So much, whatever the block needs.
    Exactly(Sizes),
}

impl Room {
    /// What is lent where the block needs so much.
    pub fn lent(self, needed: Sizes) -> Sizes {
        match self {
            Room::More(more) => std::array::from_fn(|buffer| needed[buffer] + more[buffer]),
            Room::Short(short) => {
                let mut lent = needed.map(|size| size + 1);
                lent[short] = needed[short].saturating_sub(1);
                lent
            }
            Room::Nothing => [0; 4],
            Room::Exactly(sizes) => sizes,
        }
    }
}

/// Reads for encode.
#[derive(Clone)]
pub struct Writing {
    pub bases: u64,
    pub reference: Bytes,
    pub letters: Box<[u8]>,
    pub ends: Box<[u32]>,
    pub names: Box<[u8]>,
    pub name_ends: Box<[u32]>,
    pub positions: Box<[u32]>,
    pub strands: Box<[u8]>,
    pub lefts: Box<[u8]>,
    pub rights: Box<[u8]>,
    pub b_id: u64,
    pub c_time: u64,
    /// The bytes that are lent for the block.
    pub lent: usize,
}

impl Writing {
    pub fn under(&self) -> Under<'_> {
        Under { bases: self.bases, reference: &self.reference }
    }

    pub fn of_call(call: EncodeCall) -> Writing {
        Writing {
            bases: call.bases,
            reference: bytes(call.reference),
            letters: call.letters.into(),
            ends: call.ends.into(),
            names: call.names.into(),
            name_ends: call.name_ends.into(),
            positions: call.positions.into(),
            strands: call.strands.into(),
            lefts: call.lefts.into(),
            rights: call.rights.into(),
            b_id: call.b_id,
            c_time: call.c_time,
            lent: call.capacity,
        }
    }

    pub fn columns(&self) -> Columns<'_> {
        Columns {
            letters: &self.letters,
            ends: &self.ends,
            names: &self.names,
            name_ends: &self.name_ends,
            positions: &self.positions,
            strands: &self.strands,
            lefts: &self.lefts,
            rights: &self.rights,
        }
    }
}
