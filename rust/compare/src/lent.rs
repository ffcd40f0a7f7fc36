//! Lent buffers that tell what was written where. Each element holds a number made from its place
//! before the call, so that one which is overwritten or moved shows.

use crate::case::Sizes;
use ora::Buffers;

/// An element of a lent buffer.
pub trait Element: Copy + Eq {
    /// What the element at a place holds before a call.
    fn mark(place: usize) -> Self;
}

impl Element for u8 {
    /// Never a letter, a byte of a name, nor the first byte of a block.
    fn mark(place: usize) -> u8 {
        0x80 | (place.wrapping_mul(37) >> 1) as u8
    }
}

impl Element for u32 {
    fn mark(place: usize) -> u32 {
        0xEE00_0000 | place as u32
    }
}

impl Element for u64 {
    fn mark(place: usize) -> u64 {
        0xEEEE_EEEE_0000_0000 | place as u64
    }
}

/// Elements before and after a buffer that stands between margins.
const MARGIN: usize = 16;

/// A buffer of exactly its length, or one between margins.
pub struct Lent<T> {
    all: Box<[T]>,
    margin: usize,
}

impl<T: Element> Lent<T> {
    pub fn new(length: usize, margins: bool) -> Lent<T> {
        let margin = if margins { MARGIN } else { 0 };
        Lent { all: (0..length + 2 * margin).map(T::mark).collect(), margin }
    }

    fn end(&self) -> usize {
        self.all.len() - self.margin
    }

    pub fn lend(&mut self) -> &mut [T] {
        let end = self.end();
        &mut self.all[self.margin..end]
    }

    pub fn held(&self) -> &[T] {
        &self.all[self.margin..self.end()]
    }

    /// Whether everything but the first `written` elements of the buffer is as before the call.
    pub fn kept_but(&self, written: usize) -> bool {
        let changed = self.margin..self.margin + written;
        let kept = |(place, element): (usize, &T)| *element == T::mark(place);
        self.all[..changed.start].iter().enumerate().all(kept)
            && (changed.end..).zip(&self.all[changed.end..]).all(kept)
    }
}

/// The four buffers that decode takes.
pub struct LentBuffers {
    pub letters: Lent<u8>,
    pub ends: Lent<u32>,
    pub names: Lent<u8>,
    pub name_ends: Lent<u32>,
}

impl LentBuffers {
    pub fn new([letters, ends, names, name_ends]: Sizes, margins: bool) -> LentBuffers {
        LentBuffers {
            letters: Lent::new(letters, margins),
            ends: Lent::new(ends, margins),
            names: Lent::new(names, margins),
            name_ends: Lent::new(name_ends, margins),
        }
    }

    pub fn lend(&mut self) -> Buffers<'_> {
        Buffers {
            letters: self.letters.lend(),
            ends: self.ends.lend(),
            names: self.names.lend(),
            name_ends: self.name_ends.lend(),
        }
    }
}
