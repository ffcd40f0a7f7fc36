//! The names of a block's reads. The library refuses names that a block cannot hold (41) without
//! telling which; here the first such name is found, so that it can be told.

use ora::MAX_NAME_LENGTH;
use std::fmt;

/// How much of a name a message shows.
const SHOWN: usize = 60;

/// The first name that keeps a block from holding names.
#[derive(Clone, Debug, PartialEq, Eq)]
pub struct NameFault {
    /// Its index in the block.
    pub read: usize,
    name: Vec<u8>,
    why: Why,
}

#[derive(Clone, Copy, Debug, PartialEq, Eq)]
enum Why {
    Empty,
    TooLong,
    NotPrintable(u8),
    /// Its tokens, and those of the block's first name.
    Tokens(usize, usize),
}

impl NameFault {
    /// Looks through the names of a block; None where it can hold them: 1 to 255 bytes of printable
    /// ASCII each, all of one token count.
    pub fn find<'a>(names: impl Iterator<Item = &'a [u8]>) -> Option<NameFault> {
        let mut first = None;
        names.enumerate().find_map(|(read, name)| {
            let tokens = token_count(name);
            let expected = *first.get_or_insert(tokens);
            let why = match name {
                [] => Why::Empty,
                _ if name.len() > MAX_NAME_LENGTH => Why::TooLong,
                _ => match name.iter().find(|byte| !(b' '..=b'~').contains(byte)) {
                    Some(&byte) => Why::NotPrintable(byte),
                    None if tokens != expected => Why::Tokens(tokens, expected),
                    None => return None,
                },
            };
            Some(NameFault { read, name: name.to_vec(), why })
        })
    }
}

/// The name and what is wrong with it, as the end of a sentence about it.
impl fmt::Display for NameFault {
    fn fmt(&self, f: &mut fmt::Formatter) -> fmt::Result {
        match self.why {
            Why::Empty => return f.write_str("has no bytes"),
            Why::TooLong => write!(f, "has more than {MAX_NAME_LENGTH} bytes")?,
            Why::NotPrintable(byte) => {
                write!(f, "holds the byte {byte:02X} (hexadecimal), which is no printable ASCII")?;
            }
            Why::Tokens(tokens, expected) => write!(
                f,
                "has {tokens} stretches of digits or of others, and that of read 0 has {expected}"
            )?,
        }
        let shown = &self.name[..self.name.len().min(SHOWN)];
        let cut = if shown.len() < self.name.len() { "..." } else { "" };
        write!(f, ": `{}{cut}`", shown.escape_ascii())
    }
}

/// How many stretches of digits, and of other bytes, a name is made of.
fn token_count(name: &[u8]) -> usize {
    name.chunk_by(|before, after| before.is_ascii_digit() == after.is_ascii_digit()).count()
}

#[cfg(test)]
mod tests {
    use super::*;

    fn found(names: &[&[u8]]) -> Option<(usize, String)> {
        let fault = NameFault::find(names.iter().copied())?;
        Some((fault.read, fault.to_string()))
    }

    #[test]
    fn names_that_a_block_can_hold() {
        let none: &[&[u8]] = &[];
        for names in [
            none,
            &[b"r1"],
            &[b" ", b"~", b"7"],
            &[b"r1", b"r02", b"3r", b"0r"],
            &[&[b'x'; 255], &[b'0'; 255]],
            &[b"A00123:45:HXYW:1:1101:1000:2000", b"A00123:45:HXYW:1:1101:999:31000"],
        ] {
            assert_eq!(found(names), None);
        }
    }

    #[test]
    fn the_first_name_that_it_cannot() {
        let long = [b'x'; 256];
        let shown = "x".repeat(60);
        for (names, read, why) in [
            (&[&b"r1"[..], b""][..], 1, "has no bytes".to_string()),
            (&[&long, b"r1"], 0, format!("has more than 255 bytes: `{shown}...`")),
            (
                &[b"r1", b"r2", b"r\xE9"],
                2,
                "holds the byte E9 (hexadecimal), which is no printable ASCII: `r\\xe9`"
                    .to_string(),
            ),
            (
                &[b"r\x7F", b"r1"],
                0,
                "holds the byte 7F (hexadecimal), which is no printable ASCII: `r\\x7f`"
                    .to_string(),
            ),
            (
                &[b"r1", b"r2", b"r3x4", b"r5", b""],
                2,
                "has 4 stretches of digits or of others, and that of read 0 has 2: `r3x4`"
                    .to_string(),
            ),
        ] {
            assert_eq!(found(names), Some((read, why)));
        }
    }

    #[test]
    fn tokens() {
        for (name, count) in
            [(&b""[..], 0), (b"a", 1), (b"007", 1), (b"a7", 2), (b"7a7", 3), (b"a:b 1.2", 4)]
        {
            assert_eq!(token_count(name), count);
        }
    }
}
