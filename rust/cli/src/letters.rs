//! The letters of a read: as SAM writes them, and as a block stores them.

/// How often a letter is stored as another one.
#[derive(Clone, Copy, Debug, Default, PartialEq, Eq)]
pub struct Changed {
    /// U, which is stored as T.
    pub uracil: u64,
    /// Letters other than A, C, G, T, U, N, and the dot, which are stored as N.
    pub unknown: u64,
}

/// What is stored for each byte of SEQ; 0 for a byte that is no letter. A small letter says that
/// another one was there.
const STORED: [u8; 256] = {
    let mut stored = [0; 256];
    let mut letter = b'A';
    while letter <= b'Z' {
        let known = matches!(letter, b'A' | b'C' | b'G' | b'T' | b'N');
        let as_stored = match letter {
            b'U' => b't',
            _ if known => letter,
            _ => b'n',
        };
        stored[letter as usize] = as_stored;
        stored[letter.to_ascii_lowercase() as usize] = as_stored;
        letter += 1;
    }
    stored[b'.' as usize] = b'n';
    stored
};

/// What stands on the other strand.
const COMPLEMENT: [u8; 256] = {
    let mut complement = [0; 256];
    complement[b'A' as usize] = b'T';
    complement[b'C' as usize] = b'G';
    complement[b'G' as usize] = b'C';
    complement[b'T' as usize] = b'A';
    complement[b'N' as usize] = b'N';
    complement
};

/// Puts the letters of SEQ into `letters`, in capitals. A byte that is no letter is given back.
pub fn store(seq: &[u8], letters: &mut Vec<u8>, changed: &mut Changed) -> Result<(), u8> {
    letters.clear();
    letters.extend(seq.iter().map(|&byte| STORED[byte as usize]));
    if letters.iter().all(|&letter| letter.is_ascii_uppercase()) {
        return Ok(());
    }
    for (letter, &byte) in letters.iter_mut().zip(seq) {
        match letter {
            0 => return Err(byte),
            b't' => changed.uracil += 1,
            b'n' => changed.unknown += 1,
            _ => {}
        }
        letter.make_ascii_uppercase();
    }
    Ok(())
}

/// Turns stored letters to the other strand.
pub fn turn(letters: &mut [u8]) {
    letters.reverse();
    for letter in letters {
        *letter = COMPLEMENT[*letter as usize];
    }
}

#[cfg(test)]
mod tests {
    use super::*;

    fn stored(seq: &[u8]) -> (Vec<u8>, Changed) {
        let (mut letters, mut changed) = (b"old".to_vec(), Changed::default());
        store(seq, &mut letters, &mut changed).unwrap();
        (letters, changed)
    }

    #[test]
    fn letters_are_stored_in_capitals() {
        assert_eq!(stored(b"ACGTNacgtn"), (b"ACGTNACGTN".to_vec(), Changed::default()));
        let codes = Changed { uracil: 2, unknown: 24 };
        let ambiguous = b"RYSWKMBDHVrywskmbdhv.XzE";
        let seq = [&ambiguous[..], b"Uu"].concat();
        assert_eq!(stored(&seq), ([&[b'N'; 24][..], b"TT"].concat(), codes));
    }

    #[test]
    fn what_is_no_letter() {
        for byte in [b'=', b'*', b'1', b' ', b'-', 0, 0xC1] {
            let seq = [b'A', byte, b'C'];
            assert_eq!(store(&seq, &mut Vec::new(), &mut Changed::default()), Err(byte));
        }
    }

    #[test]
    fn turning() {
        let mut letters = b"AACGTN".to_vec();
        turn(&mut letters);
        assert_eq!(letters, b"NACGTT");
    }
}
