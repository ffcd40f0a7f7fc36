//! The CIGAR of a SAM record: which letters of SEQ are aligned, and whether without a gap.

/// What a CIGAR says of SEQ, in the direction in which SEQ stands.
#[derive(Clone, Copy, Debug, Default, PartialEq, Eq)]
pub struct Cigar {
    /// Soft-clipped letters before and after the aligned ones.
    pub front: u64,
    pub back: u64,
    /// Letters that lie on a base each (M, =, X).
    pub aligned: u64,
    /// Letters of SEQ that it speaks of.
    pub letters: u64,
    /// Insertions, deletions, skipped bases or padding (I, D, N, P).
    pub gaps: bool,
    /// Hard clips: SEQ has not all letters of the read.
    pub hard: bool,
}

/// Where in a CIGAR an operation may stand: H, S, all others, S, H.
#[derive(Clone, Copy, PartialEq, Eq, PartialOrd, Ord)]
enum Stage {
    HardFront,
    SoftFront,
    Middle,
    SoftBack,
    HardBack,
}

impl Cigar {
    /// None where it is malformed. Operations of length 0 say nothing.
    pub fn parse(text: &[u8]) -> Option<Cigar> {
        let (mut cigar, mut stage, mut rest) = (Cigar::default(), Stage::HardFront, text);
        if text.is_empty() {
            return None;
        }
        while !rest.is_empty() {
            let digits = rest.iter().position(|byte| !byte.is_ascii_digit())?;
            let length = crate::sequences::number(&rest[..digits])?;
            let operation = rest[digits];
            rest = &rest[digits + 1..];
            stage = next_stage(stage, operation)?;
            cigar.add(operation, length, stage)?;
        }
        Some(cigar)
    }

    fn add(&mut self, operation: u8, length: u64, stage: Stage) -> Option<()> {
        if length == 0 {
            return Some(());
        }
        let place = match operation {
            b'M' | b'=' | b'X' => &mut self.aligned,
            b'S' if stage == Stage::SoftFront => &mut self.front,
            b'S' => &mut self.back,
            b'H' => {
                self.hard = true;
                return Some(());
            }
            _ => {
                self.gaps = true;
                if operation != b'I' {
                    return Some(());
                }
                // Insertions are letters, but neither aligned nor clipped.
                &mut 0
            }
        };
        *place = place.checked_add(length)?;
        self.letters = self.letters.checked_add(length)?;
        Some(())
    }
}

/// The stage of the next operation; None where it cannot stand there, or there is none such.
fn next_stage(stage: Stage, operation: u8) -> Option<Stage> {
    let next = match operation {
        b'H' if stage == Stage::HardFront => Stage::HardFront,
        b'H' => Stage::HardBack,
        b'S' if stage <= Stage::SoftFront => Stage::SoftFront,
        b'S' => Stage::SoftBack,
        b'M' | b'I' | b'D' | b'N' | b'P' | b'=' | b'X' => Stage::Middle,
        _ => return None,
    };
    (stage <= next).then_some(next)
}

#[cfg(test)]
mod tests {
    use super::*;

    fn plain(front: u64, aligned: u64, back: u64) -> Cigar {
        let letters = front + aligned + back;
        Cigar { front, back, aligned, letters, ..Cigar::default() }
    }

    fn parse(text: &str) -> Option<Cigar> {
        Cigar::parse(text.as_bytes())
    }

    #[test]
    fn what_is_aligned_and_what_is_clipped() {
        assert_eq!(parse("100M"), Some(plain(0, 100, 0)));
        assert_eq!(parse("3S90M7S"), Some(plain(3, 90, 7)));
        assert_eq!(parse("40=1X9M"), Some(plain(0, 50, 0)));
        assert_eq!(parse("5H3S90M7S2H"), Some(Cigar { hard: true, ..plain(3, 90, 7) }));
        assert_eq!(parse("10S"), Some(plain(10, 0, 0)));
        assert_eq!(parse("0H0S9M0I0S"), Some(plain(0, 9, 0)));
    }

    #[test]
    fn gaps_and_splices() {
        let gaps = |letters, cigar| Some(Cigar { gaps: true, letters, ..cigar });
        assert_eq!(parse("50M1D50M"), gaps(100, plain(0, 100, 0)));
        assert_eq!(parse("50M900N50M"), gaps(100, plain(0, 100, 0)));
        assert_eq!(parse("50M2I48M"), gaps(100, plain(0, 98, 0)));
        assert_eq!(parse("50M1P50M"), gaps(100, plain(0, 100, 0)));
        assert_eq!(parse("2S3I5M"), gaps(10, plain(2, 5, 0)));
    }

    #[test]
    fn malformed() {
        for text in [
            "",
            "M",
            "10",
            "10M5",
            "10Q",
            "10m",
            "-5M",
            "5M3S4M",
            "5M3H4M",
            "5M3H2S",
            "3S4H5M",
            "1 0M",
            "99999999999999999999M",
            "18446744073709551615M1M",
            "*",
            "5M*",
        ] {
            assert_eq!(parse(text), None, "{text}");
        }
    }
}
