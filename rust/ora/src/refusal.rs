//! Refusals: their numbers, names and sentences in one list.

use crate::raw::Answer;
use std::fmt;

/// Makes the enum of kinds and what is told of each out of one list.
macro_rules! refusal_kinds {
    ($($name:ident = $number:literal, $sentence:literal;)*) => {
        /// Why a call refuses, by name. The discriminant is the number of the refusal.
        #[derive(Clone, Copy, Debug, PartialEq, Eq, PartialOrd, Ord, Hash)]
        #[non_exhaustive]
        pub enum RefusalKind {
            $(
                #[doc = concat!("Refusal ", stringify!($number), ": ", $sentence, ".")]
                $name = $number,
            )*
        }

        impl RefusalKind {
            /// All kinds, by rising number.
            pub const ALL: &'static [RefusalKind] = &[$(RefusalKind::$name,)*];

            /// The kind with this number.
            pub fn from_number(number: u64) -> Option<RefusalKind> {
                match number {
                    $($number => Some(RefusalKind::$name),)*
                    _ => None,
                }
            }

            /// The kind's name, as it is written here.
            pub fn name(self) -> &'static str {
                match self {
                    $(RefusalKind::$name => stringify!($name),)*
                }
            }

            /// When it is given, in words.
            pub fn sentence(self) -> &'static str {
                match self {
                    $(RefusalKind::$name => $sentence,)*
                }
            }
        }
    };
}

refusal_kinds! {
    ReferenceSizeWrong = 1, "the reference has the wrong number of bytes, or too many bases";
    HeaderTruncated = 2, "the input has fewer than 121 bytes";
    MagicWrong = 3, "the first two bytes are not 49 7C";
    VersionUnsupported = 4, "the version is not 20505 to 29999";
    HeaderLengthTooSmall = 5, "l_header is below 121; so is every negative one";
    FlagUnsupported = 6, "flag 0x40 or flag 0x80 is set";
    ReadCountOutOfRange = 7, "n_reads is negative or above 50,000";
    SectionsTruncated = 8, "header and sections are longer than the input";
    LengthsInvalid = 9,
        "header and size section give no list of lengths, each of 1 to 100,000 letters";
    DnaSizeWrong = 10, "the raw DNA size is not the sum of the lengths";
    NSectionWrong = 11,
        "the N section has not one bit a read, or its byte is not the with-N byte of its group";
    DnaTruncated = 12, "the DNA section ends too soon";
    FlagBitStray = 13,
        "a bit past a group's last read is set, or Forward or pos_t of a raw or raw4 record";
    RecordFlagInvalid = 14,
        "a flag byte is that of no kind, or its count is not one that the kind can have";
    SpanOutsideReference = 15, "the stretch of an aligned read does not lie inside the reference";
    ClipsInvalid = 16, "left + right of a local record is 0, or not below the read's length";
    EntryOffsetInvalid = 17,
        "an entry after the first has the offset 0, or an entry lands outside the aligned part";
    BaseCodeInvalid = 18, "a letter of a raw4 record is above 4";
    PaddingNonzero = 19, "a bit after packed letters is not 0";
    NPositionsInvalid = 20,
        "an N list breaks its rules, or raw4's with-N bit does not say whether it holds an N";
    DnaTrailing = 21, "bytes of the DNA section are left after the last record";
    CapacityTooSmall = 22, "letters, ends, names or name_ends is too short for the block";
    ReadCountTooLarge = 30, "there are more than 50,000 reads";
    CandidateCountWrong = 31,
        "positions, strands, lefts and rights do not all have one element for each read";
    ReadEndsInvalid = 32,
        "the ends do not rise from 0 by 1 to 100,000, or the last is not the number of letters";
    LetterInvalid = 33, "a letter is not A, C, G, T or N";
    BlockCapacityTooSmall = 34, "the block is longer than out";
    NamesInvalid = 40,
        "the names section stores no list of names, each of 1 to 255 printable ASCII bytes";
    LentNamesInvalid = 41,
        "the names are not one a read, each of 1 to 255 printable bytes, all of one token count";
}

impl RefusalKind {
    /// The number of the refusal.
    pub fn number(self) -> u64 {
        self as u64
    }
}

/// A call's refusal: its number, and where in the input it arose.
///
/// ```
/// use ora::{validate_block, Reference, RefusalKind};
///
/// let reference = Reference::new(12, &[0x1B, 0x1B, 0xE4])?;
/// let refusal = validate_block(&reference, &[0; 121]).unwrap_err();
/// assert_eq!((refusal.number, refusal.block, refusal.read), (3, 0, 0));
/// assert_eq!(refusal.kind(), Some(RefusalKind::MagicWrong));
/// assert_eq!(refusal.name(), "MagicWrong");
/// let text = refusal.to_string();
/// assert_eq!(text, "refused 3, block 0, read 0: the first two bytes are not 49 7C");
/// # Ok::<(), ora::Refusal>(())
/// ```
#[derive(Clone, Copy, Debug, PartialEq, Eq, Hash)]
pub struct Refusal {
    /// Which refusal it is.
    pub number: u64,
    /// The index of the block in its file; 0 where the call is not on a file.
    pub block: u64,
    /// The index in its block of the read whose record is refused; that of a group's first read
    /// where the group's four bytes are refused; 0 with every other refusal.
    pub read: u64,
}

impl Refusal {
    /// The refusal of an answer, if it is one.
    pub(crate) fn check(answer: &Answer) -> Result<(), Refusal> {
        match *answer {
            [0, ..] => Ok(()),
            [number, block, read, ..] => Err(Refusal { number, block, read }),
        }
    }

    /// What kind of refusal it is; None for a number that this crate does not know.
    pub fn kind(&self) -> Option<RefusalKind> {
        RefusalKind::from_number(self.number)
    }

    /// The name of its kind.
    pub fn name(&self) -> &'static str {
        self.kind().map_or("Unknown", RefusalKind::name)
    }
}

/// Number, place and reason, in words.
impl fmt::Display for Refusal {
    fn fmt(&self, f: &mut fmt::Formatter) -> fmt::Result {
        let Refusal { number, block, read } = self;
        let reason = self.kind().map_or("unknown", RefusalKind::sentence);
        write!(f, "refused {number}, block {block}, read {read}: {reason}")
    }
}

impl std::error::Error for Refusal {}
