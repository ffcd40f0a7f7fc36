//! Rare paths that have to be met. Which are met is judged by what is seen in the cases, not by what
//! they were made for (`observe`).

/// Makes the enum of paths and their names out of one list.
macro_rules! paths {
    ($($path:ident: $name:literal;)*) => {
        #[derive(Clone, Copy, Debug, PartialEq, Eq)]
        pub enum Path {
            $($path,)*
        }

        impl Path {
            pub const ALL: &'static [Path] = &[$(Path::$path,)*];

            pub fn name(self) -> &'static str {
                match self {
                    $(Path::$path => $name,)*
                }
            }
        }
    };
}

paths! {
    PerfectForward: "perfect, forward";
    PerfectReverse: "perfect, reverse";
    GlobalForward: "global, forward";
    GlobalReverse: "global, reverse";
    LocalForward: "local, forward";
    LocalReverse: "local, reverse";
    Raw: "raw";
    RawWithList: "raw with an N list";
    Raw4: "raw4";
    Raw4NoN: "raw4 without an N";
    Raw4Full: "raw4 with 32 N or more";
    Raw4Odd: "raw4 of an odd length";
    Letters1: "a read of 1 letter";
    Letters256: "a read of 256 letters";
    Letters32768: "a read of 32,768 letters";
    LettersAbove32768: "a read of more than 32,768 letters";
    LettersAbove65535: "a read of more than 65,535 letters";
    Raw4Above65535: "raw4 of more than 65,535 letters";
    Letters100000: "a read of 100,000 letters";
    List31: "an N list of 31";
    NOnLast: "an N list of 31 up to the last letter";
    OffsetWords2: "an N offset of 2 words";
    OffsetWords3: "an N offset of 3 words or more";
    NUnderClip: "an N on a clip";
    EntryUnderN: "an entry under an N";
    Global31: "31 entries, global";
    Local31: "31 entries, local";
    Reverse31: "31 entries, reverse";
    ReverseLocal31: "31 entries, reverse local";
    Filler31: "31 entries, a filler among them";
    Fillers31: "31 entries, fillers alone";
    FillerUnderN31: "31 entries, a filler under an N among them";
    OtherUnderN31: "31 entries, one under an N that is no filler among them";
    EntryOnLast: "31 entries up to the last aligned letter";
    Entries30: "30 entries";
    Offset63: "an entry 63 after the one before";
    FillersAlone: "fillers alone";
    Clip255Left: "a left clip of 255";
    Clip255Right: "a right clip of 255";
    Clips510: "clips of 510";
    First65535: "the first aligned read at 65,535";
    First65536: "the first aligned read at 65,536";
    Step65535: "a step of 65,535";
    Step65536: "a step of 65,536";
    StepBack: "a step back";
    StepOverRaw: "a step over a raw read";
    StepOverGroups: "a step out of an earlier group";
    PositionAbove31Bits: "a position above 31 bits";
    LastBase: "a stretch that ends with the reference";
    ReverseLocalFirst: "a reverse local stretch from base 0";
    ReverseLocalLast: "a reverse local stretch that ends with the reference";
    ReverseLocalAbove31Bits: "a reverse local stretch above 31 bits";
    ReverseLocal1: "a reverse local read of 1 aligned letter";
    StepFromReverseLocal: "a step of 2 bytes from a reverse local read";
    StepToReverseLocal: "a step of 2 bytes to a reverse local read";
    Group1: "a last group of 1";
    Group2: "a last group of 2";
    Group3: "a last group of 3";
    Group4: "a last group of 4";
    Group5: "a last group of 5";
    Group6: "a last group of 6";
    Group7: "a last group of 7";
    Group8: "a last group of 8";
    NoReads: "a block without reads";
    Reads1000: "a block of 1,000 reads or more";
    Top: "a block with top above 0";
    TopAbove1: "a block with top above 1";
    LongHeader: "a longer header";
    OpaqueSections: "opaque sections with bytes";
    SizeSection: "lengths in a size section";
    LengthsEqual: "lengths by l_read";
    BytesAfter: "bytes after the block";
    NoBases: "a reference of no bases";
    NegativeHeader: "refused: a negative l_header";
    NegativeReads: "refused: a negative n_reads";
    NegativeLength: "refused: a negative l_read";
    SumAbove32Bits: "refused: a block length above 32 bits";
    LettersAbove32Bits: "refused: a sum of lengths above 32 bits";
    RefusedAfter100: "refused after 100 reads";
    RefusedAfter31: "refused after a record of 31 entries";
    NoRoomForTop: "refused with 22: a block with top above 0";
    ReverseLocalBelow0: "refused with 15: a reverse local stretch that would start below 0";
    ReverseLocalMinus1: "refused with 15: a reverse local stretch that would start at -1";
    ReverseLocalPast: "refused with 15: a reverse local stretch that would end one too far";
    FileEmpty: "the empty file";
    FileJoined: "a file of two blocks or more";
    FileLaterBlock: "a file refused after its first block";
    FileTop: "a file with top above 0";
    FileTopTwice: "a file with top above 0 in its first block and in a later one";
    FileTopRefused: "a file refused after a first block with top above 0";
    JustFits: "buffers that just fit";
    LettersShort: "letters too short alone";
    EndsShort: "ends too short alone";
    NamesShort: "names too short alone";
    NameEndsShort: "name ends too short alone";
    NamesNoRoom: "names that stay unread, and no room for any";
    NamesUnread: "a names section that stays unread";
    NamesOfNone: "names of no reads";
    NamesOfOne: "names of one read";
    Name255: "a name of 255 bytes";
    Tokens255: "names of 255 tokens";
    Strings: "names: a column of strings";
    Steps8: "names: a column of 8-bit steps";
    Steps16: "names: a column of 16-bit steps";
    Steps32: "names: a column of 32-bit steps";
    StepsWider: "names: steps wider than they have to be";
    NumbersAsStrings: "names: strings that the writer stores as numbers";
    MixedStrings: "names: strings of digits in one name, of others in the next";
    LeadingZero: "names: a leading zero";
    Digits18: "names: a number of 18 digits";
    Digits19: "names: digits as a string, 19 or more";
    NameStep255: "names: a step of 255";
    NameStep256: "names: a step of 256";
    NameStep65535: "names: a step of 65,535";
    NameStep65536: "names: a step of 65,536";
    NameStepMost: "names: a step of 4,294,967,295";
    NumberMost: "names: 999,999,999,999,999,999 as a number";
    NotEmpty: "refused with 40: bytes and no reads";
    FrontCut: "refused with 40: token count, types and sizes cut";
    TokenCount0: "refused with 40: a token count of 0";
    TokenCountAbove255: "refused with 40: a token count above 255";
    TypeUnknown: "refused with 40: a type that is none";
    SizesWrong: "refused with 40: sizes that do not fill the section";
    ZerosWrong: "refused with 40: strings that are not one a read";
    TokenEmpty: "refused with 40: an empty string";
    StepsWrong: "refused with 40: steps that are not one a read";
    StartNegative: "refused with 40: a negative start";
    StartMinus1: "refused with 40: a start of -1";
    StartAbove: "refused with 40: a start above the limit";
    SumAbove: "refused with 40: a sum above the limit";
    SumOneAbove: "refused with 40: a sum one above the limit";
    NameAbove255: "refused with 40: a name above 255 bytes";
    NameByte: "refused with 40: a byte that is not printable";
    NameNotSplit: "refused with 40: neighbours of one nature, or a token of both";
    GivenCount: "refused with 41: name ends that are not one a read";
    GivenEnd: "refused with 41: a name end that does not rise";
    GivenAbove255: "refused with 41: a name above 255 bytes";
    GivenPast: "refused with 41: a name end past the names";
    GivenLeft: "refused with 41: name bytes that are left";
    GivenByte: "refused with 41: a byte that is not printable";
    GivenTokens: "refused with 41: token counts that differ";
    WrittenPerfect: "written: perfect";
    WrittenGlobal: "written: global";
    WrittenLocal: "written: local";
    WrittenRaw: "written: raw";
    WrittenRaw4: "written: raw4";
    WrittenReverseLocal: "written: reverse local";
    WrittenBack1: "written: a step of -1 from or to a reverse local read";
    WrittenStep0: "written: a step of 0 from or to a reverse local read";
    WrittenStep65535: "written: a step of 65,535 from or to a reverse local read";
    WrittenStep65536: "written: a step of 65,536 from or to a reverse local read";
    Gap63: "written: a gap of 63, no filler";
    Gap64: "written: a gap of 64, a filler";
    Gap126: "written: a gap of 126, a filler";
    Gap127: "written: a gap of 127, two fillers";
    FillerUnderN: "written: a filler under an N";
    Written30: "written: 30 entries";
    Written31: "written: 31 entries";
    Written31Filler: "written: 31 entries, a filler among them";
    Written31Local: "written: 31 entries, local";
    Written31Reverse: "written: 31 entries, reverse";
    TooManyEntries: "written raw: more than 31 entries";
    TooManyBy1: "written raw: 32 entries";
    NoStrand: "written raw: no strand";
    ClipsTooLong: "written raw: clips not below the length";
    SpanOutside: "written raw: outside the reference";
    WrittenN31: "written: a list of 31 N";
    WrittenN32: "written: 32 N in raw4";
    WrittenN33: "written: 33 N in raw4";
    WrittenEqual: "written: equal lengths";
    WrittenReads50000: "written: 50,000 reads";
    WrittenJustFits: "written: a block that just fits";
    WrittenStrings: "written: a column of strings";
    WrittenSteps8: "written: a column of 8-bit steps";
    WrittenSteps16: "written: a column of 16-bit steps";
    WrittenSteps32: "written: a column of 32-bit steps";
    WrittenFalling: "written as strings: numbers that fall";
    WrittenFar: "written as strings: numbers that rise by 2^32";
    WrittenZero: "written as strings: a leading zero";
    WrittenDigits19: "written as strings: 19 digits or more";
    WrittenMixed: "written as strings: digits in one name, others in the next";
}
