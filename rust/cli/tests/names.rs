//! Property: names are stored as SAM has them and come back with their reads; a block that cannot
//! hold its names is written without them, which is said, and no other block changes. Catches: a
//! name that is altered or goes to another read, names that are lost in silence, a block that is
//! lost with its names, a flood of messages.

mod common;
use common::*;
use ora::{section_span, Section};
use std::fs;

/// The flags of a header that speak of names: they are stored, they are not.
const STORED: u32 = 0x8;
const NOT_STORED: u32 = 0x4;

/// A folder with a reference of one sequence.
struct Sample {
    folder: Folder,
    reference: String,
}

/// The letters of a read, by its number; no two of the first 65,536 have the same.
fn letters(number: usize) -> String {
    let digit = |k: usize| ["A", "C", "G", "T"][number >> (2 * k) & 3];
    (0..8).map(digit).collect()
}

/// A record of a read of this name.
fn record(name: &[u8], number: usize) -> Vec<u8> {
    [name, b"\t4\t*\t0\t0\t*\t*\t0\t0\t", letters(number).as_bytes(), b"\t*\n"].concat()
}

impl Sample {
    fn new(name: &str) -> Sample {
        let folder = Folder::new(name);
        let genome = folder.write("g.fa", ">one\nACGTACGTTGCA\n");
        let reference = folder.path("g.ref");
        run(&["reference", &genome, "-o", &reference]).accepted();
        Sample { folder, reference }
    }

    /// Encodes reads of these names, so many a block.
    fn encode(&self, names: &[&[u8]], reads_per_block: usize, options: &[&str]) -> Ran {
        let records = names.iter().enumerate().flat_map(|(number, name)| record(name, number));
        let sam = self.folder.write("r.sam", records.collect::<Vec<_>>());
        let (size, output) = (reads_per_block.to_string(), self.folder.path("r.ora"));
        let fixed = ["encode", "-r", &self.reference, "-o", &output, &sam, "--c-time", "0"];
        run(&[&fixed[..], &["--reads-per-block", &size], options].concat()).accepted()
    }

    fn run(&self, words: &[&str]) -> Ran {
        run(&[words, &["-r", &self.reference, &self.folder.path("r.ora")]].concat())
    }

    /// FASTA and --names give these names, in this order, each with its read.
    #[track_caller]
    fn check_names(&self, names: &[impl AsRef<[u8]>]) {
        let printed = |before: &[u8], between: &[u8]| -> Vec<u8> {
            let line = |(number, name): (usize, &_)| {
                [before, AsRef::<[u8]>::as_ref(name), between, letters(number).as_bytes(), b"\n"]
                    .concat()
            };
            names.iter().enumerate().flat_map(line).collect()
        };
        let (fasta, table) = (printed(b">", b"\n"), printed(b"", b"\t"));
        for threads in ["1", "3"] {
            let decoded = |words: &[&str]| {
                let ran = self.run(&[&["decode", "--threads", threads], words].concat()).accepted();
                assert_eq!(ran.stderr, "");
                ran.stdout
            };
            assert!(decoded(&["--fasta"]) == fasta);
            assert!(decoded(&["--fasta", "--names"]) == fasta);
            assert!(decoded(&["--names"]) == table);
        }
        self.run(&["validate"]).accepted();
    }

    /// The blocks of the file.
    fn blocks(&self) -> Vec<Vec<u8>> {
        let file = self.folder.read("r.ora");
        ora::blocks(&file).map(|block| block.unwrap().bytes.to_vec()).collect()
    }

    /// For each block whether it has names; if not, it has no byte of them.
    fn named(&self) -> Vec<bool> {
        let named = |block: &Vec<u8>| {
            let flags = u32::from_le_bytes(block[42..46].try_into().unwrap());
            match flags & (STORED | NOT_STORED) {
                STORED => true,
                NOT_STORED => {
                    assert!(section_span(block, Section::Names).is_empty());
                    false
                }
                flags => panic!("{flags:#x}"),
            }
        };
        self.blocks().iter().map(named).collect()
    }
}

/// The lines about blocks without names, which come first; the last of them is the total.
fn warnings(ran: &Ran) -> Vec<&str> {
    ran.stderr.lines().take_while(|line| line.starts_with("frubanto: ")).collect()
}

/// The number before these words in a summary.
#[track_caller]
fn counted(ran: &Ran, words: &str) -> usize {
    let line = ran.stderr.lines().find(|line| line.ends_with(&format!(" {words}")));
    let line = line.unwrap_or_else(|| panic!("no line `{words}` in\n{}", ran.stderr));
    line.split_whitespace().next().unwrap().parse().unwrap()
}

#[test]
fn names_come_back_as_they_were() {
    let sample = Sample::new("names_back");
    let long = |last: &str| format!("{}{last}", "x".repeat(255 - last.len()));
    let many = |first: &str| format!("{first}{}", "a0".repeat(127));
    for names in [
        // Rising, with steps of more than one byte, and falling.
        vec!["r1", "r2", "r2", "r300", "r70000", "r4294967295", "r99999999999"],
        vec!["r9", "r8", "r10", "r3"],
        // Leading zeros, in some names or in all, and nothing but zeros.
        vec!["r007", "r008", "r010"],
        vec!["r7", "r07", "r007", "r0", "r00", "r0"],
        // 18 digits and 19.
        vec!["999999999999999998", "999999999999999999"],
        vec!["999999999999999999", "1000000000000000000", "9999999999999999999999"],
        // 255 bytes; in stretches of a byte each.
        vec![&long("1"), &long("2"), &long("10000000")],
        vec![&many("1"), &many("9"), &many("0")],
        // A stretch of digits in one name where the next has others.
        vec!["1a", "a1", "22b", "b22"],
        // All that is printable, spaces at either end too.
        vec![" ", "~", "7", "*"],
        vec![" a b ", "!\"#$%&'()", ">x", "@ab", "\\t"],
        vec!["A00123:45:HXYW:1:1101:1000:2000", "A00123:45:HXYW:1:1101:1000:1999"],
        // Both reads of a pair.
        vec!["p1", "p1", "p2", "p2"],
        vec!["one"],
    ] {
        for reads_per_block in [1, 2, 50_000] {
            let bytes: Vec<&[u8]> = names.iter().map(|name| name.as_bytes()).collect();
            let ran = sample.encode(&bytes, reads_per_block, &[]);
            assert_eq!(warnings(&ran), [""; 0]);
            assert_eq!(counted(&ran, "with a name"), names.len());
            assert_eq!(counted(&ran, "without a name"), 0);
            assert!(sample.named().iter().all(|&named| named));
            let sizes = sample.blocks();
            let sizes = sizes.iter().map(|block| section_span(block, Section::Names).len());
            assert_eq!(counted(&ran, "bytes of names"), sizes.sum());
            sample.check_names(&bytes);
        }
    }
}

#[test]
fn a_block_that_cannot_hold_its_names() {
    let sample = Sample::new("names_lost");
    let (long, shown) = ("x".repeat(256), "x".repeat(60));
    for (wrong, read, why) in [
        (
            [&b"r3"[..], b"r4", b"r5x6"],
            2,
            "has 4 stretches of digits or of others, and that of read 0 has 2: `r5x6`".to_string(),
        ),
        (
            [b"r", b"r4", b"s"],
            1,
            "has 2 stretches of digits or of others, and that of read 0 has 1: `r4`".to_string(),
        ),
        ([b"r3", long.as_bytes(), b"r5"], 1, format!("has more than 255 bytes: `{shown}...`")),
        ([b"", b"r4", b"r5"], 0, "has no bytes".to_string()),
        (
            [b"r3", b"r4", b"r\xC3\xA95"],
            2,
            "holds the byte C3 (hexadecimal), which is no printable ASCII: `r\\xc3\\xa95`"
                .to_string(),
        ),
        (
            [b"r3", b"\x7F4", b"r5"],
            1,
            "holds the byte 7F (hexadecimal), which is no printable ASCII: `\\x7f4`".to_string(),
        ),
    ] {
        let names = [&[&b"r0"[..], b"r1", b"r2"], &wrong[..], &[b"007", b"08", b"9"]].concat();
        for threads in ["1", "3"] {
            let ran = sample.encode(&names, 3, &["--threads", threads]);
            let (sam, line) = (sample.folder.path("r.sam"), 3 + read + 1);
            assert_eq!(
                warnings(&ran),
                [
                    format!(
                        "frubanto: {sam}, line {line}: block 1 is written without names, \
                         as that of its read {read} {why}"
                    ),
                    format!(
                        "frubanto: {sam}: 1 of 3 blocks, with 3 of 9 reads, are written without \
                         names"
                    ),
                ]
            );
            assert_eq!((counted(&ran, "with a name"), counted(&ran, "without a name")), (6, 3));
            assert_eq!(sample.named(), [true, false, true]);
            let unnamed = [&b"1.0"[..], b"1.1", b"1.2"];
            sample.check_names(&[&names[..3], &unnamed, &names[6..]].concat());
        }
        // It is the block that is made where no names are wanted.
        let block = sample.blocks().remove(1);
        sample.encode(&names, 3, &["--no-names"]);
        assert!(sample.blocks()[1] == block);
    }
}

#[test]
fn not_every_block_without_names_is_told() {
    let sample = Sample::new("names_flood");
    let names: Vec<String> =
        (0..60).map(|read| "x1".repeat(1 + read % 2) + &read.to_string()).collect();
    let names: Vec<&[u8]> = names.iter().map(|name| name.as_bytes()).collect();
    for threads in ["1", "4"] {
        let ran = sample.encode(&names, 2, &["--threads", threads]);
        let said = warnings(&ran);
        assert_eq!(said.len(), 11);
        for (block, line) in said[..10].iter().enumerate() {
            let place = format!("line {}: block {block} is written without names", 2 * block + 2);
            assert!(line.contains(&place), "{line}");
        }
        let total = "r.sam: 30 of 30 blocks, with 60 of 60 reads, are written without names";
        assert!(said[10].ends_with(total), "{}", said[10]);
        assert_eq!(sample.named(), [false; 30]);
    }
}

#[test]
fn names_that_are_not_wanted() {
    let sample = Sample::new("names_unwanted");
    let names = [&b"r1"[..], b"r2", b"no number", b"", b"\xFF", b"r3"];
    let ran = sample.encode(&names, 4, &["--no-names"]);
    assert_eq!(warnings(&ran), [""; 0]);
    assert_eq!((counted(&ran, "with a name"), counted(&ran, "without a name")), (0, 6));
    assert_eq!(counted(&ran, "bytes of names"), 0);
    assert_eq!(sample.named(), [false, false]);
    sample.check_names(&["0.0", "0.1", "0.2", "0.3", "1.0", "1.1"]);
}

#[test]
fn a_listing_has_no_names() {
    let sample = Sample::new("names_listed");
    let names = [&b"r1"[..], b"r2", b"r3"];
    let listed = |options: &[&str]| {
        sample.encode(&names, 2, options);
        let decoded = sample.run(&["decode"]).accepted();
        (sample.run(&["list"]).accepted().stdout, decoded.stdout)
    };
    assert_eq!(listed(&[]), listed(&["--no-names"]));
}

#[test]
fn a_block_whose_names_stay_unread() {
    let sample = Sample::new("names_unread");
    sample.encode(&[b"r1", b"r2", b"r3"], 2, &[]);
    let mut blocks = sample.blocks();
    blocks[0][42] &= !(STORED as u8);
    sample.folder.write("r.ora", blocks.concat());
    sample.check_names(&["0.0", "0.1", "r3"]);
    // What stands there may be anything.
    let names = section_span(&blocks[0], Section::Names);
    blocks[0][names].fill(0xFF);
    sample.folder.write("r.ora", blocks.concat());
    sample.check_names(&["0.0", "0.1", "r3"]);
}

#[test]
fn refuses_40_a_damaged_names_section() {
    let sample = Sample::new("names_damaged");
    sample.encode(&[b"r1", b"r2", b"r3", b"r4", b"r5", b"r6"], 2, &[]);
    let blocks = sample.blocks();
    let names = section_span(&blocks[1], Section::Names);
    let offset = blocks[0].len();
    // The token count, the type of the first column, its size, and a byte of a name.
    for (place, value) in [(0, 3), (4, 1), (6, 9), (names.len() - 10, 0x7F)] {
        let mut blocks = blocks.clone();
        blocks[1][names.start + place] = value;
        let file = sample.folder.write("r.ora", blocks.concat());
        let place = format!("refused 40, block 1, read 0, offset {offset}: the names section");
        for threads in ["1", "3"] {
            let with = |words: &[&str]| sample.run(&[words, &["--threads", threads]].concat());
            let first = |words: &[&str]| with(words).failed(1, &place).text().to_string();
            let two = [letters(0), letters(1)];
            assert_eq!(first(&["decode"]), format!("{}\n{}\n", two[0], two[1]));
            let named = format!("r1\t{}\nr2\t{}\n", two[0], two[1]);
            assert_eq!(first(&["decode", "--names"]), named);
            assert!(first(&["list"]).ends_with("\nrefused 40 1 0\n"));
            let validated = with(&["validate"]);
            assert_eq!((validated.status, &validated.stderr[..]), (Some(1), ""));
            assert!(validated.text().starts_with(&format!("{file}: {place}")));
            let json = with(&["validate", "--json"]);
            assert_eq!(json.status, Some(1));
            assert!(json.text().contains("\"refusal\":{\"number\":40,\"name\":\"Names"));
            let place = format!("\"block\":1,\"read\":0,\"offset\":{offset}}}}}\n");
            assert!(json.text().ends_with(&place), "{}", json.text());
        }
        // The headers are right.
        run(&["blocks", &file]).accepted();
    }
}

#[test]
fn names_stay_in_order() {
    let sample = Sample::new("names_order");
    let names: Vec<String> = (0..5_000).map(|read| format!("r{}", read * 7919 % 5_003)).collect();
    let names: Vec<&[u8]> = names.iter().map(|name| name.as_bytes()).collect();
    let mut files = Vec::new();
    for threads in ["1", "2", "7"] {
        sample.encode(&names, 13, &["--threads", threads]);
        sample.check_names(&names);
        files.push(sample.folder.read("r.ora"));
        fs::remove_file(sample.folder.path("r.ora")).unwrap();
    }
    assert!(files.iter().all(|file| *file == files[0]));
}

#[test]
fn lines_that_end_in_two_bytes() {
    let sample = Sample::new("names_crlf");
    let sam = [record(b"r1", 0), record(b"r2", 1)].concat();
    let sam = String::from_utf8(sam).unwrap().replace('\n', "\r\n");
    let sam = sample.folder.write("r.sam", sam);
    let output = sample.folder.path("r.ora");
    run(&["encode", "-r", &sample.reference, "-o", &output, &sam]).accepted();
    sample.check_names(&["r1", "r2"]);
}
