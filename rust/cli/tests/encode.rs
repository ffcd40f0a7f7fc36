//! Property: `frubanto encode` makes the blocks that the library makes of the reads as they were
//! printed and of the mapper's places, and says what became of every record. Catches: a strand
//! that is not turned back, clips that are not swapped, a place in another sequence, a record that
//! is lost or stored twice, a block that depends on the number of threads.

mod common;
use common::*;
use ora::{Candidate, Reads, Reference};
use second::blocks::read_block;
use second::prng::Prng;
use second::records::{Kind, Record};
use std::fs;

/// A genome of some sequences, its reference, and records mapped to it.
struct Simulated {
    folder: Folder,
    reference: String,
    sequences: Vec<(String, Vec<u8>)>,
    sam: String,
    /// The reads as they were printed, with what is proposed for them.
    reads: Vec<(Vec<u8>, Candidate)>,
}

fn complement(letters: &[u8]) -> Vec<u8> {
    let other = |letter: &u8| match letter {
        b'A' => b'T',
        b'C' => b'G',
        b'G' => b'C',
        b'T' => b'A',
        _ => b'N',
    };
    letters.iter().rev().map(other).collect()
}

impl Simulated {
    fn new(name: &str, seed: u64) -> Simulated {
        let folder = Folder::new(name);
        let mut rng = Prng::new(seed);
        let (mut genome, mut sequences) = (String::new(), Vec::new());
        for (number, bases) in [701, 1, 300, 1002].into_iter().enumerate() {
            let letters: Vec<u8> = (0..bases).map(|_| rng.pick(b"ACGT")).collect();
            genome.push_str(&format!(">chr{number} of {bases}\n"));
            for line in letters.chunks(61) {
                genome.push_str(std::str::from_utf8(line).unwrap());
                genome.push('\n');
            }
            sequences.push((format!("chr{number}"), letters));
        }
        let genome = folder.write("genome.fa", genome);
        let reference = folder.path("genome.ref");
        run(&["reference", &genome, "-o", &reference]).accepted();
        let mut simulated =
            Simulated { folder, reference, sequences, sam: String::new(), reads: Vec::new() };
        simulated.add_header();
        simulated
    }

    fn add_header(&mut self) {
        self.sam.push_str("@HD\tVN:1.6\tSO:unsorted\n");
        for (name, letters) in &self.sequences {
            self.sam.push_str(&format!("@SQ\tSN:{name}\tLN:{}\n", letters.len()));
        }
        self.sam.push_str("@PG\tID:none\n");
    }

    fn start(&self, sequence: usize) -> usize {
        self.sequences[..sequence].iter().map(|(_, letters)| letters.len()).sum()
    }

    fn add_line(&mut self, flag: u32, place: (&str, usize), cigar: &str, seq: &[u8]) {
        let ((name, position), seq) = (place, std::str::from_utf8(seq).unwrap());
        let number = self.reads.len();
        let line = format!(
            "r{number}\t{flag}\t{name}\t{position}\t60\t{cigar}\t*\t0\t0\t{seq}\t*\tNM:i:0\n"
        );
        self.sam.push_str(&line);
    }

    /// A read with a place: a stretch with few differences or many, N and clips.
    fn add_placed(&mut self, rng: &mut Prng) {
        let sequence = rng.pick(&[0usize, 2, 3]);
        let letters = self.sequences[sequence].1.clone();
        let aligned = rng.range(1, 150) as usize;
        let position = rng.below((letters.len() - aligned) as u64 + 1) as usize;
        let mut seq = letters[position..position + aligned].to_vec();
        let apart = rng.pick(&[60, 60, 60, 2]);
        for letter in &mut seq {
            if rng.once_in(apart) {
                *letter = rng.pick(b"ACGTN");
            }
        }
        let clip = |rng: &mut Prng| match rng.below(3) {
            0 => rng.pick(&[1usize, 7, 40, 255]),
            _ => 0,
        };
        let (front, back) = (clip(rng), clip(rng));
        let random =
            |rng: &mut Prng, count| (0..count).map(|_| rng.pick(b"ACGT")).collect::<Vec<_>>();
        let seq = [random(rng, front), seq, random(rng, back)].concat();
        let part = |length: usize, operation| match length {
            0 => String::new(),
            _ => format!("{length}{operation}"),
        };
        let hard = if rng.once_in(9) { "5H" } else { "" };
        let cigar = format!("{}{}{}{hard}", part(front, 'S'), part(aligned, 'M'), part(back, 'S'));
        let reverse = rng.coin();
        let flag = if reverse { 0x10 } else { 0 } | rng.pick(&[0, 0x41, 0x81, 0x400, 0x200, 0x2]);
        let name = self.sequences[sequence].0.clone();
        let lowest = (self.start(sequence) + position) as u32;
        let (front, back) = (front as u8, back as u8);
        let (printed, candidate) = if reverse {
            (complement(&seq), Candidate::reverse(lowest).clipped(back, front))
        } else {
            (seq.clone(), Candidate::forward(lowest).clipped(front, back))
        };
        self.add_line(flag, (&name, position + 1), &cigar, &seq);
        self.reads.push((printed, candidate));
    }

    /// A record that gives no place, or no read.
    fn add_other(&mut self, rng: &mut Prng) {
        let length = rng.range(10, 60) as usize;
        let seq: Vec<u8> = (0..length).map(|_| rng.pick(b"ACGT")).collect();
        let half = length / 2;
        let rest = length - half;
        let (flag, place, cigar) = match rng.below(9) {
            0 => (0x4, ("*", 0), "*".to_string()),
            1 => (0x14, ("chr0", 5), "*".to_string()),
            2 => (0, ("chr0", 5), format!("{half}M2D{rest}M")),
            3 => (0x10, ("chr0", 5), format!("{half}M{rest}I")),
            4 => (0, ("chr2", 5), format!("{half}M90N{rest}M")),
            5 => (0x10, ("chr0", 702), format!("{length}M")),
            6 => (0, ("chr0", 0), format!("{length}M")),
            7 => (0, ("*", 7), format!("{length}M")),
            _ => {
                let flag = rng.pick(&[0x100, 0x800, 0x900, 0x110]);
                self.add_line(flag, ("chr0", 9), &format!("{length}M"), &seq);
                return;
            }
        };
        self.add_line(flag, place, &cigar, &seq);
        let printed = if flag & 0x10 != 0 { complement(&seq) } else { seq };
        self.reads.push((printed, Candidate::NONE));
    }

    fn write_sam(&self) -> String {
        self.folder.write("reads.sam", &self.sam)
    }

    /// The reads as they were printed, a line each.
    fn lines(&self) -> Vec<u8> {
        self.reads.iter().flat_map(|(letters, _)| [letters, &b"\n"[..]].concat()).collect()
    }

    /// The file that the library makes of these reads.
    fn expected(&self, reads_per_block: usize, b_id: u64, c_time: u64) -> Vec<u8> {
        let reference = self.folder.read("genome.ref");
        let reference = Reference::from_file(&reference).unwrap();
        let mut file = Vec::new();
        let named: Vec<_> = self.reads.iter().enumerate().collect();
        for (index, chunk) in (0..).zip(named.chunks(reads_per_block)) {
            let mut reads = Reads::new();
            for (number, (letters, candidate)) in chunk {
                reads.push(format!("r{number}").as_bytes(), letters, *candidate);
            }
            file.extend(ora::encode(&reference, &reads, b_id + index, c_time).unwrap());
        }
        file
    }
}

/// A sample in which all kinds of records are mixed.
fn mixed(name: &str, seed: u64, records: usize) -> Simulated {
    let mut simulated = Simulated::new(name, seed);
    let mut rng = Prng::new(seed + 1);
    for _ in 0..records {
        if rng.once_in(4) {
            simulated.add_other(&mut rng);
        } else {
            simulated.add_placed(&mut rng);
        }
    }
    simulated
}

/// The records of the blocks of a file, as the second implementation reads them.
fn records(reference_file: &[u8], file: &[u8]) -> Vec<Record> {
    let (bases, bytes) = reference_file.split_first_chunk().unwrap();
    let reference = second::reference::Reference::new(u64::from_le_bytes(*bases), bytes);
    let (reference, mut rest, mut records) = (reference.ok().unwrap(), file, Vec::new());
    while !rest.is_empty() {
        let block = read_block(&reference, rest).ok().unwrap();
        rest = &rest[block.length as usize..];
        records.extend(block.records);
    }
    records
}

const TOO_MANY_ENTRIES: &str = "stored raw with a place: more than 31 entries";

/// The number before these words in a summary.
#[track_caller]
fn counted(ran: &Ran, words: &str) -> u64 {
    let line = ran
        .stderr
        .lines()
        .find(|line| line.trim_start().trim_start_matches(char::is_numeric) == format!(" {words}"));
    let line = line.unwrap_or_else(|| panic!("no line `{words}` in\n{}", ran.stderr));
    line.split_whitespace().next().unwrap().parse().unwrap()
}

#[test]
fn the_blocks_are_those_of_the_library() {
    let simulated = mixed("encode_mixed", 1, 2000);
    let (sam, output) = (simulated.write_sam(), simulated.folder.path("reads.ora"));
    let whole = ["encode", "-r", &simulated.reference, "-o", &output, &sam];
    for (size, b_id, c_time) in [(50_000, 0, 0), (100, 7, 1_700_000_000), (1, u64::MAX - 2000, 5)] {
        for threads in ["1", "2", "6"] {
            let (size_text, b_id_text, c_time_text) =
                (size.to_string(), b_id.to_string(), c_time.to_string());
            let options = ["--threads", threads, "--reads-per-block", &size_text];
            let options =
                [&options[..], &["--b-id", &b_id_text, "--c-time", &c_time_text]].concat();
            let ran = run(&[&whole[..], &options].concat()).accepted();
            assert_eq!(ran.text(), "");
            let expected = simulated.expected(size, b_id, c_time);
            assert!(simulated.folder.read("reads.ora") == expected);
            let (reads, bytes) = (simulated.reads.len(), expected.len());
            let blocks = reads.div_ceil(size);
            assert!(ran.stderr.contains(&format!(" {blocks} blocks, {bytes} bytes, ")));
            assert_eq!(counted(&ran, "reads"), reads as u64);
            assert_eq!(counted(&ran, "records"), 2000);
        }
    }
    let decoded = run(&["decode", "-r", &simulated.reference, &output]).accepted();
    assert!(decoded.stdout == simulated.lines());
}

#[test]
fn every_record_is_accounted_for() {
    let (mut all_too_many, mut all_full) = (0, 0);
    for seed in 2..8 {
        let simulated = mixed("encode_counts", seed, 500);
        let (sam, output) = (simulated.write_sam(), simulated.folder.path("reads.ora"));
        let ran = run(&["encode", "--kinds", "-r", &simulated.reference, "-o", &output, &sam]);
        let ran = ran.accepted();
        let count = |words: &str| counted(&ran, words);
        let left_out = count("left out: secondary") + count("left out: supplementary");
        assert_eq!(count("records"), count("reads") + left_out);
        let placed = simulated.reads.iter().filter(|(_, candidate)| candidate.strand.is_some());
        assert_eq!(count("with a place"), placed.count() as u64);
        let unplaced: u64 = ran
            .stderr
            .lines()
            .filter(|line| line.contains("without a place"))
            .map(|line| line.split_whitespace().next().unwrap().parse::<u64>().unwrap())
            .sum();
        assert_eq!(count("with a place") + unplaced, count("reads"));
        let kinds =
            ["perfect", "global", "local", "raw"].map(|kind| count(&format!("stored {kind}")));
        assert_eq!(kinds.iter().sum::<u64>(), count("reads"));
        assert!(kinds.iter().all(|&kind| kind > 0), "{kinds:?}");
        let folder = &simulated.folder;
        let records = records(&folder.read("genome.ref"), &folder.read("reads.ora"));
        let is_raw = |record: &Record| matches!(record.kind, Kind::Raw(_));
        let of_reads = records.iter().zip(&simulated.reads);
        let too_many = of_reads
            .filter(|(record, (_, candidate))| is_raw(record) && candidate.strand.is_some())
            .count();
        assert_eq!(count(TOO_MANY_ENTRIES), too_many as u64);
        let full = records.iter().filter(|record| record.entries().len() == 31).count();
        let validated = run(&["validate", "-r", &simulated.reference, &output]).accepted();
        assert!(validated.text().contains(&format!(", reads {},", simulated.reads.len())));
        assert!(validated.text().ends_with(&format!(", top {full}\n")));
        all_too_many += too_many;
        all_full += full;
    }
    assert!(all_too_many > 50 && all_full > 3, "{all_too_many} {all_full}");
}

#[test]
fn standard_input_and_output() {
    let simulated = mixed("encode_streams", 20, 300);
    let expected = simulated.expected(50_000, 0, 9);
    let options = ["encode", "-r", &simulated.reference, "--c-time", "9", "-o", "-"];
    for last in [&[][..], &["-"]] {
        let ran = run_with(&[&options[..], last].concat(), simulated.sam.as_bytes()).accepted();
        assert!(ran.stdout == expected);
        assert!(ran.stderr.starts_with("standard input: "));
    }
    // With CRLF line ends, without the last one, with empty lines and small letters, and with the
    // sequences of the header in another order.
    let (mut header, records): (Vec<&str>, Vec<&str>) =
        simulated.sam.lines().partition(|line| line.starts_with('@'));
    header.reverse();
    for sam in [
        [header, records].concat().join("\n"),
        simulated.sam.replace('\n', "\r\n"),
        simulated.sam.trim_end().to_string(),
        simulated.sam.replace('\n', "\n\n"),
        simulated.sam.lines().map(small_letters).collect::<String>(),
    ] {
        let ran = run_with(&options, sam.as_bytes()).accepted();
        assert!(ran.stdout == expected);
    }
    // Blocks go on to the next command.
    let sam = simulated.write_sam();
    let line = "\"$0\" encode -r \"$1\" -o - \"$2\" 2>/dev/null | \"$0\" decode -r \"$1\" -";
    assert!(shell(line, &[&simulated.reference, &sam]).accepted().stdout == simulated.lines());
}

/// A line with SEQ in small letters.
fn small_letters(line: &str) -> String {
    let mut fields: Vec<String> = line.split('\t').map(str::to_string).collect();
    if let Some(seq) = fields.get_mut(9) {
        *seq = seq.to_lowercase();
    }
    fields.join("\t") + "\n"
}

#[test]
fn the_time_is_now_unless_it_is_given() {
    let simulated = mixed("encode_time", 3, 10);
    let (sam, output) = (simulated.write_sam(), simulated.folder.path("reads.ora"));
    let now = || std::time::SystemTime::UNIX_EPOCH.elapsed().unwrap().as_secs();
    let before = now();
    run(&["encode", "-r", &simulated.reference, "-o", &output, &sam]).accepted();
    let file = simulated.folder.read("reads.ora");
    let c_time = u64::from_le_bytes(file[89..97].try_into().unwrap());
    assert!((before..=now()).contains(&c_time));
}

/// Encodes records on top of a sample's header, and gives the run and the letters.
fn encode(simulated: &Simulated, records: &[&str], options: &[&str]) -> (Ran, String) {
    let sam = simulated.folder.write("some.sam", records.join("\n") + "\n");
    let output = simulated.folder.path("some.ora");
    let _ = fs::remove_file(&output);
    let ran =
        run(&[&["encode", "-r", &simulated.reference, "-o", &output, &sam], options].concat());
    if ran.status != Some(0) {
        assert!(!fs::exists(&output).unwrap());
        return (ran, String::new());
    }
    let decoded = run(&["decode", "-r", &simulated.reference, &output]).accepted();
    (ran, decoded.text().to_string())
}

#[test]
fn what_users_meet() {
    let simulated = Simulated::new("encode_rules", 4);
    let one = |record: &str, letters: &str, words: &[&str]| {
        let (ran, decoded) = encode(&simulated, &[record], &[]);
        let ran = ran.accepted();
        assert_eq!(decoded.trim_end(), letters, "{record}");
        for words in words {
            assert_eq!(counted(&ran, words), 1, "{record}: {words}");
        }
    };
    let unplaced = |why: &str| format!("without a place: {why}");
    // Unmapped, also turned, and with the place of the mate.
    one("r\t4\t*\t0\t0\t*\t*\t0\t0\tAACGTN\t*", "AACGTN", &[&unplaced("unmapped")]);
    one("r\t20\tchr0\t9\t0\t*\t*\t0\t0\tAACGTN\t*", "NACGTT", &[&unplaced("unmapped")]);
    one("r\t77\tnowhere\tx\t0\t?\t*\t0\t0\tACC\t*", "ACC", &[&unplaced("unmapped")]);
    // Mapped, but nowhere.
    let nowhere = &[&unplaced("no sequence, position or aligned letter")[..]];
    one("r\t0\t*\t5\t0\t3M\t*\t0\t0\tACC\t*", "ACC", nowhere);
    one("r\t0\tchr0\t0\t0\t3M\t*\t0\t0\tACC\t*", "ACC", nowhere);
    one("r\t16\tchr0\t5\t0\t*\t*\t0\t0\tACC\t*", "GGT", nowhere);
    one("r\t0\tchr0\t5\t0\t3S\t*\t0\t0\tACC\t*", "ACC", nowhere);
    // Gaps and splices.
    let gaps = &[&unplaced("gaps or splices")[..]];
    for cigar in ["1M1I1M", "2M4D1M", "2M4N1M", "1M1P2M"] {
        one(&format!("r\t16\tchr0\t5\t0\t{cigar}\t*\t0\t0\tACC\t*"), "GGT", gaps);
    }
    // Clips of 255 letters can be said, and longer ones cannot.
    let letters = "ACGT".repeat(80);
    let clipped = |clip: usize| {
        let record = format!("r\t0\tchr0\t5\t0\t{clip}S{}M\t*\t0\t0\t{letters}\t*", 320 - clip);
        let words = if clip > 255 {
            unplaced("more than 255 letters clipped at an end")
        } else {
            "with a place".to_string()
        };
        one(&record, &letters, &[&words]);
    };
    clipped(255);
    clipped(256);
    // Past the end of the sequence, of which the reference goes on.
    let outside = &[&unplaced("past the end of the sequence")[..]];
    one("r\t0\tchr1\t1\t0\t2M\t*\t0\t0\tAC\t*", "AC", outside);
    one("r\t0\tchr3\t1002\t0\t2M\t*\t0\t0\tAC\t*", "AC", outside);
    one("r\t0\tchr3\t18446744073709551615\t0\t2M\t*\t0\t0\tAC\t*", "AC", outside);
    one("r\t0\tchr1\t1\t0\t1M\t*\t0\t0\tA\t*", "A", &["with a place"]);
    // Hard clips: SEQ is a part of the read.
    let hard = &["hard-clipped: SEQ has a part of the read", "with a place"];
    one("r\t16\tchr0\t5\t0\t9H1S2M3H\t*\t0\t0\tACC\t*", "GGT", hard);
    // Left out.
    one("r\t256\tchr0\t5\t0\t3M\t*\t0\t0\tACC\t*", "", &["left out: secondary"]);
    one("r\t2048\tchr0\t5\t0\t2H3M\t*\t0\t0\tACC\t*", "", &["left out: supplementary"]);
    one("r\t0\tchr0\t5\t0\t3M\t*\t0\t0\t*\t*", "", &["left out: without letters"]);
    // Letters.
    one("r\t4\t*\t0\t0\t*\t*\t0\t0\tACRGT\t*", "ACNGT", &["letters stored as N for another one"]);
    one("r\t4\t*\t0\t0\t*\t*\t0\t0\tac.gt\t*", "ACNGT", &["letters stored as N for another one"]);
    one("r\t20\t*\t0\t0\t*\t*\t0\t0\tACUG\t*", "CAGT", &["letters stored as T for U"]);
    // Both reads of a pair.
    let pair =
        ["p\t99\tchr0\t5\t0\t3M\t=\t9\t7\tACC\t*", "p\t147\tchr0\t9\t0\t3M\t=\t5\t-7\tACC\t*"];
    let (ran, decoded) = encode(&simulated, &pair, &[]);
    assert_eq!((counted(&ran, "reads"), &decoded[..]), (2, "ACC\nGGT\n"));
}

#[test]
fn places_that_are_used() {
    let simulated = Simulated::new("encode_places", 5);
    let letters = |sequence: usize, from: usize, count: usize| {
        String::from_utf8(simulated.sequences[sequence].1[from..from + count].to_vec()).unwrap()
    };
    let kinds = |records: &[&str]| {
        let (ran, _) = encode(&simulated, records, &["--kinds"]);
        ["perfect", "global", "local", "raw"].map(|kind| counted(&ran, &format!("stored {kind}")))
    };
    // The first and the last place of each sequence, on both strands, have no differences.
    for (sequence, bases) in [(0, 701), (2, 300), (3, 1002)] {
        for at in [0, bases - 40] {
            for flag in [0, 16] {
                let seq = letters(sequence, at, 40);
                let record =
                    format!("r\t{flag}\tchr{sequence}\t{}\t0\t40M\t*\t0\t0\t{seq}\t*", at + 1);
                assert_eq!(kinds(&[&record]), [1, 0, 0, 0], "{record}");
                let record = format!(
                    "r\t{flag}\tchr{sequence}\t{}\t0\t2S40M3S\t*\t0\t0\tGG{seq}TTT\t*",
                    at + 1
                );
                assert_eq!(kinds(&[&record]), [0, 0, 1, 0], "{record}");
            }
        }
    }
    // A place that is wrong by far makes a raw read.
    let seq = letters(0, 100, 300);
    let record = format!("r\t16\tchr0\t1\t0\t300M\t*\t0\t0\t{seq}\t*");
    assert_eq!(kinds(&[&record]), [0, 0, 0, 1]);
}

/// The reads at the end of the scale are counted by top, and those past it by the summary.
#[test]
fn more_than_31_entries() {
    let simulated = Simulated::new("encode_entries", 12);
    // A read on chr0 whose first letters differ and whose last are N, as SAM has it.
    let record = |flag: u32, differing: usize, ambiguous: usize| {
        let turn = |letters: &[u8]| match flag {
            16 => complement(letters),
            _ => letters.to_vec(),
        };
        let mut read = turn(&simulated.sequences[0].1[99..299]);
        read[..differing].iter_mut().for_each(|letter| *letter = complement(&[*letter])[0]);
        read[200 - ambiguous..].fill(b'N');
        let seq = String::from_utf8(turn(&read)).unwrap();
        format!("r\t{flag}\tchr0\t100\t60\t200M\t*\t0\t0\t{seq}\t*")
    };
    let counts = |records: &[&str]| {
        let (ran, _) = encode(&simulated, records, &["--kinds"]);
        let ran = ran.accepted();
        let output = simulated.folder.path("some.ora");
        let validated = run(&["validate", "-r", &simulated.reference, &output]).accepted();
        let top = validated.text().trim_end().rsplit(' ').next().unwrap().parse().unwrap();
        let stored = ["stored global", "stored raw", TOO_MANY_ENTRIES];
        let [global, raw, too_many] = stored.map(|words| counted(&ran, words));
        [global, raw, too_many, top]
    };
    for flag in [0, 16] {
        assert_eq!(counts(&[&record(flag, 30, 0)]), [1, 0, 0, 0]);
        assert_eq!(counts(&[&record(flag, 31, 0)]), [1, 0, 0, 1]);
        assert_eq!(counts(&[&record(flag, 32, 0)]), [0, 1, 1, 0]);
        assert_eq!(counts(&[&record(flag, 40, 0)]), [0, 1, 1, 0]);
        // More than 31 N make a raw4 read, whatever its place.
        assert_eq!(counts(&[&record(flag, 40, 31)]), [0, 1, 1, 0]);
        assert_eq!(counts(&[&record(flag, 40, 32)]), [0, 1, 0, 0]);
        assert_eq!(counts(&[&record(flag, 0, 32)]), [0, 1, 0, 0]);
    }
    let unmapped = record(4, 40, 0);
    assert_eq!(counts(&[&unmapped]), [0, 1, 0, 0]);
    let all = [&record(0, 40, 0), &unmapped, &record(16, 0, 32), &record(0, 31, 0)];
    assert_eq!(counts(&all.map(|record| &record[..])), [1, 3, 1, 1]);
}

#[test]
fn what_is_no_sam() {
    let simulated = Simulated::new("encode_wrong", 6);
    let right = "r\t4\t*\t0\t0\t*\t*\t0\t0\tACC\t*";
    for (record, message) in [
        ("r\t4\t*\t0\t0\t*\t*\t0\t0\tACC", "line 3: a SAM record has 11 fields or more"),
        ("just a line", "line 3: a SAM record has 11 fields or more"),
        ("r\tx\t*\t0\t0\t*\t*\t0\t0\tACC\t*", "line 3: FLAG is `x`, no number up to 65535"),
        ("r\t-1\t*\t0\t0\t*\t*\t0\t0\tACC\t*", "line 3: FLAG is `-1`"),
        ("r\t65536\t*\t0\t0\t*\t*\t0\t0\tACC\t*", "line 3: FLAG is `65536`"),
        ("r\t0\tchr0\t-5\t0\t3M\t*\t0\t0\tACC\t*", "line 3: POS is `-5`, no number"),
        ("r\t0\tchr9\t5\t0\t3M\t*\t0\t0\tACC\t*", "line 3: the reference has no sequence `chr9`"),
        ("r\t0\tchr0\t5\t0\t3Q\t*\t0\t0\tACC\t*", "line 3: the CIGAR `3Q` is malformed"),
        (
            "r\t0\tchr0\t5\t0\t1S1M1S1M\t*\t0\t0\tACCA\t*",
            "line 3: the CIGAR `1S1M1S1M` is malformed",
        ),
        (
            "r\t0\tchr0\t5\t0\t4M\t*\t0\t0\tACC\t*",
            "line 3: the CIGAR `4M` has 4 letters and SEQ has 3",
        ),
        ("r\t0\tchr0\t5\t0\t3M\t*\t0\t0\tA=C\t*", "line 3: SEQ holds `=`, which is no letter"),
        ("@SQ\tSN:chr0\tLN:700", "line 3: chr0 has 700 bases here and 701 in the reference"),
    ] {
        for threads in ["1", "3"] {
            let records = ["@HD\tVN:1.6", right, record, right, "also wrong"];
            let options = ["--threads", threads, "--reads-per-block", "1"];
            let (ran, _) = encode(&simulated, &records, &options);
            ran.failed(2, &format!("some.sam, {message}"));
        }
    }
    // Names that look like a header.
    let named = "@ab\t4\t*\t0\t0\t*\t*\t0\t0\tACC\t*";
    let (ran, decoded) = encode(&simulated, &[named, right, "@CO\tlate", named], &[]);
    assert_eq!((counted(&ran, "reads"), &decoded[..]), (3, "ACC\nACC\nACC\n"));
    // A line without an end.
    let endless = "head -c 300000000 /dev/zero | \"$0\" encode -r \"$1\" -o \"$2\"";
    shell(endless, &[&simulated.reference, &simulated.folder.path("x.ora")])
        .failed(2, "standard input, line 1: the line does not end: this is no SAM text");
    // Compressed.
    for start in [&b"\x1F\x8B\x08\x04"[..], b"CRAM\x03\x00"] {
        let sam = simulated.folder.write("x.bam", start);
        let output = simulated.folder.path("x.ora");
        run(&["encode", "-r", &simulated.reference, "-o", &output, &sam])
            .failed(2, "x.bam is compressed: SAM text is read, as in `samtools view -h");
    }
}

#[test]
fn no_reads() {
    let simulated = Simulated::new("encode_none", 7);
    for records in [&[][..], &["@HD\tVN:1.6"], &["r\t256\tchr0\t5\t0\t3M\t*\t0\t0\tACC\t*"]] {
        let (ran, decoded) = encode(&simulated, records, &[]);
        let ran = ran.accepted();
        assert_eq!((decoded.as_str(), simulated.folder.read("some.ora").len()), ("", 0));
        assert!(ran.stderr.contains("some.sam: 0 reads, 0 letters, 0 blocks, 0 bytes\n"));
    }
}

#[test]
fn long_reads() {
    let simulated = Simulated::new("encode_long", 8);
    let record = |letters: usize| {
        format!(
            "r\t4\t*\t0\t0\t*\t*\t0\t0\t{}\t*",
            "ACGTT".repeat(letters / 5 + 1).get(..letters).unwrap()
        )
    };
    let (longest, longer) = (record(100_000), record(100_001));
    let (ran, decoded) = encode(&simulated, &[&longest], &[]);
    ran.accepted();
    assert_eq!(decoded.len(), 100_001);
    let (ran, _) = encode(&simulated, &[&longest, &longer], &[]);
    ran.failed(
        2,
        "some.sam, line 2: the read has 100001 letters and the format stores up to 100000",
    );
    let (ran, decoded) = encode(&simulated, &[&longer, &longest, &longer], &["--skip-long"]);
    let ran = ran.accepted();
    assert_eq!((counted(&ran, "reads"), decoded.len()), (1, 100_001));
    assert_eq!(counted(&ran, "left out: longer than 100000 letters"), 2);
    // A block ends once it has 16,777,216 letters.
    let (ran, decoded) = encode(&simulated, &vec![&longest[..]; 200], &["--c-time", "0"]);
    ran.accepted();
    assert_eq!(decoded.len(), 200 * 100_001);
    let table = run(&["blocks", &simulated.folder.path("some.ora")]).accepted();
    let reads: Vec<&str> =
        table.text().lines().skip(1).map(|row| row.split_whitespace().nth(4).unwrap()).collect();
    assert_eq!(reads, ["168", "32"]);
}

#[test]
fn the_index_belongs_to_the_reference() {
    let simulated = mixed("encode_index", 9, 5);
    let (sam, output) = (simulated.write_sam(), simulated.folder.path("reads.ora"));
    let encode = || run(&["encode", "-r", &simulated.reference, "-o", &output, &sam]);
    encode().accepted();
    fs::remove_file(&output).unwrap();
    let index = simulated.folder.read("genome.ref.fai");
    simulated.folder.write("genome.ref.fai", "chr0\t701\t0\t60\t61\n");
    encode().failed(2, "genome.ref.fai has 701 bases and");
    simulated.folder.write("genome.ref.fai", "chr0\n");
    encode().failed(2, "genome.ref.fai, line 1: this is no name and length of a sequence");
    simulated.folder.write("genome.ref.fai", index);
    simulated.folder.write("genome.ref", reference_file(2004, &[0; 500]));
    encode().failed(1, "genome.ref: refused 1: the reference");
    fs::remove_file(simulated.folder.path("genome.ref.fai")).unwrap();
    simulated.folder.write("genome.ref", reference_file(2004, &[0; 501]));
    encode().failed(2, "genome.ref.fai: No such file or directory; `frubanto reference` writes it");
    assert_eq!(simulated.folder.names(), ["genome.fa", "genome.ref", "reads.sam"]);
}

#[test]
fn b_ids_do_not_wrap() {
    let simulated = mixed("encode_b_id", 10, 10);
    let (sam, output) = (simulated.write_sam(), simulated.folder.path("reads.ora"));
    let last = u64::MAX.to_string();
    let encode = |size: &str| {
        let options = ["--b-id", &last, "--reads-per-block", size, &sam];
        run(&[&["encode", "-r", &simulated.reference, "-o", &output], &options[..]].concat())
    };
    encode("50000").accepted();
    encode("1").failed(2, "a b_id is at most 18446744073709551615, and there are more blocks");
    assert!(simulated.folder.names().contains(&"reads.ora".to_string()));
}

#[test]
fn inputs_are_not_replaced() {
    let simulated = mixed("encode_inputs", 11, 5);
    let sam = simulated.write_sam();
    let index = format!("{}.fai", simulated.reference);
    for input in [&sam, &simulated.reference, &index] {
        run(&["encode", "-r", &simulated.reference, "-o", input, &sam])
            .failed(2, "it is one of the files that are read");
    }
    assert_eq!(simulated.folder.read("reads.sam"), simulated.sam.as_bytes());
}
