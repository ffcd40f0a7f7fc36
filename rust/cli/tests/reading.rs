//! Property: decode, list, validate and blocks print what the blocks hold, up to the first that is
//! refused, and say which that is and why. Catches: blocks or names out of order, a refused block
//! that is printed or hides those before it, an index or offset that is off, a wrong status.

mod common;
use common::*;
use second::cases_by_hand::Hand;
use second::letters::pack;
use second::listing::listing;
use second::mutators::{damage, spoil};
use second::prng::Prng;

#[test]
fn the_sample_block() {
    let folder = Folder::new("sample");
    let reference = folder.write("ref", small_reference());
    let blocks = folder.write("one.ora", sample_block());

    let listed = run(&["list", "-r", &reference, &blocks]).accepted();
    assert_eq!(listed.text(), format!("{SAMPLE_LINES}end blocks 1\n"));
    assert_eq!(run(&["decode", "-r", &reference, &blocks]).accepted().text(), "ACTT\n");
    let fasta = run(&["decode", "-r", &reference, "--fasta", &blocks]).accepted();
    assert_eq!(fasta.text(), ">0.0\nACTT\n");
    let named = run(&["decode", "-r", &reference, "--names", &blocks]).accepted();
    assert_eq!(named.text(), "0.0\tACTT\n");
    let validated = run(&["validate", "-r", &reference, &blocks]).accepted();
    let counts = "blocks 1, reads 1, letters 4, entries 1, differences 1, top 0";
    assert_eq!(validated.text(), format!("{blocks}: accepted, {counts}\n"));
    let table = run(&["blocks", &blocks]).accepted();
    let rows: Vec<Vec<&str>> =
        table.text().lines().map(|line| line.split_whitespace().collect()).collect();
    assert_eq!(
        rows[0].join(" "),
        "index offset length b_id reads version flags dna names qualN qual size N m1 m2 m3"
    );
    assert_eq!(rows[1].join(" "), "0 0 132 7 1 20505 0x1 10 0 0 0 0 1 0 0 0");
    for ran in [listed, fasta, validated, table] {
        assert_eq!(ran.stderr, "");
    }
}

#[test]
fn the_empty_file() {
    let folder = Folder::new("empty");
    let reference = folder.write("ref", small_reference());
    let blocks = folder.write("none.ora", b"");
    assert_eq!(run(&["list", "-r", &reference, &blocks]).accepted().text(), "end blocks 0\n");
    assert_eq!(run(&["decode", "-r", &reference, &blocks]).accepted().text(), "");
    let validated = run(&["validate", "-r", &reference, &blocks]).accepted();
    assert!(validated
        .text()
        .ends_with(": accepted, blocks 0, reads 0, letters 0, entries 0, differences 0, top 0\n"));
    assert_eq!(run(&["blocks", &blocks]).accepted().text().lines().count(), 1);
    // The empty file is refused with its reference.
    let wrong = folder.write("wrong", reference_file(13, &[0x1B, 0x1B, 0xE4]));
    let listed = run(&["list", "-r", &wrong, &blocks]).failed(1, "wrong: refused 1: the reference");
    assert_eq!(listed.text(), "refused 1 0 0\n");
    let validated = run(&["validate", "-r", &wrong, &blocks]);
    assert_eq!((validated.status, &validated.stderr[..]), (Some(1), ""));
    assert!(validated.text().contains(": refused 1, block 0, read 0, offset 0: the reference"));
}

#[test]
fn files_of_generated_blocks() {
    let folder = Folder::new("generated");
    for seed in 0..12 {
        let generated = Generated::new(seed, 25);
        let reference = folder.write("ref", generated.reference_file());
        let (file, plans) = (generated.file(), &generated.plans);
        let blocks = folder.write("x.ora", &file);
        for threads in ["1", "2", "5"] {
            let with = |words: &[&str]| {
                run(&[words, &["--threads", threads, "-r", &reference, &blocks]].concat())
                    .accepted()
            };
            let lines = generated.lines(plans.len());
            assert_eq!(with(&["decode"]).text(), lines);
            assert_eq!(with(&["list"]).text(), listing(&generated.reference_file(), &file));
            let (reads, names) = (generated.reads(plans.len()), generated.names(plans.len()));
            let printed = |before: &str, between: &str| {
                let reads = names.iter().zip(&reads);
                reads.map(|(name, read)| format!("{before}{name}{between}{read}\n")).collect()
            };
            let (fasta, table): (String, String) = (printed(">", "\n"), printed("", "\t"));
            assert_eq!(with(&["decode", "--fasta"]).text(), fasta);
            assert_eq!(with(&["decode", "--fasta", "--names"]).text(), fasta);
            assert_eq!(with(&["decode", "--names"]).text(), table);
            let judged = second::validate(300, &generated.reference.bytes, &file);
            let second::Outcome { blocks, reads, letters, entries, differences, top, .. } = judged;
            assert!(top > 0);
            assert!(with(&["validate"]).text().ends_with(&format!(
                ": accepted, blocks {blocks}, reads {reads}, letters {letters}, \
                 entries {entries}, differences {differences}, top {top}\n"
            )));
        }
    }
}

#[test]
fn a_file_of_many_megabytes() {
    let folder = Folder::new("megabytes");
    let mut generated = Generated::new(21, 25);
    for plan in &mut generated.plans {
        plan.carried[1] = vec![7; 20_000];
    }
    // A block of more than a window, between many small ones.
    generated.plans[12].carried[1] = vec![7; 5 << 20];
    let reference = folder.write("ref", generated.reference_file());
    let times = 12;
    let small: Vec<u8> = [&generated.blocks()[..12], &generated.blocks()[13..]].concat().concat();
    let file = [small.repeat(times), generated.file(), small.repeat(times)].concat();
    assert!(file.len() > 3 * (4 << 20));
    let small = generated.lines(12) + &generated.lines(25)[generated.lines(13).len()..];
    let lines = small.repeat(times) + &generated.lines(25) + &small.repeat(times);
    let path = folder.write("x.ora", [&file[..], b"no block"].concat());
    for threads in ["1", "2", "5"] {
        let with = |command: &str| run(&[command, "--threads", threads, "-r", &reference, &path]);
        let (index, offset) = (25 + 48 * times, file.len());
        let place = format!("refused 2, block {index}, read 0, offset {offset}: ");
        let decoded = with("decode").failed(1, &place);
        assert!(decoded.text() == lines);
        assert!(with("validate").text().contains(&place));
    }
    assert_eq!(run(&["blocks", &path]).text().lines().count(), 1 + 25 + 48 * times);
}

#[test]
fn the_table_of_generated_blocks() {
    let folder = Folder::new("table");
    let generated = Generated::new(5, 40);
    let blocks = folder.write("x.ora", generated.file());
    let table = run(&["blocks", &blocks]).accepted();
    let mut rows = table.text().lines().skip(1);
    let mut offset = 0;
    for (index, plan) in generated.plans.iter().enumerate() {
        let length = plan.block().len();
        let mut cells = vec![index.to_string(), offset.to_string(), length.to_string()];
        cells.extend([plan.b_id.to_string(), plan.n_reads.to_string(), plan.version.to_string()]);
        cells.push(format!("{:#x}", plan.flags));
        cells.extend(plan.sections().map(|section| section.len().to_string()));
        let row = rows.next().unwrap();
        assert_eq!(row.split_whitespace().collect::<Vec<_>>(), cells);
        offset += length;
    }
    assert_eq!(rows.next(), None);
}

/// Three reads of 64 letters on ACGT, 25 times: one of 31 entries, of which every fifth is a filler
/// and another stands under an N; one of 30; a raw one that differs at 40 letters.
fn block_with_top_1() -> Vec<u8> {
    let code = |place: usize, differs: bool| ((place + usize::from(differs)) % 4) as u8;
    let entry = |place: usize, differs| u8::from(place > 0) << 2 | code(place, differs);
    let codes: Vec<u8> = (0..64).map(|place| code(place, place < 40)).collect();
    let dna = [
        vec![0, 0xC0, 0x80, 0],
        vec![31 << 3 | 0b100, 0, 0, 0, 0],
        (0..31).map(|place| entry(place, place % 5 != 0)).collect(),
        vec![1, 3, 0],
        vec![30 << 3 | 0b100, 0, 0, 0, 0],
        (0..30).map(|place| entry(place, true)).collect(),
        vec![0b010],
        pack(&codes, 2),
    ];
    Hand::same(64, 3, &dna.concat()).bytes()
}

#[test]
fn reads_with_31_entries() {
    let folder = Folder::new("top");
    let (bytes, block) = (reference_file(100, &[0x1B; 25]), block_with_top_1());
    let reference = folder.write("ref", &bytes);
    let one = folder.write("one.ora", &block);
    let two = folder.write("two.ora", block.repeat(2));
    let cut = folder.write("cut.ora", &block.repeat(2)[..2 * block.len() - 1]);

    let line = "block 7 reads 3 letters 192 entries 61 differences 53 top 1";
    let listed = run(&["list", "-r", &reference, &two]).accepted();
    assert_eq!(listed.text(), listing(&bytes, &block.repeat(2)));
    let lines: Vec<&str> = listed.text().lines().collect();
    assert_eq!((lines[0], lines[4], lines[8]), (line, line, "end blocks 2"));
    let refused = run(&["list", "-r", &reference, &cut]).failed(1, "refused 8, block 1, read 0");
    assert_eq!(refused.text().lines().filter(|&other| other == line).count(), 1);
    assert!(refused.text().ends_with("\nrefused 8 1 0\n"));

    for threads in ["1", "3"] {
        let validate = ["validate", "--threads", threads, "-r", &reference, &one, &two, &cut];
        let validated = run(&validate);
        assert_eq!(validated.status, Some(1));
        let lines: Vec<&str> = validated.text().lines().collect();
        let counts = "blocks 1, reads 3, letters 192, entries 61, differences 53, top 1";
        assert_eq!(lines[0], format!("{one}: accepted, {counts}"));
        let counts = "blocks 2, reads 6, letters 384, entries 122, differences 106, top 2";
        assert_eq!(lines[1], format!("{two}: accepted, {counts}"));
        assert!(lines[2].starts_with(&format!("{cut}: refused 8, block 1, read 0, ")));
        assert!(!lines[2].contains(", top "));

        let json = run(&[&validate[..], &["--json"]].concat());
        let objects: Vec<&str> = json.text().lines().collect();
        assert!(objects[0].contains("\"differences\":53,\"top\":1,\"refusal\":null"));
        assert!(objects[1].contains("\"differences\":106,\"top\":2,\"refusal\":null"));
        assert!(objects[2].contains("\"differences\":0,\"top\":0,\"refusal\":{\"number\":8,"));
    }
}

/// Decodes, lists and validates a file in which one block is refused.
#[track_caller]
fn check_refused(folder: &Folder, generated: &Generated, file: &[u8], index: usize, offset: usize) {
    let reference = folder.write("ref", generated.reference_file());
    let blocks = folder.write("x.ora", file);
    let judged = second::validate(generated.reference.bases, &generated.reference.bytes, file);
    let (number, read) = (judged.number, judged.read);
    assert_eq!(judged.block, index as u64);
    let place = format!("refused {number}, block {index}, read {read}, offset {offset}: ");
    for threads in ["1", "4"] {
        let with = |command: &str| run(&[command, "--threads", threads, "-r", &reference, &blocks]);
        let decoded = with("decode").failed(1, &place);
        assert_eq!(decoded.text(), generated.lines(index));
        let listed = with("list").failed(1, &place);
        assert_eq!(listed.text(), listing(&generated.reference_file(), file));
        assert!(listed.text().ends_with(&format!("refused {number} {index} {read}\n")));
        let validated = with("validate");
        assert_eq!((validated.status, &validated.stderr[..]), (Some(1), ""));
        assert!(validated.text().starts_with(&format!("{blocks}: {place}")));
    }
}

#[test]
fn a_refused_block_in_the_middle() {
    let folder = Folder::new("middle");
    let mut met = std::collections::BTreeSet::new();
    for number in (3..=21).chain([40]).filter(|&number| number != 8) {
        let mut rng = Prng::new(number as u64);
        let mut generated = Generated::new(number as u64, 9);
        // The block in the middle has what it takes to be spoiled.
        let spoiled = (0..200).find_map(|seed| {
            let mut plan = Generated::new(1000 + seed, 1).plans.remove(0);
            plan.reference = generated.reference.clone();
            let fault = spoil(&mut plan, number, &mut rng)?;
            let (bases, bytes) = (generated.reference.bases, &generated.reference.bytes);
            let judged = second::validate_block(bases, bytes, &plan.block());
            (fault.number == number && judged.number == number).then_some(plan)
        });
        let Some(plan) = spoiled else {
            continue;
        };
        generated.plans[5] = plan;
        met.insert(number);
        let offset = generated.plans[..5].iter().map(|plan| plan.block().len()).sum();
        check_refused(&folder, &generated, &generated.file(), 5, offset);
    }
    assert!(met.len() >= 17 && met.contains(&40), "{met:?}");
}

#[test]
fn a_truncated_file() {
    let folder = Folder::new("truncated");
    let generated = Generated::new(77, 4);
    let (file, blocks) = (generated.file(), generated.blocks());
    let last = file.len() - blocks[3].len();
    // Inside the last header (2), and inside its sections (8).
    for cut in [last + 1, last + 120, last + 121, file.len() - 1] {
        check_refused(&folder, &generated, &file[..cut], 3, last);
    }
    // Right at the end of a block it is a shorter file, and accepted.
    let reference = folder.write("ref", generated.reference_file());
    let blocks = folder.write("x.ora", &file[..last]);
    let decoded = run(&["decode", "-r", &reference, &blocks]).accepted();
    assert_eq!(decoded.text(), generated.lines(3));
}

#[test]
fn damaged_files() {
    let folder = Folder::new("damaged");
    let mut rng = Prng::new(4);
    let (mut refused, mut accepted) = (0, 0);
    for seed in 0..60 {
        let generated = Generated::new(100 + seed, 5);
        let mut blocks = generated.blocks();
        let spoiled = rng.below(5) as usize;
        damage(&mut blocks[spoiled], &mut rng);
        let file = blocks.concat();
        let judged = second::validate(300, &generated.reference.bytes, &file);
        if judged.number == 0 {
            accepted += 1;
            let reference = folder.write("ref", generated.reference_file());
            let blocks = folder.write("x.ora", &file);
            let listed = run(&["list", "-r", &reference, &blocks]).accepted();
            assert_eq!(listed.text(), listing(&generated.reference_file(), &file));
            continue;
        }
        refused += 1;
        // A length that is changed moves all that follows.
        if judged.block == spoiled as u64 {
            let offset = blocks[..spoiled].iter().map(Vec::len).sum();
            check_refused(&folder, &generated, &file, spoiled, offset);
        }
    }
    assert!(refused > 20 && accepted > 2, "{refused} {accepted}");
}

#[test]
fn a_header_that_is_refused_ends_the_table() {
    let folder = Folder::new("table_refused");
    let generated = Generated::new(9, 3);
    let blocks = generated.blocks();
    let file = [&blocks[0][..], &blocks[1], b"no block"].concat();
    let offset = blocks[0].len() + blocks[1].len();
    let path = folder.write("x.ora", file);
    let place = format!("x.ora: refused 2, block 2, read 0, offset {offset}: the input has fewer");
    let table = run(&["blocks", &path]).failed(1, &place);
    assert_eq!(table.text().lines().count(), 3);
}

#[test]
fn a_reference_that_is_too_short() {
    let folder = Folder::new("short_reference");
    let blocks = folder.write("one.ora", sample_block());
    // Not even the number of bases, or fewer bytes than it says, or more.
    let many = (1u64 << 32).to_le_bytes().to_vec();
    for wrong in
        [vec![], vec![12; 7], reference_file(12, &[0x1B, 0x1B]), reference_file(8, &[0; 3]), many]
    {
        let reference = folder.write("ref", wrong);
        let listed = run(&["list", "-r", &reference, &blocks]).failed(1, "ref: refused 1: the ref");
        assert_eq!(listed.text(), "refused 1 0 0\n");
        let decoded =
            run(&["decode", "-r", &reference, &blocks]).failed(1, "ref: refused 1: the ref");
        assert_eq!(decoded.text(), "");
        assert_eq!(run(&["validate", "-r", &reference, &blocks]).status, Some(1));
    }
    // Right, but the read's stretch is not inside.
    let reference = folder.write("ref", reference_file(3, &[0x1B]));
    let listed = run(&["list", "-r", &reference, &blocks]).failed(1, "refused 15, block 0, read 0");
    assert_eq!(listed.text(), "refused 15 0 0\n");
}

#[test]
fn several_files_are_all_judged() {
    let folder = Folder::new("several");
    let reference = folder.write("ref", small_reference());
    let good = folder.write("good.ora", [sample_block(), sample_block()].concat());
    let mut spoiled = sample_block();
    spoiled[121 + 9] = 0x13;
    let bad = folder.write("bad \"1\".ora", [sample_block(), spoiled].concat());
    let missing = folder.path("missing.ora");

    let all = run(&["validate", "-r", &reference, &good, &bad, &good]);
    assert_eq!((all.status, &all.stderr[..]), (Some(1), ""));
    let lines: Vec<&str> = all.text().lines().collect();
    assert_eq!(lines.len(), 3);
    assert_eq!(lines[0], lines[2]);
    let why =
        "an entry after the first has the offset 0, or an entry lands outside the aligned part";
    assert_eq!(lines[1], format!("{bad}: refused 17, block 1, read 0, offset 132: {why}"));

    // One that cannot be read is named, and the others are judged.
    let all = run(&["validate", "-r", &reference, &missing, &bad, &good])
        .failed(2, "missing.ora: No such file");
    assert_eq!(all.text().lines().collect::<Vec<_>>(), [lines[1], lines[0]]);

    let json = run(&["validate", "--json", "-r", &reference, &good, &bad]);
    assert_eq!(json.status, Some(1));
    let quoted = |path: &str| path.replace('"', "\\\"");
    assert_eq!(
        json.text(),
        format!(
            "{{\"file\":\"{}\",\"accepted\":true,\"blocks\":2,\"reads\":2,\"letters\":8,\"entries\":2,\
             \"differences\":2,\"top\":0,\"refusal\":null}}\n{{\"file\":\"{}\",\"accepted\":false,\
             \"blocks\":0,\"reads\":0,\"letters\":0,\"entries\":0,\"differences\":0,\"top\":0,\
             \"refusal\":{{\"number\":17,\"name\":\"EntryOffsetInvalid\",\"reason\":\"{why}\",\
             \"block\":1,\"read\":0,\"offset\":132}}}}\n",
            quoted(&good),
            quoted(&bad)
        )
    );
}

#[test]
fn blocks_from_standard_input_and_pipes() {
    let folder = Folder::new("standard_input");
    let generated = Generated::new(31, 12);
    let reference = folder.write("ref", generated.reference_file());
    let (file, lines) = (generated.file(), generated.lines(12));
    let path = folder.write("x.ora", &file);
    assert_eq!(run_with(&["decode", "-r", &reference, "-"], &file).accepted().text(), lines);
    let validated = run_with(&["validate", "-r", &reference, "-"], &file).accepted();
    assert!(validated.text().starts_with("standard input: accepted, blocks 12,"));
    assert_eq!(run_with(&["blocks", "-"], &file).accepted().text().lines().count(), 13);
    assert_eq!(run_with(&["decode", "-r", &reference, "-"], b"").accepted().text(), "");
    let piped = shell("cat \"$1\" | \"$0\" decode -r \"$2\" /dev/stdin", &[&path, &reference]);
    assert_eq!(piped.accepted().text(), lines);
    let opened = shell("\"$0\" decode -r \"$2\" - < \"$1\"", &[&path, &reference]);
    assert_eq!(opened.accepted().text(), lines);
    // What was read before is not read again.
    let first = generated.blocks()[0].len().to_string();
    let rest = "{ dd bs=\"$3\" count=1 2>/dev/null >&2; \"$0\" decode -r \"$2\" -; } < \"$1\"";
    let rest = shell(rest, &[&path, &reference, &first]);
    assert_eq!(rest.accepted().text(), &lines[generated.lines(1).len()..]);
    run_with(&["decode", "-r", &reference, "/"], b"").failed(2, "cannot read /: it is a directory");
    run_with(&["decode", "-r", "-", &path], &file).failed(2, "the reference is read from a file");
    run_with(&["validate", "-r", &reference, "-", "-"], &file).failed(2, "can be read once");
}

#[test]
fn decoding_to_a_file() {
    let folder = Folder::new("decode_output");
    let generated = Generated::new(12, 6);
    let reference = folder.write("ref", generated.reference_file());
    let blocks = folder.write("x.ora", generated.file());
    let output = folder.path("out.txt");
    let ran = run(&["decode", "-r", &reference, &blocks, "-o", &output]).accepted();
    assert_eq!((ran.text(), &ran.stderr[..]), ("", ""));
    assert_eq!(folder.read("out.txt"), generated.lines(6).as_bytes());

    // A refused block leaves the file as it was.
    let cut = folder.write("cut.ora", &generated.file()[..generated.file().len() - 1]);
    run(&["decode", "-r", &reference, &cut, "-o", &output]).failed(1, "refused");
    assert_eq!(folder.read("out.txt"), generated.lines(6).as_bytes());
    let new = folder.path("new.txt");
    run(&["decode", "-r", &reference, &cut, "-o", &new]).failed(1, "refused");
    assert_eq!(folder.names(), ["cut.ora", "out.txt", "ref", "x.ora"]);

    // What is read is not replaced.
    for input in [&blocks, &reference] {
        run(&["decode", "-r", &reference, &blocks, "-o", input])
            .failed(2, "it is one of the files that are read");
    }
    assert_eq!(folder.read("x.ora"), generated.file());
}
