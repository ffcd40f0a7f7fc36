//! Property: the files of `examples/data` are the ones that `make_sample` makes, and show what a
//! reader of the example should see. Catches: a sample that is out of date, or that lists little.

use compare::sample::files;
use second::blocks::read_block;
use second::records::Kind;
use second::reference::{Reference, Strand};
use std::path::Path;

fn file(name: &str) -> Vec<u8> {
    files().into_iter().find(|(other, _)| other == name).unwrap().1
}

#[test]
fn the_tree_has_these_files() {
    let directory = Path::new(env!("CARGO_MANIFEST_DIR")).join("../../examples/data");
    for (name, bytes) in files() {
        assert!(std::fs::read(directory.join(&name)).unwrap() == bytes, "{name} is another");
    }
}

#[test]
fn the_sample_has_every_kind_on_both_strands() {
    let (reference, blocks) = (file("sample.reference"), file("sample.blocks"));
    let reference = Reference::new(90, &reference[8..]).unwrap();
    let mut found = [false; 10];
    let mut rest = &blocks[..];
    while !rest.is_empty() {
        let block = read_block(&reference, rest).unwrap();
        rest = &rest[block.length as usize..];
        for record in &block.records {
            let forward = record.placement().is_some_and(|place| place.strand == Strand::Forward);
            found[match record.kind {
                Kind::Perfect(_) => forward as usize,
                Kind::Global(..) => 2 + forward as usize,
                Kind::Local(..) => 4 + forward as usize,
                Kind::Raw(_) => 6,
                Kind::Raw4(_) => 7,
            }] = true;
            found[8] |= !record.n_positions.is_empty();
            // A position that is not the lowest index.
            let moved = |(lowest, _)| record.placement().is_some_and(|at| at.position != lowest);
            found[9] |= record.stretch().is_some_and(moved);
        }
    }
    assert_eq!(found, [true; 10]);
}

/// The listing prints no names, and reads those of each block that stores them.
#[test]
fn the_sample_has_names() {
    let (reference, blocks) = (file("sample.reference"), file("sample.blocks"));
    let reference = Reference::new(90, &reference[8..]).unwrap();
    let (mut named, mut rest) = (Vec::new(), &blocks[..]);
    while !rest.is_empty() {
        let block = read_block(&reference, rest).unwrap();
        rest = &rest[block.length as usize..];
        named.push(block.names.len() == block.records.len());
    }
    assert_eq!(named.iter().filter(|&&named| named).count(), 2, "{named:?}");
}

#[test]
fn the_listings_end_as_they_should() {
    let text = |name| String::from_utf8(file(name)).unwrap();
    assert!(text("sample.txt").ends_with("\nend blocks 3\n"));
    let refused = text("refused.txt");
    assert!(refused.lines().last().unwrap().starts_with("refused 17 2 "));
    assert_eq!(refused.matches("block ").count(), 2);
    let paper = "block 7 reads 1 letters 4 entries 1 differences 1 top 0\nACTT\nend blocks 1\n";
    assert_eq!(text("one_read.txt"), paper);
}
