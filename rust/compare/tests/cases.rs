//! Property: a case is drawn from its seed and number alone, and what must be met is met. Catches:
//! a case that depends on the one before, a refusal or path that comes up no more.

use compare::case::Work;
use compare::draw::draw;
use compare::lent::{Element, Lent};
use compare::library::Second;
use compare::run::{run, Settings};
use compare::stock::Stock;
use compare::tally::{Call, Tally};

fn text(work: &Work) -> String {
    match work {
        Work::Reading(reading) => {
            format!("{:?} {:?} {}", reading.input, reading.room, reading.section)
        }
        Work::Writing(writing) => format!("{:?} {}", writing.columns(), writing.lent),
    }
}

#[test]
fn the_same_seed_and_number_give_the_same_case() {
    let stock = &Stock::new();
    let cases: Vec<String> = (0..300).map(|number| text(&draw(stock, 9, number).work)).collect();
    for number in (0..300).rev() {
        assert_eq!(text(&draw(stock, 9, number).work), cases[number as usize]);
    }
    let others: Vec<String> = (0..300).map(|number| text(&draw(stock, 8, number).work)).collect();
    let same = cases.iter().zip(&others).filter(|(case, other)| case == other).count();
    assert!(same < 10);
}

/// The second implementation agrees with itself, on one thread as on two.
#[test]
fn every_answer_and_path_is_met() {
    let stock = &Stock::new();
    let tally = |threads| {
        let settings = Settings { seed: 3, first: 0, count: 40_000, threads, say: false };
        let (finding, tally) = run(&Second, stock, settings, |_| {});
        assert!(finding.is_none());
        tally
    };
    let (one, two) = (tally(1), tally(2));
    assert_eq!(one.table(), two.table());
    assert_eq!(one.missing(40, 2), Vec::<String>::new());
    assert!(one.missing(40_000, 0).len() > 50);
}

#[test]
fn what_is_missing_is_told() {
    let mut tally = Tally::default();
    assert!(tally.missing(0, 0).is_empty());
    let missing = tally.missing(1, 0);
    // 0 to 22, twice 0 to 21, each with 40, and 0, 1, 30 to 34, 41.
    assert_eq!(missing.len(), 24 + 23 + 23 + 8);
    assert_eq!(missing[18], "decode gave 18 0 times, and 1 are asked for");
    tally.answer(Call::Decode, 18);
    assert_eq!(tally.missing(1, 0).len(), missing.len() - 1);
}

#[test]
fn a_lent_buffer_tells_what_was_written() {
    for margins in [false, true] {
        let mut lent: Lent<u8> = Lent::new(10, margins);
        assert_eq!(lent.lend().len(), 10);
        assert!(lent.kept_but(0));
        lent.lend()[3] = b'A';
        assert!(!lent.kept_but(3) && lent.kept_but(4));
        let mark = lent.held()[4];
        lent.lend()[3] = mark;
        assert!(!lent.kept_but(0));
        assert!(Lent::<u32>::new(0, margins).kept_but(0));
    }
    // Neither a letter, nor a byte of a name, nor the first of a block.
    assert!((0..1000).all(|place| !u8::mark(place).is_ascii()));
}
