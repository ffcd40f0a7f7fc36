//! Runs one case through a library and through the second implementation, and compares everything
//! that they give: every slot of every answer, every lent buffer whole, and what lies around it.

use crate::case::{Case, Reading, Room, Sizes, Work, Writing, ENDS, LETTERS, NAMES, NAME_ENDS};
use crate::lent::{Element, Lent, LentBuffers};
use crate::library::{Library, Second};
use crate::observe;
use crate::tally::{Call, Tally};
use ora::raw::{Answer, SLOTS};
use second::header::Header;
use second::names::read_names;

/// Two answers that differ.
#[derive(Clone, Debug, PartialEq, Eq)]
pub struct Disagreement {
    pub call: &'static str,
    pub what: String,
    pub library: String,
    pub second: String,
}

pub fn check(library: &dyn Library, case: &Case, tally: &mut Tally) -> Result<(), Disagreement> {
    match &case.work {
        Work::Reading(reading) => check_reading(library, reading, case.margins, tally),
        Work::Writing(writing) => check_writing(library, writing, case.margins, tally),
    }
}

/// Whether a library and the second implementation differ on a case.
pub fn differs(library: &dyn Library, work: Work, margins: bool) -> bool {
    check(library, &Case { family: "", work, margins }, &mut Tally::default()).is_err()
}

fn check_reading(
    library: &dyn Library,
    reading: &Reading,
    margins: bool,
    tally: &mut Tally,
) -> Result<(), Disagreement> {
    let (under, input) = (reading.under(), &reading.input);
    let judged = both(library, Call::ValidateBlock, margins, |side, answer| {
        side.validate_block(under, input, answer)
    })?;
    let file =
        both(library, Call::Validate, margins, |side, answer| side.validate(under, input, answer))?;
    let needed = needed(input, &judged);
    let decoded = check_decode(library, reading, needed, margins)?;
    for number in (0..9).chain([reading.section]) {
        let span = both(library, Call::Section, margins, |side, answer| {
            side.section(input, number, answer)
        })?;
        tally.section(span[4] != 0);
    }
    let (own, other) = (library.block_id(input), Second.block_id(input));
    compare("block_id", "b_id", &own, &other)?;
    let (own, other) = (library.block_length(input), Second.block_length(input));
    compare("block_length", "length", &own, &other)?;

    tally.answer(Call::ValidateBlock, judged[0]);
    tally.answer(Call::Validate, file[0]);
    tally.answer(Call::Decode, decoded[0]);
    observe::of_reading(reading, needed, &judged, &file, &decoded, tally);
    Ok(())
}

/// What the block at the input's start needs of each buffer, given what judging it answered;
/// nothing where it is refused. No answer tells how many bytes its names have.
fn needed(input: &[u8], judged: &Answer) -> Sizes {
    let (reads, letters) = (judged[4] as usize, judged[5] as usize);
    let header = Header::read(input).ok().filter(|header| judged[0] == 0 && header.names_stored());
    let Some(header) = header else { return [letters, reads, 0, 0] };
    let names = read_names(header.section(input, second::header::NAMES), reads);
    let bytes = names.map_or(0, |names| names.iter().map(Vec::len).sum());
    [letters, reads, bytes, reads]
}

fn check_decode(
    library: &dyn Library,
    reading: &Reading,
    needed: Sizes,
    margins: bool,
) -> Result<Answer, Disagreement> {
    let sides: [&dyn Library; 2] = [library, &Second];
    let mut lent = sides.map(|_| LentBuffers::new(reading.room.lent(needed), margins));
    let mut given = lent.iter_mut();
    let answer = both(library, Call::Decode, margins, |side, answer| {
        let buffers = given.next().unwrap().lend();
        side.decode(reading.under(), &reading.input, buffers, answer)
    })?;
    let written = if answer[0] == 0 { needed } else { [0; 4] };
    let [own, other] = &lent;
    compare_lent("decode", "letters", [&own.letters, &other.letters], written[LETTERS])?;
    compare_lent("decode", "ends", [&own.ends, &other.ends], written[ENDS])?;
    compare_lent("decode", "names", [&own.names, &other.names], written[NAMES])?;
    compare_lent("decode", "name_ends", [&own.name_ends, &other.name_ends], written[NAME_ENDS])?;
    Ok(answer)
}

fn check_writing(
    library: &dyn Library,
    writing: &Writing,
    margins: bool,
    tally: &mut Tally,
) -> Result<(), Disagreement> {
    let sides: [&dyn Library; 2] = [library, &Second];
    let mut lent = sides.map(|_| Lent::new(writing.lent, margins));
    let mut given = lent.iter_mut();
    let answer = both(library, Call::Encode, margins, |side, answer| {
        let out = given.next().unwrap().lend();
        let stamp = (writing.b_id, writing.c_time);
        side.encode(writing.under(), &writing.columns(), stamp, out, answer)
    })?;
    let length = answer[3] as usize;
    compare_lent("encode", "out", [&lent[0], &lent[1]], length)?;
    tally.answer(Call::Encode, answer[0]);
    if answer[0] == 0 {
        let block = &lent[0].held()[..length];
        observe::of_writing(writing, block, tally);
        check_written(library, writing, block, margins, tally)?;
    } else {
        observe::of_refused_writing(writing, &answer, tally);
    }
    Ok(())
}

/// What was written, with some bytes after it, is read by all calls and gives the reads and their
/// names again.
fn check_written(
    library: &dyn Library,
    writing: &Writing,
    block: &[u8],
    margins: bool,
    tally: &mut Tally,
) -> Result<(), Disagreement> {
    let (names, name_ends) = (writing.names.len(), writing.name_ends.len());
    let sizes = [writing.letters.len(), writing.ends.len(), names, name_ends];
    let reading = Reading {
        bases: writing.bases,
        reference: writing.reference.clone(),
        input: [block, &[0x49, 0x7C, 0x79]].concat().into(),
        room: Room::Exactly(sizes),
        section: writing.b_id,
    };
    check_reading(library, &reading, margins, tally)?;
    let mut read = LentBuffers::new(sizes, false);
    let mut answer = [0; SLOTS];
    library.decode(reading.under(), &reading.input, read.lend(), &mut answer);
    compare("decode", "block that was written", &answer[..4], &[0, 0, 0, block.len() as u64])?;
    compare("decode", "letters that were written", read.letters.held(), &writing.letters)?;
    compare("decode", "ends that were written", read.ends.held(), &writing.ends)?;
    compare("decode", "names that were written", read.names.held(), &writing.names)?;
    compare("decode", "name_ends that were written", read.name_ends.held(), &writing.name_ends)
}

/// The answer that both sides give, in a buffer of its own, and return.
fn both(
    library: &dyn Library,
    call: Call,
    margins: bool,
    mut run: impl FnMut(&dyn Library, &mut Answer) -> u64,
) -> Result<Answer, Disagreement> {
    let mut slots: Lent<u64> = Lent::new(SLOTS, margins);
    let own: &mut Answer = slots.lend().try_into().unwrap();
    let own_number = run(library, own);
    let own = *own;
    let mut other = [0; SLOTS];
    let other_number = run(&Second, &mut other);
    compare(call.name(), "slots", &own, &other)?;
    compare(call.name(), "returned number", &own_number, &other_number)?;
    compare(call.name(), "memory around the answer is kept", &slots.kept_but(SLOTS), &true)?;
    Ok(own)
}

fn compare<T: PartialEq + std::fmt::Debug + ?Sized>(
    call: &'static str,
    what: &str,
    library: &T,
    second: &T,
) -> Result<(), Disagreement> {
    if library == second {
        return Ok(());
    }
    let text = |value: &T| {
        let mut text = format!("{value:?}");
        text.truncate(2000);
        text
    };
    let (library, second) = (text(library), text(second));
    Err(Disagreement { call, what: what.to_string(), library, second })
}

/// The library's buffer holds what the other holds, and past what was written all is as before.
fn compare_lent<T: Element + std::fmt::Debug>(
    call: &'static str,
    what: &str,
    lent: [&Lent<T>; 2],
    written: usize,
) -> Result<(), Disagreement> {
    let [own, other] = lent;
    if own.held() != other.held() {
        let pairs = own.held().iter().zip(other.held());
        let place = pairs.take_while(|(own, other)| own == other).count();
        let what = format!("{what} from place {place} on");
        return compare(call, &what, &own.held()[place..], &other.held()[place..]);
    }
    let what = format!("{what} past the first {written}, and around them, are kept");
    compare(call, &what, &own.kept_but(written), &true)
}
