//! `frubanto validate`: files of blocks, accepted or refused.

use super::{Status, ACCEPTED, REFUSED};
use crate::arguments::ValidateArguments;
use crate::block_file::{FileBlock, ReferenceFile, Walk};
use crate::failure::{is_stream, Failure, Refused};
use crate::input::InputFile;
use crate::output::Output;
use crate::progress::Progress;
use crate::workers::{Job, Workers};
use ora::{Counts, Reference};

pub fn run(arguments: &ValidateArguments) -> Result<Status, Failure> {
    if arguments.blocks.iter().filter(|path| is_stream(path)).count() > 1 {
        return Err(Failure::Unusable("standard input can be read once".to_string()));
    }
    let reference_file = ReferenceFile::open(&arguments.reference.path)?;
    let workers = Workers::new(arguments.threads.number)?;
    let mut output = Output::standard()?;
    let mut status = ACCEPTED;
    for path in &arguments.blocks {
        let judged = InputFile::open(path).and_then(|file| {
            let reference = reference_file.reference();
            let judged = reference.and_then(|reference| judge(&file, &reference, &workers));
            Verdict::of(&file.name, judged)
        });
        let verdict = match judged {
            Ok(verdict) => verdict,
            Err(failure) => {
                status = status.max(crate::report(failure));
                continue;
            }
        };
        status = status.max(verdict.status());
        let text = if arguments.json { verdict.in_json() } else { verdict.in_words() };
        match output.write(text.as_bytes()).and_then(|()| output.flush()) {
            // What is known by now is told by the status.
            Err(Failure::ClosedPipe) => return Ok(status),
            written => written?,
        }
    }
    Ok(status)
}

/// What an accepted file holds.
#[derive(Clone, Copy, Debug, Default, PartialEq, Eq)]
struct Accepted {
    blocks: u64,
    counts: Counts,
}

/// Judges every block, up to the first that is refused.
fn judge(file: &InputFile, reference: &Reference, workers: &Workers) -> Result<Accepted, Failure> {
    let progress = Progress::new(Some(file.length), false);
    let mut walk = Walk::new(file)?;
    let mut accepted = Accepted::default();
    let next = || {
        let block = walk.next_block()?;
        Ok(block.map(|block| Job { bytes: block.bytes().len() as u64, work: block }))
    };
    let work = |block: FileBlock| {
        let judged = ora::validate_block(reference, block.bytes());
        judged.map_err(|refusal| block.refused(file, refusal))
    };
    let take = |block: ora::BlockSummary| {
        accepted.blocks += 1;
        accepted.counts = accepted.counts.wrapping_add(block.counts);
        progress.advance(block.length as u64);
        Ok(())
    };
    workers.in_order(next, work, take)?;
    Ok(accepted)
}

/// What is said of a file. In a refusal every count is 0.
struct Verdict {
    file: String,
    accepted: Accepted,
    refused: Option<Refused>,
}

impl Verdict {
    /// A refusal is a verdict; any other failure is none.
    fn of(file: &str, judged: Result<Accepted, Failure>) -> Result<Verdict, Failure> {
        let file = file.to_string();
        match judged {
            Ok(accepted) => Ok(Verdict { file, accepted, refused: None }),
            Err(Failure::Refused(refused)) => {
                Ok(Verdict { file, accepted: Accepted::default(), refused: Some(refused) })
            }
            Err(failure) => Err(failure),
        }
    }

    fn status(&self) -> Status {
        match self.refused {
            None => ACCEPTED,
            Some(_) => REFUSED,
        }
    }

    fn in_words(&self) -> String {
        let Verdict { file, accepted: Accepted { blocks, counts }, refused } = self;
        let Counts { reads, letters, entries, differences, top, .. } = counts;
        match refused {
            None => format!(
                "{file}: accepted, blocks {blocks}, reads {reads}, letters {letters}, \
                 entries {entries}, differences {differences}, top {top}\n"
            ),
            Some(refused) => {
                let ora::Refusal { number, block, read } = refused.refusal;
                let (offset, sentence) = (refused.offset.unwrap_or(0), refused.sentence());
                format!(
                    "{file}: refused {number}, block {block}, read {read}, offset {offset}: \
                     {sentence}\n"
                )
            }
        }
    }

    fn in_json(&self) -> String {
        let Verdict { file, accepted: Accepted { blocks, counts }, refused } = self;
        let Counts { reads, letters, entries, differences, top, .. } = counts;
        let refusal = refused.as_ref().map_or("null".to_string(), |refused| {
            let ora::Refusal { number, block, read } = refused.refusal;
            let (name, reason) = (refused.refusal.name(), json_string(refused.sentence()));
            let offset = refused.offset.unwrap_or(0);
            format!(
                "{{\"number\":{number},\"name\":\"{name}\",\"reason\":{reason},\
                 \"block\":{block},\"read\":{read},\"offset\":{offset}}}"
            )
        });
        let (file, accepted) = (json_string(file), refused.is_none());
        format!(
            "{{\"file\":{file},\"accepted\":{accepted},\"blocks\":{blocks},\"reads\":{reads},\
             \"letters\":{letters},\"entries\":{entries},\"differences\":{differences},\
             \"top\":{top},\"refusal\":{refusal}}}\n"
        )
    }
}

/// A string as JSON writes it.
fn json_string(text: &str) -> String {
    let mut written = String::from('"');
    for letter in text.chars() {
        match letter {
            '"' | '\\' => written.extend(['\\', letter]),
            letter if letter < ' ' => written.push_str(&format!("\\u{:04x}", letter as u32)),
            letter => written.push(letter),
        }
    }
    written.push('"');
    written
}

#[cfg(test)]
mod tests {
    use super::*;

    #[test]
    fn strings_in_json() {
        assert_eq!(json_string("a \"b\"\\\n é"), r#""a \"b\"\\\u000a é""#);
    }
}
