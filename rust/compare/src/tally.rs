//! How often each call gave each number, how often each path was met, and what is asked for.

use crate::paths::Path;
use ora::RefusalKind;

#[derive(Clone, Copy, Debug, PartialEq, Eq)]
pub enum Call {
    Decode,
    ValidateBlock,
    Validate,
    Encode,
    Section,
}

/// The calls that refuse.
pub const CALLS: [Call; 4] = [Call::Decode, Call::ValidateBlock, Call::Validate, Call::Encode];

impl Call {
    pub fn name(self) -> &'static str {
        match self {
            Call::Decode => "decode",
            Call::ValidateBlock => "validate_block",
            Call::Validate => "validate",
            Call::Encode => "encode",
            Call::Section => "section",
        }
    }

    /// Whether a call can refuse with a number, or accept.
    pub fn owns(self, number: u64) -> bool {
        match self {
            Call::Decode => number <= 22 || number == 40,
            Call::ValidateBlock | Call::Validate => number <= 21 || number == 40,
            Call::Encode => number <= 1 || (30..=34).contains(&number) || number == 41,
            Call::Section => false,
        }
    }
}

/// One more than the largest number of refusal.
const NUMBERS: usize = 42;

#[derive(Clone)]
pub struct Tally {
    answers: [[u64; NUMBERS]; CALLS.len()],
    sections: [u64; 2],
    paths: [u64; Path::ALL.len()],
}

impl Default for Tally {
    fn default() -> Tally {
        Tally {
            answers: [[0; NUMBERS]; CALLS.len()],
            sections: [0; 2],
            paths: [0; Path::ALL.len()],
        }
    }
}

impl Tally {
    pub fn answer(&mut self, call: Call, number: u64) {
        self.answers[call as usize][number as usize] += 1;
    }

    pub fn section(&mut self, has_bytes: bool) {
        self.sections[has_bytes as usize] += 1;
    }

    pub fn path(&mut self, path: Path) {
        self.paths[path as usize] += 1;
    }

    pub fn path_if(&mut self, path: Path, met: bool) {
        self.paths[path as usize] += met as u64;
    }

    pub fn answered(&self, call: Call, number: u64) -> u64 {
        self.answers[call as usize][number as usize]
    }

    pub fn met(&self, path: Path) -> u64 {
        self.paths[path as usize]
    }

    pub fn add(&mut self, other: &Tally) {
        let add = |own: &mut [u64], other: &[u64]| {
            own.iter_mut().zip(other).for_each(|(own, other)| *own += other);
        };
        for (own, other) in self.answers.iter_mut().zip(&other.answers) {
            add(own, other);
        }
        add(&mut self.sections, &other.sections);
        add(&mut self.paths, &other.paths);
    }

    /// What was met too seldom: each refusal of each call, accepting, and each path.
    pub fn missing(&self, least_answers: u64, least_paths: u64) -> Vec<String> {
        let mut missing = Vec::new();
        for call in CALLS {
            for number in numbers().filter(|&number| call.owns(number)) {
                let met = self.answered(call, number);
                if met < least_answers {
                    let name = call.name();
                    missing.push(format!(
                        "{name} gave {number} {met} times, and {least_answers} are asked for"
                    ));
                }
            }
        }
        for &path in Path::ALL {
            let met = self.met(path);
            if met < least_paths {
                let name = path.name();
                missing.push(format!("{name}: met {met} times, and {least_paths} are asked for"));
            }
        }
        missing
    }

    /// The histogram by number and call, then the paths.
    pub fn table(&self) -> String {
        let mut text = format!("{:>6}  {:<22}", "number", "");
        for call in CALLS {
            text += &format!(" {:>14}", call.name());
        }
        text += "\n";
        for number in numbers() {
            let name = RefusalKind::from_number(number).map_or("accepted", RefusalKind::name);
            text += &format!("{number:>6}  {name:<22}");
            for call in CALLS {
                let met = self.answered(call, number);
                let cell = if call.owns(number) { met.to_string() } else { String::new() };
                text += &format!(" {cell:>14}");
            }
            text.truncate(text.trim_end().len());
            text += "\n";
        }
        let [empty, full] = self.sections;
        text += &format!("\nsections asked for: {full} with bytes, {empty} empty\n\n");
        for &path in Path::ALL {
            text += &format!("{:>10}  {}\n", self.met(path), path.name());
        }
        text
    }
}

/// 0 and all numbers of refusal.
fn numbers() -> impl Iterator<Item = u64> {
    [0].into_iter().chain(RefusalKind::ALL.iter().map(|kind| kind.number()))
}
