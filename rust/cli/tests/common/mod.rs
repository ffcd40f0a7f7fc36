//! What the tests share: running the binary, files, and small samples.
#![allow(dead_code)]

use second::generator::{
    generate_reference, generate_saturated, generate_under, Plan, ReferencePlan, Shape,
};
use second::prng::Prng;
use std::fs;
use std::io::Write;
use std::path::{Path, PathBuf};
use std::process::{Command, Output, Stdio};

pub const FRUBANTO: &str = env!("CARGO_BIN_EXE_frubanto");

/// An empty folder of a test's own.
pub struct Folder(PathBuf);

impl Folder {
    pub fn new(name: &str) -> Folder {
        let path = Path::new(env!("CARGO_TARGET_TMPDIR")).join(name);
        let _ = fs::remove_dir_all(&path);
        fs::create_dir_all(&path).unwrap();
        Folder(path)
    }

    /// The path of a file in it.
    pub fn path(&self, name: &str) -> String {
        self.0.join(name).to_str().unwrap().to_string()
    }

    /// Writes a file and gives its path.
    pub fn write(&self, name: &str, bytes: impl AsRef<[u8]>) -> String {
        fs::write(self.0.join(name), bytes).unwrap();
        self.path(name)
    }

    pub fn read(&self, name: &str) -> Vec<u8> {
        fs::read(self.0.join(name)).unwrap()
    }

    /// The names of all files in it, sorted.
    pub fn names(&self) -> Vec<String> {
        let entries = fs::read_dir(&self.0).unwrap();
        let mut names: Vec<String> =
            entries.map(|entry| entry.unwrap().file_name().into_string().unwrap()).collect();
        names.sort();
        names
    }
}

/// What a run gives.
#[derive(Debug)]
pub struct Ran {
    pub status: Option<i32>,
    pub stdout: Vec<u8>,
    pub stderr: String,
}

impl Ran {
    pub fn text(&self) -> &str {
        std::str::from_utf8(&self.stdout).unwrap()
    }

    /// It was accepted.
    #[track_caller]
    pub fn accepted(self) -> Ran {
        assert_eq!(self.status, Some(0), "{}", self.stderr);
        self
    }

    /// It failed with this status, and its only message has this in it.
    #[track_caller]
    pub fn failed(self, status: i32, message: &str) -> Ran {
        assert_eq!(self.status, Some(status), "{}", self.stderr);
        assert!(self.stderr.starts_with("frubanto: "), "{}", self.stderr);
        assert!(self.stderr.contains(message), "{}\nis not in\n{}", message, self.stderr);
        assert!(self.stderr.ends_with('\n') && self.stderr.matches('\n').count() == 1);
        self
    }
}

impl From<Output> for Ran {
    fn from(output: Output) -> Ran {
        let stderr = String::from_utf8(output.stderr).unwrap();
        Ran { status: output.status.code(), stdout: output.stdout, stderr }
    }
}

/// Runs the binary with nothing on standard input.
pub fn run(arguments: &[&str]) -> Ran {
    Command::new(FRUBANTO).args(arguments).stdin(Stdio::null()).output().unwrap().into()
}

/// Runs the binary with these bytes on standard input.
pub fn run_with(arguments: &[&str], input: &[u8]) -> Ran {
    let mut command = Command::new(FRUBANTO);
    let piped = command.args(arguments).stdin(Stdio::piped());
    let mut child = piped.stdout(Stdio::piped()).stderr(Stdio::piped()).spawn().unwrap();
    let mut stdin = child.stdin.take().unwrap();
    std::thread::scope(|scope| {
        scope.spawn(move || {
            // A command that fails may not read it all.
            let _ = stdin.write_all(input);
        });
        child.wait_with_output().unwrap().into()
    })
}

/// Runs a line of the shell, in which $0 is the binary.
pub fn shell(line: &str, arguments: &[&str]) -> Ran {
    let mut command = Command::new("sh");
    command.args(["-c", line, FRUBANTO]).args(arguments).stdin(Stdio::null());
    command.output().unwrap().into()
}

/// A reference file: the number of bases, and the bases.
pub fn reference_file(bases: u64, bytes: &[u8]) -> Vec<u8> {
    [&bases.to_le_bytes()[..], bytes].concat()
}

/// ACGTACGTTGCA.
pub fn small_reference() -> Vec<u8> {
    reference_file(12, &[0x1B, 0x1B, 0xE4])
}

/// The specification's sample: 132 bytes, b_id 7, one read ACTT with one difference.
pub fn sample_block() -> Vec<u8> {
    let mut block = vec![0; 121];
    block[..2].copy_from_slice(&[0x49, 0x7C]);
    block[2] = 121;
    block[6] = 10;
    block[26] = 1;
    block[42] = 1;
    block[46] = 4;
    block[50] = 1;
    block[54..56].copy_from_slice(&[0x19, 0x50]);
    block[56] = 7;
    block[73] = 4;
    block.extend([0x00, 0x80, 0x00, 0x00, 0x0C, 0x00, 0x00, 0x00, 0x00, 0x0B, 0x00]);
    assert_eq!(block.len(), 132);
    block
}

pub const SAMPLE_LINES: &str = "block 7 reads 1 letters 4 entries 1 differences 1 top 0\nACTT\n";

/// A reference, and blocks under it that the second implementation has made; in every third most
/// records have 30 or 31 entries.
pub struct Generated {
    pub reference: ReferencePlan,
    pub plans: Vec<Plan>,
}

impl Generated {
    pub fn new(seed: u64, blocks: usize) -> Generated {
        let mut rng = Prng::new(seed);
        let shape =
            Shape { bases: 300, max_reads: 40, max_length: 90, max_carried: 20, max_name: 255 };
        let reference = generate_reference(&mut rng, shape.bases);
        let plan = |block: usize| match block % 3 {
            2 => generate_saturated(&mut rng, shape, &reference),
            _ => generate_under(&mut rng, shape, &reference),
        };
        let plans = (0..blocks).map(plan).collect();
        Generated { reference, plans }
    }

    pub fn reference_file(&self) -> Vec<u8> {
        reference_file(self.reference.bases, &self.reference.bytes)
    }

    pub fn blocks(&self) -> Vec<Vec<u8>> {
        self.plans.iter().map(Plan::block).collect()
    }

    pub fn file(&self) -> Vec<u8> {
        self.blocks().concat()
    }

    /// The letters of the reads of the first blocks.
    pub fn reads(&self, blocks: usize) -> Vec<String> {
        let plans = &self.plans[..blocks];
        plans.iter().flat_map(|plan| parts(&plan.expected.letters, &plan.expected.ends)).collect()
    }

    /// The reads of the first blocks, a line each.
    pub fn lines(&self, blocks: usize) -> String {
        self.reads(blocks).into_iter().map(|read| read + "\n").collect()
    }

    /// What the reads of the first blocks are called; where names are not read, by their indices.
    pub fn names(&self, blocks: usize) -> Vec<String> {
        let plans = self.plans[..blocks].iter().enumerate();
        plans
            .flat_map(|(block, plan)| match plan.flags & 0x8 {
                0 => (0..plan.expected.ends.len()).map(|read| format!("{block}.{read}")).collect(),
                _ => parts(&plan.expected.names, &plan.expected.name_ends),
            })
            .collect()
    }
}

/// The parts of a text that end there.
fn parts(text: &[u8], ends: &[u32]) -> Vec<String> {
    let starts = std::iter::once(0).chain(ends.iter().copied());
    let parts = starts.zip(ends).map(|(start, &end)| &text[start as usize..end as usize]);
    parts.map(|part| String::from_utf8(part.to_vec()).unwrap()).collect()
}
