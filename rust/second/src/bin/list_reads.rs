//! The listing program of 01: a reference file and a file of blocks.

use second::listing::listing;
use std::io::Write;
use std::process::ExitCode;

fn main() -> ExitCode {
    let arguments: Vec<String> = std::env::args().skip(1).collect();
    let [reference, blocks] = arguments.as_slice() else {
        eprintln!("usage: list_reads REFERENCE_FILE BLOCKS_FILE");
        return ExitCode::from(2);
    };
    let read = |path: &str| {
        std::fs::read(path).map_err(|error| eprintln!("list_reads: cannot read {path}: {error}"))
    };
    let (Ok(reference), Ok(blocks)) = (read(reference), read(blocks)) else {
        return ExitCode::from(2);
    };
    match std::io::stdout().write_all(listing(&reference, &blocks).as_bytes()) {
        Ok(()) => ExitCode::SUCCESS,
        Err(_) => ExitCode::from(1),
    }
}
