//! Prints a case file for a human: each case's label, then its expected lines.

use second::corpus::parse;
use std::io::Write;
use std::process::ExitCode;

fn main() -> ExitCode {
    let arguments: Vec<String> = std::env::args().skip(1).collect();
    let [path] = arguments.as_slice() else {
        eprintln!("usage: show_corpus FILE.bin");
        return ExitCode::from(2);
    };
    let bytes = match std::fs::read(path) {
        Ok(bytes) => bytes,
        Err(error) => {
            eprintln!("show_corpus: cannot read {path}: {error}");
            return ExitCode::from(2);
        }
    };
    let Some(cases) = parse(&bytes) else {
        eprintln!("show_corpus: {path} is not a case file");
        return ExitCode::from(1);
    };
    let mut text = String::new();
    for (index, case) in cases.iter().enumerate() {
        text.push_str(&format!("# {}\n{}", case.label, case.expected(index)));
    }
    match std::io::stdout().write_all(text.as_bytes()) {
        Ok(()) => ExitCode::SUCCESS,
        Err(_) => ExitCode::from(1),
    }
}
