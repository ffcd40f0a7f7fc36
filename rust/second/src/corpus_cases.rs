//! The case files of the corpus, in order, and where they stand.

use crate::cases_encoding::*;
use crate::cases_reading::*;
use crate::corpus::CaseFile;

pub fn corpus() -> Vec<CaseFile> {
    vec![
        CaseFile { name: "sections", cases: sections_cases() },
        CaseFile { name: "lengths", cases: lengths_cases() },
        CaseFile { name: "decode", cases: decode_cases() },
        CaseFile { name: "validate_block", cases: validate_block_cases() },
        CaseFile { name: "validate", cases: validate_cases() },
        CaseFile { name: "encode", cases: encode_cases() },
        CaseFile { name: "decode_large", cases: decode_large_cases() },
        CaseFile { name: "encode_large", cases: encode_large_cases() },
    ]
}

/// The case files that the program `corpus` runs. Adding a name here moves its
/// text into the program's expected output.
pub const RUN: [&str; 8] = [
    "sections",
    "lengths",
    "decode",
    "validate_block",
    "validate",
    "encode",
    "decode_large",
    "encode_large",
];

/// The corpus as files of the program's crate, by their paths in it. In `data`
/// stand all case files, and beside them the texts of those that are not run;
/// the texts of those that are run make the file `stdout`.
pub fn corpus_files() -> Vec<(String, Vec<u8>)> {
    let mut files = Vec::new();
    let mut stdout = String::new();
    for file in corpus() {
        files.push((format!("data/{}.bin", file.name), file.bytes()));
        if RUN.contains(&file.name) {
            stdout.push_str(&file.text());
        } else {
            files.push((format!("data/{}.txt", file.name), file.text().into_bytes()));
        }
    }
    files.push(("stdout".to_string(), stdout.into_bytes()));
    files
}
