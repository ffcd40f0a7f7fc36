//! Writes the corpus into the directory of the crate `corpus`. Everything is
//! made and written aside first, then renamed.

use second::corpus_cases::{corpus_files, RUN};
use std::fs;
use std::path::{Path, PathBuf};
use std::process::ExitCode;

fn main() -> ExitCode {
    let arguments: Vec<String> = std::env::args().skip(1).collect();
    let [directory] = arguments.as_slice() else {
        eprintln!("usage: make_corpus DIRECTORY");
        return ExitCode::from(2);
    };
    let directory = Path::new(directory);
    if !directory.is_dir() {
        eprintln!("make_corpus: {} is not a directory", directory.display());
        eprintln!("usage: make_corpus DIRECTORY");
        return ExitCode::from(2);
    }
    match write_all(directory) {
        Ok(()) => ExitCode::SUCCESS,
        Err(message) => {
            eprintln!("make_corpus: {message}");
            ExitCode::from(1)
        }
    }
}

fn write_all(directory: &Path) -> Result<(), String> {
    let files = corpus_files();
    let data = directory.join("data");
    fs::create_dir_all(&data)
        .map_err(|error| format!("cannot make {}: {error}", data.display()))?;
    let aside = |name: &str| directory.join(format!("{name}.new"));
    let mut written: Vec<PathBuf> = Vec::new();
    for (name, bytes) in &files {
        written.push(aside(name));
        if let Err(error) = fs::write(aside(name), bytes) {
            for path in &written {
                let _ = fs::remove_file(path);
            }
            return Err(format!("cannot write {}: {error}", aside(name).display()));
        }
    }
    for (name, bytes) in &files {
        let path = directory.join(name);
        fs::rename(aside(name), &path)
            .map_err(|error| format!("cannot rename to {}: {error}", path.display()))?;
        println!("{name} {} bytes", bytes.len());
    }
    // A text of its own, from before its case file was run.
    for name in RUN {
        let _ = fs::remove_file(data.join(format!("{name}.txt")));
    }
    Ok(())
}
