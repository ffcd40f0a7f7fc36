//! Writes the sample of the listing program and the cases of the program
//! `listing_cases`, each with the text it must print, into the directory
//! `crates`. Everything is made first, then written.

use second::listing_cases::listing_files;
use std::fs;
use std::path::Path;
use std::process::ExitCode;

fn main() -> ExitCode {
    let arguments: Vec<String> = std::env::args().skip(1).collect();
    let [directory] = arguments.as_slice() else {
        eprintln!("usage: make_listing DIRECTORY");
        return ExitCode::from(2);
    };
    let directory = Path::new(directory);
    for part in ["listing", "listing_cases"] {
        if !directory.join(part).is_dir() {
            eprintln!("make_listing: {} is not a directory", directory.join(part).display());
            eprintln!("usage: make_listing DIRECTORY");
            return ExitCode::from(2);
        }
    }
    match write_all(directory) {
        Ok(()) => ExitCode::SUCCESS,
        Err(message) => {
            eprintln!("make_listing: {message}");
            ExitCode::from(1)
        }
    }
}

fn write_all(directory: &Path) -> Result<(), String> {
    for (name, bytes) in listing_files() {
        let path = directory.join(&name);
        let parent = path.parent().unwrap();
        fs::create_dir_all(parent)
            .map_err(|error| format!("cannot make {}: {error}", parent.display()))?;
        fs::write(&path, &bytes)
            .map_err(|error| format!("cannot write {}: {error}", path.display()))?;
        println!("{name} {} bytes", bytes.len());
    }
    Ok(())
}
