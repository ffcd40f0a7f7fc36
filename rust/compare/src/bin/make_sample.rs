//! Makes the files of `examples/data` again: `make_sample DIRECTORY`.

use std::path::Path;
use std::process::ExitCode;

fn main() -> ExitCode {
    let arguments: Vec<String> = std::env::args().skip(1).collect();
    let [directory] = arguments.as_slice() else {
        eprintln!("usage: make_sample DIRECTORY");
        return ExitCode::from(2);
    };
    for (name, bytes) in compare::sample::files() {
        let path = Path::new(directory).join(name);
        if let Err(error) = std::fs::write(&path, bytes) {
            eprintln!("make_sample: cannot write {}: {error}", path.display());
            return ExitCode::from(2);
        }
    }
    ExitCode::SUCCESS
}
