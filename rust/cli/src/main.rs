//! `frubanto`: reads and writes files of opened ORA blocks of any size. docs/CLI.md is its manual.
//!
//! What judges or moves a byte of a block is the proved library, through the crate `ora`. Here
//! files are opened, cut into blocks where the library says, and its answers are put into words.

#![deny(unsafe_code)]

mod arguments;
mod block_file;
mod cigar;
mod commands;
mod failure;
mod fasta;
mod header;
mod input;
mod kinds;
mod letters;
mod names;
mod output;
mod progress;
mod sam;
mod sequences;
mod workers;

use arguments::{Arguments, Command};
use clap::Parser;
use commands::{Status, ACCEPTED, REFUSED, UNUSABLE};
use failure::Failure;
use std::io::Write;
use std::process::ExitCode;

fn main() -> ExitCode {
    let status = match Arguments::try_parse() {
        Ok(arguments) => run(&arguments.command).unwrap_or_else(report),
        Err(error) => explain(&error),
    };
    ExitCode::from(status)
}

fn run(command: &Command) -> Result<Status, Failure> {
    match command {
        Command::Reference(arguments) => commands::reference::run(arguments),
        Command::Encode(arguments) => commands::encode::run(arguments),
        Command::Decode(arguments) => commands::decode::run(arguments),
        Command::List(arguments) => commands::list::run(arguments),
        Command::Validate(arguments) => commands::validate::run(arguments),
        Command::Blocks(arguments) => commands::blocks::run(arguments),
    }
}

/// Says why a command has ended, in a line on standard error, and gives its exit status.
fn report(failure: Failure) -> Status {
    match failure {
        Failure::Refused(refused) => {
            say(&format!("frubanto: {refused}\n"));
            REFUSED
        }
        Failure::Unusable(what) => {
            say(&format!("frubanto: {what}\n"));
            UNUSABLE
        }
        Failure::ClosedPipe => ACCEPTED,
    }
}

/// Help where it is asked for; otherwise what is wrong with the arguments, in a line.
fn explain(error: &clap::Error) -> Status {
    let text = error.to_string();
    if !error.use_stderr() {
        let printed = std::io::stdout().write_all(text.as_bytes());
        return printed
            .map_or_else(|error| report(Failure::writing("standard output", error)), |()| 0);
    }
    if error.kind() == clap::error::ErrorKind::DisplayHelpOnMissingArgumentOrSubcommand {
        say(&text);
        return UNUSABLE;
    }
    let said = text.lines().map(str::trim).take_while(|line| !line.is_empty());
    let said = said.collect::<Vec<_>>().join(" ");
    let said = said.strip_prefix("error: ").unwrap_or(&said);
    report(Failure::Unusable(format!("{said} (--help says more)")))
}

/// Writes to standard error; where that is not possible there is nobody to tell.
fn say(text: &str) {
    let _ = std::io::stderr().write_all(text.as_bytes());
}
