//! The command `segvartin`: pictures to planar YUV, shift files and their summaries, over the proved library. What decides a byte or a refusal is the
//! library; what is here reads flags and pictures, maps files, and prints.

mod append;
mod arguments;
mod compare;
mod completion;
mod convert;
mod digest;
mod files;
mod find;
mod flags;
mod help;
mod json;
mod maps;
mod names;
mod picture;
mod pnm;
mod progress;
mod report;
mod room;
mod rules;
mod settings;
mod sha256;
mod shift;
mod signals;

use arguments::Asked;
use report::Failure;
use std::io::Write;
use std::process::ExitCode;

const VERSION: &str = concat!("segvartin ", env!("CARGO_PKG_VERSION"), "\n");

/// An error, which standard error has.
const FAILED: u8 = 2;

fn main() -> ExitCode {
    let words: Vec<_> = std::env::args_os().skip(1).collect();
    // Errors of the command line itself are said as JSON too.
    let json = words
        .iter()
        .take_while(|word| *word != "--")
        .any(|word| word == "--json");
    let asked = arguments::parse(words);
    let command = match &asked {
        Ok(Asked::Run(arguments)) => arguments.command.name,
        Ok(Asked::Help(_)) => "help",
        Ok(Asked::Version) => "",
        Err((command, _)) => command,
    };
    signals::watch(command, json);
    let answer = match asked {
        Ok(Asked::Run(arguments)) => (arguments.command.run)(&arguments),
        Ok(Asked::Help(command)) => files::print(help::text(command)).map(|()| 0),
        Ok(Asked::Version) => files::print(VERSION).map(|()| 0),
        Err((_, failure)) => Err(failure),
    };
    ExitCode::from(answer.unwrap_or_else(|failure| told(&failure, command, json)))
}

fn told(failure: &Failure, command: &str, json: bool) -> u8 {
    let _ = std::io::stderr().write_all(failure.text(command, json).as_bytes()); // there is nowhere else to say it
    FAILED
}
