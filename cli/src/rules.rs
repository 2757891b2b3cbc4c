//! `segvartin rules check`: a converter held to the conformance vectors.

use crate::arguments::Arguments;
use crate::report::Failure;
use std::env;
use std::path::{Path, PathBuf};
use std::process::Command;

pub fn check(arguments: &Arguments) -> Result<u8, Failure> {
    let program = arguments
        .operands
        .first()
        .map(|program| ("--request", program.as_os_str()));
    let flag = |name: &str, passed| arguments.value(name).map(|value| (passed, value));
    let programs = [
        program,
        flag("lines", "--lines"),
        flag("counts", "--counts"),
    ];
    if programs.iter().all(Option::is_none) {
        let expected = "PROGRAM, --lines PROGRAM or --counts PROGRAM";
        let hint = "segvartin rules check target/bin/frame";
        return Err(Failure::new("a program to check", expected, "none", hint));
    }
    let mut python = Command::new("python3");
    python.arg(directory()?.join("run.py"));
    for (name, value) in programs
        .into_iter()
        .chain([flag("only", "--only")])
        .flatten()
    {
        python.arg(name).arg(value);
    }
    let status = python.status().map_err(|error| {
        let (what, expected) = ("cannot run python3", "python3 on the PATH");
        Failure::system(what, expected, &error, "install Python 3")
    })?;
    Ok(match status.code() {
        Some(0) => 0,
        Some(1) => 1,
        _ => 2,
    })
}

/// Where the vectors and their runner are: where the environment says, beside the program, or in the tree that it was built in.
fn directory() -> Result<PathBuf, Failure> {
    if let Some(said) = env::var_os("SEGVARTIN_CONFORMANCE") {
        return has_runner(Path::new(&said));
    }
    let program = env::current_exe().unwrap_or_default();
    let installed = program
        .parent()
        .unwrap_or(Path::new(""))
        .join("../share/segvartin/conformance");
    let built = Path::new(env!("CARGO_MANIFEST_DIR")).join("../conformance");
    has_runner(&installed).or_else(|_| has_runner(&built))
}

fn has_runner(directory: &Path) -> Result<PathBuf, Failure> {
    if directory.join("run.py").is_file() {
        return Ok(directory.to_owned());
    }
    let (what, hint) = ("the conformance vectors", "SEGVARTIN_CONFORMANCE=FOLDER");
    Err(Failure::new(what, "a folder with run.py", "none", hint).of(directory.as_os_str()))
}
