//! The built programs, run as a user runs them: a process with a pipe at each end.

use crate::converter::Converter;
use model::{Answer, Frame};
use std::io::{ErrorKind, Write};
use std::path::PathBuf;
use std::process::{Command, Stdio};

pub struct Program(PathBuf);

impl Program {
    /// A program of target/bin, beside target/compare. None: it is not built.
    pub fn built(name: &str) -> Option<Program> {
        let compare = std::env::current_exe().ok()?;
        let path = compare.parent()?.parent()?.join("bin").join(name);
        path.exists().then_some(Program(path))
    }

    /// It reads all that it needs before it writes, and its output fits a pipe, so one can be
    /// written and then the other read.
    pub fn output(&self, input: &[u8]) -> Vec<u8> {
        let mut child = Command::new(&self.0)
            .stdin(Stdio::piped())
            .stdout(Stdio::piped())
            .stderr(Stdio::piped())
            .spawn()
            .expect("the built program starts");
        let written = child.stdin.take().expect("a pipe").write_all(input);
        // It need not read what lies past the largest request.
        if let Err(error) = written {
            assert_eq!(error.kind(), ErrorKind::BrokenPipe, "{error}");
        }
        let output = child.wait_with_output().expect("the built program ends");
        let said = String::from_utf8_lossy(&output.stderr);
        assert!(output.status.success() && said.is_empty(), "{said}");
        output.stdout
    }
}

/// The program `frame`.
impl Converter for Program {
    fn name(&self) -> &'static str {
        "built program"
    }

    /// It has no frame calls, only inputs.
    fn has(&self, _number: u8) -> bool {
        false
    }

    fn frame(&self, _: &Frame, _: &[u8], _: &mut [u8], _: &mut [u8], _: &mut [u8]) -> Answer {
        unreachable!("has() says so")
    }

    fn program(&self, input: &[u8]) -> Option<Vec<u8>> {
        Some(self.output(input))
    }
}
