//! What the programs `beside` and `hours` do alike: they take a text in, show a page, and say what fails.
use crate::page::LONGEST;
use std::fs::File;
use std::io::{self, ErrorKind, IsTerminal, Read, Write};
use std::path::Path;
use std::process::ExitCode;

pub const REFUSED: u8 = 1;
const FAILED: u8 = 2;
/// Of a text that is too long this much is read and dropped, so that a program that pipes it in isn't stopped.
const DRAINED: u64 = 1 << 28;

/// The text, or its first bytes where it is too long.
fn take(mut input: impl Read) -> io::Result<Vec<u8>> {
    let mut text = Vec::new();
    input.by_ref().take(LONGEST as u64 + 1).read_to_end(&mut text)?;
    if text.len() > LONGEST {
        io::copy(&mut input.take(DRAINED), &mut io::sink())?;
    }
    Ok(text)
}

/// The text of a file.
pub fn file(path: impl AsRef<Path>) -> io::Result<Vec<u8>> {
    File::open(path).and_then(take)
}

/// A program, by its name.
pub struct Program(pub &'static str);

impl Program {
    pub fn standard_input(&self) -> io::Result<Vec<u8>> {
        if io::stdin().is_terminal() {
            eprintln!("{}: type or paste a session description, and end it with Ctrl-D", self.0);
        }
        take(io::stdin().lock())
    }

    /// Whoever closes the pipe early has seen enough.
    pub fn show(&self, page: &str, status: ExitCode) -> ExitCode {
        let mut out = io::stdout().lock();
        match out.write_all(page.as_bytes()).and_then(|()| out.flush()) {
            Err(error) if error.kind() != ErrorKind::BrokenPipe => self.fail(&format!("standard output: {error}")),
            _ => status,
        }
    }

    pub fn fail(&self, what: &str) -> ExitCode {
        eprintln!("{}: {what}", self.0);
        ExitCode::from(FAILED)
    }
}
