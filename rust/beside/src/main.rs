//! `beside [FILE]`: a session description and its canonical form side by side.
use beside::answer;
use beside::page::page;
use beside::program::{file, Program, REFUSED};
use std::ffi::OsString;
use std::io::{self, IsTerminal};
use std::process::ExitCode;

const ME: Program = Program("beside");

const HELP: &str = "\
usage: beside [FILE]
Shows a session description and its canonical form side by side, line by line. Without FILE, or with -, the text comes
from standard input. The lines are numbered on both sides. Each line on the right is a record of the session, and the
number on the left, or behind 'from line', is the line of the text that the record carries. Between them stands a mark:
  =  the line is written as it stands
  ~  changed: numbers, times and spaces are written in one way
  -  dropped: an empty line, a letter that has no use there or no use any more, or a z line without zones
  +  added: what every session has and this text doesn't
  >  moved from here, and written where < stands
  !  the line for which the text is refused; the refusal is below, in the words of docs/REFUSALS.md. Where a field is
     not UTF-8, ^^^^ below the line marks the byte from which on it isn't
Below, the marks are counted, and then the lines of the text as the reader took them: kept (the first v line and all
that have a use, a z line without zones too), ignored (no use) and empty. Of a refused text nothing is counted.
The ends of lines are told above the columns, and not as changes. What can't be seen is shown as \\t, \\xff (a byte) or
\\u{a0} (a character), a backslash as \\\\, a space at a line's end as \\x20. Long lines go on in the next row. No row is
wider than 100 columns. There is colour only on a terminal, and none where NO_COLOR is set.
status: 0 the text is accepted, changed or not; 1 it is refused; 2 wrong words, or the text can't be read
";

fn main() -> ExitCode {
    let mut words: Vec<OsString> = std::env::args_os().skip(1).collect();
    let only_files = words.first().map_or(false, |word| word == "--");
    if only_files {
        words.remove(0);
    }
    let option = words.iter().find(|word| !only_files && word.len() > 1 && word.to_string_lossy().starts_with('-'));
    if let Some(option) = option {
        if option == "--help" || option == "-h" {
            return ME.show(HELP, ExitCode::SUCCESS);
        }
        return ME.fail(&format!("there is no option {}; --help says more", option.to_string_lossy()));
    }
    let (name, text) = match &words[..] {
        [] => ("standard input".into(), ME.standard_input()),
        [word] if word == "-" && !only_files => ("standard input".into(), ME.standard_input()),
        [word] => (word.to_string_lossy(), file(word)),
        _ => return ME.fail("it takes one file at most; --help says more"),
    };
    let text = match text {
        Ok(text) => text,
        Err(error) => return ME.fail(&format!("{name}: {error}")),
    };
    let answer = answer(&text);
    let colour = io::stdout().is_terminal() && std::env::var_os("NO_COLOR").map_or(true, |value| value.is_empty());
    let status = if answer.is_ok() { ExitCode::SUCCESS } else { ExitCode::from(REFUSED) };
    ME.show(&page(&text, &answer, colour), status)
}
