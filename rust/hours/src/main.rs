//! `hours [OPTIONS] [FILE [OTHER]]`: when a session starts, or two of them side by side.
use beside::program::{file, Program, REFUSED};
use hours::dates::of_clock;
use hours::page::{page, Told};
use hours::words::{asked, Asked, Source};
use std::process::ExitCode;
use std::time::{SystemTime, UNIX_EPOCH};

const ME: Program = Program("hours");

const HELP: &str = "\
usage: hours [--from DATE] [--to DATE | --days N] [FILE [OTHER]]
Lists when a session really starts, by its t, r and z lines: weekday, date and time in UTC; the time and the repeat that
each start comes from, which are the t lines and the r lines of the text, counted from 1; the shift that the z line
made; and the numbers of these lines in the text, such as 't 10, r 11, z 12'. Without FILE, or with -, the text comes
from standard input.
  --from DATE  the window's first moment; without it, now
  --to DATE    the window's end, which is not in it
  --days N     the window's length instead; without both, 30 days
A DATE is one such as 2026-12-01, 2026-12-01T20:00 or '2026-12-01 20:00', in UTC. It may have seconds too.
With OTHER the starts of two texts stand side by side, in the order of the left ones. A start is the same in both where
time, repeat and hour before the shift are. Below are the lines of each time and repeat in both texts. Between the two
stands a mark:
  =  it is at the same time in both
  ~  it is at another time on the right, and how much later or earlier is told
  -  it is in the window only on the left
  +  it is in the window only on the right
A number in place of a date counts seconds since 1900, as SDP does: dates end with the year 9999. No row is wider than
100 columns.
status: 0 the starts are listed, or there are none; 1 a text is refused; 2 wrong words, or a text can't be read
";

fn main() -> ExitCode {
    let clock = SystemTime::now().duration_since(UNIX_EPOCH).unwrap_or_default();
    let (window, sources) = match asked(std::env::args_os().skip(1), of_clock(clock.as_secs())) {
        Ok(Asked::Help) => return ME.show(HELP, ExitCode::SUCCESS),
        Ok(Asked::Hours { window, sources }) => (window, sources),
        Err(wrong) => return ME.fail(&format!("{wrong}; --help says more")),
    };
    let mut texts = Vec::new();
    for source in sources {
        let (name, text) = match &source {
            Source::StandardInput => ("standard input".into(), ME.standard_input()),
            Source::File(path) => (path.to_string_lossy().into_owned(), file(path)),
        };
        match text {
            Ok(text) => texts.push(Told { name, hours: hours::hours(&text, window.clone()) }),
            Err(error) => return ME.fail(&format!("{name}: {error}")),
        }
    }
    let refused = texts.iter().any(|text| text.hours.is_err());
    ME.show(&page(&texts, &window), if refused { ExitCode::from(REFUSED) } else { ExitCode::SUCCESS })
}
