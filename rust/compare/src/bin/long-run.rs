//! A long comparison with the crate. rust/long-run builds and runs it.
use compare::all::All;
use compare::bench::Tally;
use compare::interrupt;
use compare::whole::Counts;
use generate::sessions;
use std::fs;
use std::io::{self, Write};
use std::process::ExitCode;
use std::time::{Duration, Instant};

const EVERY: Duration = Duration::from_secs(5);
const WRONG: u8 = 2;
const HELP: &str = "\
usage: long-run [SEED [COUNT [FIRST]]]
       long-run --folder FOLDER
Reads and writes texts with the archive and with the crate sdp-types, reads back what was written, and compares all of
it; and it counts their lines and lists when they start, beside oracles. The texts are generated: SEED (8866) chooses
them, COUNT (10000000) says how many, FIRST (0) is the number of the first. Or they are the files of a folder.
Every five seconds it says how far it is. Ctrl-C ends it with the counts so far; a second one ends it at once.
status: 0 no difference; 1 a difference, printed with the smallest text that shows it; 2 wrong words, or a file that
can't be read; 130 Ctrl-C
";

/// Texts by their number, from 0 on.
struct Texts {
    title: String,
    count: u64,
    /// The name of a text, and the text.
    nth: Box<dyn Fn(u64) -> io::Result<(String, Vec<u8>)>>,
}

fn main() -> ExitCode {
    let words: Vec<String> = std::env::args().skip(1).collect();
    let words: Vec<&str> = words.iter().map(String::as_str).collect();
    let texts = match &words[..] {
        ["--help" | "-h", ..] => {
            print!("{HELP}");
            return ExitCode::SUCCESS;
        }
        ["--folder", folder] => files(folder),
        numbers => match generated(numbers) {
            Some(texts) => Ok(texts),
            None => {
                eprint!("{HELP}");
                return ExitCode::from(WRONG);
            }
        },
    };
    interrupt::watch();
    match texts.and_then(|texts| run(&mut io::stdout(), &texts)) {
        Ok(status) => status,
        // where nobody reads what is said, going on would be for nothing
        Err(error) if error.kind() == io::ErrorKind::BrokenPipe => ExitCode::from(WRONG),
        Err(error) => {
            eprintln!("long-run: {error}");
            ExitCode::from(WRONG)
        }
    }
}

fn generated(words: &[&str]) -> Option<Texts> {
    let numbers: Vec<u64> = words.iter().map(|word| word.parse().ok()).collect::<Option<_>>()?;
    let number = |at: usize, usual: u64| numbers.get(at).copied().unwrap_or(usual);
    let (seed, count, first) = (number(0, 8866), number(1, 10_000_000), number(2, 0));
    let nth = move |at: u64| {
        let number = first.wrapping_add(at);
        Ok((format!("text {number} of seed {seed}"), sessions::nth(seed, number)))
    };
    (words.len() <= 3).then(|| Texts {
        title: format!("seed {seed}, {count} texts from number {first}"),
        count,
        nth: Box::new(nth),
    })
}

/// The error with the name of what it is about.
fn named(name: &str) -> impl Fn(io::Error) -> io::Error + '_ {
    move |error| io::Error::new(error.kind(), format!("{name}: {error}"))
}

fn files(folder: &str) -> io::Result<Texts> {
    let paths: io::Result<Vec<_>> = fs::read_dir(folder).map_err(named(folder))?.map(|entry| Ok(entry?.path())).collect();
    let mut paths = paths?;
    paths.retain(|path| path.is_file());
    paths.sort();
    Ok(Texts {
        title: format!("{} files of {folder}", paths.len()),
        count: paths.len() as u64,
        nth: Box::new(move |at| {
            let name = paths[at as usize].display().to_string();
            let text = fs::read(&paths[at as usize]).map_err(named(&name))?;
            Ok((name, text))
        }),
    })
}

fn run(out: &mut impl Write, texts: &Texts) -> io::Result<ExitCode> {
    let count = texts.count;
    writeln!(out, "long run: {}", texts.title)?;
    let mut all = All::default();
    let mut tally = Tally::default();
    let (start, mut said) = (Instant::now(), Instant::now());
    let mut ended = ExitCode::SUCCESS;
    let mut bytes = 0;
    for done in 0..count {
        if interrupt::stopped() {
            writeln!(out, "stopped after {done} of {count} texts")?;
            ended = ExitCode::from(interrupt::STATUS);
            break;
        }
        if said.elapsed() >= EVERY {
            said = Instant::now();
            let rate = done as f64 / start.elapsed().as_secs_f64();
            let left = duration((count - done) as f64 / rate);
            writeln!(out, "{done} of {count}, {rate:.0} a second, {left} left, {} accepted", tally.of(0))?;
        }
        let (name, text) = (texts.nth)(done)?;
        bytes += text.len();
        match all.compare(&text) {
            Ok(answer) => tally.add(answer),
            Err(_) => {
                writeln!(out, "{tally}\n{done} texts compared without a difference, and then:")?;
                writeln!(out, "{name}: {}", all.smallest(&text))?;
                return Ok(ExitCode::FAILURE);
            }
        }
    }
    let (counts, lists) = (&all.whole.counts, &all.listing.counts);
    writeln!(out, "{tally}")?;
    writeln!(
        out,
        "{} written as the crate writes them, at most {} bytes; {} read back and written once more, {} too long for that",
        counts.accepted, counts.longest, counts.read_back, counts.too_long
    )?;
    let lines = counts.kept + counts.ignored + counts.empty;
    let Counts { kept, ignored, empty, lined, .. } = counts;
    writeln!(out, "{lines} lines counted as the oracle has them: {kept} kept, {ignored} ignored, {empty} empty")?;
    writeln!(out, "{lined} records and fields with their line, as the text has them")?;
    writeln!(out, "{} lists of starts, {} starts in them, as the oracle has them", lists.windows, lists.starts)?;
    let took = duration(start.elapsed().as_secs_f64());
    writeln!(out, "{} texts of {} MB compared in {took}, no difference", tally.all(), bytes / 1_000_000)?;
    Ok(ended)
}

fn duration(seconds: f64) -> String {
    let seconds = seconds as u64;
    format!("{}:{:02}:{:02}", seconds / 3_600, seconds / 60 % 60, seconds % 60)
}
