//! What the script `bench` runs, by the words that it gives.
use bench::cases::{self, Case};
use bench::cost::{self, Cost};
use bench::marks::{known, marked};
use bench::order;
use bench::sides::{Ours, Side, Theirs, Work};
use bench::stack::{self, Lent};
use bench::starts;
use bench::table;
use bench::two;
use generate::hostile;
use std::collections::BTreeMap;
use std::hint::black_box;
use std::path::Path;
use std::process::ExitCode;
use std::time::{Duration, Instant};

fn sides() -> [Box<dyn Side>; 2] {
    [Box::new(Ours::default()), Box::new(Theirs::default())]
}

fn works(case: &Case) -> &'static [Work] {
    if case.accepted {
        &Work::ALL
    } else {
        &[Work::Read]
    }
}

/// The first two calls between the marks, which test the counter, and what is said of them.
fn begun() -> String {
    marked(|| ());
    marked(known);
    "nothing 0 none none\nknown 0 none none\n".into()
}

/// Makes each call between the marks, and prints a line for each when all are made.
fn calls(cases: &[Case]) {
    let mut said = begun();
    for mut side in sides() {
        for case in cases {
            side.keep(&case.text);
            for &work in works(case) {
                // once before, so that nothing is loaded or grown for the first time between the marks
                side.call(work, &case.text);
                marked(|| side.call(work, &case.text));
                said += &format!("{} {} {} {}\n", case.name, case.text.len(), work.name(), side.name());
            }
        }
    }
    // writing in two calls, which ours alone has
    let mut ours = Ours::default();
    for case in cases.iter().filter(|case| case.accepted) {
        ours.keep(&case.text);
        for work in two::WORKS {
            two::call(&mut ours, work, &case.text);
            marked(|| two::call(&mut ours, work, &case.text));
            said += &format!("{} {} {work} {}\n", case.name, case.text.len(), ours.name());
        }
    }
    print!("{said}");
}

/// A call of reading or of listing.
fn call(ours: &mut Ours, work: &str, case: &starts::Case) {
    let text = black_box(&case.text[..]);
    if work == starts::WORKS[0] {
        black_box(ours.read(text));
    } else {
        black_box(ours.list(text, black_box(&case.window)).ok());
    }
}

/// The same for the list of starts.
fn list_calls(cases: &[starts::Case]) {
    let mut said = begun();
    let mut ours = Ours::default();
    for case in cases {
        ours.keep(&case.text);
        for work in starts::WORKS {
            call(&mut ours, work, case);
            marked(|| call(&mut ours, work, case));
            said += &format!("{} {} {work} {}\n", case.name, case.text.len(), ours.name());
        }
    }
    print!("{said}");
}

/// And for the letter order.
fn order_calls(cases: &[order::Case]) {
    let mut said = begun();
    let mut ours = Ours::default();
    for case in cases {
        for work in order::WORKS {
            let mut call = || {
                let text = black_box(&case.text[..]);
                if work == order::WORKS[0] {
                    black_box(ours.read(text));
                } else {
                    black_box(compare::letter_order(text));
                }
            };
            call();
            marked(call);
            said += &format!("{} {} {work} {}\n", case.name, case.text.len(), ours.name());
        }
    }
    print!("{said}");
}

/// The least nanoseconds of a call in many short runs, all calls in turn: so other work of the machine does least harm.
/// `run` makes one of the calls so many times.
fn least<const CALLS: usize>(mut run: impl FnMut(usize, u32) -> Duration) -> [f64; CALLS] {
    const RUNS: usize = 100;
    const RUN: Duration = Duration::from_micros(200);
    let mut least = [f64::INFINITY; CALLS];
    let mut many = [1u32; CALLS];
    for _ in 0..RUNS {
        for at in 0..CALLS {
            loop {
                let taken = run(at, many[at]);
                if taken >= RUN {
                    least[at] = least[at].min(taken.as_nanos() as f64 / f64::from(many[at]));
                    break;
                }
                many[at] *= 2;
            }
        }
    }
    least
}

/// Of the two sides; and of writing in two calls, in turn with the sides' writing.
fn times(cases: &[Case]) {
    let mut both = sides();
    let mut ours = Ours::default();
    for case in cases {
        ours.keep(&case.text);
        for &work in works(case) {
            let mut run = |at: usize, many: u32| {
                if let Some(work) = at.checked_sub(2).map(|at| two::WORKS[at]) {
                    let start = Instant::now();
                    for _ in 0..many {
                        black_box(two::call(&mut ours, work, &case.text));
                    }
                    return start.elapsed();
                }
                both[at].keep(&case.text);
                let start = Instant::now();
                for _ in 0..many {
                    black_box(both[at].call(work, &case.text));
                }
                start.elapsed()
            };
            let (of_sides, of_two) = match work {
                Work::Write => {
                    let [ours, theirs, length, exact] = least::<4>(run);
                    ([ours, theirs], Some([length, exact]))
                }
                _ => (least::<2>(&mut run), None),
            };
            for (side, least) in both.iter().zip(of_sides) {
                println!("{} {} {} {} {least:.1}", case.name, case.text.len(), work.name(), side.name());
            }
            for (work, least) in two::WORKS.iter().zip(of_two.into_iter().flatten()) {
                println!("{} {} {work} {} {least:.1}", case.name, case.text.len(), ours.name());
            }
        }
    }
}

/// Of reading and of listing the starts.
fn list_times(cases: &[starts::Case]) {
    let mut ours = Ours::default();
    for case in cases {
        ours.keep(&case.text);
        let least = least::<2>(|at, many| {
            let start = Instant::now();
            for _ in 0..many {
                call(&mut ours, starts::WORKS[at], case);
            }
            start.elapsed()
        });
        for (work, least) in starts::WORKS.iter().zip(least) {
            println!("{} {} {work} {} {least:.1}", case.name, case.text.len(), ours.name());
        }
    }
}

/// The most stack that a call took on any text: each function of the archive, and beside reading and writing the
/// crate's. The crate is not given the hostile texts.
fn stacks(cases: &[Case], lists: &[starts::Case]) {
    let hostile = hostile::texts();
    let own = cases.iter().map(|case| (&case.name, &case.text));
    let lists = lists.iter().map(|case| (&case.name, &case.text));
    let texts: Vec<_> = own.chain(lists).chain(hostile.iter().map(|hostile| (&hostile.name, &hostile.text))).collect();
    let mut most: BTreeMap<&str, (usize, &str)> = BTreeMap::new();
    for (name, text) in texts {
        let mut lent = Lent::new(text);
        for (function, measured) in stack::CALLS {
            let used = measured(black_box(text), &mut lent);
            let most = most.entry(function).or_default();
            if used > most.0 {
                *most = (used, name);
            }
        }
    }
    let mut theirs = Theirs::default();
    for (title, work) in [("Session::parse", Work::Read), ("Session::write", Work::Write)] {
        for case in cases.iter().filter(|case| works(case).contains(&work)) {
            theirs.keep(&case.text);
            theirs.call(work, &case.text); // what is loaded at a first call takes stack too
            let used = stack::used(|| theirs.call(work, &case.text));
            let most = most.entry(title).or_default();
            if used > most.0 {
                *most = (used, &case.name);
            }
        }
    }
    for (function, (used, text)) in most {
        println!("{function:<16} {used:>6} bytes of stack at most ({text})");
    }
}

fn file(name: &str) -> Result<String, String> {
    std::fs::read_to_string(name).map_err(|e| format!("{name}: {e}"))
}

fn counts(name: &str) -> Result<Vec<Cost>, String> {
    cost::counts(&file(name)?).map_err(|e| format!("{name}: {e}"))
}

/// What is wrong, line by line, and the status for it.
fn judged(wrong: &[String]) -> ExitCode {
    for line in wrong {
        println!("WRONG: {line}");
    }
    ExitCode::from(u8::from(!wrong.is_empty()))
}

fn run(words: &[&str]) -> Result<ExitCode, String> {
    match *words {
        ["calls", "all", texts] => calls(&cases::folder(Path::new(texts))?),
        ["calls", "few", texts] => calls(&cases::few(Path::new(texts))?),
        ["calls", "doubling"] => calls(&cases::doubling()?),
        ["calls", "worst-starts"] => list_calls(&[starts::worst()?]),
        ["calls", "starts", texts] => list_calls(&starts::cases(Path::new(texts))?),
        ["calls", "starts-doubling"] => list_calls(&starts::doubling()?),
        ["calls", "order", texts] => order_calls(&order::folder(Path::new(texts))?),
        ["calls", "order-doubling"] => order_calls(&order::doubling()?),
        ["times", "starts", texts] => list_times(&starts::cases(Path::new(texts))?),
        ["times", texts] => times(&cases::folder(Path::new(texts))?),
        ["stacks", texts] => {
            let mut cases = cases::folder(Path::new(texts))?;
            cases.extend(cases::doubling()?);
            stacks(&cases, &starts::cases(Path::new(texts))?);
        }
        ["texts", count] => print!("{}", table::texts(&counts(count)?, None)?),
        ["texts", count, time] => print!("{}", table::texts(&counts(count)?, Some(&cost::costs(&file(time)?)?))?),
        ["short", count] => print!("{}", table::short(&counts(count)?)?),
        ["growth", count] => print!("{}", table::growth(&counts(count)?)?),
        ["direction", count] => return Ok(judged(&table::direction(&counts(count)?)?)),
        ["starts", count, time, texts] => {
            let cases = starts::cases(Path::new(texts))?;
            print!("{}", starts::table(&cases, &counts(count)?, &cost::costs(&file(time)?)?)?);
        }
        ["starts-growth", count] => print!("{}", starts::growth(&starts::doubling()?, &counts(count)?)?),
        ["starts-held", count] => {
            let (said, wrong) = starts::held(&starts::worst()?, &counts(count)?)?;
            print!("{said}");
            return Ok(judged(&wrong));
        }
        ["order", count, texts] => print!("{}", order::table(&order::folder(Path::new(texts))?, &counts(count)?)?),
        ["order-growth", count] => print!("{}", order::growth(&counts(count)?)?),
        _ => return Err("run the script bench in the repository's root".into()),
    }
    Ok(ExitCode::SUCCESS)
}

fn main() -> ExitCode {
    let words: Vec<String> = std::env::args().skip(1).collect();
    let words: Vec<&str> = words.iter().map(String::as_str).collect();
    run(&words).unwrap_or_else(|wrong| {
        eprintln!("bench: {wrong}");
        ExitCode::from(2)
    })
}
