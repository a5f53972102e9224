//! The words that the program is given: a window, and where the texts come from.
use crate::dates::{seconds, shown, DAY};
use std::ffi::OsString;
use std::ops::Range;

/// Days of a window whose end isn't given.
const DAYS: u64 = 30;

#[derive(Debug, Clone, PartialEq, Eq)]
pub enum Source {
    StandardInput,
    File(OsString),
}

#[derive(Debug, Clone, PartialEq, Eq)]
pub enum Asked {
    Help,
    /// For the starts of one text or of two.
    Hours {
        window: Range<u64>,
        sources: Vec<Source>,
    },
}

/// What the words ask for, or what is wrong with them.
pub fn asked(words: impl IntoIterator<Item = OsString>, now: u64) -> Result<Asked, String> {
    let (mut from, mut to, mut days) = (None, None, None);
    let (mut sources, mut only_files) = (Vec::new(), false);
    let mut words = words.into_iter();
    while let Some(word) = words.next() {
        let said = word.to_string_lossy();
        let option = if only_files || !said.starts_with('-') { "" } else { &*said };
        let value = match option {
            "--help" | "-h" => return Ok(Asked::Help),
            "--from" => &mut from,
            "--to" => &mut to,
            "--days" => &mut days,
            "--" => {
                only_files = true;
                continue;
            }
            "-" | "" => {
                sources.push(if option == "-" { Source::StandardInput } else { Source::File(word) });
                continue;
            }
            _ => return Err(format!("there is no option {option}")),
        };
        let next = words.next().ok_or_else(|| format!("{option} needs a word behind it"))?;
        if value.replace(next.to_string_lossy().into_owned()).is_some() {
            return Err(format!("{option} stands twice"));
        }
    }
    if sources.is_empty() {
        sources.push(Source::StandardInput);
    }
    if sources.len() > 2 {
        return Err("it takes two files at most".into());
    }
    if sources == [Source::StandardInput, Source::StandardInput] {
        return Err("one of two texts at most comes from standard input".into());
    }
    Ok(Asked::Hours { window: window(from, to, days, now)?, sources })
}

fn window(from: Option<String>, to: Option<String>, days: Option<String>, now: u64) -> Result<Range<u64>, String> {
    let date = |option: &str, word: String| seconds(&word).map_err(|why| format!("{option}: '{word}' {why}"));
    let from = from.map_or(Ok(now), |word| date("--from", word))?;
    let to = match (to, days) {
        (Some(_), Some(_)) => return Err("--to and --days both end the window: give one of them".into()),
        (Some(word), None) => date("--to", word)?,
        (None, Some(word)) => {
            let days = word.parse().ok().filter(|days| *days > 0);
            days_after(from, days.ok_or_else(|| format!("--days: '{word}' is no whole number from 1 on"))?)
        }
        (None, None) => days_after(from, DAYS),
    };
    if to <= from {
        return Err(format!("the window would end at {} and begin at {}", shown(to), shown(from)));
    }
    Ok(from..to)
}

/// At most the last second that SDP can count, which is far behind all dates.
fn days_after(from: u64, days: u64) -> u64 {
    from.saturating_add(days.saturating_mul(DAY))
}
