//! The page: the starts of one text, or those of two side by side; or why a text is refused.
use crate::dates::{is_dated, shown, span, DAY};
use crate::{Hour, Hours, Lines};
use beside::cells::{cells, pieces};
use beside::page::{rows, WIDTH};
use sdp::Error;
use std::collections::BTreeMap;
use std::ops::Range;

/// More than 256 starts.
const TOO_MANY: u64 = 29;

/// A text by its name, and what it gave.
pub struct Told {
    pub name: String,
    pub hours: Result<Hours, Error>,
}

/// The page for one text or for two.
pub fn page(texts: &[Told], window: &Range<u64>) -> String {
    if texts.iter().any(|text| text.hours.is_err()) {
        return refused(texts);
    }
    let hours: Vec<&Hours> = texts.iter().filter_map(|text| text.hours.as_ref().ok()).collect();
    let mut page = match hours[..] {
        [left, right] => named(texts) + &both(left, right),
        _ => hours.iter().map(|hours| list(&hours.list)).collect(),
    };
    let within = format!("from {} to {} (UTC)", shown(window.start), shown(window.end));
    let mut told: Vec<u64> = hours.iter().flat_map(|hours| &hours.list).map(|hour| hour.start.at).collect();
    page += &match (told.len(), hours.len()) {
        (0, _) => nothing(&hours, &within),
        (1, 1) => format!("\n1 start {within}\n"),
        (count, 1) => format!("\n{count} starts {within}\n"),
        _ => format!("{within}\n"),
    };
    if told.is_empty() {
        told.extend(hours.iter().filter_map(|hours| hours.first));
    }
    if !told.into_iter().chain([window.start, window.end]).all(is_dated) {
        page += "A number alone counts seconds since 1900: dates end with the year 9999.\n";
    }
    page
}

/// Columns of equal width, two spaces apart.
fn table(lines: &[Vec<String>]) -> Vec<String> {
    let columns = lines.iter().map(Vec::len).max().unwrap_or(0);
    let width = |column: usize| lines.iter().filter_map(|line| line.get(column)).map(String::len).max().unwrap_or(0);
    let widths: Vec<usize> = (0..columns).map(width).collect();
    let line = |line: &Vec<String>| {
        let cells = line.iter().zip(&widths).map(|(cell, width)| format!("{cell:<width$}"));
        cells.collect::<Vec<_>>().join("  ").trim_end().to_string()
    };
    lines.iter().map(line).collect()
}

fn title(cells: &[&str]) -> Vec<String> {
    cells.iter().map(|cell| cell.to_string()).collect()
}

/// The time and the repeat that a start comes from.
fn source(hour: &Hour) -> String {
    match hour.start.repeat {
        None => format!("time {}", hour.start.time),
        Some(repeat) => format!("time {}, repeat {repeat}", hour.start.time),
    }
}

/// Their lines in the text, each behind its letter, and that of the z line where it shifted the start.
fn lines(lines: Lines) -> String {
    let repeat = lines.repeat.map_or(String::new(), |line| format!(", r {line}"));
    let zone = lines.zone.map_or(String::new(), |line| format!(", z {line}"));
    format!("t {}{repeat}{zone}", lines.time)
}

/// With its sign; nothing for none.
fn shift(hour: &Hour) -> String {
    match hour.shift {
        0 => String::new(),
        shift => format!("{}{}", if shift < 0 { '-' } else { '+' }, span(shift.unsigned_abs())),
    }
}

fn list(hours: &[Hour]) -> String {
    if hours.is_empty() {
        return String::new();
    }
    let mut rows = vec![title(&["start (UTC)", "comes from", "z line", "lines"])];
    rows.extend(hours.iter().map(|hour| {
        let interval = match hour.interval {
            None => String::new(),
            Some(0) => " (once)".into(),
            Some(DAY) => " (every day)".into(),
            Some(interval) => format!(" (every {})", span(interval)),
        };
        vec![shown(hour.start.at), source(hour) + &interval, shift(hour), lines(hour.lines)]
    }));
    fitting(rows).join("\n") + "\n"
}

/// What a row of two lists holds: the same start of the session in both, or one that is in one window only.
pub type Pair<'a> = (Option<&'a Hour>, Option<&'a Hour>);

/// The starts of two lists, paired where time, repeat and unshifted start are the same, in the order of the left list.
pub fn pairs<'a>(left: &'a [Hour], right: &'a [Hour]) -> Vec<Pair<'a>> {
    let key = |hour: &Hour| (hour.unshifted(), hour.start.time, hour.start.repeat);
    let mut unpaired: Vec<&Hour> = right.iter().collect();
    let mut pairs: Vec<Pair<'a>> = Vec::new();
    for hour in left {
        let same = unpaired.iter().position(|other| key(other) == key(hour));
        pairs.push((Some(hour), same.map(|place| unpaired.remove(place))));
    }
    pairs.extend(unpaired.into_iter().map(|hour| (None, Some(hour))));
    let order = |pair: &Pair<'a>| pair.0.or(pair.1).map(|hour| (hour.start.at, hour.start.time, hour.start.repeat));
    pairs.sort_by_key(order);
    pairs
}

/// How a row of two lists is marked.
const MARKS: [(char, &str); 4] =
    [('=', "at the same time"), ('~', "at another time"), ('-', "only left"), ('+', "only right")];

fn mark(pair: &Pair<'_>) -> char {
    match pair {
        (Some(left), Some(right)) if left.start.at == right.start.at => '=',
        (Some(_), Some(_)) => '~',
        (Some(_), None) => '-',
        (None, _) => '+',
    }
}

/// How much later the right one is.
fn later(pair: &Pair<'_>) -> String {
    let (Some(left), Some(right)) = pair else {
        return String::new();
    };
    match (left.start.at, right.start.at) {
        (left, right) if left < right => format!("{} later", span(right - left)),
        (left, right) if right < left => format!("{} earlier", span(left - right)),
        _ => String::new(),
    }
}

fn both(left: &Hours, right: &Hours) -> String {
    let pairs = pairs(&left.list, &right.list);
    if pairs.is_empty() {
        return String::new();
    }
    let at = |hour: Option<&Hour>| hour.map_or(String::new(), |hour| shown(hour.start.at));
    let shift = |hour: Option<&Hour>| hour.map_or(String::new(), shift);
    let mut lines = vec![title(&["left (UTC)", "z line", "", "right (UTC)", "z line", "comes from", ""])];
    lines.extend(pairs.iter().map(|pair| {
        let (left, right) = *pair;
        let from = left.or(right).map_or(String::new(), source);
        vec![at(left), shift(left), mark(pair).into(), at(right), shift(right), from, later(pair)]
    }));
    let marked = MARKS.map(|(sign, words)| {
        let count = pairs.iter().filter(|pair| mark(pair) == sign).count();
        format!("{sign} {count} {words}")
    });
    fitting(lines).join("\n") + "\n\n" + &sources(left, right) + "\n" + &marked.join("   ") + "\n"
}

/// Below two lists: the lines of each time and repeat that a row names, and of the z line, in both texts. In the rows they would
/// have no room.
fn sources(left: &Hours, right: &Hours) -> String {
    let mut of_sources: BTreeMap<_, (String, [String; 2])> = BTreeMap::new();
    let mut zones = [String::new(), String::new()];
    for (side, hours) in [left, right].into_iter().enumerate() {
        for hour in &hours.list {
            let row = of_sources.entry((hour.start.time, hour.start.repeat)).or_insert((source(hour), Default::default()));
            row.1[side] = lines(Lines { zone: None, ..hour.lines });
            if let Some(line) = hour.lines.zone {
                zones[side] = format!("z {line}");
            }
        }
    }
    let mut rows = vec![title(&["comes from", "left lines", "right lines"])];
    rows.extend(of_sources.into_values().map(|(source, [left, right])| vec![source, left, right]));
    if zones.iter().any(|line| !line.is_empty()) {
        let [left, right] = zones;
        rows.push(vec!["z line".into(), left, right]);
    }
    table(&rows).join("\n") + "\n"
}

/// A table, with its last two columns in rows of their own where it would be too wide.
fn fitting(mut lines: Vec<Vec<String>>) -> Vec<String> {
    let whole = table(&lines);
    if whole.iter().all(|line| line.len() <= WIDTH) {
        return whole;
    }
    let ends: Vec<Vec<String>> = lines.iter_mut().map(|line| line.split_off(line.len() - 2)).collect();
    let below = table(&ends).into_iter().map(|line| format!("    {line}"));
    table(&lines).into_iter().zip(below).flat_map(|(line, below)| [line, below]).collect()
}

/// Which text is left and which is right.
fn named(texts: &[Told]) -> String {
    let name = |(side, text): (&str, &Told)| under(side, &text.name);
    ["left:", "right:"].into_iter().zip(texts).map(name).collect::<String>() + "\n"
}

/// A name behind a word, in as many rows as it needs.
fn under(word: &str, name: &str) -> String {
    const INDENT: usize = 7;
    let mut out = String::new();
    for (row, piece) in pieces(&cells(name.as_bytes()), WIDTH - INDENT).into_iter().enumerate() {
        let shown: String = piece.iter().map(|cell| cell.shown.as_str()).collect();
        out += &format!("{:<INDENT$}{shown}\n", if row == 0 { word } else { "" });
    }
    out
}

/// A page without starts, and where to look for them.
fn nothing(hours: &[&Hours], within: &str) -> String {
    let [hours] = hours else {
        return format!("Nothing starts in either text {within}.\n");
    };
    let more = match hours.first {
        None => "No time of the text has a start, so there is nothing to list.".into(),
        Some(first) => format!("Its first time begins {}; --from and --days ask for another window.", shown(first)),
    };
    format!("Nothing starts {within}.\n{more}\n")
}

fn refused(texts: &[Told]) -> String {
    let mut page = String::new();
    for text in texts {
        let Err(error) = &text.hours else { continue };
        if texts.len() > 1 {
            page += &under("text:", &text.name);
        }
        page += &rows(&format!("refused: {error}"));
        if error.number() == TOO_MANY {
            page += "A shorter window may have fewer: --days N, or --to DATE.\n";
        }
    }
    page
}
