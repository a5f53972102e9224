//! The alignment, the page, and the program as a user runs it.
#[path = "../../sdp/tests/c/mod.rs"]
mod c;
#[path = "../../sdp/tests/page/mod.rs"]
mod page;
use beside::align::{align, lines, Dropped, Row};
use beside::cells::{cells, columns};
use beside::page::{page as page_of, LONGEST, WIDTH};
use beside::{answer, Accepted};
use generate::random::{count, from_env};
use generate::sessions;
use std::collections::{BTreeMap, VecDeque};
use std::fs;
use std::io::Write;
use std::path::{Path, PathBuf};
use std::process::{Command, Output, Stdio};
use std::sync::OnceLock;

fn folder(name: &str) -> PathBuf {
    Path::new(env!("CARGO_MANIFEST_DIR")).join(name)
}

/// The files of a folder that end in `.sdp`.
fn texts_in(name: &str) -> Vec<PathBuf> {
    let entries = fs::read_dir(folder(name)).unwrap_or_else(|error| panic!("{name}: {error}"));
    let mut paths: Vec<PathBuf> = entries.map(|entry| entry.unwrap().path()).collect();
    paths.retain(|path| path.extension().map_or(false, |end| end == "sdp"));
    paths.sort();
    paths
}

struct Case {
    text: Vec<u8>,
    answer: Result<Accepted, sdp::Error>,
    page: String,
}

/// All texts with what becomes of them, made once for all tests.
fn cases() -> &'static [Case] {
    static CASES: OnceLock<Vec<Case>> = OnceLock::new();
    let case = |text: Vec<u8>| {
        let answer = answer(&text);
        let page = page_of(&text, &answer, false);
        Case { text, answer, page }
    };
    CASES.get_or_init(|| texts().into_iter().map(case).collect())
}

/// The canonical form alone.
fn canonical(text: &[u8]) -> Result<Vec<u8>, sdp::Error> {
    answer(text).map(|accepted| accepted.written)
}

/// The accepted texts, with their canonical forms and their pages.
fn accepted() -> impl Iterator<Item = (&'static [u8], &'static Accepted, &'static str)> {
    cases().iter().filter_map(|case| Some((&case.text[..], case.answer.as_ref().ok()?, case.page.as_str())))
}

/// The rows of an accepted text.
fn rows_of(text: &[u8], Accepted { written, from, .. }: &Accepted) -> Vec<Row> {
    align(&lines(text), &lines(written), from)
}

fn generated() -> usize {
    count(2_000) as usize
}

/// The folder of texts, the stored ones, some with long lines and odd bytes, and generated ones.
fn texts() -> Vec<Vec<u8>> {
    let mut texts: Vec<Vec<u8>> = Vec::new();
    for name in ["../../texts/published", "../../texts/kinds", "tests/stored"] {
        texts.extend(texts_in(name).iter().map(|path| fs::read(path).unwrap()));
    }
    assert!(texts.len() > 60);
    for part in ["x", "\\", "\u{6f22}", "e\u{301}", "\u{301}", "\u{1f3b5}", "\u{10ffff}", " ", "\t"] {
        texts.push(format!("v=0\ns={}\nt=+1 0\n", part.repeat(300)).into_bytes());
        texts.push(format!("v=0\na={}", part.repeat(2_000)).into_bytes());
        // bad bytes behind them, in the first row of the line and in later ones
        for times in [0, 1, 7, 60, 300] {
            for bad in [&b"\xff"[..], b"\xff\xff tail", b"\xe2\x82\t", b"\xed\xa0\x80   "] {
                texts.push([format!("v=0\ns=x{}", part.repeat(times)).as_bytes(), bad].concat());
            }
        }
    }
    // a bad byte that just fits into its row, or not
    for room in 85..100 {
        texts.push([b"v=0\na=", &vec![b'x'; room][..], b"\xff tail"].concat());
        texts.push([format!("{}v=0\na=", "\n".repeat(1_200)).as_bytes(), &vec![b'x'; room], b"\xff"].concat());
    }
    // numbers of four digits
    texts.push(format!("{}v=0\na={}", "\n".repeat(1_200), "x".repeat(500)).into_bytes());
    texts.push([&b"v=0\nx="[..], &[0xff; 500], b"\xe2\x82"].concat());
    let seed = from_env("SEED", 8866);
    texts.extend((0..generated() as u64).map(|number| sessions::nth(seed, 2_000_000_000 + number)));
    texts
}

// ---- the alignment

/// What a line with a use is: its media, counted from 1 (0 for the session), and its letter.
type Kind = (usize, u8);

/// The kind of each line with a use, by the reader's rules.
fn kinds(lines: &[&[u8]]) -> Vec<Option<Kind>> {
    let (mut begun, mut media) = (false, 0);
    let mut kind = |line: &&[u8]| {
        let letter = *line.first()?;
        if !std::mem::replace(&mut begun, true) {
            return Some((0, b'v'));
        }
        media += usize::from(letter == b'm');
        let useful: &[u8] = if media > 0 { b"micba" } else { b"osiuepcbtrza" };
        useful.contains(&letter).then_some((media, letter))
    };
    lines.iter().map(&mut kind).collect()
}

/// The lines that the records carry are those that the rules give: each line with a use is written as one line, those of one
/// letter and one media in the order in which they came. What is left over on the right is not in the text.
#[test]
fn the_lines_by_the_rules() {
    let (mut paired, mut added) = (0, 0);
    for (text, Accepted { written, from, .. }, _) in accepted() {
        let (left, right) = (lines(text), lines(written));
        let mut came: BTreeMap<Kind, VecDeque<u64>> = BTreeMap::new();
        for (line, kind) in (1..).zip(kinds(&left)) {
            kind.into_iter().for_each(|kind| came.entry(kind).or_default().push_back(line));
        }
        let due = kinds(&right).into_iter().map(|kind| {
            let kind = kind.expect("every line of a canonical form has a use");
            came.get_mut(&kind).and_then(VecDeque::pop_front).unwrap_or(0)
        });
        let due: Vec<u64> = due.collect();
        assert_eq!(*from, due, "{}", text.escape_ascii());
        paired += due.iter().filter(|line| **line > 0).count();
        added += due.iter().filter(|line| **line == 0).count();
        // of the text's lines with a use only a z line without pairs may be left
        assert!(came.into_iter().all(|(kind, left)| left.is_empty() || kind == (0, b'z')), "{}", text.escape_ascii());
    }
    println!("beside: {paired} lines by the rules, {added} that are not in the text");
    assert!(paired > generated() * 2 && added > generated() / 4);
}

/// A wrong line is never lost from the page: it is another row, or one that is added.
#[test]
fn wrong_lines() {
    let text = b"v=0\ns=x\ne=a\ne=b\n";
    let Accepted { written, from, .. } = answer(text).unwrap();
    let (left, right) = (lines(text), lines(&written));
    assert_eq!(from, [1, 0, 2, 3, 4, 0]);
    for wrong in [vec![], vec![1; 6], vec![1, 2, 3, 4, 5, 6], vec![4, 3, 2, 1, 0, u64::MAX], vec![0; 9]] {
        let rows = align(&left, &right, &wrong);
        let of = |row: &Row| match *row {
            Row::Same { left, right } | Row::Changed { left, right } => (Some(left), Some(right)),
            Row::Dropped { left, .. } | Row::MovedFrom { left, .. } => (Some(left), None),
            Row::Added { right } | Row::MovedTo { right, .. } => (None, Some(right)),
        };
        let (lefts, rights): (Vec<_>, Vec<_>) = rows.iter().map(of).unzip();
        assert!(lefts.into_iter().flatten().eq(0..4) && rights.into_iter().flatten().eq(0..6), "{wrong:?}: {rows:?}");
    }
}

/// Each line of both sides has one row, in its order; a moved one has one in each column, which name each other.
#[test]
fn each_line_once() {
    let (mut texts, mut moved) = (0, 0);
    for (text, accepted, _) in accepted() {
        texts += 1;
        let (left, right) = (lines(text), lines(&accepted.written));
        let rows = rows_of(text, accepted);
        let (mut lefts, mut rights, mut from, mut to) = (Vec::new(), Vec::new(), Vec::new(), Vec::new());
        for row in &rows {
            match *row {
                Row::Same { left: l, right: r } | Row::Changed { left: l, right: r } => {
                    assert_eq!(left[l] == right[r], matches!(row, Row::Same { .. }));
                    lefts.push(l);
                    rights.push(r);
                }
                Row::Dropped { left, .. } => lefts.push(left),
                Row::Added { right } => rights.push(right),
                Row::MovedFrom { left, right } => {
                    lefts.push(left);
                    from.push((left, right));
                }
                Row::MovedTo { left, right } => {
                    rights.push(right);
                    to.push((left, right));
                }
            }
        }
        assert!(lefts.into_iter().eq(0..left.len()), "{}", text.escape_ascii());
        assert!(rights.into_iter().eq(0..right.len()), "{}", text.escape_ascii());
        moved += from.len();
        to.sort_unstable();
        assert_eq!(from, to);
    }
    println!("beside: {texts} accepted texts, {moved} lines moved");
    assert!(texts > generated() / 4 && moved > generated() / 4);
}

/// A line that became another one becomes the same alone, in the smallest text that it can stand in; one that was dropped
/// leaves nothing there, and one that was added comes of nothing.
#[test]
fn each_pair_alone() {
    let starts = [&b""[..], b"v=0\n", b"v=0\nt=7 7\n", b"v=0\nm=a 1 p f\n"];
    let before = starts.map(|start| canonical(if start.is_empty() { b"v=0" } else { start }).unwrap());
    let alone = |line: &[u8], in_media: bool| {
        let start = match line.first() {
            Some(b'v') | None => 0,
            Some(b'r') if !in_media => 2,
            Some(b'm') => 1,
            _ if in_media => 3,
            _ => 1,
        };
        (&before[start][..], canonical(&[starts[start], line, b"\n"].concat()))
    };
    let (mut pairs, mut dropped, mut added) = (0, 0, 0);
    for (text, accepted, _) in accepted() {
        let (left, right) = (lines(text), lines(&accepted.written));
        let medias = left.iter().position(|line| line.first() == Some(&b'm')).unwrap_or(left.len());
        for row in rows_of(text, accepted) {
            match row {
                Row::Same { left: l, right: r } | Row::Changed { left: l, right: r } | Row::MovedFrom { left: l, right: r } => {
                    let (_, after) = alone(left[l], l >= medias);
                    let after = after.unwrap_or_else(|refusal| panic!("{refusal:?}: {}", left[l].escape_ascii()));
                    assert!(lines(&after).contains(&right[r]), "{}", left[l].escape_ascii());
                    pairs += 1;
                }
                Row::Dropped { left: l, .. } if !left[l].starts_with(b"v=") && !left[l].is_empty() => {
                    let (before, after) = alone(left[l], l >= medias);
                    assert_eq!(after.as_deref(), Ok(before), "{}", left[l].escape_ascii());
                    dropped += 1;
                }
                Row::Added { right: r } => {
                    let placeholders = [&b"o=- 0 0 IN IP4 0.0.0.0"[..], b"s=", b"t=0 0"];
                    assert!(placeholders.contains(&right[r]), "{}", right[r].escape_ascii());
                    added += 1;
                }
                _ => {}
            }
        }
    }
    println!("beside: {pairs} pairs, {dropped} dropped, {added} added");
    assert!(pairs > generated() * 2 && dropped > generated() / 4 && added > generated() / 4);
}

// ---- the page

/// Columns by the rule of the help, for a row that has no escapes of a terminal.
fn width(row: &str) -> usize {
    // a backslash starts an escape that was made already, and counts as it stands
    let plain: Vec<u8> = row.bytes().map(|byte| if matches!(byte, b'\\' | b' ') { b'.' } else { byte }).collect();
    columns(&cells(&plain))
}

#[test]
fn known_widths() {
    for (text, due) in [
        ("abc", 3),
        ("\u{e9}", 1),
        ("e\u{301}", 1),
        ("\u{6f22}\u{5b57}", 4),
        ("\u{1f3b5}", 2),
        ("\u{2600}\u{fe0f}", 2),
        ("\u{20ac}", 1),
    ] {
        assert_eq!(columns(&cells(text.as_bytes())), due, "{text}");
    }
    for (bytes, due) in [
        (&b"\\"[..], r"\\"),
        (b"\t", r"\t"),
        (b"\x1b[0m", r"\x1b[0m"),
        (b"\x7f\x00\r", r"\x7f\x00\r"),
        (b"\xff", r"\xff"),
        (b"\xe2\x82", r"\xe2\x82"),
        (b"a \xed\xa0\x80b", r"a \xed\xa0\x80b"),
        ("\u{a0}\u{200b}\u{202e}\u{feff}\u{301}".as_bytes(), r"\u{a0}\u{200b}\u{202e}\u{feff}\u{301}"),
        (b" a  ", r" a \x20"),
        (b"it's \"so\"", "it's \"so\""),
    ] {
        let shown: String = cells(bytes).into_iter().map(|cell| cell.shown).collect();
        assert_eq!((shown.as_str(), columns(&cells(bytes))), (due, due.chars().count()));
    }
}

#[test]
fn no_row_is_too_wide() {
    let (mut rows, mut widest) = (0, 0);
    for Case { page, .. } in cases() {
        assert!(page.ends_with('\n') && !page.contains(|char: char| char.is_control() && char != '\n'));
        for row in page.lines() {
            rows += 1;
            widest = widest.max(width(row));
            assert!(width(row) <= WIDTH, "{} columns: {row}", width(row));
        }
    }
    println!("beside: {rows} rows, the widest has {widest} columns");
    assert!(widest > WIDTH - 3);
}

/// Both columns are read back from the page: all lines of both texts, whole and in order, each with its number.
#[test]
fn the_page_has_all_lines() {
    let shown = |text: &[u8]| -> Vec<String> {
        let line = |line: &&[u8]| cells(line).into_iter().map(|cell| cell.shown).collect();
        lines(text).iter().map(line).collect()
    };
    let mut pages = 0;
    for (text, accepted, page) in accepted().filter(|(.., page)| page.is_ascii()) {
        pages += 1;
        let title = page.lines().next().unwrap();
        let (left, right) = (title.find("text (").unwrap(), title.find("canonical form (").unwrap());
        let digits = left - 1;
        let mark = right - digits - 3;
        let mut columns = [(0, left, mark - 1, Vec::new()), (mark + 2, right, WIDTH, Vec::new())];
        for row in page.lines().skip(1).take_while(|row| !row.is_empty()) {
            let part = |from: usize, to: usize| &row[from.min(row.len())..to.min(row.len())];
            assert!(part(mark - 1, mark).trim().is_empty() && part(mark + 1, mark + 2).trim().is_empty(), "{row}");
            let goes_on = part(mark, mark + 1).trim().is_empty();
            for (numbers, start, end, lines) in &mut columns {
                let piece = part(*start, *end);
                match (part(*numbers, *numbers + digits).trim(), lines.last_mut()) {
                    ("", Some(line)) if goes_on => *line += piece,
                    ("", _) => assert!(piece.starts_with('('), "{row}"),
                    (number, _) => {
                        lines.push(piece.to_string());
                        assert_eq!(number, lines.len().to_string(), "{page}");
                    }
                }
            }
        }
        // padding can't be told from spaces at a piece's end, so all spaces are left out
        let packed = |lines: &[String]| lines.iter().map(|line| line.replace(' ', "")).collect::<Vec<_>>();
        assert_eq!(packed(&columns[0].3), packed(&shown(text)));
        assert_eq!(packed(&columns[1].3), packed(&shown(&accepted.written)));
    }
    println!("beside: {pages} pages read back");
    assert!(pages > generated() / 10);
}

/// Read from the page: each line of the canonical form stands in a row that names the line its record carries, as the number
/// on the left or behind `from line`; where it carries none, a note says that it was added.
#[test]
fn each_record_s_line_is_named() {
    let mut seen: BTreeMap<&str, usize> = BTreeMap::new();
    for (_, accepted, page) in accepted().filter(|(.., page)| page.is_ascii()) {
        let title = page.lines().next().unwrap();
        let (left, right) = (title.find("text (").unwrap(), title.find("canonical form (").unwrap());
        let digits = left - 1;
        let mark = right - digits - 3;
        let mut due = accepted.from.iter();
        for row in page.lines().skip(1).take_while(|row| !row.is_empty()) {
            let part = |from: usize, to: usize| row[from.min(row.len())..to.min(row.len())].trim();
            if part(mark + 2, right - 1).is_empty() {
                continue; // nothing of the canonical form, or a line that goes on
            }
            let line = due.next().expect("a line of the canonical form").to_string();
            let (number, words) = (part(0, digits), part(left, mark - 1));
            let named = words.strip_prefix("(from line ").map(|rest| rest.trim_end_matches([')', ' ']));
            let named = named.map(|rest| rest.split(',').next().unwrap());
            match part(mark, mark + 1) {
                "=" | "~" => assert_eq!(number, line, "{page}"),
                "<" => assert_eq!((number, named), ("", Some(&line[..])), "{page}"),
                "+" => assert_eq!((number, &line[..], words.starts_with('(')), ("", "0", true), "{page}"),
                other => panic!("{other:?} in {row}"),
            }
            *seen.entry(part(mark, mark + 1)).or_default() += 1;
        }
        assert_eq!(due.next(), None, "{page}");
    }
    println!("beside: lines named in rows marked {seen:?}");
    assert!(seen.len() == 4 && seen.values().all(|count| *count > generated() / 40), "{seen:?}");
}

/// A terminal shows the same as a pipe, and colour is never in the text's own bytes.
fn without_colour(page: &str) -> String {
    let mut parts = page.split("\x1b[");
    let first = parts.next().unwrap().to_string();
    parts.fold(first, |plain, part| {
        let (code, rest) = part.split_once('m').expect("a colour ends with m");
        assert!(code.bytes().all(|byte| byte.is_ascii_digit() || byte == b';'), "{code}");
        plain + rest
    })
}

#[test]
fn colour_changes_no_text() {
    let mut coloured = 0;
    for Case { text, answer, page } in cases() {
        let colour = page_of(text, answer, true);
        assert_eq!(without_colour(&colour), *page);
        coloured += usize::from(colour != *page);
    }
    assert!(coloured > generated() / 2);
}

/// Below the marks the lines are counted: as the archive says, and as the rows show it. Of a refused text nothing is.
#[test]
fn the_lines_are_counted() {
    let (mut pages, mut seen) = (0, [0; 3]);
    for Case { text, answer, page } in cases() {
        let Ok(accepted) = answer else {
            assert!(!page.contains("\ntext: "), "{page}");
            continue;
        };
        let counts = &accepted.counts;
        // what the alignment makes of each line, by code of its own
        let (mut empty, mut ignored, mut kept) = (0, 0, 0);
        for row in rows_of(text, accepted) {
            match row {
                Row::Added { .. } | Row::MovedTo { .. } => {}
                Row::Dropped { why: Dropped::Empty, .. } => empty += 1,
                Row::Same { .. } | Row::Changed { .. } | Row::MovedFrom { .. } => kept += 1,
                Row::Dropped { why: Dropped::Nothing, .. } => kept += 1,
                Row::Dropped { .. } => ignored += 1,
            }
        }
        assert_eq!((counts.empty, counts.ignored, counts.kept), (empty, ignored, kept), "{page}");
        let all = lines(text).len();
        let of = if all == 1 { "line" } else { "lines" };
        let due = format!(" moved\ntext: {all} {of}, {kept} kept, {ignored} ignored, {empty} empty\n");
        // it is the last row, and no other one begins so
        assert!(page.ends_with(&due) && page.matches("\ntext: ").count() == 1, "{page}");
        pages += 1;
        for (seen, count) in seen.iter_mut().zip([empty, ignored, kept]) {
            *seen += usize::from(count > 0);
        }
    }
    println!("beside: lines counted on {pages} pages; {seen:?} of them have empty, ignored, kept ones");
    assert!(seen[0] > generated() / 40 && seen[1] > generated() / 10 && seen[2] == pages);
    let one = |text: &[u8]| page_of(text, &answer(text), false).lines().last().map(String::from);
    assert_eq!(one(b"v=0").as_deref(), Some("text: 1 line, 1 kept, 0 ignored, 0 empty"));
    assert_eq!(one(b"\nv=0").as_deref(), Some("text: 2 lines, 1 kept, 0 ignored, 1 empty"));
    assert_eq!(one(b"v=0\nz=\nv=0\n").as_deref(), Some("text: 3 lines, 2 kept, 1 ignored, 0 empty"));
}

#[test]
fn refusals_in_words() {
    let mut refused = 0;
    for Case { answer, page, .. } in cases() {
        let Err(error) = answer else { continue };
        let line = error.line();
        let due = format!("\n\nrefused {} line {line} field {}\n", error.number(), error.field());
        let (rows, words) = page.split_once(&due).unwrap_or_else(|| panic!("{page}"));
        assert_eq!(words.trim_end().replace('\n', " "), error.to_string(), "{page}");
        // the number of the refused line, and then its mark
        let number = rows.lines().filter_map(|row| row.trim_start().split_once(" !"));
        let marked = number.filter(|(number, rest)| *number == line.to_string() && !rest.starts_with('!')).count();
        assert_eq!(marked, usize::from(line > 0), "{page}");
        refused += 1;
    }
    println!("beside: {refused} refused texts");
    assert!(refused > generated() / 4);
}

/// A bad byte is marked by carets in a row of their own, just below the escape that shows it, and by colour.
#[test]
fn the_bad_byte_is_marked() {
    let (mut marked, mut folded) = (0, 0);
    for Case { text, answer, page } in cases() {
        let carets = |row: &str| row.trim_start().starts_with("! ") && row.trim_matches(['!', ' ']) == "^^^^";
        let rows: Vec<&str> = page.split("\n\nrefused ").next().unwrap().lines().collect();
        let Some(at) = answer.as_ref().err().and_then(|error| error.bad_byte()) else {
            assert!(!rows.iter().any(|row| carets(row)), "{page}");
            continue;
        };
        let found: Vec<usize> = (0..rows.len()).filter(|row| carets(rows[*row])).collect();
        let [caret] = found[..] else { panic!("one row has the carets:\n{page}") };
        // the escape above them
        let (above, escape) = (rows[caret - 1], format!("\\x{:02x}", text[at as usize]));
        let column = rows[caret].len() - 4;
        let mut starts = above.match_indices(&escape).map(|(start, _)| start);
        let start = starts.find(|start| width(&above[..*start]) == column);
        let start = start.unwrap_or_else(|| panic!("{escape} stands above them:\n{page}"));
        // it is this one of several: what is shown of the line before it is what stands before it
        let error = answer.as_ref().unwrap_err();
        let number = format!("{} !", error.line());
        let first = (0..caret).rev().find(|row| rows[*row].trim_start().starts_with(&number)).unwrap();
        let margin = rows[first].find('!').unwrap() + 2;
        let mut shown: String = rows[first..caret - 1].iter().map(|row| &row[margin..]).collect();
        shown += &above[margin..start];
        let line = lines(text)[error.line() as usize - 1];
        let before = &line[..error.byte_in_line().unwrap() as usize - 1];
        let due: String = cells(before).into_iter().map(|cell| cell.shown).collect();
        // a space before it is shown as one, since no line ends there
        assert_eq!(shown.trim_end(), due.strip_suffix("\\x20").unwrap_or(&due).trim_end(), "{page}");
        let colour = page_of(text, answer, true);
        assert_eq!(colour.matches("\x1b[7m").count(), 1, "{page}");
        assert!(colour.contains(&format!("\x1b[1;31m\x1b[7m{escape}\x1b[0m")), "{page}");
        marked += 1;
        folded += u64::from(caret > first + 1);
    }
    println!("beside: {marked} bad bytes marked, {folded} of them in a line that goes on");
    assert!(marked > 200 && folded > 50);
}

// ---- the program

/// As cargo runs the tests: under an emulator where the program is x86-64 and the machine is not.
const RUNNER: &str = concat!(env!("CARGO_MANIFEST_DIR"), "/../../gate/run-x86");
const PROGRAM: &str = env!("CARGO_BIN_EXE_beside");

fn run(words: &[&str], input: &[u8]) -> Output {
    c::run(&PathBuf::from(PROGRAM), words, input)
}

#[test]
fn stored_pages() {
    let paths = texts_in("tests/stored");
    assert!(paths.len() >= 5);
    for path in paths {
        let due = fs::read_to_string(path.with_extension("page")).unwrap_or_else(|error| panic!("{}: {error}", path.display()));
        let text = fs::read(&path).unwrap();
        let status = if due.contains("\n\nrefused ") { 1 } else { 0 };
        let name = path.to_str().unwrap();
        for output in [run(&[name], b""), run(&["--", name], b""), run(&[], &text), run(&["-"], &text)] {
            assert_eq!(String::from_utf8(output.stdout).unwrap(), due, "{name}");
            assert_eq!((output.status.code(), &output.stderr[..]), (Some(status), &b""[..]), "{name}");
        }
    }
}

#[test]
fn words_and_statuses() {
    let stored = folder("tests/stored/desk4.sdp");
    let stored = stored.to_str().unwrap();
    for (words, input, status, out, errors) in [
        (&["--help"][..], &b""[..], 0, "usage: beside", ""),
        (&["-h"], b"", 0, "usage: beside", ""),
        (&["nothing/there"], b"", 2, "", "beside: nothing/there: No such file"),
        (&["/"], b"", 2, "", "beside: /: Is a directory"),
        (&[stored, stored], b"", 2, "", "beside: it takes one file at most"),
        (&["--colour"], b"", 2, "", "beside: there is no option --colour"),
        (&["--", "-"], b"", 2, "", "beside: -: No such file"),
        (&[], b"", 1, "     text (empty)", ""),
        (&[], &vec![b'\n'; LONGEST + 1], 1, "     text (more than 32,768 bytes, not shown)\n\nrefused 1 ", ""),
        (&[], &vec![b'\n'; 3_000_000], 1, "     text (more than 32,768 bytes, not shown)\n\nrefused 1 ", ""),
        (&[], &vec![b'\n'; LONGEST], 1, "        text (LF)", ""),
    ] {
        c::hold(run(words, input), words, status, out, errors);
    }
    assert!(run(&["--help"], b"").stdout.split(|byte| *byte == b'\n').all(|row| row.len() <= 120));
}

/// A reader that leaves early, as `head` does, ends the program without a word.
#[test]
fn a_closed_pipe() {
    let mut child = Command::new(RUNNER)
        .arg(PROGRAM)
        .stdin(Stdio::piped())
        .stdout(Stdio::piped())
        .stderr(Stdio::piped())
        .spawn()
        .unwrap();
    drop(child.stdout.take());
    let text = [b"v=0\n", &[b'\n'; LONGEST - 4][..]].concat();
    child.stdin.take().unwrap().write_all(&text).unwrap();
    let output = child.wait_with_output().unwrap();
    assert_eq!((output.status.code(), &output.stderr[..]), (Some(0), &b""[..]));
}

/// `script` lends a program a terminal. In a pipe `stored_pages` has seen no colour.
#[test]
fn colour_on_a_terminal_only() {
    let stored = folder("tests/stored/everything");
    let on_terminal = |no_colour: &str| {
        let command = format!("'{RUNNER}' '{PROGRAM}' '{}'", stored.with_extension("sdp").display());
        let mut script = Command::new("script");
        script.args(["-qec", &command, "/dev/null"]).stdin(Stdio::null()).env("NO_COLOR", no_colour);
        let output = script.output().unwrap_or_else(|error| panic!("script: {error}"));
        assert_eq!(output.status.code(), Some(0));
        String::from_utf8(output.stdout).unwrap().replace("\r\n", "\n")
    };
    let due = fs::read_to_string(stored.with_extension("page")).unwrap();
    let colour = on_terminal("");
    assert!(colour.contains("\x1b[33m") && colour.contains("\x1b[7m"), "{colour}");
    assert_eq!(without_colour(&colour), due);
    assert_eq!(on_terminal("1"), due);
}
