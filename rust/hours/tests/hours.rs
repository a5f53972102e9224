//! Dates, shifts, words and pages, and the program as a user runs it. No test but one depends on today's date.
#[path = "../../sdp/tests/c/mod.rs"]
mod c;
#[path = "../../sdp/tests/page/mod.rs"]
mod page;
use beside::page::WIDTH;
use generate::random::{count, from_env, Random};
use generate::{hostile, sessions};
use hours::dates::{is_dated, of_clock, seconds, shown, span, DAY};
use hours::page::{pairs, Told};
use hours::shift::shifts;
use hours::words::{asked, Asked, Source};
use hours::{hours, Hour, Lines};
use sdp::{Error, SessionBuf, Start};
use std::cmp::Ordering;
use std::collections::BTreeSet;
use std::ffi::OsString;
use std::fs;
use std::ops::Range;
use std::path::PathBuf;
use std::process::Output;
use std::time::SystemTime;

// ---- dates

/// The last second that has a date.
const LAST: u64 = 255_611_289_599;

#[test]
fn known_dates() {
    for (at, due) in [
        (0, "Mon 1900-01-01 00:00:00"),
        (1, "Mon 1900-01-01 00:00:01"),
        (2_208_988_800, "Thu 1970-01-01 00:00:00"),
        (2_208_988_800 + 951_782_400, "Tue 2000-02-29 00:00:00"),
        (2_208_988_800 + 1_000_000_000, "Sun 2001-09-09 01:46:40"),
        (2_208_988_800 + 2_147_483_647, "Tue 2038-01-19 03:14:07"),
        // NTP's 32 bits end here, and SDP's numbers go on
        (u64::from(u32::MAX), "Thu 2036-02-07 06:28:15"),
        (1 << 32, "Thu 2036-02-07 06:28:16"),
        (3_724_394_400, "Mon 2018-01-08 10:00:00"),
        (LAST, "Fri 9999-12-31 23:59:59"),
        (LAST + 1, "255611289600"),
        (i64::MAX as u64 + 1, "9223372036854775808"),
        (u64::MAX, "18446744073709551615"),
    ] {
        assert_eq!(shown(at), due);
        assert_eq!(is_dated(at), due.len() > 20);
    }
    assert_eq!(of_clock(0), 2_208_988_800);
}

/// The weekday and the time of day by division, and the date by reading it back.
#[test]
fn dates_there_and_back() {
    const WEEK: [&str; 7] = ["Mon", "Tue", "Wed", "Thu", "Fri", "Sat", "Sun"];
    let mut random = Random::of_test("dates");
    let mut last = String::new();
    let mut all: Vec<u64> = (0..count(20_000)).map(|_| random.next() % (LAST + 1)).collect();
    all.sort_unstable();
    for at in all {
        let date = shown(at);
        assert_eq!(date[..3], *WEEK[(at / DAY % 7) as usize], "{at}");
        let time = [at / 3_600 % 24, at / 60 % 60, at % 60].map(|part| format!("{part:02}")).join(":");
        assert_eq!(date[15..], *time, "{at}");
        assert_eq!(seconds(&date[4..]), Ok(at));
        assert_eq!(seconds(&date[4..14]), Ok(at / DAY * DAY));
        assert_eq!(seconds(&date[4..20].replace(' ', "T")), Ok(at / 60 * 60));
        assert!(last[..] <= date[4..], "later seconds are a later date");
        last = date[4..].into();
    }
}

#[test]
fn words_that_are_no_date() {
    let bad = ",2026,2026-12,2026-13-01,2026-02-29,2026-1-01,26-01-01,10000-01-01,01.12.2026,3960000000,tomorrow";
    let bad_times = "T,T1:00,T10,T24:00,T10:60,T10:00:60,  10:00, 10:00 x,T10:00:00Z";
    let timed: Vec<String> = bad_times.split(',').map(|time| format!("2026-01-01{time}")).collect();
    for word in bad.split(',').chain(timed.iter().map(String::as_str)) {
        assert!(seconds(word).unwrap_err().starts_with("is no date"), "{word}");
    }
    for word in ["1899-12-31", "1899-12-31T23:59:59", "0001-01-01", "-0044-03-15"] {
        assert!(seconds(word).unwrap_err().starts_with("is before 1900"), "{word}");
    }
    assert_eq!((seconds("1900-01-01"), seconds("9999-12-31 23:59:59")), (Ok(0), Ok(LAST)));
}

#[test]
fn spans() {
    for (seconds, due) in [
        (0, "0 s"),
        (1, "1 s"),
        (60, "1 min"),
        (3_600, "1 h"),
        (5_400, "1 h 30 min"),
        (86_399, "23 h 59 min 59 s"),
        (DAY, "1 day"),
        (7 * DAY, "7 days"),
        (7 * DAY + 61, "7 days 1 min 1 s"),
        (10 * DAY + 86_399, "950399 s"),
        (u64::MAX, "18446744073709551615 s"),
    ] {
        assert_eq!(span(seconds), due);
    }
}

// ---- shifts

fn shifts_of(text: &str, start: (u64, usize, usize)) -> Vec<i64> {
    let kept = SessionBuf::parse(format!("v=0\n{text}")).unwrap();
    let (at, time, repeat) = start;
    shifts(&kept.session(), Start { at, time, repeat: Some(repeat).filter(|number| *number > 0) })
}

#[test]
fn known_shifts() {
    let weekly = "t=1000 0\nr=100 10 0 30\nz=1100 -5\nt=1097 0\n";
    assert_eq!(shifts_of(weekly, (1_030, 1, 1)), [0]);
    assert_eq!(shifts_of(weekly, (1_095, 1, 1)), [-5]);
    assert_eq!(shifts_of(weekly, (1_097, 2, 0)), [0], "a time without repeats isn't shifted");
    assert_eq!(shifts_of(weekly, (1_100, 1, 1)), [0; 0], "this is no start");
    assert_eq!(shifts_of(weekly, (1_000 - 5, 1, 1)), [0; 0], "the shift isn't in force yet");
    let least = i64::MIN;
    for (text, at, due, why) in [
        ("t=1000 0\nr=10 1 0\nz=1020 -10\n", 1_010, &[0, -10][..], "two starts meet by a shift"),
        ("t=1000 1020\nr=10 1 0\nz=1020 -10\n", 1_010, &[0], "the stop time comes before the shift"),
        ("t=1000 1021\nr=10 1 0\nz=1020 -10\n", 1_010, &[0, -10], "the stop time is that of the unshifted start"),
        ("t=1000 0\nr=10 1 0\nz=1020 5 1020 -10\n", 1_010, &[0, -10], "of equal adjustment times the last"),
        ("t=1000 0\nr=10 1 0\nz=1020 -10 1030 -20\n", 1_010, &[0, -10, -20], "not cumulative"),
        ("t=1000 0\nr=10 1 0\nz=1020 -10 1030 0\n", 1_030, &[0], "the old time is restored"),
        ("t=1000 0\nr=10 1 0 0 10\n", 1_010, &[0, 0, 0], "once for each offset"),
        ("t=1000 0\nr=10 1\nz=5 7\n", 1_017, &[7], "no offset is one of 0"),
        ("t=1000 0\nr=0 1 0 20\nz=1020 3\n", 1_023, &[3], "a repeat that doesn't repeat"),
        ("t=1000 0\nr=0 1 0\n", 1_010, &[], "it doesn't"),
        ("t=9223372036854775908 0\nr=7 1\nz=1 -9223372036854775808\n", 100, &[least], "the largest shift"),
        ("t=18446744073709551615 0\nr=0 1 10\nz=1 -20\n", u64::MAX - 10, &[-20], "back from over 64 bits"),
    ] {
        assert_eq!(shifts_of(text, (at, 1, 1)), due, "{why}");
    }
}

/// A session of few lines and small numbers, in which starts often meet.
fn small(random: &mut Random) -> String {
    let mut text = String::from("v=0\n");
    for _ in 0..=random.below(2) {
        let stop = if random.once_in(2) { 0 } else { random.between(20, 80) };
        text += &format!("t={} {stop}\n", random.below(30));
        for _ in 0..random.below(3) {
            text += &format!("r={} 1", random.pick(&["0", "1", "3", "5", "8", "20"]));
            (0..random.below(4)).for_each(|_| text += &format!(" {}", random.below(12)));
            text += "\n";
        }
    }
    let mut adjustment = 0;
    let mut zone = |random: &mut Random| {
        adjustment += random.below(15);
        format!("{adjustment} {}{} ", random.pick(&["", "-"]), random.below(10))
    };
    if random.once_in(4) {
        return text;
    }
    let zones: String = (0..random.below(5)).map(|_| zone(random)).collect();
    text + &format!("z={}\n", zones.trim_end())
}

/// Instant, time, repeat and shift.
type Row = (u64, usize, Option<usize>, i64);

fn row(hour: &Hour) -> Row {
    (hour.start.at, hour.start.time, hour.start.repeat, hour.shift)
}

/// The starts by document 02's words, one after the other.
fn one_by_one(text: &str, window: &Range<u64>) -> Vec<Row> {
    let kept = SessionBuf::parse(text).unwrap();
    let session = kept.session();
    let mut all = Vec::new();
    for (time, row) in session.times().enumerate().filter(|(_, row)| row.start_time > 0) {
        let stopped = |at: u64| row.stop_time > 0 && row.stop_time <= at;
        let mut number = session.times().take(time).map(|before| before.repeats().len()).sum();
        if row.repeats().is_empty() && !stopped(row.start_time) {
            all.push((row.start_time as i64, time + 1, None, 0));
        }
        for repeat in row.repeats() {
            number += 1;
            let offsets = repeat.offsets().map(u64::from).chain(repeat.offsets().is_empty().then_some(0));
            for offset in offsets {
                let most = if repeat.repeat_interval == 0 { 0 } else { 200 };
                let starts = (0..=most).map(|k| row.start_time + k * repeat.repeat_interval + offset);
                for at in starts.filter(|at| !stopped(*at)) {
                    let zone = session.time_zones().filter(|zone| zone.adjustment_time <= at).last();
                    let shift = zone.map_or(0, |zone| zone.offset);
                    all.push((at as i64 + shift, time + 1, Some(number), shift));
                }
            }
        }
    }
    let in_window = |(at, time, repeat, shift)| {
        let at = u64::try_from(at).ok().filter(|at| window.contains(at))?;
        Some((at, time, repeat, shift))
    };
    let mut all: Vec<_> = all.into_iter().filter_map(in_window).collect();
    all.sort_unstable();
    all
}

#[test]
fn shifts_of_small_sessions() {
    let mut random = Random::of_test("shifts");
    let (mut rows, mut shifted, mut equal, mut refused) = (0, 0, 0, 0);
    for _ in 0..count(20_000) {
        let text = small(&mut random);
        let from = random.below(60) as u64;
        let window = from..from + random.below(90) as u64;
        let due = one_by_one(&text, &window);
        let found = match hours(text.as_bytes(), window.clone()) {
            Ok(found) => found,
            Err(error) => {
                assert!(error.number() == 29 && due.len() > 256, "{text}{window:?}: {error}");
                refused += 1;
                continue;
            }
        };
        let mut list: Vec<_> = found.list.iter().map(row).collect();
        let of_two = |rows: &[Row]| (rows[0].0, rows[0].1, rows[0].2).cmp(&(rows[1].0, rows[1].1, rows[1].2));
        assert!(list.windows(2).all(|rows| of_two(rows) != Ordering::Greater), "{text}{window:?}");
        equal += list.windows(2).filter(|rows| of_two(rows) == Ordering::Equal).count();
        shifted += list.iter().filter(|row| row.3 != 0).count();
        rows += list.len();
        list.sort_unstable();
        assert_eq!(list, due, "{text}{window:?}");
    }
    println!("hours: {rows} starts, {shifted} shifted, {equal} equal to the one before; {refused} texts with too many");
    let few = count(20_000) as usize;
    assert!(rows > few * 4 && shifted > few * 2 && equal > few / 2);
}

// ---- lines

/// The lines of a text that begin with a letter, counted from 1.
fn lines_with(text: &str, letter: char) -> Vec<u64> {
    let lines = (1..).zip(text.split('\n')).filter(|(_, line)| line.starts_with(letter));
    lines.map(|(number, _)| number).collect()
}

/// With lines put in that have no use, of both endings.
fn with_idle_lines(random: &mut Random, text: &str) -> String {
    let idle = |random: &mut Random| {
        let many = random.below(3);
        (0..many).map(|_| random.pick(&["\n", "\r\n", "x=t=1 1\n", "k=clear:x\r\n"])).collect::<String>()
    };
    text.split_inclusive('\n').map(|line| line.to_string() + &idle(random)).collect()
}

/// Each start has the lines of its time, of its repeat, and of the z line where that shifted it; the page names them in its row.
#[test]
fn lines_of_small_sessions() {
    let mut random = Random::of_test("lines");
    let (mut rows, mut repeated, mut shifted) = (0, 0, 0);
    for _ in 0..count(5_000) {
        let plain = small(&mut random);
        let text = with_idle_lines(&mut random, &plain);
        let window = 0..random.between(10, 60) as u64;
        let (times, repeats, zones) = (lines_with(&text, 't'), lines_with(&text, 'r'), lines_with(&text, 'z'));
        let Ok(found) = hours(text.as_bytes(), window.clone()) else { continue };
        let page = hours::page::page(&[told("", text.as_bytes(), &window)], &window);
        for (hour, row) in found.list.iter().zip(page.lines().skip(1)) {
            let (time, repeat) = (times[hour.start.time - 1], hour.start.repeat.map(|number| repeats[number - 1]));
            let zone = zones.first().copied().filter(|_| hour.shift != 0);
            assert_eq!(hour.lines, Lines { time, repeat, zone }, "{text}");
            let named: Vec<String> = [("t", Some(time)), ("r", repeat), ("z", zone)]
                .iter()
                .filter_map(|(letter, line)| line.map(|line| format!("{letter} {line}")))
                .collect();
            assert!(row.ends_with(&format!("  {}", named.join(", "))), "{row}\n{named:?}\n{text}");
            rows += 1;
            repeated += u64::from(repeat.is_some());
            shifted += u64::from(zone.is_some());
        }
    }
    println!("hours: lines of {rows} starts, {repeated} repeated, {shifted} shifted");
    assert!(rows > count(5_000) && repeated * 2 > rows && shifted * 5 > rows);
}

/// Two texts: below the rows each time and repeat has its lines on both sides, which may differ, and so has the z line.
#[test]
fn lines_of_two_texts() {
    let left = "v=0\nt=1000 0\nr=100 10\nz=1100 -5\nt=1097 0\n";
    let right = "v=0\r\n\r\nt=1000 0\r\nx=\r\nr=100 10\r\nt=1097 0\r\nt=1098 0\r\n";
    let window = 1_000..1_200;
    let page = |left: &str, right: &str| {
        let texts = [told("a", left.as_bytes(), &window), told("b", right.as_bytes(), &window)];
        let page = hours::page::page(&texts, &window);
        let (_, below) = page.split_once("\n\ncomes from  ").unwrap_or_else(|| panic!("{page}"));
        below.split("\n\n").next().unwrap().lines().skip(1).map(String::from).collect::<Vec<_>>()
    };
    let due = [
        "time 1, repeat 1  t 2, r 3    t 3, r 5",
        "time 2            t 5         t 6",
        "time 3                        t 7",
        "z line            z 4",
    ];
    assert_eq!(page(left, right), due);
    assert_eq!(page(right, left)[2..], ["time 3            t 7", "z line                        z 4"]);
    // nothing is shifted: no z line is named
    assert_eq!(page(right, right).len(), 3);
}

// ---- words

const NOW: u64 = 4_000_000_000;

fn asked_for(words: &[&str]) -> Result<Asked, String> {
    asked(words.iter().map(OsString::from), NOW)
}

#[test]
fn windows() {
    let december = seconds("2026-12-01").unwrap();
    for (words, due) in [
        (&[][..], NOW..NOW + 30 * DAY),
        (&["--days", "1"], NOW..NOW + DAY),
        (&["--from", "2026-12-01"], december..december + 30 * DAY),
        (&["--from", "2026-12-01", "--days", "7"], december..december + 7 * DAY),
        (&["--days", "7", "--from", "2026-12-01 20:00"], december + 72_000..december + 72_000 + 7 * DAY),
        (&["--from", "2026-12-01T20:00:01"], december + 72_001..december + 72_001 + 30 * DAY),
        (&["--from", "2026-12-01", "--to", "2026-12-02"], december..december + DAY),
        (&["--from", "2026-12-01", "--to", "2026-12-01T00:01"], december..december + 60),
        (&["--to", "2026-12-01"], NOW..december),
        (&["--from", "1900-01-01"], 0..30 * DAY),
        (&["--from", "9999-12-31", "--days", "2"], LAST + 1 - DAY..LAST + 1 + DAY),
        (&["--days", "213503982334602"], NOW..u64::MAX),
        (&["--days", "18446744073709551615"], NOW..u64::MAX),
    ] {
        let sources = vec![Source::StandardInput];
        assert_eq!(asked_for(words), Ok(Asked::Hours { window: due, sources }), "{words:?}");
    }
}

#[test]
fn sources() {
    let file = |name: &str| Source::File(name.into());
    for (words, due) in [
        (&["-"][..], vec![Source::StandardInput]),
        (&["a"], vec![file("a")]),
        (&["--", "-"], vec![file("-")]),
        (&["--", "--from"], vec![file("--from")]),
        (&["a", "-"], vec![file("a"), Source::StandardInput]),
        (&["a", "--days", "1", "b"], vec![file("a"), file("b")]),
        (&[""], vec![file("")]),
    ] {
        let Ok(Asked::Hours { sources, .. }) = asked_for(words) else { panic!("{words:?}") };
        assert_eq!(sources, due, "{words:?}");
    }
    assert_eq!(asked_for(&["a", "-h"]), Ok(Asked::Help));
    assert_eq!(asked_for(&["--frm", "--help"]), Err("there is no option --frm".into()));
}

// ---- pages

fn told(name: &str, text: &[u8], window: &Range<u64>) -> Told {
    Told { name: name.into(), hours: hours(text, window.clone()) }
}

/// Texts of every sort: generated ones, hostile ones, the folder's, and small ones.
fn texts() -> Vec<Vec<u8>> {
    let mut texts: Vec<Vec<u8>> = hostile::texts().into_iter().map(|hostile| hostile.text).collect();
    for folder in ["../../texts/published", "../../texts/kinds", "tests/stored"] {
        let mut paths: Vec<PathBuf> = fs::read_dir(folder).unwrap().map(|entry| entry.unwrap().path()).collect();
        paths.retain(|path| path.extension().map_or(false, |end| end == "sdp"));
        paths.sort();
        texts.extend(paths.iter().map(|path| fs::read(path).unwrap()));
    }
    let seed = from_env("SEED", 8866);
    texts.extend((0..count(2_000)).map(|number| sessions::nth(seed, 3_000_000_000 + number)));
    let mut random = Random::of_test("pages");
    texts.extend((0..count(500)).map(|_| small(&mut random).into_bytes()));
    texts
}

#[test]
fn no_row_is_too_wide() {
    let some = [0..1 << 32, 1 << 32..LAST + 2, LAST + 1 - DAY..LAST + 1, 10..60, i64::MAX as u64..u64::MAX, 7..8];
    let name = "a name that is longer than a row, with a tab\t in it, ".repeat(3);
    let (mut last, mut pages, mut widest) = (vec![], [0; 3], 0);
    for (number, text) in texts().into_iter().enumerate() {
        for window in [&(0..u64::MAX), &some[number % some.len()]] {
            let alone = [told("", &text, window)];
            let both = [told(&name, &last, window), told("right", &text, window)];
            for texts in [&alone[..], &both] {
                let page = hours::page::page(texts, window);
                let width = page.lines().map(str::len).max().unwrap_or(0);
                assert!(width <= WIDTH && page.ends_with('\n') && page.is_ascii(), "{page}");
                assert!(!page.contains(|char: char| char.is_control() && char != '\n'), "{page}");
                widest = widest.max(width);
                let refused = texts.iter().any(|text| text.hours.is_err());
                assert_eq!(refused, page.contains("refused: "), "{page}");
                pages[if refused { 2 } else { texts.len() - 1 }] += 1;
            }
        }
        last = text;
    }
    let [one, two, refused] = pages;
    println!("hours: {one} pages of one text, {two} of two, {refused} of refused ones; the widest row has {widest}");
    assert!(pages.iter().all(|count| *count > 50) && widest > WIDTH - 3);
}

/// The pairs of a z line with their offsets' signs turned.
fn mirrored(zones: &str) -> String {
    let turned = |(place, word): (usize, &str)| match (place % 2, word.strip_prefix('-')) {
        (0, _) => word.into(),
        (_, Some(east)) => east.into(),
        (_, None) => format!("-{word}"),
    };
    zones.split_whitespace().enumerate().map(turned).collect::<Vec<String>>().join(" ")
}

/// Each start of both lists stands in one row, the left ones in their order; a pair is the same start.
#[test]
fn each_start_once() {
    let mut random = Random::of_test("pairs");
    let (mut paired, mut alone) = (0, 0);
    for _ in 0..count(5_000) {
        let text = small(&mut random);
        let mirrored = match text.split_once("z=") {
            Some((lines, zones)) => format!("{lines}z={}\n", mirrored(zones)),
            None => small(&mut random),
        };
        let window = 5..random.between(20, 60) as u64;
        let list = |text: &String| hours(text.as_bytes(), window.clone()).map_or(vec![], |hours| hours.list);
        let both = [&text, &mirrored].map(list);
        let rows = pairs(&both[0], &both[1]);
        let lefts: Vec<Hour> = rows.iter().filter_map(|pair| pair.0.copied()).collect();
        assert_eq!(lefts, both[0], "{text}");
        let mut rights: Vec<Row> = rows.iter().filter_map(|pair| pair.1.map(row)).collect();
        let mut due: Vec<Row> = both[1].iter().map(row).collect();
        rights.sort_unstable();
        due.sort_unstable();
        assert_eq!(rights, due, "{text}");
        for pair in rows {
            let (Some(left), Some(right)) = pair else {
                alone += 1;
                continue;
            };
            assert_eq!(left.unshifted(), right.unshifted(), "{text}");
            assert_eq!((left.start.time, left.start.repeat), (right.start.time, right.start.repeat), "{text}");
            paired += 1;
        }
    }
    println!("hours: {paired} pairs, {alone} starts in one text only");
    assert!(paired as u64 > count(5_000) && alone as u64 > count(5_000));
}

/// The festival that minus one hour is right for: 20:00 and 11:00 in Berlin, on both sides of the change.
#[test]
fn the_festival() {
    let window = seconds("2027-03-01").unwrap()..seconds("2027-05-01").unwrap();
    let list = |file: &str| hours(&fs::read(file).unwrap(), window.clone()).unwrap().list;
    let (right, mirrored) = (list(FESTIVAL), list(MIRRORED));
    let change = seconds("2027-03-28T01:00").unwrap();
    assert_eq!((right.len(), mirrored.len()), (12, 12));
    for (hour, other) in right.iter().zip(&mirrored).filter(|(hour, _)| hour.start.repeat.is_some()) {
        let summer = hour.start.at >= change;
        // Berlin is one hour ahead of UTC, and two in summer
        let local = shown(hour.start.at + if summer { 7_200 } else { 3_600 });
        assert!(matches!((&local[..4], &local[15..]), ("Fri ", "20:00:00") | ("Sun ", "11:00:00")), "{local}");
        assert_eq!(other.start.at - hour.start.at, if summer { 7_200 } else { 0 });
    }
    // both texts say that a concert lasts two hours, so the mirrored recorder comes when the last one is over
    assert_eq!(shown(right[11].start.at), "Fri 2027-04-09 18:00:00");
    assert_eq!(shown(mirrored[11].start.at), "Fri 2027-04-09 20:00:00");
}

// ---- the program

fn run(words: &[&str], input: &[u8]) -> Output {
    c::run(&PathBuf::from(env!("CARGO_BIN_EXE_hours")), words, input)
}

const FESTIVAL: &str = "../../texts/kinds/festival-hours.sdp";
const MIRRORED: &str = "../../texts/kinds/festival-hours-mirrored.sdp";
const SPRING: [&str; 4] = ["--from", "2027-03-01", "--days", "45"];
const ALWAYS: [&str; 4] = ["--from", "1900-01-01", "--days", "300000000000000"];

/// The stored pages, each with its status and the words that give it. The texts are named from the folder of this crate.
const PAGES: [(&str, i32, [&str; 4], &[&str]); 14] = [
    ("festival", 0, SPRING, &[FESTIVAL]),
    ("festival-mirrored", 0, SPRING, &[MIRRORED]),
    ("festival-beside", 0, SPRING, &[FESTIVAL, MIRRORED]),
    ("festival-closing", 0, ["--from", "2027-04-09T18:00", "--to", "2027-04-09 20:00"], &[FESTIVAL, MIRRORED]),
    ("equal", 0, SPRING, &["tests/stored/equal.sdp"]),
    ("far", 0, ALWAYS, &["tests/stored/far.sdp"]),
    ("far-beside", 0, ALWAYS, &["tests/stored/far.sdp", "tests/stored/far-too.sdp"]),
    ("nothing", 0, ["--from", "2027-03-01", "--to", "2027-03-04T18:00"], &[FESTIVAL]),
    ("nothing-yet", 0, SPRING, &["tests/stored/nothing-yet.sdp"]),
    ("nothing-beside", 0, ["--from", "2027-03-01", "--to", "2027-03-04T18:00"], &[FESTIVAL, MIRRORED]),
    ("unbounded", 0, SPRING, &["tests/stored/unbounded.sdp"]),
    ("refused", 1, SPRING, &["../../texts/kinds/refused-bad-time.sdp"]),
    ("refused-both", 1, SPRING, &["tests/stored/zones-fall.sdp", "tests/stored/hourly.sdp"]),
    ("refused-right", 1, SPRING, &[FESTIVAL, "tests/stored/zones-fall.sdp"]),
];

#[test]
fn stored_pages() {
    for (name, status, window, files) in PAGES {
        let due = page::file(&format!("rust/hours/tests/stored/{name}.page"));
        let words = [&window, files].concat();
        let mut runs = vec![run(&words, b""), run(&[files, &window].concat(), b"")];
        if let [file] = files {
            let text = fs::read(file).unwrap();
            let more = |words: &[&str], input: &[u8]| run(&[&window[..], words].concat(), input);
            runs.extend([more(&[], &text), more(&["-"], &text), more(&["--", file], b"")]);
        }
        for output in runs {
            assert_eq!(String::from_utf8(output.stdout).unwrap(), due, "{name}");
            assert_eq!((output.status.code(), &output.stderr[..]), (Some(status), &b""[..]), "{name}");
        }
    }
    let files = PAGES.iter().flat_map(|(.., files)| files.iter().map(|file| file.to_string()));
    let mut used: BTreeSet<String> = PAGES.iter().map(|(name, ..)| format!("tests/stored/{name}.page")).collect();
    used.extend(files.filter(|file| file.starts_with("tests/")));
    let stored = fs::read_dir("tests/stored").unwrap().map(|entry| entry.unwrap().path().display().to_string());
    assert_eq!(stored.collect::<BTreeSet<String>>(), used);
}

#[test]
fn words_and_statuses() {
    for (words, input, status, out, errors) in [
        (&["--help"][..], &b""[..], 0, "usage: hours", ""),
        (&["-h"], b"", 0, "usage: hours", ""),
        (&["nothing/there"], b"", 2, "", "hours: nothing/there: No such file"),
        (&["/"], b"", 2, "", "hours: /: Is a directory"),
        (&["--", "-"], b"", 2, "", "hours: -: No such file"),
        (&[FESTIVAL, "nothing/there"], b"", 2, "", "hours: nothing/there: No such file"),
        (&["a", "b", "c"], b"", 2, "", "hours: it takes two files at most"),
        (&["-", "-"], b"", 2, "", "hours: one of two texts at most comes from standard input"),
        (&["--colour"], b"", 2, "", "hours: there is no option --colour"),
        (&["--from"], b"", 2, "", "hours: --from needs a word behind it"),
        (&["--days", "1", "--days", "1"], b"", 2, "", "hours: --days stands twice"),
        (&["--days", "1", "--to", "2030-01-01"], b"", 2, "", "hours: --to and --days both end the window"),
        (&["--from", "2026-13-01"], b"", 2, "", "hours: --from: '2026-13-01' is no date such as 2026-12-01"),
        (&["--to", "1899-12-31"], b"", 2, "", "hours: --to: '1899-12-31' is before 1900"),
        (&["--days", "0"], b"", 2, "", "hours: --days: '0' is no whole number from 1 on"),
        (&["--days", "-1"], b"", 2, "", "hours: --days: '-1' is no whole number from 1 on"),
        (&["--days", "x"], b"", 2, "", "hours: --days: 'x' is no whole number from 1 on"),
        (&["--from", "2026-12-01", "--to", "2026-12-01"], b"", 2, "", "hours: the window would end at Tue 2026-12-01"),
        (&[], b"", 1, "refused: there is no version: the first line must be v=0 (refusal 6)\n", ""),
        (&[], &vec![b'\n'; 32_769], 1, "refused: the text has more than 32768 bytes (refusal 1)\n", ""),
        (&[], &vec![b'\n'; 3_000_000], 1, "refused: the text has more than 32768 bytes (refusal 1)\n", ""),
        (&[FESTIVAL, "-"], b"", 1, "text:  standard input\nrefused: there is no version", ""),
    ] {
        c::hold(run(words, input), words, status, out, errors);
    }
    assert!(run(&["--help"], b"").stdout.split(|byte| *byte == b'\n').all(|row| row.len() <= 120));
}

/// Without a window: from the clock's time on, thirty days.
#[test]
fn the_next_thirty_days() {
    let clock = || of_clock(SystemTime::now().duration_since(SystemTime::UNIX_EPOCH).unwrap().as_secs());
    let before = clock();
    let output = run(&[], b"v=0\nt=0 0\n");
    let page = String::from_utf8(output.stdout).unwrap();
    let window = page.strip_prefix("Nothing starts from ").and_then(|rest| rest.split_once(" (UTC).\n")).unwrap().0;
    let (from, to) = window.split_once(" to ").unwrap();
    let (from, to) = (seconds(&from[4..]).unwrap(), seconds(&to[4..]).unwrap());
    assert!(before <= from && from <= clock(), "{page}");
    assert_eq!(to - from, 30 * DAY, "{page}");
}

/// The sentence of each refusal is the library's.
#[test]
fn refusals_in_words() {
    let mut numbers = BTreeSet::new();
    for text in texts() {
        let Told { hours: Err(error), .. } = told("", &text, &(0..u64::MAX)) else { continue };
        let error: Error = error;
        let page = hours::page::page(&[Told { name: String::new(), hours: Err(error) }], &(0..1));
        let words = page.replace('\n', " ");
        assert!(words.starts_with(&format!("refused: {error} ")), "{page}");
        numbers.insert(error.number());
    }
    println!("hours: refused with {numbers:?}");
    assert!(numbers.len() > 12 && numbers.contains(&29));
}
