//! The comparisons themselves are tested: with a plain reader, a plain writer and a plain lister of starts that have no
//! slip they find nothing, and they find each slip.
mod plain;
use compare::area::SIZE;
use compare::bench::{Bench, Tally};
use compare::listing::{self, Listing, Window};
use compare::made::{self, DAMAGES};
use compare::starts::{rows, tables};
use compare::whole::Whole;
use compare::writing::{Outcome, Writing};
use generate::hours::{hours, KINDS};
use generate::{random::count, sessions, shrink, Random};
use plain::starts::{PlainStarts, SHOWN};
use plain::writer::PlainWriter;
use plain::{Plain, SLIPS};

const SEED: u64 = 8866;

#[test]
fn no_slip_no_difference() {
    let reader = Plain { slip: "" };
    let mut bench = Bench::new(|text: &[u8], area: &mut [u8]| reader.read(text, area));
    let mut tally = Tally::default();
    for number in 0..count(30_000) {
        tally.add(bench.same(&sessions::nth(SEED, number)));
    }
    println!("slips: {} texts with none", tally.all());
    assert!(tally.of(0) * 5 > tally.all());
}

#[test]
fn each_slip_is_found() {
    let mut latest = 0;
    for slip in SLIPS {
        let reader = Plain { slip };
        let mut bench = Bench::new(|text: &[u8], area: &mut [u8]| reader.read(text, area));
        let mut texts = (0..30_000).map(|number| (number, sessions::nth(SEED, number)));
        let found = texts.find(|(_, text)| bench.compare(text).is_err());
        let Some((number, text)) = found else {
            panic!("the generated texts don't show: {slip}")
        };
        latest = latest.max(number);
        // a full table or a text too long stays long
        if text.len() < 1_000 {
            let small = shrink(&text, |part| bench.compare(part).is_err());
            println!("{slip}: text {number}, {} bytes shrunk to {}", text.len(), small.len());
            let most = if slip.contains("table") || slip.starts_with("21") { 600 } else { 60 };
            assert!(bench.compare(&small).is_err() && small.len() <= most && small.len() < text.len());
        } else {
            println!("{slip}: text {number}, {} bytes", text.len());
        }
    }
    println!("slips: all {} found, the last by text {latest}", SLIPS.len());
}

/// The area with this number, and its text: made or read, and mostly with some damage.
fn area(number: u64) -> (Vec<u8>, Vec<u8>) {
    let mut random = Random::new(SEED + number, "areas");
    let (mut text, mut area) = (made::text(&mut random), vec![0; SIZE]);
    if number % 3 == 0 {
        let lines = sessions::good(&mut random);
        let mut read = sessions::ended(&mut random, &lines);
        if (Plain { slip: "" }).read(&read, &mut area).answer.number == 0 {
            read.extend(&text);
            text = read;
            text.truncate(sessions::LONGEST);
        }
    } else {
        area = made::area(&mut random, &text);
    }
    if number % 4 > 0 {
        made::damage(&mut random, DAMAGES[number as usize % DAMAGES.len()], &text, &mut area);
    }
    (text, area)
}

#[test]
fn no_slip_of_the_writer_no_difference() {
    let writer = PlainWriter { slip: "" };
    let writing = Writing::new(
        |text: &[u8], area: &[u8]| writer.length(text, area),
        |text: &[u8], area: &[u8], out: &mut [u8]| writer.fill(text, area, out),
    );
    let (mut good, mut bad) = (0, 0);
    for number in 0..count(4_000) {
        let (text, area) = area(number);
        match writing.same(&text, &area) {
            Outcome::Written(_) => good += 1,
            Outcome::Bad(_) => bad += 1,
        }
    }
    println!("slips of the writer: {good} areas written and {bad} refused with none");
    assert!(good > 0 && bad > 0);
}

#[test]
fn each_slip_of_the_writer_is_found() {
    let slips = plain::writer::SLIPS;
    let mut latest = 0;
    for slip in slips {
        let writer = PlainWriter { slip };
        let writing = Writing::new(
            |text: &[u8], area: &[u8]| writer.length(text, area),
            |text: &[u8], area: &[u8], out: &mut [u8]| writer.fill(text, area, out),
        );
        let found = (0..4_000).find(|number| {
            let (text, area) = area(*number);
            writing.compare(&text, &area).is_err()
        });
        let number = found.unwrap_or_else(|| panic!("the areas don't show: {slip}"));
        println!("{slip}: area {number}");
        latest = latest.max(number);
    }
    println!("slips of the writer: all {} found, the last by area {latest}", slips.len());
}

/// The session with this number, and windows for it: times and zones of each kind, now and then a made area or a damaged
/// one.
fn session(number: u64) -> (Vec<u8>, Vec<u8>, Vec<Window>) {
    let mut random = Random::new(SEED + number, "hours");
    let (mut text, mut area) = (Vec::new(), Vec::new());
    if number % 5 == 0 {
        text = made::text(&mut random);
        area = made::area(&mut random, &text);
    } else {
        area.extend(plain::encode(&listing::seen(&hours(&mut random, KINDS[number as usize % KINDS.len()]))));
    }
    if number % 7 == 0 {
        made::damage(&mut random, DAMAGES[number as usize % DAMAGES.len()], &text, &mut area);
    }
    let windows = match tables(&text, &area) {
        Ok(seen) => listing::windows(&mut random, &seen),
        Err(_) => vec![(0, u64::MAX), (0, 0)],
    };
    (text, area, windows)
}

#[test]
fn no_slip_of_the_lister_no_difference() {
    let lister = PlainStarts { slip: "" };
    let mut listing = Listing::new(|text: &[u8], area: &[u8], from, to| lister.starts(text, area, from, to));
    for number in 0..count(6_000) {
        let (text, area, windows) = session(number);
        listing.same(&text, &area, &windows);
    }
    let counts = &listing.counts;
    println!("slips of the lister: with none, {counts:?}");
    assert!(counts.some > counts.sessions / 2 && counts.full > 0 && counts.refused.len() > 2);
}

#[test]
fn each_slip_of_the_lister_is_found() {
    let slips = plain::starts::SLIPS;
    let mut latest = 0;
    for slip in slips {
        let lister = PlainStarts { slip };
        let mut listing = Listing::new(|text: &[u8], area: &[u8], from, to| lister.starts(text, area, from, to));
        let found = (0..6_000).find(|number| {
            let (text, area, windows) = session(*number);
            listing.compare(&text, &area, &windows).is_err()
        });
        let number = found.unwrap_or_else(|| panic!("the sessions don't show: {slip}"));
        println!("{slip}: session {number}");
        latest = latest.max(number);
    }
    println!("slips of the lister: all {} found, the last by session {latest}", slips.len());
}

/// The fixed cases of starts.rs: each shows the slip that it is there for, and a lister without one passes them all.
#[test]
fn the_nearest_slips_are_shown() {
    for shown in &SHOWN {
        let text = [b"v=0\n", shown.text.as_bytes()].concat();
        let mut area = vec![0; SIZE];
        assert_eq!(Plain { slip: "" }.read(&text, &mut area).answer.number, 0, "{}", shown.text);
        let listed = |slip| rows(&PlainStarts { slip }.starts(&text, &area, shown.window.0, shown.window.1));
        assert_eq!(listed(""), Ok(shown.starts.to_vec()), "{}", shown.slip);
        assert_ne!(listed(shown.slip), Ok(shown.starts.to_vec()), "{}", shown.slip);
    }
}

/// A reader or a writer that errs only on a written form: nothing but reading back shows that.
#[test]
fn slips_on_written_forms_are_found() {
    let text = b"v=0\ns=Desk 4\nt=+60 0\n";
    let is_written = |text: &[u8]| text.ends_with(b"\r\n");
    for (wrong, due) in [
        ("nothing", None),
        ("the reader", Some("read back")),
        ("the counts", Some("read back: ours Counts { empty: 0, ignored: 1, kept: 3 }\ncounted Counts")),
        ("the length", Some("written once more: the length")),
        ("the filling", Some("written once more: with 47 bytes of output")),
    ] {
        let reader = |text: &[u8], area: &mut [u8]| {
            let mut told = Plain { slip: "" }.read(text, area);
            told.answer.field += u64::from(wrong == "the reader" && is_written(text));
            if wrong == "the counts" && is_written(text) {
                (told.counts.ignored, told.counts.kept) = (told.counts.ignored + 1, told.counts.kept - 1);
            }
            told
        };
        let length = |text: &[u8], area: &[u8]| {
            let mut answer = PlainWriter { slip: "" }.length(text, area);
            answer.len += u64::from(wrong == "the length" && is_written(text) && answer.number == 0);
            answer
        };
        let fill = |text: &[u8], area: &[u8], out: &mut [u8]| {
            let answer = PlainWriter { slip: "" }.fill(text, area, out);
            if wrong == "the filling" && is_written(text) && answer.number == 0 {
                out[0] = b'V';
            }
            answer
        };
        let mut whole = Whole::new(reader, Writing::new(length, fill));
        match (whole.compare(text), due) {
            (Ok(_), None) => assert_eq!((whole.counts.accepted, whole.counts.read_back), (1, 1)),
            (Err(why), Some(due)) => {
                assert!(why.starts_with(due), "{why}");
                let report = whole.smallest(text);
                assert!(report.contains("smallest text of 3 bytes") && report.contains("\nv=0\n"), "{report}");
            }
            (found, due) => panic!("{found:?}, due {due:?}"),
        }
    }
}
