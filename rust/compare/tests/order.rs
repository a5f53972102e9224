//! The letter order beside the crate `regex`: the words of documents 01 and 02 as an expression over a text's bytes.
//! And the order beside what the reader takes, of what the writer writes, and of the stored texts.
#[path = "../../oracle/src/order.rs"]
mod order;
use compare::account::read;
use compare::area::{decode, SIZE};
use compare::judge::{cleaned, judge, part};
use compare::made::{self, at, put_two, DAMAGES};
use compare::{fill, length, letter_order, Answer, Order};
use generate::random::{count, from_env};
use generate::sessions::{self, LONGEST};
use generate::{every_string, hours, texts, Random};
use order::{in_order, matcher, BAD, GOOD, ORDER};
use std::fs;
use std::path::PathBuf;

/// Every letter that has a place in the order, and one that has none.
const LETTERS: &[u8] = b"vosiuepcbtrzkamx";

/// What `sdp_letter_order` must answer.
fn due(text: &[u8]) -> Order {
    if text.len() > LONGEST {
        return Order { number: 1, yes: 0 };
    }
    Order {
        number: 0,
        yes: u64::from(in_order(text)),
    }
}

#[derive(Default)]
struct Counts {
    yes: u64,
    no: u64,
    long: u64,
}

impl Counts {
    fn add(&mut self, text: &[u8]) -> bool {
        let due = due(text);
        let kept = text.to_vec();
        let ours = letter_order(text);
        assert_eq!(ours, due, "{} bytes: {}", text.len(), text[..text.len().min(3_000)].escape_ascii());
        assert_eq!(text, kept, "the text was changed");
        match (due.number, due.yes) {
            (0, 1) => self.yes += 1,
            (0, _) => self.no += 1,
            _ => self.long += 1,
        }
        due.yes == 1
    }

    fn print(&self, what: &str) {
        println!("order: {what}: {} yes, {} no, {} too long", self.yes, self.no, self.long);
    }
}

fn lines(letters: &[u8]) -> Vec<u8> {
    letters.iter().flat_map(|letter| [*letter, b'=', b'1', b'\n']).collect()
}

// ---- the expression itself

#[test]
fn the_expression_says_what_the_documents_say() {
    assert!(GOOD.split(' ').count() == 26 && BAD.split(' ').count() == 48);
    for good in GOOD.split(' ') {
        assert!(in_order(&lines(good.as_bytes())), "{good}");
    }
    for bad in BAD.split(' ').chain([""]) {
        assert!(!in_order(&lines(bad.as_bytes())), "{bad}");
    }
}

/// The orders by hand tell the times from what is nearest to them, and first of all from what was right before P6.
#[test]
fn the_orders_by_hand_see_neighbours() {
    let times = "(t (r+ z?)?)+";
    assert!(ORDER.contains(times));
    for other in [
        "(t r*)+ z?",
        "(t r*)+",
        "(t r* z?)+",
        "(t r+ z?)+",
        "(t (r+ z)?)+",
        "(t (r z?)?)+",
        "(t (r+ z*)?)+",
        "(t (r+ z?)*)+",
        "(t (z? r+)?)+",
        "(t (r+ z?)?)+ z?",
        "(t (r+ z?)?)*",
        "(t r*)* t (r+ z?)?",
        "(t r* z?)* t (r+ z?)?",
        "t r* z? (t (r+ z?)?)*",
        "t (r+ z?)?",
    ] {
        let wrong = matcher(&ORDER.replace(times, other));
        let missed = GOOD.split(' ').any(|good| !wrong.is_match(&lines(good.as_bytes())));
        let passed = BAD.split(' ').any(|bad| wrong.is_match(&lines(bad.as_bytes())));
        assert!(missed || passed, "{other}");
    }
}

#[test]
fn lines_of_bad_form_are_out_of_order() {
    for (text, due) in [
        (&b"v=\no=\ns=\nt="[..], true),
        (b"v=\r\no=\r\ns=\r\nt=\r\n", true),
        (b"\n\r\nv=0\r\n\r\n\no=\ns=\nt=\n\r\n\n", true),
        (b"v==\no=\xff\ns=v=\nt= ", true),
        (b"v=\no=\ns=\nt=\r", false),
        (b"v=\no=\ns=\nt=\r\r\n", false),
        (b"v=\no=\ns=\nt=\n\r", false),
        (b"v=\no=\ns=\0\nt=\n", false),
        (b"v=\no=\rs=\ns=\nt=\n", false),
        (b"v=\no=\ns\nt=\n", false),
        (b"v=\no=\n=s\nt=\n", false),
        (b"v=\no=\nss=\nt=\n", false),
        (b"v=\no=\n s=\nt=\n", false),
        (b"v=\no=\ns =\nt=\n", false),
        (b"v=\no=\n==\ns=\nt=\n", false),
        (b"v=\no=\n\0\ns=\nt=\n", false),
        (b"v=\no=\ns=\nt=\n\xff=\n", false),
        (b"\xef\xbb\xbfv=\no=\ns=\nt=\n", false),
    ] {
        assert_eq!(in_order(text), due, "{}", text.escape_ascii());
    }
}

// ---- ours beside it

#[test]
fn every_short_order() {
    let mut counts = Counts::default();
    every_string(LETTERS, 5, |letters| {
        counts.add(&lines(letters));
    });
    // behind the shortest good beginning nearly all of the pattern is within reach
    every_string(LETTERS, 4, |letters| {
        counts.add(&lines(&[b"vost", letters].concat()));
    });
    every_string(b"iuepcbtx", 5, |letters| {
        counts.add(&lines(&[b"vos", letters].concat()));
    });
    every_string(b"micbkart", 5, |letters| {
        counts.add(&lines(&[b"vostm", letters].concat()));
    });
    // times with repeats and zones, and what stands behind them
    every_string(b"trzkam", 6, |letters| {
        counts.add(&lines(&[b"vost", letters].concat()));
    });
    every_string(b"trz", 9, |letters| {
        counts.add(&lines(&[b"vost", letters].concat()));
    });
    counts.print("every short order");
    assert!(counts.yes > 1_000 && counts.no > 1_000_000);
}

/// The times hand over to the repeats sixteen times, and then a loop goes on: every end behind as many times, and more.
#[test]
fn every_end_of_many_times() {
    let mut counts = Counts::default();
    for time in ["t", "tr", "trz"] {
        for times in 1..=36 {
            let before = ["vos", &time.repeat(times)].concat();
            every_string(b"trz", 5, |letters| {
                counts.add(&lines(&[before.as_bytes(), letters].concat()));
            });
        }
    }
    counts.print("every end of many times");
    assert!(counts.yes > 5_000 && counts.no > 20_000);
}

/// Letters in order: each optional one there or not, each repeated one several times.
fn ordered(random: &mut Random) -> Vec<u8> {
    let mut letters = b"vos".to_vec();
    let many = |random: &mut Random| if random.once_in(2) { 0 } else { random.below(4) };
    for (letter, most) in [(b'i', 1), (b'u', 1), (b'e', 9), (b'p', 9), (b'c', 1), (b'b', 9)] {
        let times = many(random).min(most);
        letters.resize(letters.len() + times, letter);
    }
    for _ in 0..random.between(1, 4) {
        letters.push(b't');
        letters.resize(letters.len() + many(random), b'r');
        if letters.ends_with(b"r") && random.once_in(2) {
            letters.push(b'z');
        }
    }
    for (letter, most) in [(b'k', 1), (b'a', 9)] {
        let times = many(random).min(most);
        letters.resize(letters.len() + times, letter);
    }
    for _ in 0..many(random) {
        letters.push(b'm');
        for (letter, most) in [(b'i', 1), (b'c', 9), (b'b', 9), (b'k', 1), (b'a', 9)] {
            let times = many(random).min(most);
            letters.resize(letters.len() + times, letter);
        }
    }
    letters
}

/// Lines with values, in which an `=` or any byte but NUL, CR and LF may stand, with either ending and empty lines.
fn dressed(random: &mut Random, letters: &[u8]) -> Vec<u8> {
    let style = random.below(3);
    let empty = random.once_in(3);
    let mut text = Vec::new();
    let end = |random: &mut Random| -> &[u8] {
        let crlf = style == 0 || style == 2 && random.once_in(2);
        if crlf { b"\r\n" } else { b"\n" }
    };
    for (at, letter) in letters.iter().enumerate() {
        while empty && random.once_in(4) {
            text.extend(end(random));
        }
        text.extend([*letter, b'=']);
        for _ in 0..random.below(6) {
            let byte = random.byte();
            text.push(if matches!(byte, 0 | b'\r' | b'\n') { b'=' } else { byte });
        }
        if at + 1 < letters.len() || !random.once_in(3) {
            text.extend(end(random));
        }
    }
    if empty && random.once_in(2) && text.last() == Some(&b'\n') {
        text.extend(end(random));
    }
    text
}

/// Good orders, and copies with one or two letters changed, moved, doubled or left out.
#[test]
fn nearly_good_orders() {
    let (mut good, mut counts) = (Counts::default(), Counts::default());
    let mut random = Random::of_test("orders");
    for _ in 0..count(60_000) {
        let mut letters = ordered(&mut random);
        assert!(good.add(&dressed(&mut random, &letters)), "{}", letters.escape_ascii());
        for _ in 0..random.between(1, 2) {
            let at = random.below(letters.len());
            match random.below(5) {
                0 => letters[at] = random.letter(LETTERS),
                1 => {
                    letters.remove(at);
                }
                2 => letters.insert(at, letters[at]),
                3 => {
                    let other = random.below(letters.len());
                    letters.swap(at, other);
                }
                _ => letters.insert(at, random.letter(LETTERS)),
            }
            if letters.is_empty() {
                break;
            }
        }
        counts.add(&dressed(&mut random, &letters));
    }
    good.print("good orders");
    counts.print("nearly good orders");
    assert!(counts.yes * 10 > counts.no && counts.no * 10 > counts.yes);
}

/// One line of bad form, or one byte that is damaged, in a text whose order is good.
#[test]
fn bad_forms() {
    let mut random = Random::of_test("bad forms");
    let (mut counts, rounds) = (Counts::default(), count(4_000));
    #[rustfmt::skip] // a row for each kind
    const FORMS: [&[u8]; 16] = [
        b"a", b"abc",
        b"=", b"=a", b"aa=", b"ab=c", b" a=", b"a =", b"\xef\xbb\xbfv=0",
        b"a\0=", b"a=\0", b"\0",
        b"a=\r", b"\r", b"a=\rb", b"a=b\r\r",
    ];
    for _ in 0..rounds {
        let letters = ordered(&mut random);
        let text = dressed(&mut random, &letters);
        let mut lines: Vec<Vec<u8>> = text.split_inclusive(|byte| *byte == b'\n').map(<[u8]>::to_vec).collect();
        let form = FORMS[random.below(FORMS.len())];
        let at = random.below(lines.len() + 1);
        // a last line without an ending would run on into this one
        if at < lines.len() || lines.last().map_or(true, |line| line.ends_with(b"\n")) {
            lines.insert(at, [form, random.pick(&[&b"\n"[..], b"\r\n"])].concat());
            // with LF behind it a CR is the line's ending
            let yes = counts.add(&lines.concat());
            assert!(!yes || form.ends_with(b"\r"), "{}", lines.concat().escape_ascii());
        }
        // at the very end, without an ending: a CR stays in the line
        let whole = [&text[..], if text.ends_with(b"\n") { b"" } else { b"\n" }].concat();
        counts.add(&[&whole[..], form].concat());
        counts.add(&[&whole[..], b"a=1\r"].concat());
        counts.add(&[&whole[..], b"\r"].concat());
        let mut damaged = text.clone();
        generate::fields::damage(&mut random, &mut damaged);
        counts.add(&damaged);
    }
    counts.print("bad forms");
    assert!(counts.no > 4 * counts.yes && counts.yes >= rounds / 4);
}

/// Texts of the other generators: their order is often right, since values aren't judged.
#[test]
fn other_texts() {
    let (seed, mut random) = (from_env("SEED", 8866), Random::of_test("order, other texts"));
    let (mut counts, rounds) = (Counts::default(), count(20_000));
    for number in 0..rounds {
        counts.add(&sessions::nth(seed, 2_000_000_000 + number));
        counts.add(&texts::text(&mut random));
        counts.add(&texts::lines(&mut random));
    }
    every_string(b"v=\n\r\0", 7, |text| {
        counts.add(text);
    });
    counts.print("other texts");
    assert!(counts.yes >= rounds / 40 && counts.no > rounds);
    assert!(rounds < 20_000 || counts.long >= 10);
}

/// The longest text, and one byte more: 1, whatever stands in it.
#[test]
fn at_the_limit() {
    let mut random = Random::of_test("order limit");
    let (mut counts, rounds) = (Counts::default(), count(40));
    for _ in 0..rounds {
        for due in [LONGEST - 1, LONGEST, LONGEST + 1, LONGEST + 2, 3 * LONGEST] {
            let letters = ordered(&mut random);
            let mut text = dressed(&mut random, &letters);
            let more = match random.below(3) {
                0 => b"\n".repeat(due),
                1 => b"\na=".repeat(due),
                _ => [b"\nm=", &b"x".repeat(due)[..]].concat(),
            };
            text.extend(more);
            text.truncate(due);
            counts.add(&text);
        }
        counts.add(&vec![random.byte(); LONGEST + 1]);
    }
    // as many lines as fit: times, repeats, zones, medias, empty lines; and the last of them decides
    let head = b"v=\no=\ns=\nt=\n";
    for (piece, bad) in [
        ("t=\n", "z=\n"),
        ("t=\nr=\n", "t=\nz=\n"),
        ("t=\nr=\nz=\n", "t=\nz=\n"),
        ("t=\nr=\nz=\n\n", "t=\nr=\nz=\nz=\n"),
        ("t=\nr=\nr=\n\r\n", "t=\nr=\nz=\nr=\n"),
        ("m=\n", "z=\n"),
        ("\n", "z=\n"),
    ] {
        for due in [LONGEST, LONGEST + 1] {
            for (end, good) in [("", true), (bad, false)] {
                let mut text = head.to_vec();
                while text.len() + piece.len() + end.len() <= due {
                    text.extend(piece.bytes());
                }
                text.resize(due - end.len(), b'\n');
                text.extend(end.bytes());
                assert_eq!(counts.add(&text), good && due == LONGEST, "{piece:?} {end:?}");
            }
        }
    }
    counts.print("at the limit");
    assert!(counts.yes > 5 && counts.long >= 4 * rounds);
}

// ---- beside the reader and the writer

/// What is read of a text: the answer, and the area.
fn area_of(text: &[u8]) -> (Answer, Vec<u8>) {
    let mut area = vec![0xa5; SIZE];
    (read(text, &mut area), area)
}

const ACCEPTED: Answer = Answer { number: 0, line: 0, field: 0, place: 0, len: 0 };

/// The reader's word on a z line behind another.
fn second_zones(line: u64) -> Answer {
    Answer { number: 17, line, ..ACCEPTED }
}

/// Good values, with z lines in and out of their place: the order and the reader judge them differently.
#[test]
fn zones_behind_times() {
    let mut counts = Counts::default();
    let mut check = |times: &[u8], due: bool, read: Answer| {
        let mut text = b"v=0\no=- 0 0 IN IP4 h\ns=x\n".to_vec();
        for letter in times {
            let line: &[u8] = match letter {
                b't' => b"t=1 0\n",
                b'r' => b"r=1d 1h 0 90\n",
                _ => b"z=60 -1h 61 0\n",
            };
            text.extend(line);
        }
        assert_eq!((counts.add(&text), area_of(&text).0), (due, read), "{}", times.escape_ascii());
    };
    // behind the last time, and behind an earlier one
    check(b"trz", true, ACCEPTED);
    check(b"ttrrtrrz", true, ACCEPTED);
    check(b"trzttr", true, ACCEPTED);
    // behind each of several times
    check(b"trztrz", true, second_zones(9));
    check(b"trrzttrztrz", true, second_zones(11));
    // behind a time without repeats
    check(b"tz", false, ACCEPTED);
    check(b"trtz", false, ACCEPTED);
    check(b"tztr", false, ACCEPTED);
    check(b"trztz", false, second_zones(8));
    // behind z itself
    check(b"trzz", false, second_zones(7));
    check(b"trzr", false, ACCEPTED);
    check(b"z", false, ACCEPTED);

    let mut random = Random::of_test("zones behind times");
    let (rounds, mut seen) = (count(20_000), [[0; 2]; 2]);
    for _ in 0..rounds {
        let mut lines = vec![b"v=0".to_vec()];
        let put = |random: &mut Random, lines: &mut Vec<Vec<u8>>, letter| {
            let value = sessions::good_value(random, letter);
            lines.push(sessions::line(letter, &value));
        };
        put(&mut random, &mut lines, b'o');
        put(&mut random, &mut lines, b's');
        // in half of the texts z lines stand behind times without repeats too
        let (mut due, mut zones, stray) = (true, Vec::new(), random.once_in(2));
        for _ in 0..random.between(1, 6) {
            put(&mut random, &mut lines, b't');
            let repeats = random.below(4);
            (0..repeats).for_each(|_| put(&mut random, &mut lines, b'r'));
            if (repeats > 0 || stray) && random.once_in(3) {
                due &= repeats > 0;
                put(&mut random, &mut lines, b'z');
                zones.push(lines.len() as u64);
            }
        }
        let text = lines.join(&b'\n');
        let read = zones.get(1).map_or(ACCEPTED, |second| second_zones(*second));
        assert_eq!((counts.add(&text), area_of(&text).0), (due, read), "{}", text.escape_ascii());
        seen[usize::from(due)][usize::from(read == ACCEPTED)] += 1;
    }
    let [[bad_refused, bad_taken], [refused, taken]] = seen;
    counts.print("zones behind times");
    println!("    in order {taken} taken, {refused} refused with 17; out of order {bad_taken} and {bad_refused}");
    assert!(seen.iter().flatten().all(|seen| *seen >= rounds / 80));
}

/// What was written, by what the area has.
#[derive(Debug, Default)]
struct Written {
    no_zones: u64,
    /// With zones, and the last time has a repeat.
    repeated: u64,
    /// With zones, and the last time has no repeat, but an earlier one has.
    earlier: u64,
    /// With zones and times, and without repeats.
    unrepeated: u64,
    /// With zones, and without times: then `t=0 0` is written.
    no_times: u64,
    too_long: u64,
}

impl Written {
    /// The theorem `written-order` on one area that can be written. Document 02, P6: "a written text within 32,768
    /// bytes passes if it has no zones, and otherwise exactly when its last time has a repeat".
    fn add(&mut self, counts: &mut Counts, text: &[u8], area: &[u8]) {
        let needed = length(text, area);
        assert_eq!(needed.number, 0);
        let len = needed.len as usize;
        if len > LONGEST {
            self.too_long += 1;
            return;
        }
        let mut written = vec![0; len];
        assert_eq!(fill(text, area, &mut written), needed);
        let seen = decode(&cleaned(area)).unwrap();
        let last = seen.times.len() as u64;
        let repeated = seen.repeats.iter().any(|repeat| repeat.owner == last);
        let due = seen.zones.is_empty() || repeated;
        assert_eq!(counts.add(&written), due, "{}", written.escape_ascii());
        *match seen.zones.len() {
            0 => &mut self.no_zones,
            _ if repeated => &mut self.repeated,
            _ if !seen.repeats.is_empty() => &mut self.earlier,
            _ if last > 0 => &mut self.unrepeated,
            _ => &mut self.no_times,
        } += 1;
    }

    fn print_and_ask(&self, what: &str, counts: &Counts, least: u64) {
        counts.print(what);
        println!("    {self:?}");
        for seen in [self.no_zones, self.repeated, self.earlier, self.unrepeated, self.no_times] {
            assert!(seen >= least, "{what}: {self:?}, each at least {least} times");
        }
    }
}

#[test]
fn written_of_what_was_read() {
    let (mut counts, mut written) = (Counts::default(), Written::default());
    let mut random = Random::of_test("order, written");
    let rounds = count(12_000);
    for round in 0..rounds {
        let text = match round % 4 {
            0 => hours::any(&mut random).text(),
            1 => sessions::text(&mut random),
            _ => {
                let lines = sessions::good(&mut random);
                sessions::ended(&mut random, &lines)
            }
        };
        let (answer, area) = area_of(&text);
        if answer.number == 0 {
            written.add(&mut counts, &text, &area);
        }
    }
    written.print_and_ask("written of what was read", &counts, rounds / 80);
}

/// Areas that no reader made, and areas that were damaged and can still be written.
#[test]
fn written_of_made_areas() {
    let (mut counts, mut written) = (Counts::default(), Written::default());
    let mut random = Random::of_test("order, made areas");
    let rounds = count(6_000);
    for _ in 0..rounds {
        let text = made::text(&mut random);
        let mut area = made::area(&mut random, &text);
        written.add(&mut counts, &text, &area);
        let kind = DAMAGES[random.below(DAMAGES.len())];
        made::damage(&mut random, kind, &text, &mut area);
        if judge(&text, &area) {
            written.add(&mut counts, &text, &area);
        }
    }
    written.print_and_ask("written of made areas", &counts, rounds / 80);
}

/// Written texts of 32,768 bytes, and of one byte more.
#[test]
fn written_at_the_limit() {
    let mut counts = Counts::default();
    let text = vec![b'x'; LONGEST];
    // how many times, repeats of the first of them, and zones
    for (rows, due) in
        [([2, 1, 0], true), ([1, 1, 1], true), ([2, 1, 1], false), ([1, 0, 1], false), ([0, 0, 1], false)]
    {
        let mut area = vec![0; SIZE];
        for (name, rows) in ["times", "repeats", "zones"].into_iter().zip(rows) {
            put_two(&mut area, part(name).at, rows);
        }
        put_two(&mut area, at("repeats", 0, "owner"), 1);
        put_two(&mut area, at("description", 0, "mark"), 1);
        let without = length(&text, &area).len as usize;
        for len in [LONGEST, LONGEST + 1] {
            put_two(&mut area, at("description", 0, "description") + 2, len - without);
            let mut written = vec![0; len];
            assert_eq!(length(&text, &area), Answer { len: len as u64, ..ACCEPTED });
            assert_eq!(fill(&text, &area, &mut written), Answer { len: len as u64, ..ACCEPTED });
            assert_eq!(counts.add(&written), due && len == LONGEST, "{rows:?}");
        }
    }
    assert_eq!((counts.yes, counts.no, counts.long), (2, 3, 5));
}

// ---- the folder of texts

/// The stored texts that are out of order. The reader doesn't ask for the order, so some of them are accepted.
const STORED: &str = "rfc3388-6 rfc4145-7.1-offer rfc4585-4.5-unicast rfc5583-6.5 rfc5888-7 desk4 empty-values \
    keys-ignored minimal out-of-order refused-17-emails refused-32-medias-two-titles refused-bom refused-half-zone \
    refused-html refused-key-form refused-latin1 refused-long-bandwidth refused-no-version refused-old-mac \
    refused-port refused-repeat-first refused-second-media-title refused-second-name refused-short-origin \
    unknown-lines";
/// The one whose written form is: it has zones, and its last time has no repeat.
const WRITTEN: &str = "zones-moved";

/// A text whose order becomes another changes its class, and is named.
#[test]
fn the_folder_of_texts() {
    let (mut stored, mut written) = (Counts::default(), Counts::default());
    let (mut stored_out, mut written_out) = (Vec::new(), Vec::new());
    for folder in ["published", "kinds"] {
        let folder = format!("{}/../../texts/{folder}", env!("CARGO_MANIFEST_DIR"));
        let entries = fs::read_dir(&folder).unwrap_or_else(|error| panic!("{folder}: {error}"));
        let mut paths: Vec<PathBuf> = entries.map(|entry| entry.unwrap().path()).collect();
        paths.sort();
        for path in paths {
            let text = fs::read(&path).unwrap();
            let (counts, out) = match path.extension().and_then(|end| end.to_str()) {
                Some("sdp") => (&mut stored, &mut stored_out),
                Some("expected") if !text.starts_with(b"refused ") => (&mut written, &mut written_out),
                _ => continue,
            };
            if !counts.add(&text) {
                out.push(path.file_stem().unwrap().to_str().unwrap().to_string());
            }
        }
    }
    stored.print("stored texts");
    written.print("stored written forms");
    assert_eq!(stored_out, STORED.split(' ').collect::<Vec<_>>());
    assert_eq!(written_out, WRITTEN.split(' ').collect::<Vec<_>>());
    assert!(stored.yes >= 51 && written.yes >= 57);
}
