//! Areas that an earlier release left, with keys in them (document 02, P4) and without lines (P9): judged as before, and
//! written without their keys. Some are stored, in texts/kept; others are made from what is read today.
use compare::area::{all_zero, decode, Key, Seen, Time, SESSION, SIZE};
use compare::bench::Bench;
use compare::judge::{cells, faults, judge, two, Cell, Fault, Kind};
use compare::made::{earlier, keyed, put_two};
use compare::writing::{folded, is_key, ours, Outcome};
use compare::{account, length, read, starts, theirs, Answer, Told};
use generate::random::count;
use generate::sessions::{self, LONGEST};
use generate::Random;
use oracle::{keys, written, Session};
use std::fs;
use std::path::Path;

/// The area of an accepted text as it is read today.
fn today(text: &[u8]) -> Option<Vec<u8>> {
    let mut area = vec![0xa5; SIZE];
    (account::read(text, &mut area).number == 0).then_some(area)
}

/// The names of the stored areas, each with its text and the area, which is carried over: zeros follow it.
fn stored() -> Vec<(String, Vec<u8>, Vec<u8>)> {
    let texts = Path::new(env!("CARGO_MANIFEST_DIR")).join("../../texts");
    let mut all = Vec::new();
    for entry in fs::read_dir(texts.join("kept")).unwrap_or_else(|error| panic!("texts/kept: {error}")) {
        let path = entry.unwrap().path();
        assert_eq!(path.extension().and_then(|end| end.to_str()), Some("area"), "{}", path.display());
        let name = path.file_stem().unwrap().to_str().unwrap().to_string();
        let text = texts.join(format!("kinds/{name}.sdp"));
        let text = fs::read(&text).unwrap_or_else(|error| panic!("{}: {error}", text.display()));
        let mut area = fs::read(path).unwrap();
        assert_eq!(area.len(), SESSION, "{name}");
        assert_eq!(length(&text, &area).number, 2, "{name}: by itself it is too short");
        area.resize(SIZE, 0);
        all.push((name, text, area));
    }
    all.sort();
    assert_eq!(all.len(), 5, "texts/kept has five areas");
    all
}

fn strings(text: &[u8], area: &[u8]) -> Seen<Vec<u8>> {
    decode(area).unwrap().strings(text).unwrap()
}

fn keys_of<S: Clone>(seen: &Seen<S>) -> Vec<Option<Key<S>>> {
    [seen.key.clone()].into_iter().chain(seen.medias.iter().map(|media| media.key.clone())).collect()
}

fn without_keys(mut seen: Seen<Vec<u8>>) -> Seen<Vec<u8>> {
    seen.key = None;
    seen.medias.iter_mut().for_each(|media| media.key = None);
    seen
}

/// All that must hold of an area with keys and of that of the same text today: how many keys there are.
fn holds(text: &[u8], kept: &[u8], today: &[u8]) -> usize {
    assert_eq!(kept.len(), SIZE);
    // they differ in the cells of keys, which are zero today, and in the lines, which were not noted
    for cell in cells(kept) {
        let at = cell.at..cell.at + cell.width;
        if is_key(cell.part, cell.name) {
            assert!(all_zero(&today[at]), "{} {}", cell.part.name, cell.name);
        } else if cell.kind == Kind::Line {
            assert!(all_zero(&kept[at]), "{} {}", cell.part.name, cell.name);
        } else {
            assert_eq!(kept[at.clone()], today[at], "{} {}", cell.part.name, cell.name);
        }
    }
    assert!(judge(text, kept), "{:?}", faults(text, kept));
    // written as the area of today is, into outputs of all kinds, and as the crate writes the session without its keys
    let Outcome::Written(out) = ours().same(text, kept) else { panic!("a kept area is refused") };
    assert_eq!(Outcome::Written(out.clone()), ours().same(text, today));
    let seen = strings(text, kept);
    let mut by_the_crate = Vec::new();
    keys::without_keys(&theirs::session(&seen).unwrap()).write(&mut by_the_crate).unwrap();
    assert_eq!(out.escape_ascii().to_string(), by_the_crate.escape_ascii().to_string());
    assert!(!out.windows(3).any(|part| part == b"\nk="));
    // the list of starts is that of today
    for window in [(0, u64::MAX), (3_960_000_000, 3_970_000_000)] {
        assert!(starts(text, kept, window.0, window.1) == starts(text, today, window.0, window.1));
    }
    // read back it is the same session, without the keys; no times have become one
    if out.len() <= LONGEST {
        let mut bench = Bench::new(read as fn(&[u8], &mut [u8]) -> Told);
        assert_eq!(bench.same(&out), Answer::default());
        let mut due = without_keys(seen.clone());
        due.origin.get_or_insert_with(theirs::placeholder);
        if due.times.is_empty() {
            due.times.push(Time { start: 0, stop: 0 });
        }
        assert_eq!(strings(&out, bench.area()), due);
    }
    keys_of(&seen).iter().flatten().count()
}

/// The areas of the release that read k lines. The crate still reads them, and has the same session, with its keys.
#[test]
fn stored_areas() {
    let mut keys = 0;
    for (name, text, kept) in stored() {
        let today = today(&text).unwrap_or_else(|| panic!("{name} is read"));
        let count = holds(&text, &kept, &today);
        assert!(count > 0, "{name} has keys");
        keys += count;
        let session = Session::parse(&text).unwrap();
        assert_eq!(theirs::comparable(strings(&text, &kept)), theirs::of(&session), "{name}");
        let Outcome::Written(out) = ours().same(&text, &kept) else { panic!("{name} is refused") };
        assert_eq!(folded(&out), written(&session), "{name}");
        assert_ne!(without_keys(theirs::of(&session)), theirs::of(&session), "{name}");
        // what the other tests make is what that release left
        assert!(earlier(&keyed(&text, &today)) == kept, "{name}");
        // and the lines of today with these keys change nothing
        assert_eq!(ours().same(&text, &keyed(&text, &today)), Outcome::Written(out), "{name}");
    }
    println!("kept: {keys} keys in the stored areas");
    assert!(keys >= 10);
}

/// Generated texts with k lines, some of which that release refused: a second one, or one that is not UTF-8.
#[test]
fn made_of_what_is_read() {
    let mut random = Random::of_test("kept");
    let (mut areas, mut keys, mut read_before) = (0, 0, 0);
    let rounds = count(4_000);
    for round in 0..rounds {
        let text = if round % 3 == 0 {
            generate::texts::text(&mut random)
        } else {
            let lines = sessions::good(&mut random);
            sessions::ended(&mut random, &lines)
        };
        let Some(today) = today(&text) else { continue };
        let kept = earlier(&keyed(&text, &today));
        let count = holds(&text, &kept, &today);
        keys += count;
        areas += u64::from(count > 0);
        // where the crate reads the whole text, these are its keys
        if let Ok(session) = Session::parse(&text) {
            assert_eq!(theirs::comparable(strings(&text, &kept)), theirs::of(&session), "{}", text.escape_ascii());
            read_before += u64::from(count > 0);
        }
    }
    println!("kept: {areas} areas with {keys} keys, {read_before} of them as the crate reads the text");
    assert!(areas * 4 > rounds && read_before * 8 > rounds);
}

/// Each cell of each key, broken in every way: 23, as before, for the writer and for the list of starts. What an absent
/// key has in its other cells is not judged.
#[test]
fn broken_keys() {
    let (mut refused, mut taken) = (0, 0);
    for (name, text, kept) in stored() {
        let end = text.len();
        let text = [&text[..], b"\xc3\xa9\xff"].concat(); // a character, and a byte that is none
        let Outcome::Written(due) = ours().same(&text, &kept) else { panic!("{name} is refused") };
        let mut broken = |at: usize, change: &[(usize, usize)], why: Fault| {
            let mut area = kept.clone();
            change.iter().for_each(|(offset, value)| put_two(&mut area, at + offset, *value));
            assert_eq!(ours().same(&text, &area), Outcome::Bad([why].into()), "{name} at {at}: {change:?}");
            assert_eq!(starts(&text, &area, 0, 1).number, 23, "{name} at {at}: {change:?}");
            refused += 1;
        };
        let all = cells(&kept);
        let of_keys = || all.iter().filter(|cell| is_key(cell.part, cell.name));
        for cell in of_keys().filter(|cell| cell.judged) {
            match cell.kind {
                Kind::Mark => {
                    for mark in [2, 3, 256, 257, 0x8001, 0xffff] {
                        broken(cell.at, &[(0, mark)], Fault::Mark);
                    }
                }
                Kind::Text => {
                    let (place, len) = (two(&kept, cell.at), two(&kept, cell.at + 2));
                    broken(cell.at, &[(0, text.len() - len + 1)], Fault::Outside);
                    broken(cell.at, &[(0, text.len() + 1), (2, 0)], Fault::Outside);
                    broken(cell.at, &[(2, text.len() - place + 1)], Fault::Outside);
                    broken(cell.at, &[(0, 0xffff), (2, 0xffff)], Fault::Outside);
                    // a byte that is none, a half character, and its other half
                    for (from, bytes) in [(end + 2, 1), (end, 1), (end + 1, 1), (end, 3)] {
                        broken(cell.at, &[(0, from), (2, bytes)], Fault::Encoding);
                    }
                }
                Kind::Line => {
                    for line in [32_769, 0x8100, 0xffff] {
                        broken(cell.at, &[(0, line)], Fault::Line);
                    }
                }
                kind => panic!("a key has no cell of the kind {kind:?}"),
            }
        }
        // absent by its mark, with noise behind it; and another good string
        let mut same = |area: &[u8]| {
            assert_eq!(ours().same(&text, area), Outcome::Written(due.clone()), "{name}");
            taken += 1;
        };
        for mark in of_keys().filter(|cell| cell.kind == Kind::Mark && cell.judged) {
            let mut area = kept.clone();
            put_two(&mut area, mark.at, 0);
            same(&area);
            let of_this = of_keys().filter(|cell| cell.row == mark.row && cell.part.name == mark.part.name);
            // the line is that of the key, and not of its text
            let spoken_for = |cell: &&Cell| cell.kind != Kind::Line || !mark.name.ends_with("text mark");
            for cell in of_this.filter(|cell| cell.at > mark.at).filter(spoken_for) {
                area[cell.at..cell.at + cell.width].fill(0xff);
            }
            same(&area);
        }
        for cell in of_keys().filter(|cell| cell.kind == Kind::Text && cell.judged) {
            for (place, len) in [(0, end), (end, 2), (text.len(), 0), (0, 0)] {
                let mut area = kept.clone();
                put_two(&mut area, cell.at, place);
                put_two(&mut area, cell.at + 2, len);
                same(&area);
            }
        }
        for cell in of_keys().filter(|cell| cell.kind == Kind::Line && cell.judged) {
            for line in [1, 32_768] {
                let mut area = kept.clone();
                put_two(&mut area, cell.at, line);
                same(&area);
            }
        }
    }
    println!("kept: {refused} areas with a broken key refused, {taken} with another key written");
    assert!(refused > 200 && taken > 80);
}
