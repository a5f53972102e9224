//! The list of starts beside an oracle of its own (`compare::starts`): document 02, P3, over whole numbers. The crate
//! sdp-types has no such list. Every answer is compared by all its 770 numbers.
mod plain;
use compare::account::read;
use compare::area::{Offset, Repeat, Seen, Span, Time, Zone, SESSION, SIZE};
use compare::judge::judge;
use compare::listing::{self, Listing, Window};
use compare::made::{self, at, earlier, line_at, put_two, DAMAGES};
use compare::starts::{counted, rows, solved, tables, walked, Start, MOST};
use compare::{fill, length, starts, Starts};
use generate::hours::{self, hours, Kind, KINDS};
use generate::random::count;
use generate::sessions::{self, LONGEST};
use generate::Random;
use plain::starts::SHOWN;
use std::collections::BTreeMap;
use std::time::{Duration, Instant};

/// From so many random inputs on, it is asked whether they show enough.
const MANY: u64 = 2_000;
const LAST: u64 = u64::MAX;
const HALF: u64 = 1 << 63;

fn ours() -> Listing<fn(&[u8], &[u8], u64, u64) -> Starts> {
    Listing::new(starts)
}

/// The area of an accepted text.
fn area_of(text: &[u8]) -> Option<Vec<u8>> {
    let mut area = vec![0xa5; SIZE];
    (read(text, &mut area).number == 0).then_some(area)
}

/// What the archive lists of a text whose lines follow `v=0`.
fn listed(lines: &str, from: u64, to: u64) -> Result<Vec<Start>, u64> {
    let text = format!("v=0\n{lines}").into_bytes();
    let area = area_of(&text).unwrap_or_else(|| panic!("{lines:?} is read"));
    rows(&starts(&text, &area, from, to))
}

/// A session of one time: its repeats with their offsets, and zones.
fn one_time(start: u64, stop: u64, repeats: &[(u64, &[u64])], zones: &[(u64, i64)]) -> Seen<Span> {
    let mut seen = Seen { times: vec![Time { start, stop }], ..Seen::default() };
    for ((interval, offsets), owner) in repeats.iter().zip(1..) {
        seen.repeats.push(Repeat { owner: 1, interval: *interval, duration: 1 });
        seen.offsets.extend(offsets.iter().map(|value| Offset { owner, value: *value }));
    }
    seen.zones.extend(zones.iter().map(|(adjustment, offset)| Zone { adjustment: *adjustment, offset: *offset }));
    seen
}

// ---- by hand

/// The slips that are nearest at hand, each with a case by hand; slips.rs shows that these cases see them.
#[test]
fn the_nearest_slips() {
    for shown in &SHOWN {
        let (from, to) = shown.window;
        assert_eq!(listed(shown.text, from, to), Ok(shown.starts.to_vec()), "{}", shown.slip);
        let text = format!("v=0\n{}", shown.text).into_bytes();
        let seen = tables(&text, &area_of(&text).unwrap()).unwrap();
        let due = Some(shown.starts.to_vec());
        assert_eq!((solved(&seen, from, to), walked(&seen, from, to)), (due.clone(), due), "{}", shown.slip);
    }
}

/// The request's other sentences, each worked out by hand.
#[test]
fn the_sentences() {
    // "A time without repeats starts once, at its start time", whatever the z line says
    assert_eq!(listed("t=100 0\nz=50 7\n", 0, LAST), Ok(vec![(100, 1, 0)]));
    // "A start time of 0 is unbounded and lists nothing", nor do its repeats; the next time is the second all the same
    assert_eq!(listed("t=0 0\nr=10 1 5\nt=7 0\nr=0 1\n", 0, LAST), Ok(vec![(7, 2, 2)]));
    // "one offset of 0 where none is written", for each repeat by itself
    assert_eq!(listed("t=5 0\nr=0 1\nr=0 1 2\n", 0, LAST), Ok(vec![(5, 1, 1), (7, 1, 2)]));
    // the stop is judged before the shift, and the zone is the one of the unshifted start
    assert_eq!(listed("t=10 25\nr=10 1\nz=20 -15\n", 0, LAST), Ok(vec![(5, 1, 1), (10, 1, 1)]));
    assert_eq!(listed("t=10 21\nr=10 1\nz=20 15\n", 0, LAST), Ok(vec![(10, 1, 1), (35, 1, 1)]));
    // "All sums are over whole numbers, and only the last need lie in 64 bits"
    assert_eq!(
        listed(&format!("t={LAST} 0\nr=0 1 {LAST}\nz={LAST} -{HALF}\n"), 0, LAST),
        Ok(vec![]), // 2^65 - 2 - 2^63
    );
    assert_eq!(
        listed(&format!("t={LAST} 0\nr={LAST} 1 1 {HALF}\nz={LAST} -{HALF}\n"), 0, LAST),
        Ok(vec![(HALF, 1, 1)]), // 2^64 - 2^63; the other offset's 2^64 - 1 is past the window, and so is k = 1
    );
    assert_eq!(listed(&format!("t={HALF} 0\nr=1 1\nz=1 -{HALF}\n"), 0, 3), Ok(vec![(0, 1, 1), (1, 1, 1), (2, 1, 1)]));
    assert_eq!(listed("t=5 0\nr=3 1\nz=1 -6\n", 0, 6), Ok(vec![(2, 1, 1), (5, 1, 1)]));
    // "Adjustment times must not fall along the line", whether something repeats or not; equal ones are fine
    assert_eq!(listed("t=5 0\nz=9 1 8 1\n", 0, 1), Err(28));
    assert_eq!(listed("z=9 1 8 1\n", 9, 1), Err(28));
    assert_eq!(listed("t=5 0\nz=8 1 8 2 8 1\n", 0, 9), Ok(vec![(5, 1, 0)]));
    // no window, no start
    assert_eq!(listed("t=5 0\nr=1 1\n", 9, 9), Ok(vec![]));
    assert_eq!(listed("t=5 0\nr=1 1\n", LAST, 0), Ok(vec![]));
    assert_eq!(listed("", 0, LAST), Ok(vec![]));
}

/// The list is never walked to: every second since 1900, asked for centuries later, is there at once.
#[test]
fn far_away() {
    let begin = Instant::now();
    let mut listing = ours();
    let mut random = Random::of_test("far away");
    let seen = one_time(1, 0, &[(1, &[])], &[(HALF, -7)]);
    let area = plain::encode(&seen);
    let calls = count(2_000);
    for _ in 0..calls {
        let from = random.next() >> random.below(20);
        let Some(last) = from.checked_add(MOST as u64).filter(|last| *last < LAST) else { continue };
        let due = u64::try_from(counted(&seen, from, last)).expect("few");
        listing.same(b"", &area, &[(from, last), (from, last + 1)]);
        assert!(due == MOST as u64 || from < 1 || from.abs_diff(HALF) < 300, "from {from}: {due}");
    }
    println!("starts: far away: {:?} in {:?}", listing.counts, begin.elapsed());
    assert!(begin.elapsed() < Duration::from_secs(60));
    assert!(listing.counts.full * 3 > calls && listing.counts.one_over * 3 > calls);
}

// ---- the oracle

/// Walking and dividing give the same, on small numbers and in every kind of window.
#[test]
fn the_two_ways_agree() {
    let mut random = Random::of_test("two ways");
    let (rounds, mut lists, mut starts, mut over) = (count(40_000), 0, 0, 0);
    for _ in 0..rounds {
        let mut seen = listing::seen(&hours(&mut random, Kind::Small));
        seen.zones.sort_by_key(|zone| zone.adjustment);
        let mut windows = listing::windows(&mut random, &seen);
        windows.extend((0..6).map(|_| (random.below(120) as u64, random.below(120) as u64)));
        for (from, to) in windows {
            let Some(walked) = walked(&seen, from, to) else { continue };
            assert_eq!(counted(&seen, from, to), walked.len() as i128, "{seen:?} from {from} to {to}");
            lists += 1;
            match solved(&seen, from, to) {
                Some(solved) => {
                    starts += solved.len();
                    assert_eq!(solved, walked, "{seen:?} from {from} to {to}");
                }
                None => over += 1,
            }
        }
    }
    println!("starts: {lists} windows walked and solved, {starts} starts, {over} with too many");
    assert!(rounds < MANY || lists > 6 * rounds && starts as u64 > 10 * rounds && over > 0);
}

// ---- ours beside it

/// Times and zones of each kind, in areas that hold nothing else.
#[test]
fn generated() {
    let mut random = Random::of_test("starts");
    let rounds = count(60_000);
    for kind in KINDS {
        let mut listing = ours();
        for _ in 0..rounds {
            let seen = listing::seen(&hours(&mut random, kind));
            let windows = listing::windows(&mut random, &seen);
            listing.same(b"", &plain::encode(&seen), &windows);
        }
        let counts = &listing.counts;
        println!("starts: {kind:?}: {counts:?}");
        // few sessions needn't show all of this
        if rounds >= MANY {
            assert_eq!(counts.refused.keys().collect::<Vec<_>>(), [&28, &29], "{kind:?}");
            assert!(counts.some > counts.windows / 20 && counts.empty > counts.windows / 20, "{kind:?}");
            assert!(
                counts.full > rounds / 100 && counts.one_over > rounds / 100 && counts.ties > rounds / 50,
                "{kind:?}"
            );
            assert!(counts.walked > counts.windows / 4, "{kind:?}");
        }
    }
}

/// The same by way of a text and our reader; and the view says what the archive says.
#[test]
fn read_from_texts() {
    let mut random = Random::of_test("starts of texts");
    let (mut listing, mut by_view) = (ours(), 0);
    for _ in 0..count(20_000) {
        let hours = hours::any(&mut random);
        let (text, seen) = (hours.text(), listing::seen(&hours));
        let area = area_of(&text).unwrap_or_else(|| panic!("{}", text.escape_ascii()));
        assert!(earlier(&area) == plain::encode(&seen), "{}", text.escape_ascii());
        let windows = listing::windows(&mut random, &seen);
        listing.same(&text, &area, &windows);
        let mut area = sdp::Area::new();
        let session = sdp::read(&text, &mut area).unwrap();
        windows.iter().for_each(|window| the_view(session, *window));
        by_view += windows.len();
    }
    println!("starts: of texts: {:?}, {by_view} by the view too", listing.counts);
    assert!(listing.counts.some > 0 && by_view as u64 == listing.counts.windows);
}

/// The view's list, its refusal, and the time and the repeat that it names.
fn the_view(session: sdp::Session, (from, to): Window) {
    let list = match (session.starts(from..to), listed_by(session, from, to)) {
        (Err(error), due) => return assert_eq!(Err(error.number()), due.map(|_| ())),
        (Ok(list), due) => {
            let row = |start: sdp::Start| (start.at, start.time as u64, start.repeat.unwrap_or(0) as u64);
            assert_eq!(Ok(list.iter().map(row).collect()), due);
            list
        }
    };
    assert_eq!((list.is_empty(), list.get(list.len())), (list.iter().next().is_none(), None));
    for (place, start) in list.iter().enumerate().take(3) {
        let time = session.time(start.time).expect("a time of the session");
        assert_eq!((list.get(place), Some(time)), (Some(start), session.times().nth(start.time - 1)));
        match start.repeat {
            None => assert!(time.repeats().is_empty() && start.at == time.start_time),
            Some(number) => {
                let before: usize = session.times().take(start.time - 1).map(|time| time.repeats().len()).sum();
                assert_eq!(session.repeat(number), time.repeats().nth(number - before - 1));
                assert!(session.repeat(number).is_some());
            }
        }
    }
}

fn listed_by(session: sdp::Session, from: u64, to: u64) -> Result<Vec<Start>, u64> {
    let text = session.to_vec();
    let area = area_of(&text).expect("what is written is read");
    rows(&starts(&text, &area, from, to))
}

/// Accepted texts of the readers' own generators: strings, medias and all.
#[test]
fn other_texts() {
    let mut random = Random::of_test("starts of other texts");
    let (mut listing, seed) = (ours(), generate::random::from_env("SEED", 8866));
    let rounds = count(20_000);
    for number in 0..rounds {
        let text = if number % 2 == 0 {
            sessions::nth(seed, 3_000_000_000 + number)
        } else {
            let lines = sessions::good(&mut random);
            sessions::ended(&mut random, &lines)
        };
        let Some(area) = area_of(&text) else { continue };
        let windows = tables(&text, &area).map(|seen| listing::windows(&mut random, &seen));
        listing.same(&text, &area, &windows.unwrap_or(vec![(0, LAST)]));
    }
    println!("starts: of other texts: {:?}", listing.counts);
    assert!(rounds < MANY / 2 || listing.counts.some > 0 && listing.counts.refused.contains_key(&28));
}

/// Areas that no reader made, good ones and damaged ones: 23 exactly where the judge says so, and where the writer does.
#[test]
fn made_and_damaged_areas() {
    let mut random = Random::of_test("starts of made areas");
    let (mut listing, mut by_kind) = (ours(), BTreeMap::<&str, [u64; 2]>::new());
    let rounds = count(3_000);
    for round in 0..rounds {
        let text = made::text(&mut random);
        let mut area = made::area(&mut random, &text);
        if round % 2 == 0 {
            // times and zones that are near each other, and noise past their counts
            let hours = plain::encode(&listing::seen(&hours::any(&mut random)));
            for (first, behind) in [
                (at("times", 0, "start") - 2, at("attributes", 0, "owner") - 2),
                (line_at("times", 0), line_at("attributes", 0)),
            ] {
                area[first..behind].copy_from_slice(&hours[first..behind]);
            }
            made::damage(&mut random, "cell not judged", &text, &mut area);
        }
        for kind in [&["none"], &DAMAGES[..]].concat() {
            let mut damaged = area.clone();
            if kind != "none" {
                made::damage(&mut random, kind, &text, &mut damaged);
            }
            let good = judge(&text, &damaged);
            by_kind.entry(kind).or_default()[usize::from(!good)] += 1;
            let windows = match tables(&text, &damaged) {
                Ok(seen) => listing::windows(&mut random, &seen),
                Err(_) => vec![(0, LAST), (0, 0)],
            };
            listing.same(&text, &damaged, &windows);
            let unfit = starts(&text, &damaged, 0, 0).number == 23;
            let written = [length(&text, &damaged), fill(&text, &damaged, &mut [])].map(|answer| answer.number == 23);
            assert_eq!((unfit, written), (!good, [!good; 2]), "{kind}");
        }
    }
    println!("starts: made areas: {:?}\n    good and bad by damage: {by_kind:?}", listing.counts);
    assert!(by_kind["none"][1] == 0 && by_kind["cell not judged"][1] == 0);
    assert!(listing.counts.some > rounds && listing.counts.refused[&23] > rounds);
}

/// Every window over a session with starts close together, equal ones and shifted ones among them.
#[test]
fn every_small_window() {
    let mut listing = ours();
    let mut seen = one_time(9, 30, &[(4, &[0, 2, 2]), (0, &[3]), (7, &[])], &[(11, 3), (17, -6), (17, 2), (24, -9)]);
    seen.times.extend([Time { start: 13, stop: 0 }, Time { start: 20, stop: 21 }, Time { start: 20, stop: 20 }]);
    seen.repeats.push(Repeat { owner: 3, interval: 5, duration: 0 });
    let area = plain::encode(&seen);
    for from in 0..45 {
        for to in 0..45 {
            listing.same(b"", &area, &[(from, to)]);
        }
    }
    println!("starts: every small window: {:?}", listing.counts);
    assert!(listing.counts.walked == 45 * 45 && listing.counts.ties > 500 && listing.counts.some > 500);
}

/// Two adjustments in every place around the starts, equal ones too, each bringing starts forward or back, or not at all;
/// and a stop in every place around them.
#[test]
fn around_adjustments_and_stops() {
    let mut listing = ours();
    let mut add = |stop, interval, zones: [(u64, i64); 2]| {
        let seen = one_time(10, stop, &[(interval, &[0, 2])], &zones);
        listing.same(b"", &plain::encode(&seen), &[(0, 100), (10, 15), (zones[0].0, zones[1].0)]);
    };
    for interval in [0, 1, 3, 5] {
        for shifts in [(-4, 3), (3, -4), (-12, 0), (0, 5), (2, 2)] {
            for first in 8..=20 {
                (first..=20).for_each(|second| add(19, interval, [(first, shifts.0), (second, shifts.1)]));
            }
            (0..=20).for_each(|stop| add(stop, interval, [(11, shifts.0), (15, shifts.1)]));
        }
    }
    println!("starts: around adjustments and stops: {:?}", listing.counts);
    assert!(listing.counts.walked == listing.counts.windows && listing.counts.ties > 500);
}

/// Starts, stops, intervals, offsets, zones and windows at the ends of 64 bits and of 63, in every combination.
#[test]
fn at_the_ends() {
    let mut listing = ours();
    let zones: [&[(u64, i64)]; 10] = [
        &[],
        &[(0, i64::MIN)],
        &[(0, i64::MAX)],
        &[(0, -1)],
        &[(HALF, i64::MIN)],
        &[(LAST, i64::MIN)],
        &[(LAST, i64::MAX)],
        &[(LAST, -1)],
        &[(0, 1), (LAST, i64::MIN)],
        &[(LAST, -1), (LAST, i64::MIN + 1)],
    ];
    let windows =
        [(0, LAST), (0, 1), (1, 2), (HALF - 1, HALF + 1), (LAST - 2, LAST), (LAST - 1, LAST), (LAST, LAST), (LAST, 0)];
    for start in [1, HALF, LAST - 1, LAST] {
        for stop in [0, 1, HALF, LAST] {
            for interval in [0, 1, HALF, LAST] {
                for offsets in [&[][..], &[0], &[1], &[HALF], &[LAST]] {
                    for zones in zones {
                        let seen = one_time(start, stop, &[(interval, offsets)], zones);
                        listing.same(b"", &plain::encode(&seen), &windows);
                    }
                }
            }
        }
    }
    println!("starts: at the ends: {:?}", listing.counts);
    assert!(listing.counts.some > 1_000 && listing.counts.refused[&29] > 100);
}

// ---- as many as fit

/// Lists of 255 to 258 starts, made in different ways: one run, equal starts, many offsets, many times, a shift that folds
/// two runs into one window.
#[test]
fn as_many_as_fit() {
    let mut listing = ours();
    let last = one_time(LAST - 300, 0, &[(1, &[])], &[]);
    let halves = one_time(1_000, 0, &[(2, &[]), (2, &[1])], &[]);
    let equal = one_time(1_000, 0, &[(1, &[0]), (1, &[0])], &[]);
    let folded = one_time(1_000, 0, &[(1, &[])], &[(1_128, -128)]);
    let run = one_time(1_000, 0, &[(1, &[])], &[]);
    for (seen, from, each, sizes) in [
        (&run, 1_000, 1, 255..=258),
        (&last, LAST - 300, 1, 255..=258),
        (&halves, 1_000, 1, 255..=258),
        (&equal, 1_000, 2, 127..=129),
        (&folded, 1_000, 2, 127..=129),
    ] {
        for seconds in sizes {
            let window = (from, from + seconds);
            let due = if seconds * each > MOST as u64 { (29, 0) } else { (0, seconds * each) };
            listing.same(b"", &plain::encode(seen), &[window]);
            let answer = starts(b"", &plain::encode(seen), window.0, window.1);
            assert_eq!((answer.number, answer.count), due, "{seen:?} {window:?}");
        }
    }
    // 64 repeats of 4 offsets, all at once or each by itself, and one time more
    for apart in [0, 1] {
        let mut seen = one_time(1_000, 0, &[], &[]);
        for owner in 1..=64 {
            seen.repeats.push(Repeat { owner: 1, interval: 0, duration: 0 });
            seen.offsets.extend((0..4).map(|at| Offset { owner, value: apart * (4 * owner + at) }));
        }
        for more in 0..2 {
            let area = plain::encode(&seen);
            listing.same(b"", &area, &[(0, LAST), (1_000, 1_001), (1_001, LAST)]);
            let answer = starts(b"", &area, 0, LAST);
            assert_eq!((answer.number, answer.count), if more == 0 { (0, 256) } else { (29, 0) });
            seen.times.push(Time { start: 5_000, stop: 0 });
        }
    }
    println!("starts: as many as fit: {:?}", listing.counts);
    assert!(listing.counts.full >= 7 && listing.counts.one_over >= 5);
}

/// All four tables full, and windows of all sizes.
#[test]
fn full_tables() {
    let mut random = Random::of_test("full tables of starts");
    let mut listing = ours();
    for _ in 0..count(200) {
        let kind = KINDS[random.below(KINDS.len())];
        let mut seen = Seen::default();
        while seen.times.len() < 32 || seen.repeats.len() < 64 || seen.offsets.len() < 256 || seen.zones.len() < 64 {
            let more = listing::seen(&hours(&mut random, kind));
            seen.times.extend(more.times);
            seen.repeats.extend(more.repeats);
            seen.offsets.extend(more.offsets);
            seen.zones.extend(more.zones);
        }
        seen.times.truncate(32);
        seen.repeats.truncate(64);
        seen.offsets.truncate(256);
        seen.zones.truncate(64);
        seen.zones.sort_by_key(|zone| zone.adjustment);
        seen.repeats.iter_mut().zip(0..).for_each(|(row, at)| row.owner = 1 + at / 2);
        seen.offsets.iter_mut().zip(0..).for_each(|(row, at)| row.owner = 1 + at / 4);
        let windows = listing::windows(&mut random, &seen);
        listing.same(b"", &plain::encode(&seen), &windows);
    }
    println!("starts: full tables: {:?}", listing.counts);
    assert!(listing.counts.some > 0 && listing.counts.refused.contains_key(&29));
}

// ---- refusals

/// 2, then 1, then 23, then 28, then 29, whatever else holds; and nothing is listed after any of them.
#[test]
fn the_order_of_refusals() {
    let mut tried = BTreeMap::<u64, u64>::new();
    let mut text = b"v=0".to_vec();
    for len in [3, LONGEST, LONGEST + 1, 2 * LONGEST] {
        text.resize(len, b'\n');
        for bad in [None, Some((at("uri", 0, "mark"), 2)), Some((line_at("times", 0), 32_769))] {
            for falls in [false, true] {
                let mut seen = one_time(5, 0, &[(1, &[])], &[(9, 0), (9, 0)]);
                seen.zones[1].adjustment -= u64::from(falls);
                let mut area = plain::encode(&seen);
                bad.into_iter().for_each(|(at, value)| put_two(&mut area, at, value));
                // beyond the size stands what would be bad anywhere
                area.resize(SIZE + 50, 0xff);
                for size in [0, 1, 31, SIZE / 2, SESSION, SIZE - 1, SIZE, SIZE + 1, SIZE + 50] {
                    for to in [0, 9, 5 + 256, 5 + 257, LAST] {
                        let number = match (size < SIZE, len > LONGEST, bad.is_some(), falls, to > 5 + 256) {
                            (true, ..) => 2,
                            (_, true, ..) => 1,
                            (_, _, true, ..) => 23,
                            (_, _, _, true, _) => 28,
                            (.., true) => 29,
                            _ => 0,
                        };
                        let answer = starts(&text, &area[..size], 0, to);
                        let due = if number == 0 {
                            compare::starts::due(&Ok(seen.clone()), 0, to)
                        } else {
                            Starts::default()
                        };
                        assert!(answer == Starts { number, ..due }, "text {len}, area {size}, to {to}: {answer:?}");
                        *tried.entry(number).or_default() += 1;
                    }
                }
            }
        }
    }
    println!("starts: the order of refusals, by number: {tried:?}");
    assert_eq!(tried.keys().collect::<Vec<_>>(), [&0, &1, &2, &23, &28, &29]);
}
