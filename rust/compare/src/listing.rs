//! One area through a function that lists starts, and through the oracle of `starts`. The function is a parameter, so
//! that the comparison can be tested with some that are known to be wrong.
use crate::area::{Offset, Repeat, Seen, Span, Time, Zone};
use crate::starts::{counted, due, rows, tables, walked, MOST};
use crate::{judge, Starts};
use generate::hours::{self, Hours};
use generate::Random;
use std::collections::BTreeMap;

/// From included, to excluded.
pub type Window = (u64, u64);

/// What became of the windows so far.
#[derive(Debug, Default)]
pub struct Counts {
    pub sessions: u64,
    pub windows: u64,
    /// Lists that the oracle found by walking too.
    pub walked: u64,
    pub empty: u64,
    /// Lists that are neither empty nor full.
    pub some: u64,
    pub full: u64,
    /// Refused with 29 for one start too much.
    pub one_over: u64,
    /// Lists in which two starts have one instant.
    pub ties: u64,
    pub starts: u64,
    pub refused: BTreeMap<u64, u64>,
}

pub struct Listing<L> {
    lister: L,
    pub counts: Counts,
}

/// The first number in which two answers differ.
fn difference(ours: &Starts, due: &Starts) -> String {
    if (ours.number, ours.count) != (due.number, due.count) {
        return format!("ours {} with {} starts, due {} with {}", ours.number, ours.count, due.number, due.count);
    }
    let row = |starts: &Starts, place: usize| (starts.at[place], starts.time[place], starts.repeat[place]);
    let place = (0..MOST).find(|place| row(ours, *place) != row(due, *place)).expect("a row that differs");
    format!("start {place} of {}: ours {:?}, due {:?}", due.count, row(ours, place), row(due, place))
}

impl<L: Fn(&[u8], &[u8], u64, u64) -> Starts> Listing<L> {
    pub fn new(lister: L) -> Self {
        Listing { lister, counts: Counts::default() }
    }

    /// Both sides on one area: each answer by all its numbers. The oracle is held to itself where k can be walked.
    pub fn compare(&mut self, text: &[u8], area: &[u8], windows: &[Window]) -> Result<(), String> {
        let tables = tables(text, area);
        self.counts.sessions += 1;
        for (from, to) in windows.iter().copied() {
            let ours = (self.lister)(text, area, from, to);
            let due = due(&tables, from, to);
            if ours != due {
                return Err(format!("from {from} to {to}: {}", difference(&ours, &due)));
            }
            if let Some(list) = tables.as_ref().ok().and_then(|seen| walked(seen, from, to)) {
                self.counts.walked += 1;
                let walked = if list.len() > MOST { Err(29) } else { Ok(list) };
                if walked != rows(&due) {
                    return Err(format!("from {from} to {to}: walked {walked:?}, solved {:?}", rows(&due)));
                }
            }
            self.count(&due, &tables, from, to);
        }
        Ok(())
    }

    fn count(&mut self, due: &Starts, tables: &Result<Seen<Span>, u64>, from: u64, to: u64) {
        let counts = &mut self.counts;
        let list = &due.at[..due.count as usize];
        counts.windows += 1;
        counts.starts += due.count;
        counts.ties += u64::from(list.windows(2).any(|pair| pair[0] == pair[1]));
        if due.number > 0 {
            *counts.refused.entry(due.number).or_default() += 1;
            let over = tables.as_ref().is_ok_and(|seen| counted(seen, from, to) == MOST as i128 + 1);
            counts.one_over += u64::from(over);
            return;
        }
        *match list.len() {
            0 => &mut counts.empty,
            MOST => &mut counts.full,
            _ => &mut counts.some,
        } += 1;
    }

    /// As `compare`; a difference ends the test with the emptiest area that still shows it.
    pub fn same(&mut self, text: &[u8], area: &[u8], windows: &[Window]) {
        if self.compare(text, area, windows).is_err() {
            panic!("{}", self.smallest(text, area, windows));
        }
    }

    /// A report on the emptiest area found that still differs.
    pub fn smallest(&mut self, text: &[u8], area: &[u8], windows: &[Window]) -> String {
        let small = judge::emptiest(area, |less| self.compare(text, less, windows).is_err());
        let what = self.compare(text, &small, windows).expect_err("the emptiest area differs too");
        let report = format!("the two sides differ, text of {} bytes:\n{}\n", text.len(), text.escape_ascii());
        report + &judge::in_words(&small) + &what
    }
}

/// Generated times and zones, as an area has them.
pub fn seen(hours: &Hours) -> Seen<Span> {
    let mut seen = Seen::default();
    for (time, owner) in hours.times.iter().zip(1..) {
        seen.times.push(Time { start: time.start, stop: time.stop });
        for repeat in &time.repeats {
            seen.repeats.push(Repeat { owner, interval: repeat.interval, duration: repeat.duration });
            let owner = seen.repeats.len() as u64;
            seen.offsets.extend(repeat.offsets.iter().map(|value| Offset { owner, value: *value }));
        }
    }
    seen.zones.extend(hours.zones.iter().map(|(adjustment, offset)| Zone { adjustment: *adjustment, offset: *offset }));
    seen
}

fn pick<'a, T>(random: &mut Random, rows: &'a [T]) -> Option<&'a T> {
    (!rows.is_empty()).then(|| &rows[random.below(rows.len())])
}

/// The unadjusted start of some repeat: one of the first, or one about where something else is.
fn start(random: &mut Random, seen: &Seen<Span>, about: u64) -> Option<i128> {
    let repeat = pick(random, &seen.repeats)?;
    let number = seen.repeats.iter().position(|row| row == repeat)? as u64 + 1;
    let offsets: Vec<&Offset> = seen.offsets.iter().filter(|row| row.owner == number).collect();
    let offset = pick(random, &offsets).map_or(0, |row| row.value);
    let first = i128::from(seen.times.get(repeat.owner as usize - 1)?.start) + i128::from(offset);
    let interval = i128::from(repeat.interval);
    let k = match random.below(3) {
        0 => 0,
        1 => random.below(4) as i128,
        _ => (i128::from(about) - first).max(0) / interval.max(1),
    };
    Some(first + k * interval)
}

/// An instant at which something may change, or a second beside it.
fn instant(random: &mut Random, seen: &Seen<Span>) -> u64 {
    let time = pick(random, &seen.times).map_or((0, 0), |time| (time.start, time.stop));
    let zone = pick(random, &seen.zones).map_or((0, 0), |zone| (zone.adjustment, zone.offset));
    let plain = match random.below(4) {
        0 => hours::end(random),
        1 => zone.0,
        2 => time.0,
        _ => time.1,
    };
    let instant = start(random, seen, plain).filter(|_| !random.once_in(3)).unwrap_or(plain.into());
    let shift = if random.once_in(2) { i128::from(zone.1) } else { 0 };
    let beside = random.below(5) as i128 - 2;
    (instant + shift + beside.signum()).clamp(0, u64::MAX.into()) as u64
}

/// The last end of a window from here that has no more starts than a list; `None` where every end will do.
fn brim(seen: &Seen<Span>, from: u64) -> Option<u64> {
    let over = |to: u64| counted(seen, from, to) > MOST as i128;
    let (mut good, mut bad) = (from, u64::MAX);
    if !over(bad) {
        return None;
    }
    while bad - good > 1 {
        let middle = good + (bad - good) / 2;
        *if over(middle) { &mut bad } else { &mut good } = middle;
    }
    Some(good)
}

/// Windows for a session: between instants at which something may change, upside down too; of a second or a few; without
/// a start or an end; and now and then with as many starts as fit, and with one too much.
pub fn windows(random: &mut Random, seen: &Seen<Span>) -> Vec<Window> {
    let (one, other) = (instant(random, seen), instant(random, seen));
    let few = one.saturating_add(random.below(100) as u64);
    let mut windows =
        vec![(one, other), (one.min(other), one.max(other)), (one, few), (other, other.saturating_add(1))];
    windows.push([(0, u64::MAX), (one, u64::MAX), (0, other)][random.below(3)]);
    if random.once_in(8) {
        let from = if random.once_in(2) { one } else { 0 };
        windows.extend(brim(seen, from).into_iter().flat_map(|to| [(from, to), (from, to + 1)]));
    }
    windows
}
