//! When a session starts: document 02, P3, over whole numbers, in two ways that share no code. `walked` has its sentences
//! one after the other and tries each k; `solved` divides, so that no number is too large for it. A test holds the two to
//! each other (tests/starts.rs). None of this calls our code.
use crate::area::{self, Repeat, Seen, Span, Time, Zone, SIZE};
use crate::{judge, Starts};
use generate::sessions::LONGEST;

/// The most starts that a list has.
pub const MOST: usize = 256;

/// The instant, the number of its time, and that of its repeat, 0 without.
pub type Start = (u64, u64, u64);

/// The k that are tried for one offset. What needs more is for `solved`.
const STEPS: i128 = 1_000;

/// All starts in the window, and `None` where that would take too long.
pub fn walked(seen: &Seen<Span>, from: u64, to: u64) -> Option<Vec<Start>> {
    // from here on no zone can bring a start back into the window
    let end = i128::from(to) + seen.zones.iter().map(|zone| -i128::from(zone.offset)).max().unwrap_or(0).max(0);
    let mut list = Vec::new();
    for (time, i) in seen.times.iter().zip(1..) {
        // "A start time of 0 is unbounded and lists nothing."
        if time.start == 0 {
            continue;
        }
        let repeats: Vec<_> = seen.repeats.iter().zip(1..).filter(|(repeat, _)| repeat.owner == i).collect();
        // "A time without repeats starts once, at its start time."
        if repeats.is_empty() && !dropped(time, time.start.into()) {
            list.push((i128::from(time.start), i, 0));
        }
        for (repeat, j) in repeats {
            let mut offsets: Vec<u64> = seen.offsets.iter().filter(|row| row.owner == j).map(|row| row.value).collect();
            // "one offset of 0 where none is written"
            if offsets.is_empty() {
                offsets.push(0);
            }
            for offset in offsets {
                let starts = each_k(time, repeat, offset, end)?;
                // "To each start of a repeat the zone offset .. is added"
                list.extend(starts.into_iter().map(|start| (start + zone_offset(&seen.zones, start), i, j)));
            }
        }
    }
    // "All starts that then lie within the caller's window (from included, to excluded) are listed"
    list.retain(|(at, ..)| i128::from(from) <= *at && *at < i128::from(to));
    // "rising, ties by time, then repeat"
    list.sort();
    Some(list.into_iter().map(|(at, i, j)| (at as u64, i, j)).collect())
}

/// "Starts at or after a non-zero stop time are dropped."
fn dropped(time: &Time, start: i128) -> bool {
    time.stop != 0 && start >= i128::from(time.stop)
}

/// "A repeat gives start + k times interval + offset for k from 0, only k = 0 for a zero interval": those before an end.
fn each_k(time: &Time, repeat: &Repeat, offset: u64, end: i128) -> Option<Vec<i128>> {
    let mut starts = Vec::new();
    for k in 0..STEPS {
        let start = i128::from(time.start) + k * i128::from(repeat.interval) + i128::from(offset);
        // with k it only grows
        if dropped(time, start) || start >= end {
            return Some(starts);
        }
        starts.push(start);
        if repeat.interval == 0 {
            return Some(starts);
        }
    }
    None
}

/// "the zone offset of the latest adjustment time not after it (of equal ones the last)"
fn zone_offset(zones: &[Zone], start: i128) -> i128 {
    let before = zones.iter().filter(|zone| i128::from(zone.adjustment) <= start);
    // of equal ones `max_by_key` gives the last
    before.max_by_key(|zone| zone.adjustment).map_or(0, |zone| i128::from(zone.offset))
}

/// Past every sum.
const NEVER: i128 = 1 << 100;

/// Starts at equal distances: `count` of them, from `first` on.
struct Run {
    first: i128,
    interval: i128,
    count: i128,
    time: u64,
    repeat: u64,
}

/// From an instant on, and before another one, so much is added.
struct Part {
    from: i128,
    to: i128,
    shift: i128,
}

/// The line of time, cut at the adjustment times; these don't fall.
fn parts(zones: &[Zone]) -> Vec<Part> {
    let mut parts = vec![Part { from: 0, to: NEVER, shift: 0 }];
    for zone in zones {
        let from = i128::from(zone.adjustment);
        parts.last_mut().expect("there is one").to = from;
        parts.push(Part { from, to: NEVER, shift: i128::from(zone.offset) });
    }
    parts
}

/// How many k from 0 on have k * interval < room.
fn below(room: i128, interval: i128) -> i128 {
    match room {
        ..=0 => 0,
        _ if interval == 0 => 1,
        _ => (room - 1) / interval + 1,
    }
}

/// What lies in the window, by time, repeat, offset and part. The adjustment times don't fall.
fn runs(seen: &Seen<Span>, from: u64, to: u64) -> Vec<Run> {
    let mut runs = Vec::new();
    let mut put = |series: &Run, stop: u64, part: &Part| {
        let stop = if stop == 0 { NEVER } else { i128::from(stop) };
        let low = part.from.max(i128::from(from) - part.shift);
        let high = part.to.min(stop).min(i128::from(to) - part.shift);
        let skipped = below(low - series.first, series.interval);
        let count = below(high - series.first, series.interval) - skipped;
        if count > 0 {
            runs.push(Run { first: series.first + skipped * series.interval + part.shift, count, ..*series });
        }
    };
    let once = Part { from: 0, to: NEVER, shift: 0 };
    let parts = parts(&seen.zones);
    for (at, time) in seen.times.iter().enumerate().filter(|(_, time)| time.start != 0) {
        let time_number = at as u64 + 1;
        let series = |interval: u64, offset: u64, repeat: usize| Run {
            first: i128::from(time.start) + i128::from(offset),
            interval: i128::from(interval),
            count: 0,
            time: time_number,
            repeat: repeat as u64,
        };
        let mut single = true;
        for (at, repeat) in seen.repeats.iter().enumerate().filter(|(_, repeat)| repeat.owner == time_number) {
            single = false;
            let number = at + 1;
            let written = seen.offsets.iter().filter(|offset| offset.owner == number as u64);
            let written: Vec<u64> = written.map(|offset| offset.value).collect();
            for offset in if written.is_empty() { &[0][..] } else { &written } {
                parts.iter().for_each(|part| put(&series(repeat.interval, *offset, number), time.stop, part));
            }
        }
        if single {
            put(&series(0, 0, 0), time.stop, &once);
        }
    }
    runs
}

/// How many starts the window has.
pub fn counted(seen: &Seen<Span>, from: u64, to: u64) -> i128 {
    runs(seen, from, to).iter().map(|run| run.count).sum()
}

/// All starts in the window, and `None` where they are more than a list has.
pub fn solved(seen: &Seen<Span>, from: u64, to: u64) -> Option<Vec<Start>> {
    let runs = runs(seen, from, to);
    let count: i128 = runs.iter().map(|run| run.count).sum();
    if count > MOST as i128 {
        return None;
    }
    let starts = |run: &Run| {
        let (first, interval, time, repeat) = (run.first, run.interval, run.time, run.repeat);
        (0..run.count).map(move |k| ((first + k * interval) as u64, time, repeat))
    };
    let mut list: Vec<Start> = runs.iter().flat_map(starts).collect();
    list.sort();
    Some(list)
}

/// The tables of an area; or the refusal that comes whatever the window is: 2, 1, 23 as for writing, 28.
pub fn tables(text: &[u8], area: &[u8]) -> Result<Seen<Span>, u64> {
    if area.len() < SIZE {
        return Err(2);
    }
    if text.len() > LONGEST {
        return Err(1);
    }
    if !judge::judge(text, area) {
        return Err(23);
    }
    let seen = area::decode(&judge::cleaned(area)).expect("the judge takes it");
    // "Adjustment times must not fall along the line."
    if seen.zones.windows(2).any(|pair| pair[1].adjustment < pair[0].adjustment) {
        return Err(28);
    }
    Ok(seen)
}

/// What `sdp_starts` must answer: all 770 numbers.
pub fn due(tables: &Result<Seen<Span>, u64>, from: u64, to: u64) -> Starts {
    let mut due = Starts::default();
    match tables.as_ref().map(|seen| solved(seen, from, to)) {
        Err(number) => due.number = *number,
        Ok(None) => due.number = 29,
        Ok(Some(list)) => {
            due.count = list.len() as u64;
            for (place, (at, time, repeat)) in list.into_iter().enumerate() {
                (due.at[place], due.time[place], due.repeat[place]) = (at, time, repeat);
            }
        }
    }
    due
}

/// The starts of an answer, or its refusal.
pub fn rows(starts: &Starts) -> Result<Vec<Start>, u64> {
    let row = |place: usize| (starts.at[place], starts.time[place], starts.repeat[place]);
    match starts.number {
        0 => Ok((0..starts.count as usize).map(row).collect()),
        number => Err(number),
    }
}
