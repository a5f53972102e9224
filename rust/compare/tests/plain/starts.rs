//! A plain lister of starts in Rust, after document 02, P3, with one slip in it if wanted. Nothing is compared with it.
use compare::area::{decode, Seen, Span, Zone, SIZE};
use compare::judge;
use compare::Starts;

/// What each slip does wrong. The comparison must find every one. The first eight are nearest at hand.
pub const SLIPS: [&str; 43] = [
    "the sign of a zone is mirrored",
    "of equal adjustments the first",
    "adjustments are cumulative",
    "the stop is included",
    "the window's end is included",
    "a zero interval repeats",
    "ties by repeat, then time",
    "ties fall",
    "the window's start is left out",
    "a window upside down is turned",
    "k from 1",
    "a start time of 0 lists",
    "a stop time of 0 ends all",
    "a single start is not stopped",
    "a single start is shifted",
    "a time with repeats starts by itself too",
    "a repeat without offsets lists nothing",
    "a repeat with offsets has 0 too",
    "offsets belong to the next repeat",
    "all repeats belong to the first time",
    "repeats are numbered in their time",
    "numbers count from 0",
    "an adjustment at the start is not yet there",
    "the first zone holds from the beginning",
    "the zone is looked up without the offset",
    "the zone is looked up by what it gives",
    "the stop is judged on what the zone gives",
    "the last zone holds throughout",
    "sums wrap at 64 bits",
    "sums beyond 64 bits are dropped",
    "-2^63 is 2^63",
    "below 0 is 0",
    "equal starts are listed once",
    "equal starts of one repeat are listed once",
    "the list is in the tables' order",
    "256 starts are too many",
    "257 starts are listed as 256",
    "29 leaves the list",
    "equal adjustments fall",
    "the first adjustment may be above the second",
    "28 where something repeats only",
    "29 before 28",
    "only the tables of times are judged",
];

pub struct PlainStarts {
    pub slip: &'static str,
}

const MOST: usize = 256;
/// Past every sum.
const NEVER: i128 = 1 << 90;
const BEYOND: i128 = 1 << 64;

fn refused(number: u64) -> Starts {
    Starts { number, ..Starts::default() }
}

/// The start, and whose it is.
type Start = (i128, u64, u64);

/// One progression: where it begins and ends, how far apart its starts are, whether zones shift it.
struct Series {
    first: i128,
    stop: i128,
    interval: i128,
    time: u64,
    repeat: u64,
    /// What is added for the look-up of the zone alone.
    looked_up: i128,
    shifted: bool,
}

impl PlainStarts {
    fn slips(&self, slip: &str) -> bool {
        assert!(SLIPS.contains(&slip));
        self.slip == slip
    }

    pub fn starts(&self, text: &[u8], area: &[u8], from: u64, to: u64) -> Starts {
        if area.len() < SIZE {
            return refused(2);
        }
        if text.len() > 32_768 {
            return refused(1);
        }
        let mut area = judge::cleaned(area);
        if self.slips("only the tables of times are judged") {
            // all before the times and behind the zones is as in the empty session
            area[..2_002].fill(0);
            area[7_258..].fill(0);
        }
        if !judge::judge(text, &area) {
            return refused(23);
        }
        let seen = decode(&area).expect("the judge takes it");
        let falls =
            self.falls(&seen.zones) && !(self.slips("28 where something repeats only") && seen.repeats.is_empty());
        if falls && !self.slips("29 before 28") {
            return refused(28);
        }
        let (from, to) = match (from, to) {
            (from, to) if from > to && self.slips("a window upside down is turned") => (to, from),
            window => window,
        };
        let most = MOST - usize::from(self.slips("256 starts are too many"));
        let Some(mut list) = self.list(&seen, from.into(), to.into(), most) else {
            if self.slips("29 leaves the list") {
                return Starts { at: [1; MOST], ..refused(29) };
            }
            return refused(29);
        };
        if falls {
            return refused(28);
        }
        self.sort(&mut list);
        let mut answer = Starts { count: list.len() as u64, ..Starts::default() };
        for (place, (at, time, repeat)) in list.into_iter().enumerate() {
            let less = u64::from(self.slips("numbers count from 0"));
            (answer.at[place], answer.time[place], answer.repeat[place]) = (at as u64, time - less, repeat);
        }
        answer
    }

    fn falls(&self, zones: &[Zone]) -> bool {
        let equal = self.slips("equal adjustments fall");
        let zones =
            if self.slips("the first adjustment may be above the second") { zones.get(1..) } else { Some(zones) };
        let pairs = zones.unwrap_or(&[]).windows(2);
        pairs.into_iter().any(|pair| pair[1].adjustment < pair[0].adjustment + u64::from(equal))
    }

    fn sort(&self, list: &mut [Start]) {
        match self.slip {
            "ties by repeat, then time" => list.sort_by_key(|(at, time, repeat)| (*at, *repeat, *time)),
            "ties fall" => list.sort_by_key(|(at, time, repeat)| (*at, !*time, !*repeat)),
            "the list is in the tables' order" => {}
            _ => list.sort(),
        }
    }

    /// The starts in the window, `None` for too many.
    fn list(&self, seen: &Seen<Span>, from: i128, to: i128, most: usize) -> Option<Vec<Start>> {
        let mut list = Vec::new();
        for series in self.series(seen) {
            for (shift, low, high) in self.parts(&seen.zones, &series) {
                self.part(&series, shift, (low, high), (from, to), most, &mut list);
                if list.len() > most {
                    list.truncate(MOST);
                    return self.slips("257 starts are listed as 256").then_some(list);
                }
            }
        }
        if self.slips("equal starts are listed once") {
            self.sort(&mut list);
            list.dedup_by_key(|(at, ..)| *at);
        }
        if self.slips("equal starts of one repeat are listed once") {
            self.sort(&mut list);
            list.dedup();
        }
        Some(list)
    }

    /// A series for each time without repeats, and for each offset of a repeat.
    fn series(&self, seen: &Seen<Span>) -> Vec<Series> {
        let mut all = Vec::new();
        for (time, number) in seen.times.iter().zip(1..) {
            let owner = |owner: u64| if self.slips("all repeats belong to the first time") { 1 } else { owner };
            let series = |interval: u64, offset: u64, repeat: u64| Series {
                first: i128::from(time.start) + i128::from(offset),
                stop: if time.stop == 0 && !self.slips("a stop time of 0 ends all") { NEVER } else { time.stop.into() },
                interval: interval.into(),
                time: number,
                repeat,
                looked_up: if self.slips("the zone is looked up without the offset") { -i128::from(offset) } else { 0 },
                shifted: repeat > 0 || self.slips("a single start is shifted"),
            };
            if time.start == 0 && !self.slips("a start time of 0 lists") {
                continue;
            }
            let repeats: Vec<_> = seen.repeats.iter().zip(1..).filter(|(row, _)| owner(row.owner) == number).collect();
            if repeats.is_empty() || self.slips("a time with repeats starts by itself too") {
                all.push(series(0, 0, 0));
            }
            for (place, (repeat, j)) in repeats.into_iter().enumerate() {
                let written_for = if self.slips("offsets belong to the next repeat") { j - 1 } else { j };
                let offsets = seen.offsets.iter().filter(|row| row.owner == written_for).map(|row| row.value);
                let mut offsets: Vec<u64> = offsets.collect();
                let none = offsets.is_empty() && !self.slips("a repeat without offsets lists nothing");
                if none || !offsets.is_empty() && self.slips("a repeat with offsets has 0 too") {
                    offsets.push(0);
                }
                let shown = if self.slips("repeats are numbered in their time") { place as u64 + 1 } else { j };
                all.extend(offsets.into_iter().map(|offset| series(repeat.interval, offset, shown)));
            }
        }
        all
    }

    /// The zone offsets that hold for a series, each with where it begins and ends.
    fn parts(&self, zones: &[Zone], series: &Series) -> Vec<(i128, i128, i128)> {
        let mut parts = vec![(0, 0, NEVER)];
        if !series.shifted {
            return parts;
        }
        for (place, zone) in zones.iter().enumerate() {
            let begin = i128::from(zone.adjustment) - series.looked_up;
            let begin = begin + i128::from(self.slips("an adjustment at the start is not yet there"));
            let mut shift = i128::from(zone.offset);
            match self.slip {
                "the sign of a zone is mirrored" => shift = -shift,
                "adjustments are cumulative" => shift += parts.last().expect("one").0,
                "the last zone holds throughout" => shift = zones.last().expect("one").offset.into(),
                "-2^63 is 2^63" if zone.offset == i64::MIN => shift = -shift,
                _ => {}
            }
            if place == 0 && self.slips("the first zone holds from the beginning") {
                parts[0].0 = shift;
            }
            let same = place > 0 && zones[place - 1].adjustment == zone.adjustment;
            if same && self.slips("of equal adjustments the first") {
                continue;
            }
            parts.last_mut().expect("one").2 = begin;
            parts.push((shift, begin, NEVER));
        }
        parts
    }

    /// Puts what lies between `low` and `high` and then, shifted, in the window, until the list has more than `most`.
    fn part(
        &self,
        series: &Series,
        shift: i128,
        (low, high): (i128, i128),
        (from, to): (i128, i128),
        most: usize,
        list: &mut Vec<Start>,
    ) {
        let included = |slip: &str| i128::from(self.slips(slip));
        let single = series.repeat == 0 && self.slips("a single start is not stopped");
        let stop = if single { NEVER } else { series.stop } + included("the stop is included");
        let (mut low, mut high) = (low + shift, high + shift);
        if self.slips("the zone is looked up by what it gives") {
            (low, high) = (low - shift, high - shift);
        }
        high = high.min(if self.slips("the stop is judged on what the zone gives") { stop } else { stop + shift });
        high = high.min((to + included("the window's end is included")).min(BEYOND));
        if self.slips("sums beyond 64 bits are dropped") {
            high = high.min(BEYOND + shift);
        }
        if from > 0 || !self.slips("below 0 is 0") {
            low = low.max(from + included("the window's start is left out"));
        }
        let mut first = series.first + shift;
        if self.slips("sums wrap at 64 bits") {
            first = (series.first % BEYOND) + shift;
        }
        let interval = match series.interval {
            0 if series.repeat > 0 && self.slips("a zero interval repeats") => 60,
            interval => interval,
        };
        if series.repeat > 0 && interval > 0 && self.slips("k from 1") {
            first += interval;
        }
        if first < low && interval > 0 {
            first += (low - first + interval - 1) / interval * interval;
        }
        while low <= first && first < high && list.len() <= most {
            list.push((first.max(0), series.time, series.repeat));
            if interval == 0 {
                break;
            }
            first += interval;
        }
    }
}

/// A text, a window, and what is listed: each case shows a slip.
pub struct Shown {
    pub slip: &'static str,
    pub text: &'static str,
    pub window: (u64, u64),
    pub starts: &'static [(u64, u64, u64)],
}

/// The slips that are nearest at hand, each with an answer that was worked out by hand. The lines follow `v=0`.
#[rustfmt::skip] // a case in four lines
pub const SHOWN: [Shown; 10] = [
    Shown { slip: "the sign of a zone is mirrored",
        text: "t=100 0\nr=50 1\nz=120 -10\n", window: (0, 200),
        starts: &[(100, 1, 1), (140, 1, 1), (190, 1, 1)] },
    Shown { slip: "of equal adjustments the first",
        text: "t=100 0\nr=50 1\nz=120 7 120 -10\n", window: (0, 200),
        starts: &[(100, 1, 1), (140, 1, 1), (190, 1, 1)] },
    Shown { slip: "adjustments are cumulative",
        text: "t=100 0\nr=50 1\nz=100 5 150 -10\n", window: (0, 200),
        starts: &[(105, 1, 1), (140, 1, 1), (190, 1, 1)] },
    Shown { slip: "the stop is included",
        text: "t=100 200\nr=50 1\nt=70 70\nt=70 71\n", window: (0, 1000),
        starts: &[(70, 3, 0), (100, 1, 1), (150, 1, 1)] },
    Shown { slip: "the window's end is included",
        text: "t=100 0\nr=50 1\nt=150 0\n", window: (100, 150),
        starts: &[(100, 1, 1)] },
    Shown { slip: "the window's start is left out",
        text: "t=100 0\nr=50 1\nt=100 0\n", window: (100, 150),
        starts: &[(100, 1, 1), (100, 2, 0)] },
    Shown { slip: "a zero interval repeats",
        text: "t=100 0\nr=0 1 0 30\nr=0 1\n", window: (0, u64::MAX),
        starts: &[(100, 1, 1), (100, 1, 2), (130, 1, 1)] },
    Shown { slip: "ties by repeat, then time",
        text: "t=100 0\nr=0 1 5\nt=105 0\n", window: (0, 200),
        starts: &[(105, 1, 1), (105, 2, 0)] },
    Shown { slip: "ties fall",
        text: "t=100 0\nr=0 1\nr=0 1\nt=100 0\n", window: (0, 200),
        starts: &[(100, 1, 1), (100, 1, 2), (100, 2, 0)] },
    Shown { slip: "equal starts of one repeat are listed once",
        text: "t=100 0\nr=10 1 0 0\nz=110 -10\n", window: (100, 110),
        starts: &[(100, 1, 1), (100, 1, 1), (100, 1, 1), (100, 1, 1)] },
];
