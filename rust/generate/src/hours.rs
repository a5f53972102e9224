//! Times, repeats and zones for the list of starts. Their numbers are small, so that starts meet each other, the stops and
//! the adjustments; or those of a calendar; or at the ends of 64 bits; or any.
use crate::Random;

pub struct Repeat {
    pub interval: u64,
    pub duration: u64,
    pub offsets: Vec<u64>,
}

pub struct Time {
    pub start: u64,
    pub stop: u64,
    pub repeats: Vec<Repeat>,
}

/// As a text has them: repeats behind their time, offsets in their repeat.
pub struct Hours {
    pub times: Vec<Time>,
    /// Adjustment time and offset. They seldom fall.
    pub zones: Vec<(u64, i64)>,
}

#[derive(Debug, Clone, Copy, PartialEq, Eq, PartialOrd, Ord)]
pub enum Kind {
    /// Below 60, with zones of less than half a minute: k can be walked.
    Small,
    /// Days and weeks from 2025 on, with zones of hours.
    Calendar,
    /// Near 0, 2^63 and 2^64.
    Ends,
    /// From all of these.
    Mixed,
}

pub const KINDS: [Kind; 4] = [Kind::Small, Kind::Calendar, Kind::Ends, Kind::Mixed];

/// When the calendar's times begin: 3,960,000,000 s after 1900.
const CALENDAR: u64 = 3_960_000_000;
const HOUR: u64 = 3_600;
const DAY: u64 = 24 * HOUR;

/// A number at an end of 64 bits or of 63, or near it.
pub fn end(random: &mut Random) -> u64 {
    let near = random.below(4) as u64;
    match random.below(6) {
        0 => near,
        1 => u64::MAX - near,
        2 => (1 << 63) + near,
        3 => (1 << 63) - 1 - near,
        4 => (1 << 62) + near,
        _ => random.next(),
    }
}

/// One of the kinds that `Mixed` is made of, and each other as itself.
fn plain(random: &mut Random, kind: Kind) -> Kind {
    match kind {
        Kind::Mixed => KINDS[random.below(3)],
        kind => kind,
    }
}

/// An instant: a start, a stop or an adjustment.
fn instant(random: &mut Random, kind: Kind) -> u64 {
    match plain(random, kind) {
        Kind::Small => random.below(60) as u64,
        Kind::Calendar => CALENDAR + random.below(60 * 24) as u64 * HOUR + random.below(2) as u64,
        _ => end(random),
    }
}

fn interval(random: &mut Random, kind: Kind) -> u64 {
    match plain(random, kind) {
        Kind::Small => random.below(14) as u64,
        Kind::Calendar => [0, HOUR, DAY, 7 * DAY][random.below(4)],
        _ => [0, 1, 2, 1 << 32, 1 << 62, 1 << 63, u64::MAX - 1, u64::MAX, end(random)][random.below(9)],
    }
}

fn offset(random: &mut Random, kind: Kind) -> u64 {
    match plain(random, kind) {
        Kind::Small => random.below(20) as u64,
        Kind::Calendar => random.below(100) as u64 * HOUR / 2,
        _ => end(random),
    }
}

fn shift(random: &mut Random, kind: Kind) -> i64 {
    match plain(random, kind) {
        Kind::Small => random.below(58) as i64 - 29,
        Kind::Calendar => (random.below(9) as i64 - 4) * HOUR as i64 / 2,
        _ => match random.below(6) {
            0 => i64::MIN + random.below(3) as i64,
            1 => i64::MAX - random.below(3) as i64,
            2 => random.below(5) as i64 - 2,
            _ => random.next() as i64,
        },
    }
}

/// How many rows: mostly few; sometimes `most`, all that are left.
fn some(random: &mut Random, few: usize, most: usize, often: bool) -> usize {
    if often && random.once_in(2) {
        return most;
    }
    random.below(few + 1).min(most)
}

/// Of one kind; now and then with tables that are full.
pub fn hours(random: &mut Random, kind: Kind) -> Hours {
    let full = random.once_in(40);
    let (mut repeats, mut offsets) = (64, 256);
    let mut times = Vec::new();
    for _ in 0..some(random, 3, 31, full) + 1 {
        let mut time = Time { start: instant(random, kind), stop: 0, repeats: Vec::new() };
        if !random.once_in(3) {
            time.stop = instant(random, kind);
        }
        for _ in 0..some(random, 2, repeats.min(3), full) {
            let mut repeat =
                Repeat { interval: interval(random, kind), duration: offset(random, kind), offsets: Vec::new() };
            for _ in 0..some(random, 3, offsets.min(6), full) {
                repeat.offsets.push(offset(random, kind));
            }
            repeats -= 1;
            offsets -= repeat.offsets.len();
            time.repeats.push(repeat);
        }
        times.push(time);
    }
    let mut adjustments: Vec<u64> = (0..some(random, 4, 64, full)).map(|_| instant(random, kind)).collect();
    if !random.once_in(12) {
        adjustments.sort();
    }
    let zones = adjustments.into_iter().map(|adjustment| (adjustment, shift(random, kind))).collect();
    Hours { times, zones }
}

/// Of any kind.
pub fn any(random: &mut Random) -> Hours {
    let kind = KINDS[random.below(KINDS.len())];
    hours(random, kind)
}

impl Hours {
    /// A text that is read as these, and as nothing more.
    pub fn text(&self) -> Vec<u8> {
        let mut text = "v=0\n".to_string();
        for time in &self.times {
            text += &format!("t={} {}\n", time.start, time.stop);
            for repeat in &time.repeats {
                text += &format!("r={} {}", repeat.interval, repeat.duration);
                repeat.offsets.iter().for_each(|offset| text += &format!(" {offset}"));
                text.push('\n');
            }
        }
        if !self.zones.is_empty() {
            let pairs: Vec<_> =
                self.zones.iter().map(|(adjustment, offset)| format!("{adjustment} {offset}")).collect();
            text += &format!("z={}\n", pairs.join(" "));
        }
        text.into_bytes()
    }
}
