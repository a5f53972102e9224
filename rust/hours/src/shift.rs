//! What the z line added to a start. The list of starts doesn't say, so it is found backwards: a shift is one of the z
//! line's, or none, and the start without it must be one of the repeat's, with just this shift in force.
use sdp::{Session, Start, TimeZone};

/// The shift of each of the starts that equal this one: there are as many as there are such starts.
pub fn shifts(session: &Session<'_>, start: Start) -> Vec<i64> {
    let repeat = start.repeat.and_then(|number| session.repeat(number));
    let (Some(time), Some(repeat)) = (session.time(start.time), repeat) else {
        return vec![0]; // a time without repeats starts once, and isn't shifted
    };
    let zones: Vec<TimeZone> = session.time_zones().collect();
    let mut offsets: Vec<u64> = repeat.offsets().map(u64::from).collect();
    if offsets.is_empty() {
        offsets.push(0);
    }
    let ended = |at: i128| time.stop_time > 0 && i128::from(time.stop_time) <= at;
    let repeats = |after: i128| match i128::from(repeat.repeat_interval) {
        0 => after == 0,
        interval => after >= 0 && after % interval == 0,
    };
    let mut found = Vec::new();
    for shift in possible(&zones) {
        let at = i128::from(start.at) - i128::from(shift);
        if in_force(&zones, at) == shift && !ended(at) {
            let after = |offset: &&u64| repeats(at - i128::from(time.start_time) - i128::from(**offset));
            found.extend(offsets.iter().filter(after).map(|_| shift));
        }
    }
    found
}

/// None, and those of the z line, each once.
fn possible(zones: &[TimeZone]) -> Vec<i64> {
    let mut all = vec![0];
    for zone in zones {
        if !all.contains(&zone.offset) {
            all.push(zone.offset);
        }
    }
    all
}

/// That of the latest zone whose adjustment time is not after the start.
fn in_force(zones: &[TimeZone], at: i128) -> i64 {
    zones.iter().rev().find(|zone| i128::from(zone.adjustment_time) <= at).map_or(0, |zone| zone.offset)
}
