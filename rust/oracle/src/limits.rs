//! Document 01's own rules on top of the crate: 1, a text that is too long, and 21, a table that is full.
use crate::keys;
use crate::refusal::{parse, Refusal};
use sdp_types::Session;

/// The longest text.
pub const TEXT: usize = 32_768;

/// The tables in document 01's order: emails, phones, media connections, bandwidths, times, repeats, offsets, zones,
/// attributes, medias.
pub const TABLES: [usize; 10] = [16, 16, 64, 64, 32, 64, 256, 64, 512, 32];

/// How many records a session has for each table.
pub fn counts(session: &Session) -> [usize; 10] {
    let repeats = || session.times.iter().flat_map(|time| &time.repeats);
    let in_medias = |count: fn(&sdp_types::Media) -> usize| session.medias.iter().map(count).sum::<usize>();
    [
        session.emails.len(),
        session.phones.len(),
        in_medias(|media| media.connections.len()),
        session.bandwidths.len() + in_medias(|media| media.bandwidths.len()),
        session.times.len(),
        repeats().count(),
        repeats().map(|repeat| repeat.offsets.len()).sum(),
        session.time_zones.len(),
        session.attributes.len() + in_medias(|media| media.attributes.len()),
        session.medias.len(),
    ]
}

/// The lowest number of a table whose records don't fit.
pub fn full(session: &Session) -> Option<u64> {
    let over = counts(session)
        .iter()
        .zip(TABLES)
        .position(|(count, most)| *count > most);
    over.map(|at| at as u64 + 1)
}

/// The table that is too small for the first `lines` lines, all of which the crate accepts.
fn full_after(text: &[u8], ends: &[usize], lines: usize) -> Option<u64> {
    let end = if lines == 0 { 0 } else { ends[lines - 1] };
    match parse(&text[..end]) {
        Ok(session) => full(&session),
        // only empty lines so far: no version and no records
        Err(Refusal { number: 6, .. }) => None,
        Err(refusal) => panic!("the crate does not go line by line: {refusal:?} before the refused line"),
    }
}

/// Reads as documents 01 and 02 say. The length is that of the whole text, the line of a refusal too.
pub fn read(text: &[u8]) -> Result<Session, Refusal> {
    if text.len() > TEXT {
        return Err(Refusal {
            number: 1,
            ..Refusal::default()
        });
    }
    let left = keys::without(text);
    within_tables(&left.text).map_err(|refusal| left.in_whole(refusal))
}

/// Lines are handled strictly one after another, so the earliest refused line wins: 21 is for a line that the crate
/// accepts, and after which a table has too many records.
fn within_tables(text: &[u8]) -> Result<Session, Refusal> {
    let answer = parse(text);
    let ends: Vec<usize> = text
        .split_inclusive(|byte| *byte == b'\n')
        .scan(0, |end, line| {
            *end += line.len();
            Some(*end)
        })
        .collect();
    let (accepted, table) = match &answer {
        Ok(session) => (ends.len(), full(session)),
        Err(refusal) => {
            // 6 names no line, and comes before any record
            let before = (refusal.line as usize).saturating_sub(1);
            (before, full_after(text, &ends, before))
        }
    };
    if table.is_none() {
        return answer;
    }
    // The records only grow with the lines.
    let lines: Vec<usize> = (1..=accepted).collect();
    let over = lines[lines.partition_point(|&line| full_after(text, &ends, line).is_none())];
    let table = full_after(text, &ends, over).expect("after this line a table is too small");
    Err(Refusal::at_field(21, over, table))
}
