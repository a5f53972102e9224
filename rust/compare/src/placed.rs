//! Where the strings of an area must stand. Equal bytes alone would pass anywhere in the text, so each string is held
//! to the line it was read from, and to its borders there.
use crate::area::{Connection, Seen, Span};
use oracle::leaf;

fn same<T: PartialEq + std::fmt::Debug>(what: &str, line: u64, ours: T, due: T) -> Result<(), String> {
    if ours == due {
        return Ok(());
    }
    Err(format!("line {line}: {what} is {ours:?} and must be {due:?}"))
}

/// Cut at the first colon: the whole value, or two parts with the colon between.
fn halves(what: &str, line: u64, value: Span, first: Span, second: Option<Span>) -> Result<(), String> {
    let end = second.map_or(first.end(), Span::end);
    same(what, line, (first.place, end), (value.place, value.end()))?;
    second.map_or(Ok(()), |second| same(what, line, second.place, first.end() + 1))
}

/// Fields between runs of spaces, one after another.
fn fields(text: &[u8], what: &str, line: u64, value: Span, spans: &[Span]) -> Result<(), String> {
    let mut from = value.place;
    for span in spans {
        let good = span.place >= from
            && span.end() <= value.end()
            && span.len > 0
            && (span.place == value.place || text[span.place - 1] == b' ')
            && (span.end() == value.end() || text[span.end()] == b' ');
        if !good {
            return Err(format!("line {line}: {what} has {span:?}, which is no field of its line"));
        }
        from = span.end() + 1;
    }
    Ok(())
}

fn connection(text: &[u8], line: u64, value: Span, read: &Connection<Span>) -> Result<(), String> {
    fields(text, "connection", line, value, &[read.nettype, read.addrtype, read.address])
}

/// Walks the lines of an accepted text beside the records.
pub fn check(seen: &Seen<Span>, text: &[u8]) -> Result<(), String> {
    let (mut emails, mut phones) = (seen.emails.iter(), seen.phones.iter());
    let (mut connections, mut bandwidths) = (seen.connections.iter(), seen.bandwidths.iter());
    let (mut attributes, mut medias) = (seen.attributes.iter(), seen.medias.iter());
    let (mut times, mut repeats) = (0, seen.repeats.iter());
    let mut latest = None;
    let mut owner = 0;
    let (mut single, mut titles) = (Vec::new(), 0);
    let lines = leaf::cuts(text).into_iter().filter(|cut| cut.kind == 2).skip(1);
    for cut in lines {
        let (line, letter) = (cut.line, cut.letter as u8);
        let value = Span {
            place: cut.place as usize,
            len: cut.len as usize,
        };
        let none = |what: &str| format!("line {line}: no {what}");
        match (owner > 0, letter) {
            (false, b'o') => {
                let origin = seen.origin.as_ref().ok_or(none("origin"))?;
                let rest = [origin.sess_id, origin.nettype, origin.addrtype, origin.unicast_address];
                let all: Vec<Span> = origin.username.into_iter().chain(rest).collect();
                fields(text, "origin", line, value, &all)?;
            }
            (false, b's') => same("name", line, seen.name, value)?,
            (false, b'i') => same("description", line, seen.description, Some(value))?,
            (false, b'u') => same("uri", line, seen.uri, Some(value))?,
            (false, b'e') => same("email", line, emails.next(), Some(&value))?,
            (false, b'p') => same("phone", line, phones.next(), Some(&value))?,
            (false, b'c') => connection(text, line, value, seen.connection.as_ref().ok_or(none("connection"))?)?,
            (false, b't') => times += 1,
            (false, b'r') => same("repeat's owner", line, repeats.next().map(|row| row.owner), Some(times))?,
            (_, b'b') => {
                let row = bandwidths.next().ok_or(none("bandwidth"))?;
                same("bandwidth's owner and place", line, (row.owner, row.bwtype.place), (owner, value.place))?;
            }
            (_, b'a') => {
                let row = attributes.next().ok_or(none("attribute"))?;
                same("attribute's owner", line, row.owner, owner)?;
                halves("attribute", line, value, row.name, row.value)?;
            }
            (_, b'm') => {
                owner += 1;
                let row = medias.next().ok_or(none("media"))?;
                same("media's ends", line, (row.media.place, row.fmt.end()), (value.place, value.end()))?;
                same("media's fmt", line, row.fmt.place, row.proto.end() + 1)?;
                latest = Some(row);
            }
            (true, b'i') => {
                titles += 1;
                same("media title", line, latest.and_then(|row| row.title), Some(value))?;
            }
            (true, b'c') => {
                let row = connections.next().ok_or(none("media connection"))?;
                same("connection's owner", line, row.owner, owner)?;
                connection(text, line, value, &row.connection)?;
            }
            _ => {}
        }
        if owner == 0 {
            single.push(letter);
        }
    }
    // what no line gave is absent, and a missing name has place and length 0
    let had = |letter| single.contains(&letter);
    let count = |what: &str, ours: usize, due: usize| same(what, 0, ours, due);
    same("origin's presence", 0, seen.origin.is_some(), had(b'o'))?;
    if !had(b's') {
        same("missing name", 0, seen.name, Span::default())?;
    }
    same("description's presence", 0, seen.description.is_some(), had(b'i'))?;
    same("uri's presence", 0, seen.uri.is_some(), had(b'u'))?;
    same("connection's presence", 0, seen.connection.is_some(), had(b'c'))?;
    same("key's presence", 0, seen.key.is_some(), false)?; // a k line gives none
    count("rows without a line", emails.len() + phones.len() + connections.len(), 0)?;
    count("rows without a line", bandwidths.len() + attributes.len(), 0)?;
    count("rows without a line", medias.len() + repeats.len(), 0)?;
    count("times", seen.times.len(), times as usize)?;
    count("media titles", seen.medias.iter().filter(|row| row.title.is_some()).count(), titles)?;
    count("media keys", seen.medias.iter().filter(|row| row.key.is_some()).count(), 0)
}
