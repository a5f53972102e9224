//! A text and its canonical form side by side. `align` says which line became which, by the lines that the records carry,
//! `cells` how bytes are shown, `page` puts the two columns together. Only `answer` calls the archive. `program` is what
//! `hours` does alike.
pub mod align;
pub mod cells;
pub mod page;
pub mod program;

use sdp::{Area, Counts, Error, Session};

/// What the archive says of a text that it accepts.
#[derive(Debug, Clone, PartialEq, Eq)]
pub struct Accepted {
    /// The canonical form: what `canon` prints.
    pub written: Vec<u8>,
    /// For each of its lines the line of the text that it was read from, as its record carries it; 0 for one that the text
    /// doesn't have.
    pub from: Vec<u64>,
    /// The text's lines by what the reader made of them.
    pub counts: Counts,
}

/// What it says of a text.
pub fn answer(text: &[u8]) -> Result<Accepted, Error> {
    let mut area = Area::new();
    let session = sdp::read(text, &mut area)?;
    let counts = session.counts().expect("what was read has counts");
    Ok(Accepted { written: session.to_vec(), from: from(text, session), counts })
}

/// The lines of the records, in the order in which they are written. An r line is written for its offsets too, and a z line for
/// all zones. The version is no record: its line is the first that isn't empty.
fn from(text: &[u8], session: Session) -> Vec<u64> {
    let version = align::lines(text).iter().position(|line| !line.is_empty()).map_or(0, |at| at as u64 + 1);
    let mut from = vec![version, session.origin().line(), session.line_of_session_name()];
    from.extend(session.session_description().map(|_| session.line_of_session_description()));
    from.extend(session.uri().map(|_| session.line_of_uri()));
    from.extend(session.emails().map(|email| email.line()));
    from.extend(session.phones().map(|phone| phone.line()));
    from.extend(session.connection().map(|connection| connection.line()));
    from.extend(session.bandwidths().map(|bandwidth| bandwidth.line()));
    for time in session.times() {
        from.push(time.line());
        from.extend(time.repeats().map(|repeat| repeat.line()));
    }
    if session.times().is_empty() {
        from.push(0); // t=0 0, which every session has
    }
    from.extend(session.time_zones().next().map(|zone| zone.line()));
    from.extend(session.attributes().map(|attribute| attribute.line()));
    for media in session.medias() {
        from.push(media.line());
        from.extend(media.media_title.map(|_| media.line_of_media_title()));
        from.extend(media.connections().map(|connection| connection.line()));
        from.extend(media.bandwidths().map(|bandwidth| bandwidth.line()));
        from.extend(media.attributes().map(|attribute| attribute.line()));
    }
    from
}
