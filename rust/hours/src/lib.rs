//! The hours at which a session starts, as people read them. Which hours these are says the archive alone
//! (`sdp::Session::starts`). `dates` turns SDP's seconds into dates and back, `shift` finds what the z line added,
//! `page` draws the list, or two lists side by side, and `words` are those that the program is given.
pub mod dates;
pub mod page;
pub mod shift;
pub mod words;

use sdp::Start;
use std::ops::Range;

/// A start with what is told of it.
#[derive(Debug, Clone, Copy, PartialEq, Eq)]
pub struct Hour {
    pub start: Start,
    /// How often its repeat comes, in seconds.
    pub interval: Option<u64>,
    /// What the z line added, in seconds.
    pub shift: i64,
    pub lines: Lines,
}

/// The lines of the text that a start comes from, as the records carry them.
#[derive(Debug, Clone, Copy, PartialEq, Eq)]
pub struct Lines {
    /// Of the t line.
    pub time: u64,
    /// Of the r line.
    pub repeat: Option<u64>,
    /// Of the z line, where it shifted the start.
    pub zone: Option<u64>,
}

impl Hour {
    /// The start before the z line's shift.
    pub fn unshifted(&self) -> i128 {
        i128::from(self.start.at) - i128::from(self.shift)
    }
}

/// The starts of a text in a window.
#[derive(Debug, Clone, PartialEq, Eq)]
pub struct Hours {
    pub list: Vec<Hour>,
    /// When the first of its times begins. A start time of 0 is none.
    pub first: Option<u64>,
}

/// The text read, and its starts listed; or why not.
pub fn hours(text: &[u8], window: Range<u64>) -> Result<Hours, sdp::Error> {
    let mut area = sdp::Area::new();
    let session = sdp::read(text, &mut area)?;
    let starts = session.starts(window)?;
    let mut list: Vec<Hour> = Vec::new();
    for start in &starts {
        // equal starts stand together, and each takes the next of their shifts
        let before = list.iter().rev().take_while(|hour| hour.start == start).count();
        let shift = shift::shifts(&session, start).get(before).copied();
        let shift = shift.expect("a start comes of an offset of its repeat");
        let time = session.time(start.time).expect("a start comes of a time");
        let repeat = start.repeat.and_then(|number| session.repeat(number));
        // all zones carry the line of the z line
        let zone = session.time_zones().find(|zone| shift != 0 && zone.offset == shift);
        list.push(Hour {
            start,
            interval: repeat.map(|repeat| repeat.repeat_interval),
            shift,
            lines: Lines {
                time: time.line(),
                repeat: repeat.map(|repeat| repeat.line()),
                zone: zone.map(|zone| zone.line()),
            },
        });
    }
    let first = session.times().map(|time| time.start_time).filter(|start| *start > 0).min();
    Ok(Hours { list, first })
}
