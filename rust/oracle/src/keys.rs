//! Document 02, P4: a k line has no use any more, and a key is never written. The crate goes on reading and writing them.
//! So it is asked about the text with its well-formed k lines after its first non-empty line taken out, and about the
//! session without its keys.
use crate::{Refusal, Session};

/// What is left of a text without its k lines.
#[derive(Debug)]
pub struct Left {
    pub text: Vec<u8>,
    /// The number that each line has in the whole text.
    lines: Vec<u64>,
}

/// A CR belongs to the ending only where an LF follows.
pub(crate) fn without_end(line: &[u8]) -> &[u8] {
    match line {
        [start @ .., b'\r', b'\n'] | [start @ .., b'\n'] => start,
        last => last,
    }
}

/// Takes the k lines out. A line of bad form stays, and so does the first one that isn't empty, whatever its letter is.
pub fn without(text: &[u8]) -> Left {
    let mut left = Left {
        text: Vec::with_capacity(text.len()),
        lines: Vec::new(),
    };
    let mut begun = false;
    for (whole, number) in text.split_inclusive(|byte| *byte == b'\n').zip(1..) {
        let line = without_end(whole);
        if begun && line.starts_with(b"k=") && !line.contains(&0) && !line.contains(&b'\r') {
            continue;
        }
        begun |= !line.is_empty();
        left.text.extend(whole);
        left.lines.push(number);
    }
    left
}

impl Left {
    /// A refusal of what is left, with its line in the whole text. A place needs no moving: by the crate only 7 has one, and no
    /// line is taken out above the version.
    pub fn in_whole(&self, refusal: Refusal) -> Refusal {
        let of_key = (8..=11).contains(&refusal.number) && matches!(refusal.field, 25 | 26);
        assert!(refusal.number != 19 && !of_key, "a k line was left in: {refusal:?}");
        let at = (refusal.line as usize).checked_sub(1);
        Refusal {
            line: at.map_or(0, |at| self.lines[at]),
            ..refusal
        }
    }
}

/// The session as it is written.
pub fn without_keys(session: &Session) -> Session {
    let mut session = session.clone();
    session.key = None;
    session.medias.iter_mut().for_each(|media| media.key = None);
    session
}
