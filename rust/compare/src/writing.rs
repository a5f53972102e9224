//! One area through a writer, and through the judge and the crate's writer, which gets the session without its keys. The
//! writer's two calls, the length and the filling, are parameters, so that the comparison can be tested with writers that
//! are known to be wrong.
use crate::area::{self, Part, PARTS, SESSION, SIZE};
use crate::judge::{self, Fault};
use crate::{fill, length, theirs, Answer};
use generate::sessions::LONGEST;
use oracle::{fold, written};
use std::collections::BTreeSet;

/// What became of an area: the text that both sides wrote, or why both refuse it.
#[derive(Debug, Clone, PartialEq, Eq)]
pub enum Outcome {
    Written(Vec<u8>),
    Bad(BTreeSet<Fault>),
}

pub struct Writing<L, F> {
    length: L,
    fill: F,
}

pub type Length = fn(&[u8], &[u8]) -> Answer;
pub type Fill = fn(&[u8], &[u8], &mut [u8]) -> Answer;

/// The archive's writer.
pub fn ours() -> Writing<Length, Fill> {
    Writing::new(length, fill)
}

/// What the output holds before a call: no byte of it is ASCII, as most of what is written is.
fn pattern(len: usize) -> Vec<u8> {
    (0..len).map(|at| (at * 89 + at / 256) as u8 | 0x80).collect()
}

fn refusal(number: u64, len: usize) -> Answer {
    Answer {
        number,
        len: len as u64,
        ..Answer::default()
    }
}

/// The most that a part or a row takes beside its strings: letter, `=`, CR LF, what stands between its fields, 20 digits
/// for each number, and a unit and a sign where it may have them.
#[rustfmt::skip]
const BESIDE: [usize; 16] = [
    30, 0, 0, 0, 6, 0, // origin to key; name, description and uri are in FIXED
    4, 4, 6, 25, // emails, phones, connections, bandwidths
    45, 47, 22, 44, // times, repeats, offsets, zones
    5, 52, // attributes, medias with title
];

/// v, s, i, u, `t=0 0` and the z line, without what they hold.
const FIXED: usize = 28;

/// From an output of so many bytes on it is filled at once; before a shorter one is, the length is found. Every string
/// counts whole, absent or not, but for those of keys, which are never written. By docs/AREA.md, and not by our code; its
/// definition is crates/sdp_room/specs/Room.antt.
pub fn at_once_from(area: &[u8]) -> usize {
    let mut sum = FIXED;
    for (part, beside) in PARTS.iter().zip(BESIDE) {
        let (rows, first) = if part.rows == 0 { (1, part.at) } else { (judge::two(area, part.at), part.at + 2) };
        for row in 0..rows {
            let at = first + row * part.width;
            let strings = part.fields.iter().filter(|(_, width, name)| *width == 4 && !is_key(part, name));
            sum += beside + strings.map(|(offset, ..)| judge::two(area, at + offset + 2)).sum::<usize>();
        }
    }
    sum
}

/// Whether a field belongs to a key: it is judged, and not written.
pub fn is_key(part: &Part, field: &str) -> bool {
    part.name == "key" || field.starts_with("key ")
}

/// Noise in absent strings may ask for outputs of megabytes, which would be slow.
const LONG_OUTPUT: usize = 100_000;

/// What the crate's writer writes for an area that is good, by way of the decoder, without its keys. An error is a rule of
/// docs/AREA.md that is broken, or a string that Rust can't hold, a key's too.
pub fn by_the_crate(text: &[u8], area: &[u8]) -> Result<Vec<u8>, String> {
    let seen = area::decode(&judge::cleaned(area))?;
    theirs::session(&seen.strings(text)?).map(|session| written(&session))
}

impl<L: Fn(&[u8], &[u8]) -> Answer, F: Fn(&[u8], &[u8], &mut [u8]) -> Answer> Writing<L, F> {
    pub fn new(length: L, fill: F) -> Self {
        Writing { length, fill }
    }

    /// One call for the length. The answer must be `due`; text and area must be as they were. Gives the length.
    fn ask(&self, text: &[u8], area: &[u8], due: Answer) -> Result<usize, String> {
        let (kept_text, kept_area) = (text.to_vec(), area.to_vec());
        let answer = (self.length)(text, area);
        if answer != due {
            return Err(format!("the length: ours {answer:?}, due {due:?}"));
        }
        if text != kept_text || area != kept_area {
            return Err("the length: the text or the area was changed".into());
        }
        Ok(answer.len as usize)
    }

    /// One call with an output of `room` bytes. The answer must be `due`, and the output `out` and then what was there
    /// before; text and area must be as they were.
    fn call(&self, text: &[u8], area: &[u8], room: usize, due: Answer, out: &[u8]) -> Result<(), String> {
        let (kept_text, kept_area) = (text.to_vec(), area.to_vec());
        let before = pattern(room);
        let mut output = before.clone();
        let answer = (self.fill)(text, area, &mut output);
        let at = format!("with {room} bytes of output");
        if answer != due {
            return Err(format!("{at}: ours {answer:?}, due {due:?}"));
        }
        if output[..out.len()] != *out {
            return Err(format!("{at}:\nours\n{}\ndue\n{}", output[..out.len()].escape_ascii(), out.escape_ascii()));
        }
        if output[out.len()..] != before[out.len()..] {
            return Err(format!("{at}: bytes that are not written were changed"));
        }
        if text != kept_text || area != kept_area {
            return Err(format!("{at}: the text or the area was changed"));
        }
        Ok(())
    }

    /// The length, which must be that of `due`, and then the filling of just so many bytes, which must then hold `due`. One
    /// byte less is too short.
    pub fn exact(&self, text: &[u8], area: &[u8], due: &[u8]) -> Result<(), String> {
        let len = self.ask(text, area, refusal(0, due.len()))?;
        self.call(text, area, len, refusal(0, len), due)?;
        self.call(text, area, len - 1, refusal(22, len), b"")
    }

    /// What both calls judge before the session: an area that is too short, with this text and with one that is too long, and
    /// that one with the whole area. The session without its lines is too short too. Text and area must be as they were, which
    /// is looked at once: they are long.
    fn limits(&self, text: &[u8], area: &[u8]) -> Result<(), String> {
        let mut long = text.to_vec();
        long.resize(LONGEST + 1, b'\n');
        let (kept_text, kept_area) = (long.clone(), area.to_vec());
        let (short, session) = (&area[..SIZE - 1], &area[..SESSION]);
        for (text, area, number) in [(text, short, 2), (text, session, 2), (&long, short, 2), (&long, area, 1)] {
            let mut output = pattern(9);
            let answers = [(self.length)(text, area), (self.fill)(text, area, &mut output)];
            let at = format!("with {} bytes of text and {} of area", text.len(), area.len());
            if answers != [refusal(number, 0); 2] {
                return Err(format!("{at}: ours {answers:?}, due {number} of both"));
            }
            if output != pattern(9) {
                return Err(format!("{at}: {number}, and the output was changed"));
            }
        }
        if long != kept_text || text != &kept_text[..text.len()] || area != kept_area {
            return Err("2 or 1, and the text or the area was changed".into());
        }
        Ok(())
    }

    /// Both sides on one area of `SIZE` bytes or more, with a text that isn't too long: the length, the filling of just so
    /// many bytes, and outputs that are empty, short and longer, and so long that they are filled at once.
    pub fn compare(&self, text: &[u8], area: &[u8]) -> Result<Outcome, String> {
        let faults = judge::faults(text, area);
        let due = by_the_crate(text, area);
        match (faults.is_empty(), due) {
            (true, Ok(due)) => {
                let len = due.len();
                self.exact(text, area, &due)?;
                for room in [0, 1, len / 2] {
                    self.call(text, area, room, refusal(22, len), b"")?;
                }
                let at_once = at_once_from(area);
                if at_once < len {
                    return Err(format!("{len} bytes are written, and {at_once} are said to be enough"));
                }
                for room in [len + 1, len + 77, at_once] {
                    if room <= len + 77 || room <= LONG_OUTPUT {
                        self.call(text, area, room, refusal(0, len), &due)?;
                    }
                }
                self.limits(text, area)?;
                Ok(Outcome::Written(due))
            }
            (false, Err(_)) => {
                self.ask(text, area, refusal(23, 0))?;
                for room in [0, 9, 1_000] {
                    self.call(text, area, room, refusal(23, 0), b"")?;
                }
                self.limits(text, area)?;
                Ok(Outcome::Bad(faults))
            }
            // the judge and the decoder were written apart
            (true, Err(why)) => Err(format!("the judge takes what the decoder doesn't: {why}")),
            (false, Ok(_)) => Err(format!("the decoder takes what the judge doesn't: {faults:?}")),
        }
    }

    /// As `compare`; a difference ends the test. Cells that aren't needed to show it are first made zero.
    pub fn same(&self, text: &[u8], area: &[u8]) -> Outcome {
        self.compare(text, area).unwrap_or_else(|_| panic!("{}", self.smallest(text, area)))
    }

    /// A report on the emptiest area found that still differs.
    pub fn smallest(&self, text: &[u8], area: &[u8]) -> String {
        let small = &area[..SIZE];
        if self.compare(text, small).is_ok() {
            return format!("only with the bytes beyond: {:?}", self.compare(text, area).err());
        }
        let small = judge::emptiest(small, |less| self.compare(text, less).is_err());
        let what = self.compare(text, &small).expect_err("the emptiest area differs too");
        let report = format!("the two sides differ, text of {} bytes:\n{}\n", text.len(), text.escape_ascii());
        report + &judge::in_words(&small) + &what
    }
}

/// A written text with the nettypes and addrtypes folded as the crate's reader does it. Only for what was read: there
/// no field of an o or c line has a space in it.
pub fn folded(written: &[u8]) -> Vec<u8> {
    let fold_line = |line: &[u8]| {
        let first = match line.get(..2) {
            Some(b"o=") => 3,
            Some(b"c=") => 0,
            _ => return line.to_vec(),
        };
        let mut words: Vec<Vec<u8>> = line[2..].split(|byte| *byte == b' ').map(<[u8]>::to_vec).collect();
        words[first] = fold::nettype(&words[first]);
        words[first + 1] = fold::addrtype(&words[first + 1]);
        [&line[..2], &words.join(&b' ')].concat()
    };
    written.split_inclusive(|byte| *byte == b'\n').map(fold_line).collect::<Vec<_>>().concat()
}
