//! One text through a reader and, without its k lines, through the crate. The reader is a parameter, so that the
//! comparison can be tested with readers that are known to be wrong.
use crate::area::{self, SIZE};
use crate::{account, lined, placed, theirs, Answer, Counts, Told};
use generate::shrink;
use oracle::{bad_byte, Refusal, Session};
use std::collections::BTreeMap;

/// Bytes behind the area that must stay as they are.
const BEYOND: usize = 40;

/// Holds a refusal of a text to the crate's: all five numbers, but for the place of 8. The crate doesn't say it ("Demand 2
/// leaves it out"), so that one is held to the computation of `bad_byte`.
pub fn refused(text: &[u8], ours: Answer, crates: Refusal) -> Result<(), String> {
    let Refusal { number, line, field, place, len } = crates;
    let due = Answer { number, line, field, place, len };
    let without = if number == 8 { Answer { place: 0, ..ours } } else { ours };
    if without != due {
        return Err(format!("ours {ours:?}\nthe crate {due:?}"));
    }
    if number == 8 {
        let place = bad_byte::find(text, line, field)?.place as u64;
        if ours.place != place {
            return Err(format!("ours {ours:?}\nthe bad byte stands at {place}"));
        }
    }
    Ok(())
}

pub struct Bench<R> {
    reader: R,
    room: Vec<u8>,
    found: Vec<u8>,
    counts: Counts,
}

impl<R: Fn(&[u8], &mut [u8]) -> Told> Bench<R> {
    pub fn new(reader: R) -> Self {
        // no byte is 0, so that a cell that was never written can't pass for an unused one
        let found: Vec<u8> = (0..SIZE + BEYOND).map(|at| (at * 7) as u8 | 1).collect();
        Bench {
            reader,
            room: found.clone(),
            found,
            counts: Counts::default(),
        }
    }

    /// Both sides on one text: the answer if all agrees, else what differs.
    pub fn compare(&mut self, text: &[u8]) -> Result<Answer, String> {
        self.both(text).map(|(answer, _)| answer)
    }

    /// As `compare`, with the crate's session of an accepted text.
    pub fn both(&mut self, text: &[u8]) -> Result<(Answer, Option<Session>), String> {
        self.room.copy_from_slice(&self.found);
        let kept = text.to_vec();
        let told = (self.reader)(text, &mut self.room);
        let ours = told.answer;
        let crates = oracle::read(&kept);
        if text != kept {
            return Err("the text was changed".into());
        }
        // an answer of zeros is that for an accepted text
        refused(text, ours, crates.as_ref().err().copied().unwrap_or_default())?;
        account::check(text, told)?;
        self.counts = told.counts;
        if self.room[SIZE..] != self.found[SIZE..] {
            return Err("bytes beyond the area were changed".into());
        }
        match &crates {
            Err(refusal) if refusal.number == 1 => {
                if self.room != self.found {
                    return Err(format!("{ours:?}, and the area was changed"));
                }
            }
            Err(_) => {
                if !area::all_zero(&self.room[..SIZE]) {
                    return Err(format!("{ours:?}, and the area is not all zero"));
                }
            }
            Ok(session) => {
                let seen = area::decode(&self.room)?;
                let strings = theirs::comparable(seen.strings(text)?);
                let due = theirs::of(session);
                if strings != due {
                    return Err(format!("ours {strings:?}\nthe crate {due:?}"));
                }
                placed::check(&seen, text)?;
                lined::check(text, &self.room)?;
            }
        }
        Ok((ours, crates.ok()))
    }

    /// What the latest text left in the area.
    pub fn area(&self) -> &[u8] {
        &self.room[..SIZE]
    }

    /// The counts of the latest text's lines.
    pub fn counts(&self) -> Counts {
        self.counts
    }

    /// As `compare`; a difference ends the test with the smallest input that still shows one.
    pub fn same(&mut self, text: &[u8]) -> Answer {
        self.compare(text).unwrap_or_else(|_| panic!("{}", self.smallest(text)))
    }

    /// A report on the smallest text found that still differs.
    pub fn smallest(&mut self, text: &[u8]) -> String {
        smallest(text, |part| self.compare(part).err())
    }
}

/// A report on the smallest text found for which `differs` still says something, as it does for `text`.
pub fn smallest(text: &[u8], mut differs: impl FnMut(&[u8]) -> Option<String>) -> String {
    let small = shrink(text, |part| differs(part).is_some());
    let what = differs(&small).expect("the smallest text differs too");
    let hex: String = small.iter().map(|byte| format!("{byte:02x}")).collect();
    format!(
        "the two sides differ, smallest text of {} bytes (from {}):\n{}\nhex {hex}\n{what}",
        small.len(),
        text.len(),
        small.escape_ascii()
    )
}

/// How often each answer came, by number and field.
#[derive(Default)]
pub struct Tally(pub BTreeMap<(u64, u64), u64>);

impl Tally {
    pub fn add(&mut self, answer: Answer) {
        *self.0.entry((answer.number, answer.field)).or_default() += 1;
    }

    pub fn of(&self, number: u64) -> u64 {
        self.0.range((number, 0)..=(number, u64::MAX)).map(|(_, count)| count).sum()
    }

    pub fn all(&self) -> u64 {
        self.0.values().sum()
    }
}

impl std::fmt::Display for Tally {
    fn fmt(&self, f: &mut std::fmt::Formatter) -> std::fmt::Result {
        // 19, a second k line, never occurs
        const KINDS: [(u64, &str); 20] = [
            (0, "accepted"),
            (1, "text too long"),
            (3, "NUL or CR"),
            (4, "no ="),
            (5, "= not second"),
            (6, "no version"),
            (7, "version not 0"),
            (8, "encoding"),
            (9, "format"),
            (10, "missing field"),
            (11, "trailing data"),
            (12, "second o"),
            (13, "second s"),
            (14, "second i"),
            (15, "second u"),
            (16, "second c"),
            (17, "second z"),
            (18, "second media title"),
            (20, "repeat without time"),
            (21, "table full"),
        ];
        for (number, kind) in KINDS {
            let mut by_field = String::new();
            for ((_, field), count) in self.0.range((number, 1)..=(number, u64::MAX)) {
                by_field += &format!(" {field}:{count}");
            }
            let label = if number == 21 { " by table" } else { " by field" };
            let label = if by_field.is_empty() { "" } else { label };
            writeln!(f, "{number:>4} {kind:<20} {:>10}{label}{by_field}", self.of(number))?;
        }
        write!(f, "     {:<20} {:>10}", "all", self.all())
    }
}
