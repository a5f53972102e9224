//! One text through reading, writing and reading back, each step beside the crate. The reader and the two calls of the
//! writer are parameters, so that the comparison can be tested with some that are known to be wrong.
use crate::area::{decode, lines, Seen, Time, COLUMNS};
use crate::bench::{smallest, Bench};
use crate::writing::{folded, Outcome, Writing};
use crate::{theirs, Answer, Told};
use generate::sessions::LONGEST;
use oracle::written;

/// What became of the texts so far.
#[derive(Debug, Default)]
pub struct Counts {
    pub accepted: u64,
    pub refused: u64,
    pub read_back: u64,
    /// Written longer than a text may be.
    pub too_long: u64,
    pub longest: usize,
    /// How near the bound on a written form was reached.
    pub nearest: Option<usize>,
    /// Lines of the accepted texts.
    pub empty: u64,
    pub ignored: u64,
    pub kept: u64,
    /// Records of the accepted texts, and their fields, each with its line.
    pub lined: u64,
}

pub struct Whole<R, L, F> {
    bench: Bench<R>,
    writing: Writing<L, F>,
    pub counts: Counts,
}

/// The session's strings as the crate would have them, for comparing two sessions "wherever the strings stand". The
/// placeholder stands for a missing origin.
fn meaning(text: &[u8], area: &[u8]) -> Result<Seen<Vec<u8>>, String> {
    let mut seen = decode(area)?.strings(text)?;
    seen.origin.get_or_insert_with(theirs::placeholder);
    Ok(seen)
}

impl<R, L, F> Whole<R, L, F>
where
    R: Fn(&[u8], &mut [u8]) -> Told,
    L: Fn(&[u8], &[u8]) -> Answer,
    F: Fn(&[u8], &[u8], &mut [u8]) -> Answer,
{
    pub fn new(reader: R, writing: Writing<L, F>) -> Self {
        Whole {
            bench: Bench::new(reader),
            writing,
            counts: Counts::default(),
        }
    }

    /// Both sides on one text: the answer of reading if all agrees, else what differs.
    pub fn compare(&mut self, text: &[u8]) -> Result<Answer, String> {
        let (answer, session) = self.bench.both(text)?;
        let Some(session) = session else {
            self.counts.refused += 1;
            return Ok(answer);
        };
        let (area, told) = (self.bench.area().to_vec(), self.bench.counts());
        let Outcome::Written(ours) = self.writing.compare(text, &area)? else {
            return Err("a session that was read can't be written".into());
        };
        let (folded, crates) = (folded(&ours), written(&session));
        if folded != crates {
            return Err(format!("ours, folded\n{}\nthe crate\n{}", folded.escape_ascii(), crates.escape_ascii()));
        }
        let most = text.len() + told.kept as usize + 36;
        let spare = most.checked_sub(ours.len()).ok_or(format!("{} bytes written, at most {most}", ours.len()))?;
        let read_back = self.read_back(text, &area, &ours)?;
        let counts = &mut self.counts;
        counts.accepted += 1;
        counts.empty += told.empty;
        counts.ignored += told.ignored;
        counts.kept += told.kept;
        let lined = COLUMNS.iter().flat_map(|column| lines(&area, column)).filter(|line| *line > 0);
        counts.lined += lined.count() as u64;
        counts.longest = counts.longest.max(ours.len());
        counts.nearest = Some(counts.nearest.map_or(spare, |nearest| nearest.min(spare)));
        *if read_back { &mut counts.read_back } else { &mut counts.too_long } += 1;
        Ok(answer)
    }

    /// What was written is the same session when it is read, and the same text when that is written. Not where it is
    /// longer than a text may be, which must be said.
    fn read_back(&mut self, text: &[u8], area: &[u8], ours: &[u8]) -> Result<bool, String> {
        let (answer, _) = self.bench.both(ours).map_err(|why| format!("read back: {why}"))?;
        if ours.len() > LONGEST {
            return if answer.number == 1 { Ok(false) } else { Err(format!("read back: {answer:?}, due 1")) };
        }
        if answer.number != 0 {
            return Err(format!("read back: {answer:?} of {}", ours.escape_ascii()));
        }
        let again = self.bench.area();
        let mut due = meaning(text, area)?;
        if due.times.is_empty() {
            due.times.push(Time { start: 0, stop: 0 });
        }
        let seen = meaning(ours, again)?;
        if seen != due {
            return Err(format!("read back: {seen:?}\ndue {due:?}"));
        }
        let once_more = self.writing.exact(ours, again, ours).map(|()| true);
        once_more.map_err(|why| format!("written once more: {why}"))
    }

    /// As `compare`; a difference ends the test with the smallest input that still shows one.
    pub fn same(&mut self, text: &[u8]) -> Answer {
        self.compare(text).unwrap_or_else(|_| panic!("{}", self.smallest(text)))
    }

    /// A report on the smallest text found that still differs.
    pub fn smallest(&mut self, text: &[u8]) -> String {
        smallest(text, |part| self.compare(part).err())
    }
}
