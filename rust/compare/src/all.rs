//! All that is compared of one text, for long runs and the fuzzer: reading, writing and reading back beside the crate, and
//! the list of starts beside its oracle.
use crate::bench::smallest;
use crate::listing::{windows, Listing};
use crate::starts::tables;
use crate::whole::Whole;
use crate::writing::{self, Fill, Length};
use crate::{read, starts, Answer, Starts, Told};
use generate::Random;

type Reader = fn(&[u8], &mut [u8]) -> Told;
type Lister = fn(&[u8], &[u8], u64, u64) -> Starts;

pub struct All {
    pub whole: Whole<Reader, Length, Fill>,
    pub listing: Listing<Lister>,
}

impl Default for All {
    fn default() -> Self {
        All { whole: Whole::new(read, writing::ours()), listing: Listing::new(starts) }
    }
}

impl All {
    /// The answer of reading if all agrees, else what differs. A text has always the same windows.
    pub fn compare(&mut self, text: &[u8]) -> Result<Answer, String> {
        let answer = self.whole.compare(text)?;
        if answer.number == 0 {
            let mut area = sdp::Area::new();
            sdp::read(text, &mut area).map_err(|error| error.to_string())?;
            let mut random = Random::new(text.len() as u64, "windows");
            let chosen = tables(text, area.as_bytes()).map(|seen| windows(&mut random, &seen));
            self.listing.compare(text, area.as_bytes(), &chosen.unwrap_or(vec![(0, u64::MAX)]))?;
        }
        Ok(answer)
    }

    /// A report on the smallest text found that still differs.
    pub fn smallest(&mut self, text: &[u8]) -> String {
        smallest(text, |part| self.compare(part).err())
    }
}
