//! The counts of lines that a reading returns (document 02, P11), held to the text: their sum to its LFs, and each of them
//! to the oracle's, which is there where the crate is.
use crate::{lined, Answer, Counts, Told};

/// The answer of a reading, unless its counts are wrong. A refusal must have zeros.
pub fn check(text: &[u8], told: Told) -> Result<Answer, String> {
    let Told { answer, counts } = told;
    if answer.number != 0 {
        let none = counts == Counts::default();
        return if none { Ok(answer) } else { Err(format!("{answer:?}, and yet {counts:?}")) };
    }
    // whatever the counts are, no sum of them may end the test before it has told
    let sum = [counts.empty, counts.ignored, counts.kept].into_iter().try_fold(0u64, u64::checked_add);
    let ended = text.iter().filter(|byte| **byte == b'\n').count() as u64;
    let lines = ended + u64::from(!text.is_empty() && !text.ends_with(b"\n"));
    if sum != Some(lines) {
        return Err(format!("ours {counts:?}\nthe text has {lines} lines"));
    }
    #[cfg(feature = "crate")]
    {
        let oracle::counts::Counts { empty, ignored, kept } = oracle::counts::of(text);
        let due = Counts { empty, ignored, kept };
        if counts != due {
            return Err(format!("ours {counts:?}\ncounted {due:?}"));
        }
    }
    Ok(answer)
}

/// Reads with the archive, for a test that looks at the answer and the area. Wrong counts end it, and wrong lines.
#[inline] // so that only a program that reads needs the archive to have it
pub fn read(text: &[u8], area: &mut [u8]) -> Answer {
    let checked = check(text, crate::read(text, area)).and_then(|answer| match answer.number {
        0 => lined::check(text, area).map(|()| answer),
        _ => Ok(answer),
    });
    checked.unwrap_or_else(|why| panic!("{}: {why}", text.escape_ascii()))
}
