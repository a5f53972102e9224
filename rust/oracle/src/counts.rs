//! Document 02, P11: how many lines of an accepted text are empty, ignored and kept. The crate doesn't say it. So they are
//! counted here in the bytes of the text: its lines are laid out, and the letters that have a use are picked out on both
//! sides of the first m line.
use crate::keys::without_end;

#[derive(Debug, Clone, Copy, PartialEq, Eq, Default)]
pub struct Counts {
    pub empty: u64,
    pub ignored: u64,
    pub kept: u64,
}

/// Document 01, "Lines", and 02, P4: the letters with a use before the first m line, and from it on.
const IN_SESSION: &[u8] = b"osiuepcbtrza";
const IN_MEDIA: &[u8] = b"micba";

/// The counts of a text that is accepted: of another they mean nothing, and document 02 wants zeros.
pub fn of(text: &[u8]) -> Counts {
    let lines: Vec<&[u8]> = text.split_inclusive(|byte| *byte == b'\n').map(without_end).collect();
    let letters: Vec<u8> = lines.iter().filter_map(|line| line.first().copied()).collect();
    let empty = lines.len() - letters.len();
    let (version, behind) = letters.split_at(letters.len().min(1));
    let (session, medias) = behind.split_at(behind.iter().position(|letter| *letter == b'm').unwrap_or(behind.len()));
    let (mut ignored, mut kept) = (0, version.len() as u64);
    for (part, with_use) in [(session, IN_SESSION), (medias, IN_MEDIA)] {
        let (of_use, idle): (Vec<u8>, Vec<u8>) = part.iter().partition(|letter| with_use.contains(letter));
        kept += of_use.len() as u64;
        ignored += idle.len() as u64;
    }
    Counts { empty: empty as u64, ignored, kept }
}

/// "the number of lines, which is the LFs plus one if the text doesn't end in LF and isn't empty"
pub fn lines(text: &[u8]) -> u64 {
    let ended = text.iter().filter(|byte| **byte == b'\n').count() as u64;
    ended + u64::from(text.last().map_or(false, |byte| *byte != b'\n'))
}
