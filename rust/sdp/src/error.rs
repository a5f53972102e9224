//! Why a text was refused, or why a session was not written.
use crate::ffi::Answer;
use crate::words;
use std::{fmt, io};

/// A refusal: its number, what it names, and by [`Display`](fmt::Display) a sentence. docs/REFUSALS.md has them all.
///
/// ```
/// let mut area = sdp::Area::new();
/// let error = sdp::read(b"v=0\nm=audio 70000 RTP/AVP 0\n", &mut area).unwrap_err();
/// assert_eq!((error.number(), error.line(), error.field()), (9, 2, 28));
/// assert_eq!(error.to_string(), "line 2: the port is not a whole number below 2^16 (refusal 9)");
/// ```
///
/// Where a field is not UTF-8 it also names the byte:
///
/// ```
/// let mut area = sdp::Area::new();
/// let error = sdp::read(b"v=0\r\ns=B\xfchne 4\r\n", &mut area).unwrap_err();
/// assert_eq!((error.bad_byte(), error.byte_in_line()), (Some(8), Some(4)));
/// let sentence = "line 2: the session name is not UTF-8 from byte 8 on, the 4th byte of the line (refusal 8)";
/// assert_eq!(error.to_string(), sentence);
/// ```
#[derive(Clone, Copy, PartialEq, Eq)]
pub struct Error {
    answer: Answer,
    /// The bad byte of 8, counted from 1 in its line; 0 where that isn't known. The text is not kept, so it is counted
    /// when the error is made.
    nth: u64,
}

impl Error {
    /// The answer of a function of [`ffi`](crate::ffi), with its refusal as an error. For that of [`ffi::read`] take
    /// [`check_in`](Error::check_in).
    ///
    /// [`ffi::read`]: crate::ffi::read
    pub fn check(answer: Answer) -> Result<Answer, Error> {
        Error::check_in(answer, &[])
    }

    /// The same with the text that was read, so that the error can tell where in its line a bad byte stands.
    pub fn check_in(answer: Answer, text: &[u8]) -> Result<Answer, Error> {
        if answer.number == 0 {
            return Ok(answer);
        }
        let error = Error { answer, nth: 0 };
        Err(Error { nth: error.bad_byte().map_or(0, |place| nth_in_line(text, place)), ..error })
    }

    /// The same of an answer that has a number alone.
    pub(crate) fn check_number(number: u64) -> Result<(), Error> {
        Error::check(Answer { number, ..Answer::default() }).map(|_| ())
    }

    /// The number of the refusal.
    pub fn number(&self) -> u64 {
        self.answer.number
    }

    /// The line, from 1; 0 where the number names none.
    pub fn line(&self) -> u64 {
        self.answer.line
    }

    /// The field for 8 to 11, the table for 21; else 0.
    pub fn field(&self) -> u64 {
        self.answer.field
    }

    /// For 7, where the version's value starts in the text; for 8, where the bad byte stands in it
    /// ([`bad_byte`](Error::bad_byte)); else 0.
    pub fn place(&self) -> u64 {
        self.answer.place
    }

    /// For 8, where in the text, from 0, the first byte stands that is not part of the longest well-formed beginning of
    /// the field: the field's own place and std's [`valid_up_to`](std::str::Utf8Error::valid_up_to) of it. Of a character
    /// that is cut off it is the first byte. `None` for every other number.
    pub fn bad_byte(&self) -> Option<u64> {
        // no text has it at 0, where the version line stands: that is an answer of an archive that didn't tell it
        Some(self.answer.place).filter(|place| self.answer.number == 8 && *place > 0)
    }

    /// The same byte counted in its line, from 1: behind `s=` it is the third. `None` for every other number, and for an
    /// error that was made without the text, by [`check`](Error::check).
    pub fn byte_in_line(&self) -> Option<u64> {
        Some(self.nth).filter(|nth| *nth > 0)
    }

    /// For 7, how many bytes the version's value has; for 22, how many an output needs; else 0.
    #[allow(clippy::len_without_is_empty)] // the length of something else
    pub fn len(&self) -> u64 {
        self.answer.len
    }
}

/// Which byte of its line stands at a place of the text, from 1; 0 where the text has no such place.
fn nth_in_line(text: &[u8], place: u64) -> u64 {
    let before = usize::try_from(place).ok().filter(|place| *place < text.len()).map(|place| &text[..place]);
    before.map_or(0, |before| before.iter().rev().take_while(|byte| **byte != b'\n').count() as u64 + 1)
}

impl fmt::Display for Error {
    fn fmt(&self, f: &mut fmt::Formatter<'_>) -> fmt::Result {
        if self.line() > 0 {
            write!(f, "line {}: ", self.line())?;
        }
        words::sentence(f, &self.answer, self.bad_byte(), self.byte_in_line())?;
        write!(f, " (refusal {})", self.number())
    }
}

/// The sentence here too: it is what `unwrap` prints, and a `main` that returns an error.
impl fmt::Debug for Error {
    fn fmt(&self, f: &mut fmt::Formatter<'_>) -> fmt::Result {
        write!(f, "Error({self})")
    }
}

impl std::error::Error for Error {}

/// For programs that have [`io::Error`]s to tell of: one of the kind `InvalidData`, with the refusal in it.
///
/// ```
/// let mut area = sdp::Area::new();
/// let error = std::io::Error::from(sdp::read(b"v=1", &mut area).unwrap_err());
/// let refusal: Option<&sdp::Error> = error.get_ref().and_then(|inside| inside.downcast_ref());
/// assert_eq!(refusal.map(sdp::Error::number), Some(7));
/// ```
impl From<Error> for io::Error {
    fn from(error: Error) -> Self {
        io::Error::new(io::ErrorKind::InvalidData, error)
    }
}
