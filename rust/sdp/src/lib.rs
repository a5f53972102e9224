//! Session descriptions (SDP, RFC 8866) read and written by the proved functions of the archive libsdp.a, with the
//! names of the crate sdp-types. It takes the place of that crate's `Session::parse` and `Session::write`. The typed
//! attributes stay there: hand on the values of [`Media::attributes`], as in `sdp_types::RtpMap::from_str(value)`.
//!
//! | sdp-types | here |
//! |---|---|
//! | `Session::parse(&data)?` | [`read`]`(&data, &mut area)?`, or [`SessionBuf::parse`]`(data)?` to keep it |
//! | `session.times`, `media.attributes`, .. | `session.times()`, `media.attributes()`, ..: read as they are walked |
//! | `session.session_name`, `session.uri`, .. | `session.session_name()`, `session.uri()`, .. |
//! | `session.key`, `media.key` | [`Session::key`], [`Media::key`]: `None` of what is read, since k lines are ignored |
//! | `time.start_time`, `media.port`, `zone.offset`, .. | the same |
//! | `String` | `&str` that stands in the text; of emails and phones a [`Contact`], which is used as one |
//! | `repeat.offsets`: `u64` | [`Repeat::offsets`]: [`Offset`], which has the `u64` |
//! | `NetType`, `AddrType` | `&str`, as it was written: `in` stays `in` |
//! | `session.origin` where no o line was | [`Session::origin`]: the same; [`Session::origin_line`] gives `None` |
//! | `session.write(&mut output)?` | `session.write_to(&mut output)?`; or [`Session::to_vec`], `to_string()` |
//! | nothing | [`Session::write`] into a slice, of the length that [`Session::written_len`] says or of [`ROOM`] bytes |
//! | `ParserError` | [`Error`]: a number, a line, a field, the byte that is not UTF-8, and a sentence |
//! | nothing | [`kept`]: the session of an area that was kept |
//! | nothing | [`Media::line`], [`Attribute::line`], ..: the line of the text that a record was read from ([Lines](#lines)) |
//! | nothing | [`Session::counts`]: how many lines of the text were empty, ignored and kept |
//! | nothing | [`Session::starts`]: the instants at which the session starts within a window |
//!
//! # Memory
//!
//! The caller lends an [`Area`] of [`Area::SIZE`] bytes, which can be used again for the next text. The [`Session`]
//! that comes back borrows area and text, and so does all that is taken out of it. Reading, walking,
//! [`written_len`](Session::written_len), [`write`](Session::write) and [`starts`](Session::starts) use no heap.
//! [`write_to`](Session::write_to), [`to_vec`](Session::to_vec) and `to_string()` ask for the length first, and take so
//! many bytes. [`SessionBuf`] owns both area and text, for a session that is to be kept.
//!
//! A text has at most [`LONGEST`] bytes, and each table has its limit (docs/REFUSALS.md); the crate has neither.
//!
//! # Strings
//!
//! The reader refuses a text in which a field that it keeps is not UTF-8, and [`kept`] an area with such a string, so every
//! string of a session is a `&str`. This is proved of the archive (`well-formed` in docs/AREA.md). The conversion is
//! checked all the same. Nothing here panics as long as the archive keeps what is proved of it.
//!
//! # Example
//!
//! This is `examples/announce.rs`.
//!
//! ```no_run
#![doc = include_str!("../examples/announce.rs")]
//! ```
//!
//! The sign of a zone's offset is kept: minus one hour stays minus one hour.
//!
//! ```
//! let text = b"v=0\ns=Desk 4\nt=60 0\nz=60 -1h\n";
//! let mut area = sdp::Area::new();
//! let session = sdp::read(text, &mut area)?;
//! assert_eq!(session.session_name(), "Desk 4");
//! assert_eq!(session.time_zones().next().unwrap().offset, -3600);
//! let mut out = [0; 100];
//! let written = session.write(&mut out)?;
//! assert_eq!(written, b"v=0\r\no=- 0 0 IN IP4 0.0.0.0\r\ns=Desk 4\r\nt=60 0\r\nz=60 -1h\r\n");
//!
//! let refused = sdp::read(b"v=0\nt=now 0\n", &mut area).unwrap_err();
//! assert_eq!(refused.to_string(), "line 2: the start time is not a whole number below 2^64 (refusal 9)");
//! # Ok::<(), sdp::Error>(())
//! ```
//!
//! # Lines
//!
//! Every record carries the line of the text that it was read from: ask its `line()`. Offsets of a repeat carry that of their
//! r line, time zones that of the z line. Of the fields that are plain strings the session or the media knows it:
//! [`Session::line_of_session_name`], [`Session::line_of_session_description`], [`Session::line_of_uri`] and
//! [`Media::line_of_media_title`]. Lines count from 1, as in an [`Error`]; 0 is no line.
//!
//! ```
//! let text = b"v=0\r\n\r\ns=Desk 4\r\nm=audio 5004 RTP/AVP 96\r\nx=new\r\na=recvonly\r\n";
//! let mut area = sdp::Area::new();
//! let session = sdp::read(text, &mut area)?;
//! let media = session.medias().next().unwrap();
//! assert_eq!((session.line_of_session_name(), media.line()), (3, 4));
//! assert_eq!(media.attributes().map(|attribute| attribute.line()).collect::<Vec<_>>(), [6]);
//! assert_eq!(session.origin().line(), 0); // there is no o line
//! # Ok::<(), sdp::Error>(())
//! ```
//!
//! They tell of the text and not of the session, so equality leaves them out, and `{:?}` too: a session that is written and
//! read back is equal, and its records stand in other lines.
//!
//! # When it starts
//!
//! [`Session::starts`] lists the instants at which a session starts, repeats and zones worked in. A concert every day at
//! 72,000 s, which is 20:00; from the third day on the z line takes an hour away:
//!
//! ```
//! let text = b"v=0\ns=Stage 1\nt=72000 0\nr=1d 2h\nz=172800 -1h\n";
//! let mut area = sdp::Area::new();
//! let session = sdp::read(text, &mut area)?;
//! let days = 0..4 * 86_400; // the first four
//! let hours: Vec<u64> = session.starts(days)?.iter().map(|start| start.at % 86_400 / 3_600).collect();
//! assert_eq!(hours, [20, 20, 19, 19]);
//! # Ok::<(), sdp::Error>(())
//! ```
#![deny(unsafe_code, missing_docs)]

mod area;
mod error;
pub mod ffi;
mod session;
mod starts;
pub mod words;

pub use area::Area;
pub use error::Error;
pub use ffi::Counts;
pub use session::{
    Attribute, Bandwidth, Connection, Contact, Key, Media, Offset, Origin, Repeat, Rows, Session, SessionBuf, Time,
    TimeZone,
};
pub use starts::{Start, Starts, StartsIter};

/// Bytes that a text may have: the reader refuses a longer one with 1.
pub const LONGEST: usize = 32_768;

/// Starts that [`Session::starts`] lists at most: it refuses a window with more of them by 29.
pub const MOST_STARTS: usize = 256;

/// Bytes that are enough for the written form of any text that was read: the theorem `room` in docs/THEOREMS.md.
pub const ROOM: usize = 43_727;

/// Reads a text into the area, as the crate's `Session::parse` does.
///
/// The session borrows both, so neither can change or go away while it is used:
///
/// ```
/// let mut area = sdp::Area::new();
/// for text in ["v=0\ns=one\n", "v=0\ns=two\n"] {
///     let session = sdp::read(text.as_bytes(), &mut area).unwrap(); // the area is used again
///     println!("{}", session.session_name());
/// }
/// ```
///
/// These are refused by the compiler. The text may not end before the session:
///
/// ```compile_fail,E0597
/// let mut area = sdp::Area::new();
/// let session = {
///     let text = b"v=0\ns=one\n".to_vec();
///     sdp::read(&text, &mut area).unwrap()
/// };
/// println!("{}", session.session_name());
/// ```
///
/// Nor the area:
///
/// ```compile_fail,E0597
/// let session = {
///     let mut area = sdp::Area::new();
///     sdp::read(b"v=0\ns=one\n", &mut area).unwrap()
/// };
/// println!("{}", session.session_name());
/// ```
///
/// And another text can't be read into the area while the session of the first is used:
///
/// ```compile_fail,E0499
/// let mut area = sdp::Area::new();
/// let one = sdp::read(b"v=0\ns=one\n", &mut area).unwrap();
/// let two = sdp::read(b"v=0\ns=two\n", &mut area).unwrap();
/// println!("{} {}", one.session_name(), two.session_name());
/// ```
///
/// What was taken out of a session lives as long as text and area do, and may outlive the `Session` itself:
///
/// ```
/// let mut area = sdp::Area::new();
/// let name = sdp::read(b"v=0\ns=one\n", &mut area).unwrap().session_name();
/// assert_eq!(name, "one");
/// ```
///
/// # Errors
///
/// The refusals 1, 3 to 18, 20 and 21 of docs/REFUSALS.md: the first line that is refused decides.
#[inline] // so that only a program that reads needs the archive to have it
pub fn read<'a>(text: &'a [u8], area: &'a mut Area) -> Result<Session<'a>, Error> {
    let counts = area.read(text)?;
    Ok(Session::new(text, area, Some(counts)))
}

/// The session of an area that was kept, with the text that was read into it: by this release or an earlier one, in Rust
/// ([`Area::as_bytes`]) or in C. The bytes are judged first, so they may be any.
///
/// An area of a release before records carried their lines has fewer bytes: [`Area::from_earlier`] takes these, and every
/// line is 0. An area of a release that still read k lines has their keys ([`Session::key`], [`Media::key`]). They are not
/// written. An area has no counts of lines, so the session has none ([`Session::counts`]): the text is not read here.
///
/// ```
/// let text = b"v=0\ns=one\n";
/// let mut area = sdp::Area::new();
/// sdp::read(text, &mut area)?;
/// let bytes = *area.as_bytes(); // put away, and later:
/// let area = sdp::Area::from_bytes(bytes);
/// let session = sdp::kept(text, &area)?;
/// assert_eq!((session.session_name(), session.line_of_session_name()), ("one", 2));
/// assert_eq!(session.counts(), None);
/// assert_eq!(sdp::kept(b"v=0", &area).unwrap_err().number(), 23); // it is another text's
/// # Ok::<(), sdp::Error>(())
/// ```
///
/// # Errors
///
/// Refusal 1 for a text of more than [`LONGEST`] bytes, 23 for bytes that hold no session for this text.
#[inline]
pub fn kept<'a>(text: &'a [u8], area: &'a Area) -> Result<Session<'a>, Error> {
    // whoever can say how long it is written has judged it
    Error::check(ffi::length(text, area.as_bytes()))?;
    Ok(Session::new(text, area, None))
}

/// Whether the letters of the text's lines run in the order of RFC 8866: `v o s i? u? e* p* c? b*`, then one or more of
/// (`t`, then optionally `r+ z?`), then `k? a*`, then any number of `m i? c* b* k? a*`. Receivers take other orders too, and
/// so does [`read`]; who wants to know asks here.
///
/// ```
/// assert_eq!(sdp::letter_order(b"v=0\no=- 0 0 IN IP4 h\ns=x\nt=0 0\n"), Ok(true));
/// assert_eq!(sdp::letter_order(b"v=0\ns=x\no=- 0 0 IN IP4 h\nt=0 0\n"), Ok(false));
/// assert_eq!(sdp::letter_order(b"v=0\no=- 0 0 IN IP4 h\ns=x\nt=1 0\nz=1 1h\n"), Ok(false)); // z behind no repeat
/// ```
///
/// A text with a z line behind the r lines of each of two times is in order, and [`read`] refuses the second one with 17.
/// [`Session::write`] puts z behind all times, as the crate does: what it writes, within [`LONGEST`] bytes, is in order if
/// there are no zones, and otherwise exactly when the last time has a repeat.
///
/// # Errors
///
/// Refusal 1, for a text of more than [`LONGEST`] bytes.
#[inline]
pub fn letter_order(text: &[u8]) -> Result<bool, Error> {
    let order = ffi::letter_order(text);
    Error::check_number(order.number)?;
    Ok(order.yes == 1)
}
