//! The twelve functions of the archive libsdp.a as they are, over slices that are lent. [`crate::read`],
//! [`crate::Session::written_len`], [`crate::Session::write`] and [`crate::Session::starts`] are these with types around
//! them.
//!
//! All `unsafe` of the crate is here. Each call is safe for every slice and every number: a Rattle `&[u8]` is a pointer
//! and a length, the archive reads and writes only within what it is lent, and keeps no pointer (docs/FFI.md). A test
//! (tests/header.rs) holds the declarations to the source of the archive.
#![allow(unsafe_code)]
use crate::MOST_STARTS;

/// A number that was read.
#[repr(C)]
#[derive(Debug, Clone, Copy, PartialEq, Eq)]
pub struct Numeral {
    /// 0 for read, 8 for not UTF-8, 9 for a bad format; where the bad byte stands, [`utf8_end`] tells
    pub number: u64,
    /// the number, or 0 where there is none
    pub value: u64,
}

/// What stands at a place where a line is due. What isn't named for a kind is 0.
#[repr(C)]
#[derive(Debug, Clone, Copy, PartialEq, Eq, Default)]
pub struct Piece {
    /// 0 the end of the text, 1 an empty line, 2 a line of good form, 3 a refused line
    pub kind: u64,
    /// of a refused line: 3, 4 or 5
    pub number: u64,
    /// the number of this line, from 1; not at the end
    pub line: u64,
    /// of a line of good form: the byte before the `=`
    pub letter: u64,
    /// of a line of good form: where its value starts
    pub place: u64,
    /// of a line of good form: the bytes of its value
    pub len: u64,
    /// for the kinds 1 and 2: where the next line starts
    pub next_place: u64,
    /// for the kinds 1 and 2: its number
    pub next_line: u64,
}

/// What reading or writing says. What isn't named for a number is 0 (docs/REFUSALS.md).
#[repr(C)]
#[derive(Debug, Clone, Copy, PartialEq, Eq, Default)]
pub struct Answer {
    /// 0 for done, else the number of the refusal
    pub number: u64,
    /// of a refused line, from 1
    pub line: u64,
    /// the field for 8 to 11, the table for 21
    pub field: u64,
    /// for 7: where the version's value starts; for 8: where the first byte stands that is not part of the longest
    /// well-formed beginning of the field; from 0 in the text
    pub place: u64,
    /// for 7: the bytes of the version's value; of [`length`] and [`fill`]: the written length, and with 22 the length needed
    pub len: u64,
}

/// How many lines of a text are empty, ignored and kept. A refused text has none of them.
#[repr(C)]
#[derive(Debug, Clone, Copy, PartialEq, Eq, Default)]
pub struct Counts {
    /// nothing stands before the line's ending
    pub empty: u64,
    /// no use where they stand: a later v line, k lines, letters that are unknown or have a use elsewhere only
    pub ignored: u64,
    /// the version line and all with a use, a z line without pairs too
    pub kept: u64,
}

impl Counts {
    /// All lines of the text: its LFs, and one more where the last line has none.
    pub fn lines(&self) -> u64 {
        self.empty + self.ignored + self.kept
    }
}

/// What reading returns.
#[repr(C)]
#[derive(Debug, Clone, Copy, PartialEq, Eq, Default)]
pub struct Told {
    /// 0, or why the text was refused
    pub answer: Answer,
    /// of an accepted text
    pub counts: Counts,
}

/// Whether a text's letters are in order.
#[repr(C)]
#[derive(Debug, Clone, Copy, PartialEq, Eq, Default)]
pub struct Order {
    /// 0, or 1 for a text that is too long
    pub number: u64,
    /// 1 for yes, 0 for no
    pub yes: u64,
}

/// When a session starts within a window. After a refusal, and from `count` on, all is 0.
#[repr(C)]
#[derive(Debug, Clone, PartialEq, Eq)]
pub struct Starts {
    /// 0, or the refusal: 2, 1, 23, 28 or 29
    pub number: u64,
    /// how many starts there are
    pub count: u64,
    /// the instant of each, in seconds since 1900
    pub at: [u64; MOST_STARTS],
    /// the number of its time, from 1
    pub time: [u64; MOST_STARTS],
    /// the number of its repeat, from 1 through all times; 0 for a time without repeats
    pub repeat: [u64; MOST_STARTS],
}

impl Default for Starts {
    fn default() -> Self {
        let none = [0; MOST_STARTS];
        Starts { number: 0, count: 0, at: none, time: none, repeat: none }
    }
}

mod raw {
    use super::{Answer, Numeral, Order, Piece, Starts, Told};
    extern "C" {
        pub fn sdp_utf8_end(bytes: *const u8, len: usize) -> usize;
        pub fn sdp_is_token(bytes: *const u8, len: usize) -> bool;
        pub fn sdp_number16(bytes: *const u8, len: usize) -> Numeral;
        pub fn sdp_number64(bytes: *const u8, len: usize) -> Numeral;
        pub fn sdp_typed_time(bytes: *const u8, len: usize) -> Numeral;
        pub fn sdp_cut(text: *const u8, len: usize, place: usize, line: usize) -> Piece;
        pub fn sdp_read(text: *const u8, text_len: usize, area: *mut u8, area_len: usize) -> Told;
        pub fn sdp_area_size() -> usize;
        pub fn sdp_length(text: *const u8, text_len: usize, area: *const u8, area_len: usize) -> Answer;
        pub fn sdp_fill(
            text: *const u8,
            text_len: usize,
            area: *const u8,
            area_len: usize,
            out: *mut u8,
            out_len: usize,
        ) -> Answer;
        pub fn sdp_letter_order(text: *const u8, text_len: usize) -> Order;
        pub fn sdp_starts(
            text: *const u8,
            text_len: usize,
            area: *const u8,
            area_len: usize,
            from: u64,
            to: u64,
        ) -> Starts;
    }
}

/// The end of the longest well-formed UTF-8 beginning.
pub fn utf8_end(bytes: &[u8]) -> usize {
    unsafe { raw::sdp_utf8_end(bytes.as_ptr(), bytes.len()) }
}

/// Whether the bytes are a token of RFC 8866.
pub fn is_token(bytes: &[u8]) -> bool {
    unsafe { raw::sdp_is_token(bytes.as_ptr(), bytes.len()) }
}

/// A whole number of 16 bits.
pub fn number16(bytes: &[u8]) -> Numeral {
    unsafe { raw::sdp_number16(bytes.as_ptr(), bytes.len()) }
}

/// A whole number of 64 bits.
pub fn number64(bytes: &[u8]) -> Numeral {
    unsafe { raw::sdp_number64(bytes.as_ptr(), bytes.len()) }
}

/// A number with or without d, h, m or s after it, in seconds.
pub fn typed_time(bytes: &[u8]) -> Numeral {
    unsafe { raw::sdp_typed_time(bytes.as_ptr(), bytes.len()) }
}

/// What stands at `place`, where line number `line` is due.
pub fn cut(text: &[u8], place: usize, line: usize) -> Piece {
    unsafe { raw::sdp_cut(text.as_ptr(), text.len(), place, line) }
}

/// Reads a text into an area that is lent, and counts its lines. docs/AREA.md says what the area holds afterwards; the
/// cells of keys are zero, since k lines are ignored.
#[inline] // so that only a program that reads needs the archive to have it
pub fn read(text: &[u8], area: &mut [u8]) -> Told {
    unsafe { raw::sdp_read(text.as_ptr(), text.len(), area.as_mut_ptr(), area.len()) }
}

/// How many bytes an area must have.
#[inline]
pub fn area_size() -> usize {
    unsafe { raw::sdp_area_size() }
}

/// How many bytes the session that the area holds, with its strings in the text, is written with.
#[inline]
pub fn length(text: &[u8], area: &[u8]) -> Answer {
    unsafe { raw::sdp_length(text.as_ptr(), text.len(), area.as_ptr(), area.len()) }
}

/// Writes the session that the area holds, with its strings in the text, to the output that is lent. Keys that an earlier
/// release left in the area are judged, and not written.
#[inline]
pub fn fill(text: &[u8], area: &[u8], out: &mut [u8]) -> Answer {
    unsafe { raw::sdp_fill(text.as_ptr(), text.len(), area.as_ptr(), area.len(), out.as_mut_ptr(), out.len()) }
}

/// The same behind what a vector has, into its spare capacity, which is not set to anything first. On 0 the vector is longer
/// by the written bytes, else it is as it was: 22 where its capacity is too small.
#[inline]
pub fn fill_spare(text: &[u8], area: &[u8], out: &mut Vec<u8>) -> Answer {
    let spare = out.spare_capacity_mut();
    let (start, room) = (spare.as_mut_ptr().cast::<u8>(), spare.len());
    // SAFETY: the archive never reads an output (a test asks its source), so what it is lent need not be initialised; it
    // writes only within it.
    let answer = unsafe { raw::sdp_fill(text.as_ptr(), text.len(), area.as_ptr(), area.len(), start, room) };
    if answer.number == 0 {
        let len = answer.len as usize;
        assert!(len <= room, "what was written has room");
        // SAFETY: the capacity holds them, as was just asked, and where the archive answers 0 with len it has written the
        // first len bytes of the output.
        unsafe { out.set_len(out.len() + len) };
    }
    answer
}

/// Whether the letters of a text's lines run in order; see [`letter_order`](crate::letter_order).
#[inline]
pub fn letter_order(text: &[u8]) -> Order {
    unsafe { raw::sdp_letter_order(text.as_ptr(), text.len()) }
}

/// When the session that the area holds starts, from `from` on and before `to`; see [`starts`](crate::Session::starts).
#[inline]
pub fn starts(text: &[u8], area: &[u8], from: u64, to: u64) -> Starts {
    unsafe { raw::sdp_starts(text.as_ptr(), text.len(), area.as_ptr(), area.len(), from, to) }
}
