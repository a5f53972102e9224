//! Document 02, P2: where the byte stands that a refusal with 8 is for. The crate doesn't say it. So it is found here,
//! from the line and the field that the crate names, by document 01's "Fields" and std's `valid_up_to`.
use crate::keys::without_end;
use crate::refusal::line_start;
use std::ops::Range;
use std::str::from_utf8;

/// In a text.
#[derive(Debug, Clone, PartialEq, Eq)]
pub struct BadByte {
    pub place: usize,
    /// The whole field that it stands in.
    pub field: Range<usize>,
}

/// The parts between separators, at most so many of them, by their places in the value.
fn parts(value: &[u8], separator: u8, most: usize) -> Vec<Range<usize>> {
    let mut next = 0;
    let place = |part: &[u8]| {
        let start = next;
        next += part.len() + 1;
        start..start + part.len()
    };
    value.splitn(most, |byte| *byte == separator).map(place).collect()
}

const ALL: usize = usize::MAX;

/// The letter of the line that each of the 38 fields stands in.
const LETTERS: [u8; 38] = *b"oooooooccccbbbtttrrrzzaakkmmmmmmisiuep";

/// "o, c, t, r, z: split at runs of spaces, no empty fields."
fn words(value: &[u8]) -> Vec<Range<usize>> {
    parts(value, b' ', ALL).into_iter().filter(|part| !part.is_empty()).collect()
}

/// The parts of a value that a field's number names: one, or for the lists of r and z all that have this number.
fn named(value: &[u8], field: u64) -> Vec<Range<usize>> {
    let from = |first: u64| (field - first) as usize;
    // the parts, the first one that it names, and how far it is to the next
    let (parts, first, step) = match field {
        1..=6 => (words(value), from(1), ALL),
        8..=10 => (words(value), from(8), ALL),
        12..=13 => (parts(value, b':', ALL), from(12), ALL), // "b: split at every colon"
        15..=16 => (words(value), from(15), ALL),
        18..=19 => (words(value), from(18), ALL),
        20 => (words(value), 2, 1),
        21 => (words(value), 0, 2),
        22 => (words(value), 1, 2),
        23..=24 => (parts(value, b':', 2), from(23), ALL), // "a, k: at the first colon"
        27 => (parts(value, b' ', 4), 0, ALL),             // "m: at the first three spaces, empty fields kept"
        29 => (parts(value, b' ', 4), 1, ALL),
        31..=32 => (parts(value, b' ', 4), from(29), ALL),
        33..=38 => (vec![0..value.len()], 0, ALL),
        _ => (Vec::new(), 0, ALL),
    };
    parts.into_iter().skip(first).step_by(step).collect()
}

fn valid_up_to(bytes: &[u8]) -> Option<usize> {
    from_utf8(bytes).err().map(|error| error.valid_up_to())
}

/// The bad byte of a text that is refused with 8 for this field of this line: that of the first part that the field's
/// number names and that isn't UTF-8. An error where there is none. It must also be the first bad byte of the whole value:
/// what stands before the field was judged and is UTF-8, and a separator ends no character.
pub fn find(text: &[u8], line: u64, field: u64) -> Result<BadByte, String> {
    let start = line_start(text, line as usize);
    let whole = text[start..].split_inclusive(|byte| *byte == b'\n').next().unwrap_or_default();
    let letter = (field as usize).checked_sub(1).and_then(|at| LETTERS.get(at));
    let value = without_end(whole).get(2..).filter(|_| whole.first() == letter);
    let value = value.ok_or(format!("line {line} is no line of the field {field}"))?;
    let bad = named(value, field).into_iter().find_map(|part| Some((valid_up_to(&value[part.clone()])?, part)));
    let (at, part) = bad.ok_or(format!("line {line} has no field {field} that isn't UTF-8"))?;
    let (at, of_value) = (part.start + at, valid_up_to(value).expect("a field of it isn't UTF-8"));
    if at != of_value {
        return Err(format!("line {line}: field {field} is bad at {at} of the value, and the value at {of_value}"));
    }
    let begin = start + 2;
    Ok(BadByte { place: begin + at, field: begin + part.start..begin + part.end })
}
