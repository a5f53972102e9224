//! The answers for the leaf functions, one for each that the archive exports: from std, bstr and the crate's own
//! private functions.
use crate::refusal;
use bstr::ByteSlice;
use sdp_types::{probe, ParserError};

/// A number that was read (0 and the value), or 8 (not UTF-8) or 9 (bad format) and 0.
#[derive(Debug, Clone, Copy, PartialEq, Eq)]
pub struct Numeral {
    pub number: u64,
    pub value: u64,
}

/// What stands at a place where a line is due: `kind` 0 the end, 1 an empty line, 2 a line of good form, 3 a refused
/// one. What has no meaning for a kind is 0.
#[derive(Debug, Clone, Copy, PartialEq, Eq, Default)]
pub struct Cut {
    pub kind: u64,
    pub number: u64,
    pub line: u64,
    pub letter: u64,
    pub place: u64,
    pub len: u64,
    pub next_place: u64,
    pub next_line: u64,
}

pub fn utf8_end(bytes: &[u8]) -> usize {
    match std::str::from_utf8(bytes) {
        Ok(_) => bytes.len(),
        Err(error) => error.valid_up_to(),
    }
}

pub fn is_token(bytes: &[u8]) -> bool {
    probe::is_token(bytes)
}

fn numeral(answer: Result<u64, ParserError>) -> Numeral {
    match answer {
        Ok(value) => Numeral { number: 0, value },
        Err(ParserError::InvalidFieldEncoding(..)) => Numeral { number: 8, value: 0 },
        Err(ParserError::InvalidFieldFormat(..)) => Numeral { number: 9, value: 0 },
        Err(other) => panic!("a number is refused with encoding or format only: {other:?}"),
    }
}

/// As `Media::parse_m_line` reads a port: `str::from_utf8`, then `parse` to 16 bits.
pub fn number16(bytes: &[u8]) -> Numeral {
    numeral(match std::str::from_utf8(bytes) {
        Err(_) => Err(ParserError::InvalidFieldEncoding(0, "")),
        Ok(text) => text
            .parse::<u16>()
            .map(u64::from)
            .map_err(|_| ParserError::InvalidFieldFormat(0, "")),
    })
}

pub fn number64(bytes: &[u8]) -> Numeral {
    numeral(probe::number(bytes))
}

pub fn typed_time(bytes: &[u8]) -> Numeral {
    numeral(probe::typed_time(bytes))
}

/// All cuts of a text from its start: the crate's `LineParser` gives the lines and the refusal, bstr's splitting the
/// places and the empty lines that the crate skips. The last is the end or the refusal.
pub fn cuts(text: &[u8]) -> Vec<Cut> {
    let place_of = |part: &[u8]| part.as_ptr() as u64 - text.as_ptr() as u64;
    let (lines, error) = probe::lines(text);
    let refused = error.map(|error| refusal::of(&error, text));
    let mut lines = lines.into_iter().peekable();
    let mut cuts = Vec::new();
    for (i, (whole, line)) in text.lines_with_terminator().zip(text.lines()).enumerate() {
        let n = i as u64 + 1;
        let (next_place, next_line) = (place_of(whole) + whole.len() as u64, n + 1);
        let at = Cut {
            line: n,
            next_place,
            next_line,
            ..Cut::default()
        };
        if let Some((_, key, value)) = lines.next_if(|(number, _, _)| *number as u64 == n) {
            let (letter, place, len) = (u64::from(key), place_of(value), value.len() as u64);
            cuts.push(Cut {
                kind: 2,
                letter,
                place,
                len,
                ..at
            });
        } else if let Some(refusal) = refused.filter(|refusal| refusal.line == n) {
            cuts.push(Cut {
                kind: 3,
                number: refusal.number,
                line: n,
                ..Cut::default()
            });
            return cuts;
        } else {
            assert!(line.is_empty(), "the crate passes over empty lines only");
            cuts.push(Cut { kind: 1, ..at });
        }
    }
    assert!(
        lines.next().is_none() && refused.is_none(),
        "all that the crate found was placed"
    );
    cuts.push(Cut::default());
    cuts
}
