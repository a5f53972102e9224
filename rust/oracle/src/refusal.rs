//! The crate's refusals in the numbers of document 01, "Refusal numbers".
use sdp_types::{ParserError, Session};

/// Number, line, field, place and length; what document 01 doesn't name for a number is 0. So 8 has no place here:
/// `bad_byte` finds it.
#[derive(Debug, Clone, Copy, PartialEq, Eq, Default)]
pub struct Refusal {
    pub number: u64,
    pub line: u64,
    pub field: u64,
    pub place: u64,
    pub len: u64,
}

impl Refusal {
    pub fn at_line(number: u64, line: usize) -> Self {
        Refusal {
            number,
            line: line as u64,
            ..Refusal::default()
        }
    }

    pub fn at_field(number: u64, line: usize, field: u64) -> Self {
        Refusal {
            field,
            ..Refusal::at_line(number, line)
        }
    }
}

/// Document 01, "Fields": the crate's name for each of the 38. The two of a k line are reserved: the crate alone names them.
pub const FIELDS: [&str; 38] = [
    "Origin username",
    "Origin sess-id",
    "Origin sess-version",
    "Origin nettype",
    "Origin addrtype",
    "Origin unicast-address",
    "Origin",
    "Connection nettype",
    "Connection addrtype",
    "Connection connection-address",
    "Connection",
    "Bandwidth bwtype",
    "Bandwidth bandwidth",
    "Bandwidth",
    "Time start-time",
    "Time stop-time",
    "Time",
    "Repeat repeat-interval",
    "Repeat active-duration",
    "Repeat offset",
    "TimeZone adjustment-time",
    "TimeZone offset",
    "Attribute name",
    "Attribute value",
    "Key method",
    "Key encryption-key",
    "Media name",
    "Media port",
    "Media Port", // the crate's spelling where the whole port field is not UTF-8
    "Media num-ports",
    "Media proto",
    "Media fmt",
    "Media Title",
    "Session Name",
    "Session Description",
    "Uri",
    "E-Mail",
    "Phone",
];

/// The number of a field, by the crate's name for it.
pub fn field(name: &str) -> u64 {
    let at = FIELDS.iter().position(|known| *known == name);
    at.unwrap_or_else(|| panic!("document 01 numbers no field {name:?}")) as u64 + 1
}

/// The byte place at which a line starts, by a search for the line ends before it.
pub fn line_start(text: &[u8], line: usize) -> usize {
    let ends = text.iter().enumerate().filter(|(_, byte)| **byte == b'\n');
    match line.checked_sub(2) {
        None => 0,
        Some(before) => ends.map(|(at, _)| at + 1).nth(before).expect("the text has this line"),
    }
}

/// Document 01's numbers for a refusal of `text` by the crate.
pub fn of(error: &ParserError, text: &[u8]) -> Refusal {
    #[allow(deprecated)]
    match error {
        ParserError::InvalidLineFormat(line, why) => Refusal::at_line(form(why), *line),
        ParserError::NoVersion => Refusal {
            number: 6,
            ..Refusal::default()
        },
        ParserError::InvalidVersion(line, value) => {
            let place = line_start(text, *line) + b"v=".len();
            assert_eq!(
                text.get(place..place + value.len()),
                Some(&value[..]),
                "the value stands in the line"
            );
            Refusal {
                place: place as u64,
                len: value.len() as u64,
                ..Refusal::at_line(7, *line)
            }
        }
        ParserError::InvalidFieldEncoding(line, name) => Refusal::at_field(8, *line, field(name)),
        ParserError::InvalidFieldFormat(line, name) => Refusal::at_field(9, *line, field(name)),
        ParserError::MissingField(line, name) => Refusal::at_field(10, *line, field(name)),
        ParserError::FieldTrailingData(line, name) => Refusal::at_field(11, *line, field(name)),
        ParserError::MultipleOrigins(line) => Refusal::at_line(12, *line),
        ParserError::MultipleSessionNames(line) => Refusal::at_line(13, *line),
        ParserError::MultipleSessionDescription(line) => Refusal::at_line(14, *line),
        ParserError::MultipleUris(line) => Refusal::at_line(15, *line),
        ParserError::MultipleConnections(line) => Refusal::at_line(16, *line),
        ParserError::MultipleTimeZones(line) => Refusal::at_line(17, *line),
        ParserError::MultipleMediaTitles(line) => Refusal::at_line(18, *line),
        ParserError::MultipleKeys(line) => Refusal::at_line(19, *line), // by the crate alone
        ParserError::RepeatWithoutTime(line) => Refusal::at_line(20, *line),
        ParserError::MultipleVersions(_)
        | ParserError::UnexpectedLine(..)
        | ParserError::NoOrigin
        | ParserError::NoSessionName => panic!("the crate makes no {error:?}, and document 01 has no number for it"),
    }
}

/// 3, 4 or 5. "line key not m" can't occur.
pub fn form(why: &str) -> u64 {
    match why {
        "Line contains NUL or CR" => 3,
        "Line not in key=value format" => 4,
        "Line key not 1 character" => 5,
        _ => panic!("document 01 has no number for {why:?}"),
    }
}

/// What the crate alone says of a text, k lines and all, in document 01's numbers.
pub fn parse(text: &[u8]) -> Result<Session, Refusal> {
    Session::parse(text).map_err(|error| of(&error, text))
}
