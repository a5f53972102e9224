//! The words of the refusals. docs/REFUSALS.md has the same tables, and a test (tests/words.rs) holds the two together.
use crate::ffi::Answer;
use std::fmt;

/// A field that a refusal by 8 to 11 can name.
#[derive(Debug)]
pub struct Field {
    /// How a sentence names it.
    pub name: &'static str,
    /// What it must be, where 9 can refuse it; else empty.
    pub form: &'static str,
}

/// A table that refusal 21 can name.
#[derive(Debug)]
pub struct Table {
    /// How a sentence names what it holds.
    pub name: &'static str,
    /// How many of them fit.
    pub rows: &'static str,
}

/// The sentences of the refusals, each with its number. What stands in braces is put in: the name and the form of the
/// field, the name and the rows of the table, the length; and for 8 ` from byte 512 on` and `, the 9th byte of the line`,
/// or nothing where that isn't known.
pub const SENTENCES: [(u64, &str); 25] = [
    (1, "the text has more than 32768 bytes"),
    (2, "the area has fewer than 16938 bytes"),
    (3, "there is a NUL or a CR in the line"),
    (4, "the line has no ="),
    (5, "the first = is not the second byte of the line"),
    (6, "there is no version: the first line must be v=0"),
    (7, "the version is not 0"),
    (8, "{field} is not UTF-8{from}{nth}"),
    (9, "{field} is not {form}"),
    (10, "{field} is missing"),
    (11, "{field} must not be there"),
    (12, "there is a second o line"),
    (13, "there is a second s line"),
    (14, "there is a second i line of the session"),
    (15, "there is a second u line"),
    (16, "there is a second c line of the session"),
    (17, "there is a second z line"),
    (18, "there is a second i line in this media"),
    (19, "there is a second k line"), // by an earlier archive: k lines are ignored now
    (20, "there is an r line with no t line before it"),
    (21, "there are more than {rows} {table}"),
    (22, "the output is too short: {len} bytes are needed"),
    (23, "the area holds no session for this text"),
    (28, "the adjustment times of the z line fall"),
    (29, "there are more than 256 starts in the window"),
];

const WHOLE: &str = "a whole number below 2^64";
const PORT: &str = "a whole number below 2^16";
const TIMED: &str = "a time below 2^64 seconds: a whole number, then d, h, m, s or nothing";
const SIGNED: &str = "a time from -2^63 to 2^63-1 seconds: a - or none, a whole number, then d, h, m, s or nothing";
const TOKEN: &str = "a token";

const fn field(name: &'static str, form: &'static str) -> Field {
    Field { name, form }
}

/// The fields 1 to 38.
pub const FIELDS: [Field; 38] = [
    field("the origin's username", ""),
    field("the origin's session id", ""),
    field("the origin's version", WHOLE),
    field("the origin's network type", TOKEN),
    field("the origin's address type", TOKEN),
    field("the origin's address", ""),
    field("what follows the origin's address", ""),
    field("the connection's network type", TOKEN),
    field("the connection's address type", TOKEN),
    field("the connection's address", ""),
    field("what follows the connection's address", ""),
    field("the bandwidth's type", ""),
    field("the bandwidth's value", WHOLE),
    field("what follows the bandwidth's value", ""),
    field("the start time", WHOLE),
    field("the stop time", WHOLE),
    field("what follows the stop time", ""),
    field("the repeat interval", TIMED),
    field("the repeat's duration", TIMED),
    field("a repeat's offset", TIMED),
    field("a zone's adjustment time", WHOLE),
    field("a zone's offset", SIGNED),
    field("the attribute's name", ""),
    field("the attribute's value", ""),
    field("the key's method", ""), // this one and the next by an earlier archive
    field("the key", ""),
    field("the media's name", ""),
    field("the port", PORT),
    field("the port's encoding", ""),
    field("the number of ports", PORT),
    field("the media's protocol", ""),
    field("the media's formats", ""),
    field("the media's title", ""),
    field("the session name", ""),
    field("the session's description", ""),
    field("the URI", ""),
    field("the e-mail address", ""),
    field("the phone number", ""),
];

const fn table(name: &'static str, rows: &'static str) -> Table {
    Table { name, rows }
}

/// The tables 1 to 10.
pub const TABLES: [Table; 10] = [
    table("e lines", "16"),
    table("p lines", "16"),
    table("c lines of medias", "64"),
    table("b lines", "64"),
    table("t lines", "32"),
    table("r lines", "64"),
    table("offsets in r lines", "256"),
    table("pairs in the z line", "64"),
    table("a lines", "512"),
    table("m lines", "32"),
];

/// Entry `number`, from 1.
fn entry<T>(list: &'static [T], number: u64) -> Option<&'static T> {
    list.get(usize::try_from(number).ok()?.checked_sub(1)?)
}

/// What stands behind the digits of 1st, 2nd, 3rd, 4th, 11th, 21st.
fn ordinal(number: u64) -> &'static str {
    match (number % 100, number % 10) {
        (11..=13, _) => "th",
        (_, 1) => "st",
        (_, 2) => "nd",
        (_, 3) => "rd",
        _ => "th",
    }
}

/// The sentence of a refusal, without its line and number; `from` is the place of a bad byte, `nth` which of its line it is.
pub(crate) fn sentence(
    f: &mut fmt::Formatter<'_>,
    answer: &Answer,
    from: Option<u64>,
    nth: Option<u64>,
) -> fmt::Result {
    let Some((_, mut rest)) = SENTENCES.iter().find(|(number, _)| *number == answer.number).copied() else {
        return f.write_str("refused"); // by a later archive
    };
    let field = entry(&FIELDS, answer.field);
    let table = entry(&TABLES, answer.field);
    while let Some((before, after)) = rest.split_once('{') {
        let (what, after) = after.split_once('}').unwrap_or((after, ""));
        f.write_str(before)?;
        match what {
            "field" => f.write_str(field.map_or("", |field| field.name))?,
            "form" => f.write_str(field.map_or("", |field| field.form))?,
            "table" => f.write_str(table.map_or("", |table| table.name))?,
            "rows" => f.write_str(table.map_or("", |table| table.rows))?,
            "from" => from.map_or(Ok(()), |place| write!(f, " from byte {place} on"))?,
            "nth" => nth.map_or(Ok(()), |nth| write!(f, ", the {nth}{} byte of the line", ordinal(nth)))?,
            _ => write!(f, "{}", answer.len)?,
        }
        rest = after;
    }
    f.write_str(rest)
}
