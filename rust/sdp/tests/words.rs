//! The words of the refusals: the crate, the page and C say the same.
mod c;
mod page;
use page::table;
use sdp::ffi::Answer;
use sdp::words::{FIELDS, SENTENCES, TABLES};
use sdp::Error;
use std::fmt::Write;

/// Compared as lines, so that a failure shows the row that is due.
fn same(heading: &str, columns: &[usize], due: Vec<Vec<String>>) {
    let page = table("docs/REFUSALS.md", heading);
    let page = page.iter().map(|row| columns.iter().map(|at| row[*at].clone()).collect::<Vec<_>>()).collect::<Vec<_>>();
    assert_eq!(page.len(), due.len(), "rows under {heading}");
    for (page, due) in page.iter().zip(&due) {
        assert_eq!(page, due, "docs/REFUSALS.md, {heading}, beside rust/sdp/src/words.rs");
    }
}

#[test]
fn the_page_has_the_crate_s_words() {
    let number = |at: usize| (at + 1).to_string();
    let sentences = SENTENCES.iter().map(|(number, words)| vec![number.to_string(), words.to_string()]);
    same("Refusals", &[0, 3], sentences.collect());
    let fields = FIELDS.iter().enumerate().map(|(at, field)| vec![number(at), field.name.into(), field.form.into()]);
    same("Fields", &[0, 2, 3], fields.collect());
    let tables = TABLES.iter().enumerate().map(|(at, table)| vec![number(at), table.name.into(), table.rows.into()]);
    same("Tables", &[0, 1, 2], tables.collect());
}

fn sentence(number: u64, line: u64, field: u64, len: u64) -> String {
    said(Answer { number, line, field, place: 0, len }, b"")
}

/// By the crate, with the text that was read.
fn said(answer: Answer, text: &[u8]) -> String {
    Error::check_in(answer, text).unwrap_err().to_string()
}

/// Refusal 8 of a field, at a place of the text.
fn bad_byte(line: u64, field: u64, place: u64) -> Answer {
    Answer { number: 8, line, field, place, len: 0 }
}

/// One of each kind of sentence, typed by hand.
#[test]
fn sentences() {
    assert_eq!(sentence(1, 0, 0, 0), "the text has more than 32768 bytes (refusal 1)");
    assert_eq!(sentence(7, 1, 0, 2), "line 1: the version is not 0 (refusal 7)");
    // as a release answered that did not tell the place
    assert_eq!(sentence(8, 3, 34, 0), "line 3: the session name is not UTF-8 (refusal 8)");
    assert_eq!(sentence(9, 2, 15, 0), "line 2: the start time is not a whole number below 2^64 (refusal 9)");
    assert_eq!(sentence(10, 2, 22, 0), "line 2: a zone's offset is missing (refusal 10)");
    assert_eq!(sentence(11, 4, 17, 0), "line 4: what follows the stop time must not be there (refusal 11)");
    assert_eq!(sentence(21, 18, 1, 0), "line 18: there are more than 16 e lines (refusal 21)");
    assert_eq!(sentence(21, 600, 9, 0), "line 600: there are more than 512 a lines (refusal 21)");
    assert_eq!(sentence(22, 0, 0, 40), "the output is too short: 40 bytes are needed (refusal 22)");
    assert_eq!(sentence(28, 0, 0, 0), "the adjustment times of the z line fall (refusal 28)");
    assert_eq!(sentence(29, 0, 0, 0), "there are more than 256 starts in the window (refusal 29)");
    assert_eq!(sentence(99, 5, 0, 0), "line 5: refused (refusal 99)");
}

/// A text whose byte 512 is the 9th of its line 14, an s line, as in the page's example.
fn at_512() -> Vec<u8> {
    let mut text = b"v=0\r\n".to_vec();
    (2..13).for_each(|line| text.extend(format!("a={line}\n").bytes()));
    text.extend([&b"a="[..], &vec![b'x'; 512 - 8 - text.len() - 4], b"\r\n"].concat());
    text.extend(b"s=Stage \xff1\r\nt=0 0\r\n");
    text
}

/// Refusal 8 names the byte. What isn't known is left out: without the text, which byte of the line it is.
#[test]
fn the_bad_byte() {
    let text = at_512();
    assert_eq!(text.iter().position(|byte| *byte == 0xff), Some(512));
    assert_eq!(text[..512].iter().filter(|byte| **byte == b'\n').count(), 13);
    let answer = bad_byte(14, 34, 512);
    let due = "line 14: the session name is not UTF-8 from byte 512 on, the 9th byte of the line (refusal 8)";
    assert_eq!(said(answer, &text), due);
    for (place, words) in [("docs/REFUSALS.md", "    "), ("c/sdp_words.h", " *     ")] {
        assert!(page::file(place).contains(&format!("\n{words}{due}\n")), "{place} has this sentence as its example");
    }
    let without = "line 14: the session name is not UTF-8 from byte 512 on (refusal 8)";
    assert_eq!(Error::check(answer).unwrap_err().to_string(), without);
    assert_eq!(said(answer, &text[..512]), without, "a text that has no such byte");

    let error = Error::check_in(answer, &text).unwrap_err();
    assert_eq!((error.place(), error.bad_byte(), error.byte_in_line(), error.len()), (512, Some(512), Some(9), 0));
    let error = Error::check(answer).unwrap_err();
    assert_eq!((error.place(), error.bad_byte(), error.byte_in_line()), (512, Some(512), None));
    // no other number has one: 7 has a place of its own
    for number in (1..=30).filter(|number| *number != 8) {
        let error = Error::check_in(Answer { number, ..answer }, &text).unwrap_err();
        assert_eq!((error.place(), error.bad_byte(), error.byte_in_line()), (512, None, None), "{number}");
        assert!(!error.to_string().contains("byte 512") && !error.to_string().contains("9th"), "{number}");
    }
    assert_eq!(std::mem::size_of::<Error>(), std::mem::size_of::<Answer>() + 8);
}

/// Numbers in a line, each with its ending by hand.
const ORDINALS: [&str; 39] = [
    "1st", "2nd", "3rd", "4th", "5th", "6th", "7th", "8th", "9th", "10th", "11th", "12th", "13th", "14th", "19th",
    "20th", "21st", "22nd", "23rd", "24th", "30th", "31st", "100th", "101st", "102nd", "103rd", "104th", "110th",
    "111th", "112th", "113th", "114th", "121st", "1001st", "1011th", "1112th", "21013th", "32762nd", "32763rd",
];

/// A text of one line behind `v=0`, and the place of its byte with this number.
fn nth_of_line(nth: usize) -> (Vec<u8>, u64) {
    let text = [b"v=0\n".to_vec(), vec![b'x'; nth]].concat();
    let place = text.len() as u64 - 1;
    (text, place)
}

#[test]
fn ordinals() {
    for due in ORDINALS {
        let nth: usize = due[..due.len() - 2].parse().unwrap();
        let (text, place) = nth_of_line(nth);
        let due = format!("line 2: the URI is not UTF-8 from byte {place} on, the {due} byte of the line (refusal 8)");
        assert_eq!(said(bad_byte(2, 36, place), &text), due);
    }
}

/// The sentences of C are those of the crate: for each number, each field or table, and some lines and lengths. The
/// longest fits the size that the header has for it, and a shorter room gets its beginning.
#[test]
fn c_says_the_same() {
    let program = c::compiled("rust/sdp/tests/c/words.c", "words");
    let mut input = String::new();
    let mut due = Vec::new();
    let mut add = |answer: Answer, text: &[u8], room: usize| {
        let Answer { number, line, field, place, len } = answer;
        let hex: String = text.iter().map(|byte| format!("{byte:02x}")).collect();
        writeln!(input, "{number} {line} {field} {place} {len} {room} {} {hex}", text.len()).unwrap();
        let sentence = said(answer, text);
        due.push(sentence[..sentence.len().min(room - 1)].to_string());
    };
    let last = at_512();
    for number in (1..=30).chain([u64::MAX]) {
        for field in (0..=45).chain([u64::MAX]) {
            for (line, len) in [(0, 0), (1, 1), (32_768, 43_727), (u64::MAX, u64::MAX)] {
                add(Answer { number, line, field, place: 0, len }, b"", 200);
                add(Answer { number, line, field, place: len, len }, b"", 200);
            }
            add(Answer { number, line: u64::MAX, field, place: 512, len: u64::MAX }, &last, 200);
        }
    }
    // each place of a text, one behind it too, and without a text
    for place in 0..=last.len() as u64 + 1 {
        add(bad_byte(7, 24, place), &last, 200);
        add(bad_byte(7, 24, place), b"", 200);
    }
    for ordinal in ORDINALS {
        let (text, place) = nth_of_line(ordinal[..ordinal.len() - 2].parse().unwrap());
        add(bad_byte(2, 36, place), &text, 200);
    }
    for room in 1..200 {
        add(Answer { number: 9, line: 3, field: 22, ..Answer::default() }, b"", room);
        add(Answer { number: 22, len: 1_000, ..Answer::default() }, b"", room);
        add(bad_byte(14, 34, 512), &last, room);
    }
    let output = c::run(&program, &[], input.as_bytes());
    assert!(output.status.success(), "{}", String::from_utf8_lossy(&output.stderr));
    let said = String::from_utf8(output.stdout).unwrap();
    let said: Vec<&str> = said.lines().collect();
    assert_eq!(said.len(), due.len());
    for ((said, due), asked) in said.iter().zip(&due).zip(input.lines()) {
        assert_eq!(said, due, "number, line, field, place, length, room, text: {asked}");
    }
    let longest = due.iter().map(String::len).max().unwrap();
    println!("words: {} sentences compared, the longest of {longest} bytes", due.len());
    assert!(longest < 199, "the header has 200 bytes for the longest, and it is not cut");
}
