//! Texts that lead a careless program deep or far: one letter up to the limit, letters in turn, full tables, long lines,
//! empty lines, noise.
use crate::sessions::LONGEST;

/// The letters of the RFC, k among them, which has no use any more, and one that never had.
const LETTERS: &str = "vosiuepcbtrzkamx";
const HEAD: &str = "v=0\no=- 0 0 IN IP4 0\ns=-\n";
const TIME: &str = "t=0 0\n";
const MEDIA: &str = "m=a 1 p f\n";
const LARGEST: u64 = u64::MAX;

/// A text, and what to call it.
pub struct Hostile {
    pub name: String,
    pub text: Vec<u8>,
}

/// The head, and the part behind it as often as the limit lets.
fn again(head: &str, part: &[u8]) -> Vec<u8> {
    [head.as_bytes(), &part.repeat((LONGEST - head.len()) / part.len())].concat()
}

/// An accepted text in which all ten tables are full, every number as long as may be.
pub fn full() -> Vec<u8> {
    let mut text = HEAD.to_string();
    text += &"e=\n".repeat(16);
    text += &"p=\n".repeat(16);
    text += "c=IN IP4 h\n";
    text += &format!("b=AS:{LARGEST}\n").repeat(32);
    let repeat = format!("r={LARGEST} {LARGEST}{}\n", format!(" {LARGEST}").repeat(4));
    text += &format!("t={LARGEST} {LARGEST}\n{repeat}{repeat}").repeat(32);
    text += &format!("z={}\n", format!("{LARGEST} {} ", i64::MIN).repeat(64));
    text += &"a=\n".repeat(256);
    let attributes = "a=:\n".repeat(8);
    text += &format!("m=a 65535/65535 p f\nc=IN IP4 h\nc=IN IP4 h\nb=AS:{LARGEST}\n{attributes}").repeat(32);
    text.into_bytes()
}

/// Times, repeats, offsets and zones as many as fit: 64 repeats of this interval, each with four offsets.
fn starts(interval: u64) -> Vec<u8> {
    let mut text = HEAD.to_string();
    for at in 0..32 {
        let repeat = format!("r={interval} 1 {} {} {} {}\n", 90 - at, 60 - at, 60 - at, 40 - at);
        text += &format!("t={} 0\n{repeat}{repeat}", 1_000 - 10 * at);
    }
    let pairs: Vec<String> = (0..64).map(|at| format!("{} {}", 700 + 5 * at, 32 - at)).collect();
    text += &format!("z={}\n", pairs.join(" "));
    text.into_bytes()
}

pub fn texts() -> Vec<Hostile> {
    let mut all = Vec::new();
    let mut add = |name: String, text| all.push(Hostile { name, text });
    let timed = format!("{HEAD}{TIME}");
    let media = format!("{timed}{MEDIA}");
    for (place, head) in [("first", HEAD), ("timed", &timed), ("media", &media)] {
        for letter in LETTERS.chars() {
            add(format!("{place}-{letter}"), again(head, format!("{letter}=\n").as_bytes()));
        }
        for (name, part) in [("digits", "9"), ("words", "0 "), ("colons", ":"), ("wide", "\u{10ffff}")] {
            for letter in LETTERS.chars() {
                add(format!("{place}-{letter}-{name}"), again(&format!("{head}{letter}="), part.as_bytes()));
            }
        }
    }
    for (name, part) in [
        ("times-and-repeats", "t=\nr=\n"),
        ("times-and-two-repeats", "t=\r\nr=\r\nr=\r\n"),
        ("times-and-zones", "t=\nr=\nz=\n"),
        ("spaced-times", "t=\n\nr=\n\n"),
        ("good-times", "t=0 0\nr=0 0 0\n"),
        ("whole-medias", "t=\nm=\ni=\nc=\nb=\nk=\na=\n"),
        ("good-medias", MEDIA),
    ] {
        add(name.into(), again(HEAD, part.as_bytes()));
    }
    for (name, part) in [
        ("empty-lines", &b"\n"[..]),
        ("empty-lines-with-cr", b"\r\n"),
        ("versions", b"v=0\n"),
        ("noughts", b"\0"),
        ("no-utf8", b"\xff"),
        ("half-characters", b"\xf4\x8f\xbf"),
        ("equals", b"="),
        ("digits", b"9"),
        ("plus", b"+"),
        ("letters", b"x"),
    ] {
        add(name.into(), again("", part));
    }
    add("nothing".into(), Vec::new());
    add("full".into(), full());
    add("full-and-long".into(), [full(), again("", b"\n")].concat()[..LONGEST].to_vec());
    add("starts".into(), starts(0));
    add("starts-without-end".into(), starts(1));
    add("limit".into(), again(&format!("{timed}a="), b"x"));
    add("over-the-limit".into(), [again(HEAD, b"t=\n"), vec![b'\n'; 9]].concat()[..=LONGEST].to_vec());
    all
}

#[cfg(test)]
mod tests {
    use super::*;

    #[test]
    fn they_are_as_long_as_they_say() {
        let texts = texts();
        let long = |name: &str| texts.iter().find(|hostile| hostile.name == name).unwrap().text.len();
        assert_eq!((long("limit"), long("over-the-limit"), long("full-and-long")), (LONGEST, LONGEST + 1, LONGEST));
        let names: std::collections::BTreeSet<&String> = texts.iter().map(|hostile| &hostile.name).collect();
        assert_eq!(names.len(), texts.len(), "no name twice");
    }
}
