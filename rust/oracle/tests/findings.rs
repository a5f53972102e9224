//! What the running crate does where document 01 is short or silent. Foldings and the pairs of number and field have
//! their own files.
mod common;
use common::{accepted, join, refusal, refused};
use generate::{random::count, texts, Random};
use oracle::limits::TEXT;
use oracle::refusal::parse;
use oracle::{counts, keys, read, written, Refusal};

#[test]
fn the_token_test_comes_before_utf8() {
    assert_eq!(refused(&[b"c=\xff IP4 h"]), (9, 2, 8));
    assert_eq!(refused(&[b"c=IN \xff h"]), (9, 2, 9));
    assert_eq!(refused(&[b"o=- 0 0 \xff IP4 h"]), (9, 2, 4));
    assert_eq!(refused(&[b"o=- 0 0 IN \xff h"]), (9, 2, 5));
}

#[test]
fn extra_fields_are_not_tested() {
    assert_eq!(refused(&[b"t=0 0 \xff"]), (11, 2, 17));
    assert_eq!(refused(&[b"b=AS:5:\xff"]), (11, 2, 14));
    assert_eq!(refused(&[b"c=IN IP4 h \xff"]), (11, 2, 11));
    assert_eq!(refused(&[b"o=- 0 0 IN IP4 h \xff"]), (11, 2, 7));
}

#[test]
fn separators() {
    assert_eq!(refused(&[b"t=0\t0"]), (9, 2, 15));
    accepted(&[b"t=  0   0  "]);
    // an m line keeps its empty fields
    assert_eq!(refused(&[b"m=a  1 p f"]), (9, 2, 28));
}

#[test]
fn zones() {
    assert_eq!(refused(&[b"z=5"]), (10, 2, 22));
    assert_eq!(refused(&[b"z=0 1 2"]), (10, 2, 22));
    assert_eq!(refused(&[b"z=0 -"]), (9, 2, 22));
    assert_eq!(refused(&[b"z=\xff"]), (8, 2, 21));
    assert_eq!(accepted(&[b"z=0 1 2 3"]).time_zones.len(), 2);
    let many = [b"z=".as_slice(), &b"0 1 ".repeat(65), b"2 x"].concat();
    assert_eq!(refused(&[&many]), (9, 2, 22));
}

#[test]
fn media_lines() {
    assert_eq!(refused(&[b"m="]), (10, 2, 28));
    assert_eq!(refused(&[b"m=a"]), (10, 2, 28));
    assert_eq!(refused(&[b"m=a "]), (9, 2, 28));
    assert_eq!(refused(&[b"m=a 1 "]), (10, 2, 32));
    assert_eq!(refused(&[b"m=a 1/\xff p f"]), (8, 2, 29));
    assert_eq!(refused(&[b"m=a x/\xff p f"]), (8, 2, 29));
    assert_eq!(refused(&[b"m=a x/y p f"]), (9, 2, 28));
    assert_eq!(refused(&[b"m=a 1/2/3 p f"]), (9, 2, 30));
}

#[test]
fn a_unit_is_split_off_before_the_utf8_test() {
    assert_eq!(refused(&[b"r=\xffd 1"]), (8, 3, 18));
    assert_eq!(refused(&[b"r=1 \xff"]), (8, 3, 19));
    // a character whose last byte would be no unit
    assert_eq!(refused(&[b"r=1\xc3\xa9 1"]), (9, 3, 18));
}

/// What the crate does with k lines, and documents 01 and 02 no more.
#[test]
fn the_crate_reads_keys() {
    let text = b"v=0\nk=clear:x\nm=a 1 p f\nk=\nm=a 1 p f\nk=:\n";
    let session = parse(text).unwrap();
    let key = |key: &Option<oracle::sdp_types::Key>| key.clone().map(|key| (key.method, key.encryption_key));
    assert_eq!(key(&session.key), Some(("clear".into(), Some("x".into()))));
    let of_medias: Vec<_> = session.medias.iter().map(|media| key(&media.key)).collect();
    assert_eq!(of_medias, [Some((String::new(), None)), Some((String::new(), Some(String::new())))]);
    let mut output = Vec::new();
    session.write(&mut output).unwrap();
    assert_eq!(output.split(|byte| *byte == b'\n').filter(|line| line.starts_with(b"k=")).count(), 3);
    // it refuses a second one, and one that is not UTF-8
    assert_eq!(parse(b"v=0\nk=\nk=\xff"), Err(Refusal::at_line(19, 3)));
    assert_eq!(parse(b"v=0\nm=a 1 p f\nk=\nk="), Err(Refusal::at_line(19, 4)));
    assert_eq!(parse(b"v=0\nk=\xff"), Err(Refusal::at_field(8, 2, 25)));
    assert_eq!(parse(b"v=0\nk=x:\xff"), Err(Refusal::at_field(8, 2, 26)));

    assert_eq!(read(text).unwrap(), keys::without_keys(&session));
    assert_eq!(written(&session), written(&read(text).unwrap()));
    assert!(!written(&session).windows(3).any(|part| part == b"\nk="));
}

#[test]
fn only_the_first_version_line_counts() {
    accepted(&[b"v=0", b"v=0", b"v=9"]);
    assert_eq!(refusal(b"x=1\nv=0").number, 6);
    assert_eq!(refusal(b"\xef\xbb\xbfv=0"), oracle::Refusal::at_line(5, 1));
    assert_eq!(refusal(b"v=0\n\r"), oracle::Refusal::at_line(3, 2));
}

#[test]
fn missing_lines_are_not_told_from_the_placeholders() {
    assert_eq!(accepted(&[b"v=0"]), accepted(&[b"o=- 0 0 IN IP4 0.0.0.0"]));
    assert_eq!(accepted(&[b"v=0"]), accepted(&[b"s="]));
    // a missing time is told from the one that is written for it
    assert_ne!(accepted(&[b"v=0"]), accepted(&[b"t=0 0"]));
}

#[test]
fn control_characters_are_kept() {
    let session = accepted(&[b"s=\x01\x7f\t\x0b"]);
    assert_eq!(session.session_name, "\x01\x7f\t\x0b");
    assert!(written(&session).windows(8).any(|part| part == b"s=\x01\x7f\t\x0b\r\n"));
}

#[test]
fn a_username_that_is_dropped_whole() {
    let mut session = accepted(&[b"v=0"]);
    for username in ["\0", "\r\n", "\0\r\n"] {
        session.origin.username = Some(username.into());
        let text = written(&session);
        assert!(text.starts_with(b"v=0\r\no= 0 0 IN IP4 0.0.0.0\r\n"));
        assert_eq!(read(&text).unwrap_err(), oracle::Refusal::at_field(9, 2, 3));
    }
    session.origin.username = Some(String::new());
    assert!(written(&session).starts_with(b"v=0\r\no=- 0 0 "));
}

#[test]
fn hand_built_sessions_need_not_read_back() {
    let mut session = accepted(&[b"b=AS:1"]);
    session.bandwidths[0].bwtype = "A:S".into();
    assert_eq!(read(&written(&session)).unwrap_err().number, 9);
    let mut session = accepted(&[b"v=0"]);
    session.origin.sess_id = String::new();
    assert_eq!(read(&written(&session)).unwrap_err().number, 9);
}

#[test]
fn the_longest_written_form() {
    // every kept line gains one byte; a missing o and s are written, and the last line has no LF
    let media: [&[u8]; 4] = [b"m=a 1 p f", b"i=", b"c=N A h", b"c=N A h"];
    let mut lines: Vec<&[u8]> = vec![b"v=0", b"i=", b"u=", b"c=N A h", b"z=1 1"];
    for (line, most) in [
        (&b"e="[..], 16),
        (b"p=", 16),
        (b"b=:1", 64),
        (b"t=0 0", 32),
        (b"r=1 1", 64),
        (b"a=", 512),
    ] {
        lines.resize(lines.len() + most, line);
    }
    for _ in 0..32 {
        lines.extend(media);
    }
    let missing = TEXT - join(&lines).len();
    let long = [b"m=a 1 p f".as_slice(), &vec![b'x'; missing]].concat();
    let last_media = lines.len() - media.len();
    lines[last_media] = &long;
    let text = join(&lines);
    assert_eq!(text.len(), TEXT);
    let output = written(&read(&text).unwrap());
    assert_eq!(output.len(), 33_634);
    assert_eq!(read(&output).unwrap_err().number, 1);
    assert_eq!(counts::of(&text).kept, 1 + 4 + 16 + 16 + 64 + 32 + 64 + 512 + 4 * 32);
}

#[test]
fn bound_and_reading_back() {
    assert_eq!(written(&accepted(&[b"v=0"])).len(), 3 + 1 + 36);
    let mut random = Random::of_test("bound");
    let (mut tried, mut accepted, mut back) = (0, 0, 0);
    for _ in 0..count(100_000) {
        let text = texts::text(&mut random);
        tried += 1;
        if let Ok(session) = read(&text) {
            let output = written(&session);
            assert!(output.len() <= text.len() + counts::of(&text).kept as usize + 36);
            accepted += 1;
            // a time that was missing is written, all else reads back as it was
            let again = parse(&output).unwrap();
            let mut expected = session;
            if expected.times.is_empty() {
                expected.times = again.times.clone();
                assert_eq!(again.times, [oracle::sdp_types::Time::new(0, 0)]);
            }
            assert_eq!(again, expected);
            back += 1;
        }
    }
    println!("bound: {tried} random texts, {accepted} accepted and written, {back} read back");
    assert!(accepted * 5 > tried);
}
