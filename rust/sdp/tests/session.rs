//! The view, the errors and the writing, on texts whose answers were typed by hand.
mod page;
use sdp::{
    ffi, Area, Attribute, Bandwidth, Connection, Contact, Counts, Error, Key, Offset, Origin, Session, SessionBuf, Start,
    Starts, TimeZone, LONGEST, MOST_STARTS, ROOM,
};
use std::io::{self, ErrorKind, Write};

/// Something in every place, and absent things too; k lines, which have no use.
const RICH: &[u8] = b"v=0\no=jdoe 42 7 in IP4 host.example\ns=Desk 4\ni=The desk\nu=http://desk.example\n\
    e=a@b\ne=c@d\np=+1 2\nc=IN ip4 224.0.0.1/15\nb=CT:384\nb=X-y:5\n\
    t=1 2\nr=7d 1h 0 25h\nr=1 2\nt=3 0\nt=4 5\nr=60 30 1m\nz=60 -1h 61 0 62 +30m\n\
    k=clear:secret\na=recvonly\na=note:\na=Tool:desk:4\n\
    m=audio 5004/2 RTP/AVP 96 97\ni=Stage\nc=IN IP4 a\nc=IN IP4 b\nb=AS:1\nk=prompt\na=rtpmap:96 L16\na=RTPMAP:97 L24\n\
    m=video 0 p \nm=text 65535 x y\nc=TN E164 c\nb=AS:2\na=x\n";

fn read(text: &[u8]) -> SessionBuf {
    SessionBuf::parse(text).unwrap_or_else(|error| panic!("{}: {error}", text.escape_ascii()))
}

fn refused(text: &[u8]) -> Error {
    SessionBuf::parse(text).expect_err("the text is refused")
}

#[test]
fn everything_is_there() {
    let mut area = Area::new();
    let session = sdp::read(RICH, &mut area).unwrap();
    let mut origin = Origin::new("42", 7, "in", "IP4", "host.example"); // in: as it was written
    origin.username = Some("jdoe");
    assert_eq!((session.origin(), session.origin_line()), (origin, Some(origin)));
    assert_eq!(session.session_name(), "Desk 4");
    assert_eq!(session.session_description(), Some("The desk"));
    assert_eq!(session.uri(), Some("http://desk.example"));
    assert_eq!(session.emails().collect::<Vec<_>>(), ["a@b", "c@d"]);
    assert_eq!(session.phones().collect::<Vec<_>>(), ["+1 2"]);
    let (connection, bandwidth) = (Connection::new, Bandwidth::new);
    assert_eq!(session.connection(), Some(connection("IN", "ip4", "224.0.0.1/15")));
    assert_eq!(session.bandwidths().collect::<Vec<_>>(), [bandwidth("CT", 384), bandwidth("X-y", 5)]);
    assert_eq!(session.key(), None);
    let attribute = Attribute::new;
    let attributes = [attribute("recvonly", None), attribute("note", Some("")), attribute("Tool", Some("desk:4"))];
    assert_eq!(session.attributes().collect::<Vec<_>>(), attributes);

    let times: Vec<_> = session.times().map(|time| (time.start_time, time.stop_time, time.repeats().len())).collect();
    assert_eq!(times, [(1, 2, 2), (3, 0, 0), (4, 5, 1)]);
    let repeats: Vec<_> = session
        .times()
        .flat_map(|time| time.repeats())
        .map(|repeat| (repeat.repeat_interval, repeat.active_duration, repeat.offsets().map(u64::from).collect::<Vec<_>>()))
        .collect();
    assert_eq!(repeats, [(604_800, 3_600, vec![0, 90_000]), (1, 2, vec![]), (60, 30, vec![60])]);

    let medias: Vec<_> = session.medias().collect();
    let heads = medias.iter().map(|media| (media.media, media.port, media.num_ports, media.proto, media.fmt));
    assert_eq!(
        heads.collect::<Vec<_>>(),
        [("audio", 5004, Some(2), "RTP/AVP", "96 97"), ("video", 0, None, "p", ""), ("text", 65_535, None, "x", "y")]
    );
    let titles: Vec<_> = medias.iter().map(|media| (media.media_title, media.key)).collect();
    assert_eq!(titles, [(Some("Stage"), None), (None, None), (None, None)]);
    let connections: Vec<Vec<_>> = medias.iter().map(|media| media.connections().collect()).collect();
    assert_eq!(
        connections,
        [vec![connection("IN", "IP4", "a"), connection("IN", "IP4", "b")], vec![], vec![connection("TN", "E164", "c")]]
    );
    let bandwidths: Vec<Vec<_>> = medias.iter().map(|media| media.bandwidths().collect()).collect();
    assert_eq!(bandwidths, [vec![bandwidth("AS", 1)], vec![], vec![bandwidth("AS", 2)]]);
    let attributes: Vec<Vec<_>> = medias.iter().map(|media| media.attributes().collect()).collect();
    assert_eq!(
        attributes,
        [
            vec![attribute("rtpmap", Some("96 L16")), attribute("RTPMAP", Some("97 L24"))],
            vec![],
            vec![attribute("x", None)]
        ]
    );
}

#[test]
fn nothing_is_there() {
    let kept = read(b"v=0");
    let session = kept.session();
    assert_eq!(session.origin_line(), None);
    let placeholder = session.origin();
    assert_eq!((placeholder.username, placeholder.sess_id, placeholder.sess_version), (None, "0", 0));
    assert_eq!((placeholder.nettype, placeholder.addrtype, placeholder.unicast_address), ("IN", "IP4", "0.0.0.0"));
    assert_eq!(session.session_name(), "");
    assert_eq!((session.session_description(), session.uri()), (None, None));
    assert_eq!((session.connection(), session.key()), (None, None));
    assert!(session.emails().is_empty() && session.phones().is_empty() && session.bandwidths().is_empty());
    assert!(session.times().is_empty() && session.time_zones().is_empty());
    assert!(session.attributes().is_empty() && session.medias().is_empty());
    // an o line with the placeholder's values says the same
    assert_eq!(read(b"v=0\no=- 0 0 IN IP4 0.0.0.0\n"), kept);
    assert!(read(b"v=0\no=- 0 0 IN IP4 0.0.0.0\n").session().origin_line().is_some());
}

/// Absent and empty differ.
#[test]
fn empty_is_not_absent() {
    let kept = read(b"v=0\ni=\nu=\na=x:\na=x\na=\nm=a 1 p f\ni=\n");
    let session = kept.session();
    assert_eq!((session.session_description(), session.uri()), (Some(""), Some("")));
    assert_eq!(session.attributes().map(|row| row.value).collect::<Vec<_>>(), [Some(""), None, None]);
    let media = session.medias().next().unwrap();
    assert_eq!(media.media_title, Some(""));
}

/// A k line gives no key, whatever it holds, and is never written. Its form is tested, and its line is counted.
#[test]
fn k_lines_have_no_use() {
    let without = read(b"v=0\ns=x\nm=a 1 p f\na=y\n");
    let with = read(b"v=0\nk=clear:x\ns=x\nk=\nk=\xff\nm=a 1 p f\nk=:\na=y\nk=prompt\nk=\xff");
    assert_eq!(with, without);
    let session = with.session();
    assert_eq!((session.key(), session.medias().next().unwrap().key), (None, None));
    assert_eq!(session.to_vec(), without.session().to_vec());
    let numbers = |error: Error| (error.number(), error.line(), error.field());
    assert_eq!(numbers(refused(b"v=0\nk=\nk=\xff\nt=x\n")), (9, 4, 15));
    assert_eq!(numbers(refused(b"v=0\nk\n")), (4, 2, 0));
    assert_eq!(numbers(refused(b"v=0\nk=x\ry\n")), (3, 2, 0));
    assert_eq!(numbers(refused(b"k=x\nv=0\n")), (6, 0, 0));
}

/// The area that an earlier release left of `texts/kinds/NAME.sdp`, and the text.
fn of_an_earlier_release(name: &str) -> (Vec<u8>, Area) {
    let texts = std::path::Path::new(env!("CARGO_MANIFEST_DIR")).join("../../texts");
    let file = |path: String| std::fs::read(texts.join(&path)).unwrap_or_else(|error| panic!("{path}: {error}"));
    let bytes = file(format!("kept/{name}.area"));
    let bytes = <&[u8; Area::EARLIER]>::try_from(&bytes[..]).expect("an area had 14,558 bytes");
    (file(format!("kinds/{name}.sdp")), Area::from_earlier(bytes))
}

/// Its keys are seen, and not written.
#[test]
fn a_kept_area() {
    let (text, area) = of_an_earlier_release("keys");
    let session = sdp::kept(&text, &area).unwrap();
    let key = |method, encryption_key| Some(Key::new(method, encryption_key));
    assert_eq!(session.key(), key("uri", Some("https://keys.example.com/session/3?a=b:c")));
    let of_medias: Vec<_> = session.medias().map(|media| media.key).collect();
    let due = [
        key("clear", Some("pass word: with colons")),
        key("base64", Some("cGFzcw==")),
        key("prompt", None),
        key("clear", Some("")),
    ];
    assert_eq!(of_medias, due);
    let today = read(&text);
    assert_eq!(session.session_name(), today.session().session_name());
    assert_eq!(session.to_vec(), today.session().to_vec());
    assert!(session != today.session() && today.session().key().is_none());

    // a mark that is neither, a place beyond the text, another text, one that is too long
    let broken = |at: usize, value: [u8; 2]| {
        let mut bytes = *area.as_bytes();
        bytes[at..at + 2].copy_from_slice(&value);
        sdp::kept(&text, &Area::from_bytes(bytes)).map(|_| ()).unwrap_err().number()
    };
    assert_eq!([broken(62, [2, 0]), broken(64, [0xff, 0x7f]), broken(13_406 + 24, [2, 0])], [23; 3]);
    assert_eq!(sdp::kept(b"v=0\n", &area).unwrap_err().number(), 23);
    assert_eq!(sdp::kept(&[b'v'; LONGEST + 1], &area).unwrap_err().number(), 1);
    assert!(sdp::kept(b"", &Area::new()).is_ok()); // that of v=0 alone
}

/// 512 attributes whose names are one long string each: more than any text that is read is written with.
#[test]
fn an_area_made_by_hand() {
    let text = [b'a'; 30_000];
    let mut bytes = *Area::new().as_bytes();
    bytes[7_258..7_260].copy_from_slice(&512_u16.to_le_bytes());
    for row in bytes[7_260..13_404].chunks_exact_mut(12) {
        row[4..6].copy_from_slice(&30_000_u16.to_le_bytes());
    }
    let area = Area::from_bytes(bytes);
    let session = sdp::kept(&text, &area).unwrap();
    let empty = sdp::kept(&text, &Area::new()).unwrap().to_vec().len();
    let len = empty + 512 * (30_000 + 4);
    let written = session.to_vec();
    assert_eq!((session.written_len(), written.len(), written.capacity()), (Ok(len), len, len));
    assert_eq!(session.to_string().into_bytes(), written);
    let error = session.write(&mut [0; ROOM]).unwrap_err();
    assert_eq!((error.number(), error.len()), (22, len as u64));
    let mut output = Vec::new();
    session.write_to(&mut output).unwrap();
    assert_eq!(output, written);
}

/// Minus one hour is minus one hour, and so to the ends of 64 bits.
#[test]
fn the_sign_of_a_zone() {
    let kept = read(b"v=0\nz=1 -1h 2 1h 3 -9223372036854775808 4 9223372036854775807 5 -0 18446744073709551615 -1\n");
    let zone = TimeZone::new;
    let zones = [zone(1, -3_600), zone(2, 3_600), zone(3, i64::MIN), zone(4, i64::MAX), zone(5, 0), zone(u64::MAX, -1)];
    assert_eq!(kept.session().time_zones().collect::<Vec<_>>(), zones);
    let written = kept.session().to_string();
    let due = "\r\nz=1 -1h 2 1h 3 -9223372036854775808 4 9223372036854775807 5 0 18446744073709551615 -1\r\n";
    assert!(written.contains(due), "{written}");
}

#[test]
fn attributes_by_name() {
    let kept = read(RICH);
    let session = kept.session();
    assert!(session.has_attribute("RECVONLY") && session.has_attribute("tool") && !session.has_attribute("rtpmap"));
    assert_eq!(session.get_first_attribute_value("recvonly"), Some(None));
    assert_eq!(session.get_first_attribute_value("note"), Some(Some("")));
    assert_eq!(session.get_first_attribute_value("tool"), Some(Some("desk:4")));
    assert_eq!(session.get_first_attribute_value("x"), None);
    let media = session.medias().next().unwrap();
    assert_eq!(media.get_attribute_values("rtpmap").collect::<Vec<_>>(), [Some("96 L16"), Some("97 L24")]);
    assert!(media.has_attribute("RtpMap") && !media.has_attribute("tool"));
    assert_eq!(media.get_first_attribute_value("rtpmap"), Some(Some("96 L16")));
}

/// Rows from both ends, counted, skipped and walked again.
#[test]
fn rows() {
    let kept = read(RICH);
    let mut rows = kept.session().attributes();
    assert_eq!(rows.len(), 3);
    assert_eq!(rows.clone().rev().map(|row| row.attribute).collect::<Vec<_>>(), ["Tool", "note", "recvonly"]);
    assert_eq!(rows.clone().nth(1).unwrap().attribute, "note");
    assert!(rows.clone().nth(3).is_none());
    assert_eq!(rows.next_back().unwrap().attribute, "Tool");
    assert_eq!(rows.next().unwrap().attribute, "recvonly");
    assert_eq!((rows.len(), rows.is_empty()), (1, false));
    assert_eq!(rows.next().unwrap().attribute, "note");
    assert!(rows.is_empty() && rows.next().is_none() && rows.next_back().is_none());
}

#[test]
fn written() {
    let due = "v=0\r\no=jdoe 42 7 in IP4 host.example\r\ns=Desk 4\r\ni=The desk\r\nu=http://desk.example\r\n\
        e=a@b\r\ne=c@d\r\np=+1 2\r\nc=IN ip4 224.0.0.1/15\r\nb=CT:384\r\nb=X-y:5\r\n\
        t=1 2\r\nr=7d 1h 0 25h\r\nr=1 2\r\nt=3 0\r\nt=4 5\r\n\
        r=1m 30 1m\r\nz=60 -1h 61 0 62 30m\r\na=recvonly\r\na=note:\r\na=Tool:desk:4\r\n\
        m=audio 5004/2 RTP/AVP 96 97\r\ni=Stage\r\nc=IN IP4 a\r\nc=IN IP4 b\r\nb=AS:1\r\n\
        a=rtpmap:96 L16\r\na=RTPMAP:97 L24\r\nm=video 0 p \r\nm=text 65535 x y\r\nc=TN E164 c\r\nb=AS:2\r\na=x\r\n";
    let kept = read(RICH);
    let session = kept.session();
    assert_eq!(session.to_string(), due);
    assert_eq!(session.to_vec(), due.as_bytes());
    assert_eq!(session.written_len(), Ok(due.len()));
    let mut out = [b'?'; 2_000];
    assert_eq!(session.write(&mut out), Ok(due.as_bytes()));
    assert!(out[due.len()..].iter().all(|byte| *byte == b'?'));
    // exact is enough, one less is not, and is told how much
    assert_eq!(session.write(&mut out[..due.len()]).map(<[u8]>::len), Ok(due.len()));
    out.fill(b'?');
    for len in [0, 1, due.len() - 1] {
        let error = session.write(&mut out[..len]).unwrap_err();
        assert_eq!((error.number(), error.len()), (22, due.len() as u64));
        assert_eq!(error.to_string(), format!("the output is too short: {} bytes are needed (refusal 22)", due.len()));
    }
    assert!(out.iter().all(|byte| *byte == b'?'));
    // what is written is read back as the same session
    assert_eq!(read(due.as_bytes()), kept);
}

/// The length, then memory of just that size, then the text: for each text of the folder, for no lines, and for one that is
/// written longer than a text may be.
#[test]
fn the_length_and_then_the_filling() {
    let mut grows = "v=0\n".to_string() + &"a=\n".repeat(512) + &"m= 0  \n".repeat(32) + "i=";
    grows += &"x".repeat(LONGEST - grows.len());
    let mut texts = vec![RICH.to_vec(), b"v=0".to_vec(), grows.into_bytes()];
    for folder in ["published", "kinds"] {
        let files = std::fs::read_dir(page::path(&format!("texts/{folder}"))).unwrap().map(|entry| entry.unwrap().path());
        let of_texts = files.filter(|file| file.extension().map_or(false, |end| end == "sdp"));
        texts.extend(of_texts.map(|file| std::fs::read(file).unwrap()));
    }
    let (mut written, mut longest) = (0, 0);
    for text in &texts {
        let Ok(kept) = SessionBuf::parse(&text[..]) else { continue };
        let session = kept.session();
        let len = session.written_len().unwrap();
        let mut out = vec![b'?'; len];
        let error = session.write(&mut out[1..]).unwrap_err();
        assert_eq!((error.number(), error.len()), (22, len as u64));
        assert!(out.iter().all(|byte| *byte == b'?'), "a refusal leaves the slice as it was");
        assert_eq!(session.write(&mut out).map(<[u8]>::len), Ok(len));
        let vector = session.to_vec();
        assert_eq!((vector.len(), vector.capacity()), (len, len), "no more memory than it needs");
        assert_eq!(vector, out);
        assert_eq!(session.to_string().into_bytes(), out);
        (written, longest) = (written + 1, longest.max(len));
    }
    println!("session: {written} texts written into as many bytes as they need, the longest into {longest}");
    assert!(written > 50 && longest > LONGEST && longest <= ROOM);
}

/// What `to_vec` does by: the spare capacity is filled, what stands before it stays, and a vector without room too.
#[test]
fn the_spare_capacity_of_a_vector() {
    let mut area = Area::new();
    sdp::read(RICH, &mut area).unwrap();
    let due = sdp::kept(RICH, &area).unwrap().to_vec();
    let mut out = Vec::with_capacity(due.len() + 100);
    out.extend(b"before");
    assert_eq!(ffi::fill_spare(RICH, area.as_bytes(), &mut out), ffi::length(RICH, area.as_bytes()));
    assert_eq!(out, [b"before", &due[..]].concat());
    let (room, full) = (out.capacity() - out.len(), out.clone());
    assert!(room < due.len());
    let answer = ffi::fill_spare(RICH, area.as_bytes(), &mut out);
    assert_eq!((answer.number, answer.len as usize, &out), (22, due.len(), &full));
    let mut none = Vec::new();
    assert_eq!(ffi::fill_spare(RICH, area.as_bytes(), &mut none).number, 22);
    assert_eq!(ffi::fill_spare(RICH, &area.as_bytes()[1..], &mut out).number, 2);
    assert!(none.is_empty() && out == full);
}

/// Takes some bytes at a time, and is interrupted before each; from `most` bytes on it fails.
struct Slow {
    taken: Vec<u8>,
    calls: usize,
    most: usize,
}

impl Write for Slow {
    fn write(&mut self, bytes: &[u8]) -> io::Result<usize> {
        self.calls += 1;
        if self.calls % 2 == 1 {
            return Err(ErrorKind::Interrupted.into());
        }
        if self.taken.len() >= self.most {
            return Err(io::Error::new(ErrorKind::Other, "the disk is full"));
        }
        let some = bytes.len().min(7);
        self.taken.extend(&bytes[..some]);
        Ok(some)
    }

    fn flush(&mut self) -> io::Result<()> {
        Ok(())
    }
}

#[test]
fn to_a_writer() {
    let kept = read(RICH);
    let (session, due) = (kept.session(), kept.session().to_vec());
    // behind what is there; and a slice, as far as it goes
    let mut output = b"before".to_vec();
    session.write_to(&mut output).unwrap();
    assert_eq!(output, [b"before", &due[..]].concat());
    let mut slice = vec![b'?'; due.len() - 1];
    assert_eq!(session.write_to(&mut &mut slice[..]).unwrap_err().kind(), ErrorKind::WriteZero);
    assert_eq!(slice, due[..due.len() - 1]);
    // seven bytes at a time, by a writer of which only the trait is known
    let slow = |most| Slow { taken: Vec::new(), calls: 0, most };
    let mut all = slow(usize::MAX);
    session.write_to(&mut all as &mut dyn Write).unwrap();
    assert_eq!((all.taken, all.calls), (due.clone(), 2 * ((due.len() + 6) / 7)));
    // the writer's own error comes as it is, and is no refusal
    let mut some = slow(21);
    let error = session.write_to(&mut some).unwrap_err();
    assert_eq!((error.kind(), &error.to_string()[..]), (ErrorKind::Other, "the disk is full"));
    assert!(error.get_ref().unwrap().downcast_ref::<Error>().is_none());
    assert_eq!(some.taken, due[..21]);
}

/// The longest text that there is, and one byte more.
#[test]
fn the_longest() {
    let mut text = b"v=0\n".to_vec();
    text.resize(LONGEST, b'\n');
    assert_eq!(read(&text), read(b"v=0"));
    text.push(b'\n');
    assert_eq!(refused(&text).to_string(), "the text has more than 32768 bytes (refusal 1)");
    let mut text = b"v=0\ns=".to_vec();
    text.resize(LONGEST, b'x');
    let kept = read(&text);
    assert_eq!(kept.session().session_name().len(), LONGEST - 6);
    assert!(kept.session().to_vec().len() <= ROOM);
    assert_eq!(kept.text(), text);
}

#[test]
fn errors() {
    let error = refused(b"v=0\nt=now 0\n");
    assert_eq!((error.number(), error.line(), error.field(), error.place(), error.len()), (9, 2, 15, 0, 0));
    assert_eq!(error.to_string(), "line 2: the start time is not a whole number below 2^64 (refusal 9)");
    let error = refused(b"\n\nv=zero\n");
    assert_eq!((error.number(), error.line(), error.field(), error.place(), error.len()), (7, 3, 0, 4, 4));
    assert_eq!(refused(b"").to_string(), "there is no version: the first line must be v=0 (refusal 6)");
    assert_eq!((error.bad_byte(), error.byte_in_line()), (None, None));
    let sentence = "line 2: there is an r line with no t line before it (refusal 20)";
    assert_eq!(refused(b"v=0\nr=1 1\n").to_string(), sentence);
    assert_eq!(format!("{error:?}"), "Error(line 3: the version is not 0 (refusal 7))");
    // as any error of Rust's std
    let boxed: Box<dyn std::error::Error + Send + Sync> = Box::new(error);
    assert_eq!(boxed.to_string(), "line 3: the version is not 0 (refusal 7)");
    // and as an error of reading and writing files, which keeps it
    let error = io::Error::from(error);
    assert_eq!((error.kind(), &error.to_string()[..]), (ErrorKind::InvalidData, &boxed.to_string()[..]));
    assert_eq!(error.get_ref().unwrap().downcast_ref::<Error>(), boxed.downcast_ref());
}

/// Where a field is not UTF-8: the byte's place in the text, its number in the line, and the sentence.
#[test]
fn the_bad_byte() {
    let cases: [(&[u8], u64, u64, &str); 9] = [
        (b"v=0\ns=\xe9\n", 6, 3, "line 2: the session name is not UTF-8 from byte 6 on, the 3rd"),
        (b"v=0\r\n\r\ns=B\xfchne 4\r\n", 10, 4, "line 3: the session name is not UTF-8 from byte 10 on, the 4th"),
        // of a character that is cut off, its first byte; those before it count by bytes
        (b"v=0\ne=\xc3\xa9\xe2\x82\n", 8, 5, "line 2: the e-mail address is not UTF-8 from byte 8 on, the 5th"),
        (b"v=0\no=- 0  \xff IN IP4 h", 11, 8, "line 2: the origin's version is not UTF-8 from byte 11 on, the 8th"),
        (b"v=0\nt=0 0\nr=\xffd 1", 12, 3, "line 3: the repeat interval is not UTF-8 from byte 12 on, the 3rd"),
        (b"v=0\nz=0 -1\xff", 10, 7, "line 2: a zone's offset is not UTF-8 from byte 10 on, the 7th"),
        (b"v=0\nm=a 1/\xc3 p f", 10, 7, "line 2: the port's encoding is not UTF-8 from byte 10 on, the 7th"),
        (b"v=0\na=x:y:\xed\xa0\x80", 10, 7, "line 2: the attribute's value is not UTF-8 from byte 10 on, the 7th"),
        (b"v=0\nk=\xff\nx=\xff\nb=:\xff", 15, 4, "line 4: the bandwidth's value is not UTF-8 from byte 15 on, the 4th"),
    ];
    for (text, place, nth, words) in cases {
        let error = refused(text);
        assert_eq!((error.bad_byte(), error.byte_in_line(), error.place()), (Some(place), Some(nth), place), "{error}");
        assert_eq!((error.number(), error.len()), (8, 0), "{error}");
        assert_eq!(error.to_string(), format!("{words} byte of the line (refusal 8)"));
    }
    let text = [b"v=0\nu=", &vec![b'x'; 109][..], b"\xff"].concat();
    assert!(refused(&text).to_string().ends_with(" not UTF-8 from byte 115 on, the 112th byte of the line (refusal 8)"));
}

/// Empty, ignored and kept lines of what is read. Of an area that was kept none are known, and no session is told from
/// another by them.
#[test]
fn counts() {
    let mut area = Area::new();
    for (text, [empty, ignored, kept]) in [
        (&b"v=0"[..], [0, 0, 1]),
        (RICH, [0, 2, 33]),
        (b"\r\n\nv=0\r\n\nx=\xff\nv=1\nk=\nz=\ns=x\nm=a 1 p f\ns=y\ni=", [3, 4, 5]),
        (b"v=0\n\n", [1, 0, 1]),
    ] {
        let due = Counts { empty, ignored, kept };
        let session = sdp::read(text, &mut area).unwrap();
        assert_eq!(session.counts(), Some(due), "{}", text.escape_ascii());
        assert_eq!(due.lines(), text.split_inclusive(|byte| *byte == b'\n').count() as u64);
        let buf = read(text);
        assert_eq!((buf.session().counts(), buf.clone().session().counts()), (Some(due), Some(due)));
        let again = sdp::kept(text, &area).unwrap();
        assert_eq!(again.counts(), None);
        assert!(again == buf.session() && format!("{again:?}") == format!("{:?}", buf.session()));
    }
    // the same area with another text: the counts of the one that was read are not taken for its own
    sdp::read(b"v=0\ns=one\nx=\n", &mut area).unwrap();
    assert_eq!(sdp::kept(b"v=0\ns=one", &area).unwrap().counts(), None);
    let (few, many) = (read(b"v=0\ns=x"), read(b"\nv=0\nk=\ns=x\n\nx=\n"));
    assert_eq!(few, many);
    assert_ne!(few.session().counts(), many.session().counts());
    // a refusal has none
    let told = ffi::read(b"\nv=0\nx=\nt=now 0\n", &mut [0; Area::SIZE]);
    assert_eq!((told.answer.number, told.counts, told.counts.lines()), (9, Counts::default(), 0));
    let told = ffi::read(b"v=0\n\n", &mut [0; 7]);
    assert_eq!((told.answer.number, told.counts), (2, Counts::default()));
}

/// A text whose lines are numbered here by hand: with empty and ignored lines above, between and below, of both endings, and
/// with a repeat and a title in each place that they can have.
const NUMBERED: &[(u64, &str)] = &[
    (1, "\n"),
    (2, "\r\n"),
    (3, "v=0\r\n"),
    (4, "x=ignored\n"),
    (5, "o=- 1 2 IN IP4 host.example\n"),
    (6, "\r\n"),
    (7, "s=Desk 4\r\n"),
    (8, "k=clear:secret\n"),
    (9, "i=The desk\r\n"),
    (10, "v=7\n"),
    (11, "u=http://desk.example\n"),
    (12, "e=a@b\n"),
    (13, "p=+1 2\r\n"),
    (14, "e=c@d\n"),
    (15, "c=IN IP4 224.0.0.1\n"),
    (16, "b=CT:384\n"),
    (17, "t=1 2\n"),
    (18, "\n"),
    (19, "r=7d 1h 0 25h 26h\r\n"),
    (20, "z=60 -1h 61 0 62 30m\n"),
    (21, "r=1 2\n"),
    (22, "t=3 0\n"),
    (23, "a=recvonly\n"),
    (24, "t=4 5\n"),
    (25, "r=60 30 1m\n"),
    (26, "a=note:\n"),
    (27, "m=audio 5004/2 RTP/AVP 96\r\n"),
    (28, "s=no name here\n"),
    (29, "b=AS:1\n"),
    (30, "i=Stage\n"),
    (31, "c=IN IP4 a\n"),
    (32, "k=prompt\n"),
    (33, "c=IN IP4 b\n"),
    (34, "a=rtpmap:96 L16\n"),
    (35, "m=video 0 p \n"),
    (36, "m=text 1 x y\n"),
    (37, "\r\n"),
    (38, "a=x\n"),
    (39, "i=Words"),
];

/// Document 02, P9: each record, and each field, has the line that it was read from.
#[test]
fn lines() {
    assert!(NUMBERED.iter().map(|(number, _)| *number).eq(1..=39));
    let text: String = NUMBERED.iter().map(|(_, line)| *line).collect();
    let mut area = Area::new();
    let session = sdp::read(text.as_bytes(), &mut area).unwrap();
    assert_eq!(session.origin().line(), 5);
    assert_eq!(session.origin_line().map(|origin| origin.line()), Some(5));
    assert_eq!(session.line_of_session_name(), 7);
    assert_eq!(session.line_of_session_description(), 9);
    assert_eq!(session.line_of_uri(), 11);
    assert_eq!(session.connection().map(|connection| connection.line()), Some(15));
    assert_eq!(session.key(), None);
    let all = |lines: &mut dyn Iterator<Item = u64>| lines.collect::<Vec<u64>>();
    assert_eq!(all(&mut session.emails().map(|email| email.line())), [12, 14]);
    assert_eq!(all(&mut session.phones().map(|phone| phone.line())), [13]);
    assert_eq!(all(&mut session.bandwidths().map(|bandwidth| bandwidth.line())), [16]);
    assert_eq!(all(&mut session.times().map(|time| time.line())), [17, 22, 24]);
    let repeats = || session.times().flat_map(|time| time.repeats());
    assert_eq!(all(&mut repeats().map(|repeat| repeat.line())), [19, 21, 25]);
    assert_eq!(all(&mut repeats().flat_map(|repeat| repeat.offsets()).map(|offset| offset.line())), [19, 19, 19, 25]);
    assert_eq!(all(&mut session.time_zones().map(|zone| zone.line())), [20, 20, 20]);
    assert_eq!(all(&mut session.attributes().map(|attribute| attribute.line())), [23, 26]);
    let medias = || session.medias();
    assert_eq!(all(&mut medias().map(|media| media.line())), [27, 35, 36]);
    assert_eq!(all(&mut medias().map(|media| media.line_of_media_title())), [30, 0, 39]);
    assert_eq!(all(&mut medias().flat_map(|media| media.connections()).map(|connection| connection.line())), [31, 33]);
    assert_eq!(all(&mut medias().flat_map(|media| media.bandwidths()).map(|bandwidth| bandwidth.line())), [29]);
    assert_eq!(all(&mut medias().flat_map(|media| media.attributes()).map(|attribute| attribute.line())), [34, 38]);
    // by its number too, as a start names it
    assert_eq!((session.time(2).unwrap().line(), session.repeat(3).unwrap().line()), (22, 25));

    // the same session is written in other lines: it is equal, and prints alike
    let written = SessionBuf::parse(session.to_vec()).unwrap();
    assert_eq!(written.session(), session);
    assert_eq!(format!("{written:?}"), format!("{session:?}"));
    assert_eq!((written.session().origin().line(), written.session().line_of_session_name()), (2, 3));
    assert_eq!(written.session().medias().next().unwrap().line(), 20);
    assert_eq!(written.session().medias().next().unwrap(), session.medias().next().unwrap());
}

/// The last line that there can be, of a record: behind as many empty lines as the longest text has room for.
#[test]
fn the_last_line() {
    let mut text = vec![b'\n'; LONGEST];
    text[..4].copy_from_slice(b"v=0\n");
    text[LONGEST - 2..].copy_from_slice(b"s=");
    let kept = read(&text);
    assert_eq!((kept.session().session_name(), kept.session().line_of_session_name()), ("", LONGEST as u64 - 4));
}

/// What no line gave, and what was built by hand.
#[test]
fn no_line() {
    let kept = read(b"v=0");
    let session = kept.session();
    assert_eq!((session.origin().line(), session.line_of_session_name()), (0, 0));
    assert_eq!((session.line_of_session_description(), session.line_of_uri()), (0, 0));
    let title = read(b"v=0\nm=a 1 p f\n").session().medias().next().unwrap().line_of_media_title();
    assert_eq!(title, 0);
    let by_hand = [
        Origin::new("0", 0, "IN", "IP4", "0.0.0.0").line(),
        Contact::new("a@b").line(),
        Connection::new("IN", "IP4", "a").line(),
        Bandwidth::new("CT", 1).line(),
        Offset::new(90).line(),
        TimeZone::new(60, -3_600).line(),
        Key::new("prompt", None).line(),
        Attribute::new("recvonly", None).line(),
    ];
    assert_eq!(by_hand, [0; 8]);
    // a record built by hand is equal to one that was read
    let kept = read(b"v=0\nt=1 0\nr=1 1 90\nz=60 -1h\n");
    assert_eq!(kept.session().time_zones().next(), Some(TimeZone::new(60, -3_600)));
    assert_eq!(kept.session().repeat(1).unwrap().offsets().next(), Some(Offset::new(90)));
}

/// An area that no reader made: lines are what its cells say, but for what is absent, and above 32,768 it is no session.
#[test]
fn lines_by_hand() {
    let put = |cells: &[(usize, u16)]| {
        let mut bytes = *Area::new().as_bytes();
        cells.iter().for_each(|(at, value)| bytes[*at..*at + 2].copy_from_slice(&value.to_le_bytes()));
        Area::from_bytes(bytes)
    };
    // noise for description, uri, connection, key and origin, which are absent; the name's line counts
    let absent = put(&[(14_558, 65_535), (14_560, 32_768), (14_562, 65_535), (14_564, 65_535), (14_566, 9), (14_568, 9)]);
    let session = sdp::kept(b"", &absent).unwrap();
    assert_eq!((session.origin().line(), session.line_of_session_name()), (0, 32_768));
    assert_eq!((session.line_of_session_description(), session.line_of_uri()), (0, 0));
    assert_eq!((session.connection(), session.key()), (None, None));
    assert_eq!(sdp::kept(b"", &put(&[(14_560, 32_769)])).unwrap_err().number(), 23);
    // two medias: the first with a title and a key, the second with noise in these cells
    let medias = [(13_404, 2), (13_406 + 18, 1), (13_406 + 24, 1), (16_746, 7), (16_748, 8)];
    let lines = [(16_810, 11), (16_812, 65_535), (16_874, 12), (16_876, 65_535)];
    let area = put(&[&medias[..], &lines].concat());
    let session = sdp::kept(b"", &area).unwrap();
    let found: Vec<_> = session
        .medias()
        .map(|media| (media.line(), media.line_of_media_title(), media.key.map(|key| key.line())))
        .collect();
    assert_eq!(found, [(7, 11, Some(12)), (8, 0, None)]);
    for at in [16_746, 16_748, 16_810, 16_874] {
        let area = put(&[&medias[..], &lines, &[(at, 32_769)]].concat());
        assert_eq!(sdp::kept(b"", &area).unwrap_err().number(), 23, "{at}");
    }
    assert!(sdp::kept(b"", &put(&[&medias[..], &[(16_750, 65_535)]].concat())).is_ok(), "past the count");
    // a time, a repeat with two offsets and two zones: each row has a cell of its own
    let times = [(2_002, 1), (2_516, 1), (2_518, 1), (3_670, 2), (3_672, 1), (3_682, 1), (6_232, 2)];
    let lines = [(14_890, 4), (14_954, 5), (15_082, 6), (15_084, 7), (15_594, 8), (15_596, 9)];
    let area = put(&[&times[..], &lines].concat());
    let session = sdp::kept(b"", &area).unwrap();
    let repeat = session.repeat(1).unwrap();
    assert_eq!((session.time(1).unwrap().line(), repeat.line()), (4, 5));
    assert_eq!(repeat.offsets().map(|offset| offset.line()).collect::<Vec<_>>(), [6, 7]);
    assert_eq!(session.time_zones().map(|zone| zone.line()).collect::<Vec<_>>(), [8, 9]);
}

/// An area of an earlier release, carried over: the same session, written as before, and no line is known.
#[test]
fn an_earlier_area() {
    for name in ["empty-values", "festival", "keys", "out-of-order", "spaces"] {
        let (text, area) = of_an_earlier_release(name);
        let session = sdp::kept(&text, &area).unwrap_or_else(|error| panic!("{name}: {error}"));
        let today = read(&text);
        let today = today.session();
        assert_eq!(session.to_vec(), today.to_vec(), "{name}");
        assert_eq!(session.written_len(), today.written_len(), "{name}");
        assert_eq!(session.starts(0..1), today.starts(0..1), "{name}");
        assert_eq!((session.session_name(), session.medias().len()), (today.session_name(), today.medias().len()));
        assert_eq!((session.line_of_session_name(), session.origin().line()), (0, 0), "{name}");
        assert!(session.attributes().all(|attribute| attribute.line() == 0), "{name}");
        assert!(session.medias().all(|media| (media.line(), media.line_of_media_title()) == (0, 0)), "{name}");
        assert!(today.line_of_session_name() > 1 && today.medias().all(|media| media.line() > 1), "{name}");
    }
    // every byte is carried over, and zeros follow
    let bytes: [u8; Area::EARLIER] = std::array::from_fn(|at| (at * 7) as u8 | 1);
    let area = Area::from_earlier(&bytes);
    assert!(area.as_bytes()[..Area::EARLIER] == bytes && area.as_bytes()[Area::EARLIER..].iter().all(|byte| *byte == 0));
    // as it is, it is too short
    let mut bytes = [0; Area::EARLIER];
    assert_eq!(ffi::length(b"", &bytes).number, 2);
    assert_eq!(ffi::read(b"v=0", &mut bytes).answer.number, 2);
    assert!(sdp::kept(b"", &Area::from_earlier(&bytes)).is_ok());
}

#[test]
fn an_area_is_used_again() {
    let mut area = Area::new();
    assert_eq!(sdp::read(RICH, &mut area).unwrap().medias().len(), 3);
    assert_eq!(sdp::read(b"v=1", &mut area).unwrap_err().number(), 7);
    assert_eq!(sdp::read(b"v=0", &mut area).unwrap(), read(b"v=0").session());
    assert_eq!(sdp::read(RICH, &mut area).unwrap(), read(RICH).session());
}

/// Equal where they say the same, wherever the strings stand; each part counts.
#[test]
fn equality() {
    let text = String::from_utf8(RICH.to_vec()).unwrap();
    let due = read(RICH);
    assert_eq!(read(text.replace('\n', "\r\n\n").as_bytes()), due);
    let mut changed = 0;
    for (at, line) in text.lines().enumerate().skip(1) {
        let others = text.lines().enumerate().filter(|(other, _)| *other != at);
        let without: String = others.map(|(_, line)| format!("{line}\n")).collect();
        // an m line's own lines go to the media before it, or are second ones
        if let Ok(other) = SessionBuf::parse(without) {
            assert_eq!(other == due, line.starts_with("k="), "without {line}");
            changed += 1;
        }
    }
    assert!(changed > 30, "{changed} lines left out");
}

#[test]
fn printed_for_a_programmer() {
    let kept = read(b"v=0\ns=Desk 4\nt=60 0\nr=1h 60 0 90\nz=60 -1h\nm=audio 5004 RTP/AVP 96\na=note:\n");
    let due = concat!(
        r#"Session { origin: Origin { username: None, sess_id: "0", sess_version: 0, nettype: "IN", "#,
        r#"addrtype: "IP4", unicast_address: "0.0.0.0" }, session_name: "Desk 4", session_description: None, "#,
        r#"uri: None, emails: [], phones: [], connection: None, bandwidths: [], times: [Time { start_time: 60, "#,
        r#"stop_time: 0, repeats: [Repeat { repeat_interval: 3600, active_duration: 60, offsets: [0, 90] }] }], "#,
        r#"time_zones: [TimeZone { adjustment_time: 60, offset: -3600 }], key: None, attributes: [], "#,
        r#"medias: [Media { media: "audio", port: 5004, num_ports: None, proto: "RTP/AVP", fmt: "96", "#,
        r#"media_title: None, key: None, connections: [], bandwidths: [], "#,
        r#"attributes: [Attribute { attribute: "note", value: Some("") }] }] }"#,
    );
    assert_eq!(format!("{:?}", kept.session()), due);
    assert_eq!(format!("{kept:?}"), due);
    assert_eq!(format!("{:?}", Area::new()), "Area { .. }");
}

#[test]
fn the_letter_order() {
    assert_eq!(sdp::letter_order(&vec![b'\n'; LONGEST + 1]).unwrap_err().number(), 1);
    assert_eq!(sdp::letter_order(&vec![b'\n'; LONGEST]), Ok(false));
    assert_eq!(sdp::letter_order(RICH), Ok(true));
}

/// RFC 8866 has z behind the repeats of a time, the reader takes one z line, and the writer puts it behind all times.
#[test]
fn the_place_of_zones() {
    let head = "v=0\no=- 0 0 IN IP4 h\ns=x\n";
    let order = |text: &str| sdp::letter_order(text.as_bytes()).unwrap();
    let twice = format!("{head}t=1 0\nr=1d 1h\nz=1 -1h\nt=2 0\nr=1d 1h\nz=1 -1h\n");
    let second = refused(twice.as_bytes());
    assert_eq!((order(&twice), second.number(), second.line()), (true, 17, 9));
    // behind the first time, and written behind the last, which has no repeat
    let early = format!("{head}t=1 0\nr=1d 1h\nz=1 -1h\nt=2 0\n");
    let written = read(early.as_bytes()).session().to_string();
    assert!(written.ends_with("r=1d 1h\r\nt=2 0\r\nz=1 -1h\r\n"), "{written}");
    assert_eq!((order(&early), order(&written)), (true, false));
    let late = format!("{head}t=1 0\nt=2 0\nr=1d 1h\nz=1 -1h\n");
    let written = read(late.as_bytes()).session().to_string();
    assert_eq!((order(&late), order(&written)), (true, true));
}

/// Times with and without repeats, shifted by the z line and not, from both ends; and the lines that they come from.
#[test]
fn starts() {
    let kept = read(b"v=0\nt=100 0\nr=50 9 0 7\nr=0 1\nt=130 0\nt=90 0\nr=1d 5\nz=120 -10 160 5\n");
    let session = kept.session();
    let start = |at, time, repeat| Start { at, time, repeat };
    let due = [
        start(90, 3, Some(3)),
        start(100, 1, Some(1)),
        start(100, 1, Some(2)),
        start(107, 1, Some(1)),
        start(130, 2, None),
        start(140, 1, Some(1)),
        start(147, 1, Some(1)),
    ];
    let starts = session.starts(90..205).unwrap();
    assert_eq!(starts.iter().collect::<Vec<_>>(), due);
    assert_eq!(session.starts(90..206).unwrap().iter().next_back(), Some(start(205, 1, Some(1))));
    assert_eq!((starts.len(), starts.is_empty(), starts.get(4), starts.get(7)), (7, false, Some(due[4]), None));
    let mut left = starts.iter();
    assert_eq!((left.next_back(), left.next(), left.len()), (Some(due[6]), Some(due[0]), 5));
    assert_eq!(left.rev().map(|start| start.at).collect::<Vec<_>>(), [140, 130, 107, 100, 100]);
    let mut by_loop = 0;
    for start in &starts {
        by_loop += start.at;
    }
    assert_eq!(by_loop, starts.clone().into_iter().map(|start| start.at).sum());
    let short = session.starts(130..140).unwrap();
    assert_eq!(format!("{short:?}"), "[Start { at: 130, time: 2, repeat: None }]");
    assert!(short != starts && starts == session.starts(90..205).unwrap());

    let of = |start: Start| (session.time(start.time).unwrap(), start.repeat.and_then(|number| session.repeat(number)));
    assert_eq!(of(due[0]).0.start_time, 90);
    assert_eq!(of(due[0]).1.map(|repeat| repeat.active_duration), Some(5));
    assert_eq!(of(due[2]).1.map(|repeat| repeat.offsets().len()), Some(0));
    assert_eq!((of(due[4]).0.start_time, of(due[4]).1), (130, None));
    assert!(session.time(0).is_none() && session.time(4).is_none());
    assert!(session.repeat(0).is_none() && session.repeat(4).is_none());
}

/// No start, as many as fit, one too much, and a z line that falls.
#[test]
fn starts_of_every_length() {
    let kept = read(b"v=0\nt=1000 0\nr=1 1\n");
    let session = kept.session();
    let len = |from: u64, to: u64| session.starts(from..to).map(|starts| starts.len());
    assert_eq!((len(0, 1_000), len(1_000, 1_000), len(2_000, 1_000), len(u64::MAX, 0)), (Ok(0), Ok(0), Ok(0), Ok(0)));
    assert_eq!((len(0, 1_001), len(1_000, 1_256)), (Ok(1), Ok(MOST_STARTS)));
    assert_eq!(len(u64::MAX - 256, u64::MAX), Ok(MOST_STARTS));
    let error = session.starts(1_000..1_257).unwrap_err();
    assert_eq!(error.to_string(), "there are more than 256 starts in the window (refusal 29)");
    assert!(read(b"v=0").session().starts(0..u64::MAX).unwrap().is_empty());
    let falling = read(b"v=0\nz=2 0 1 0\n").session().starts(0..1).unwrap_err();
    assert_eq!((falling.number(), falling.line(), falling.field(), falling.place(), falling.len()), (28, 0, 0, 0, 0));
    assert_eq!(falling.to_string(), "the adjustment times of the z line fall (refusal 28)");
}

/// Sessions may be shared between threads, and areas sent to them.
#[test]
fn threads() {
    fn both<T: Send + Sync>() {}
    both::<Session>();
    both::<SessionBuf>();
    both::<Area>();
    both::<Starts>();
    both::<Error>();
    let kept = read(RICH);
    let session = kept.session();
    std::thread::scope(|scope| {
        let names: Vec<_> = (0..2).map(|_| scope.spawn(move || session.session_name())).collect();
        assert!(names.into_iter().all(|name| name.join().unwrap() == "Desk 4"));
    });
}

/// The README's lines for Rust, compiled and run.
#[test]
fn the_readme_s_lines() -> Result<(), Error> {
    let text = b"v=0\nt=100 0\nz=60 -1h\n".to_vec();
    let (from, to) = (0, 1_000);
    // README.md:
    let mut area = sdp::Area::new();                    // 16,938 bytes, no heap; used again for the next text
    let session = sdp::read(&text, &mut area)?;         // an error prints a sentence with its line
    for zone in session.time_zones() {
        println!("{} s from {} on", zone.offset, zone.adjustment_time); // minus one hour is -3600
    }
    let mut out = vec![0; session.written_len()?];      // or [0; sdp::ROOM]: enough for any text that was read
    let written: &[u8] = session.write(&mut out)?;      // to a file or a socket: session.write_to(&mut file)?
    for start in &session.starts(from..to)? {           // seconds since 1900, as SDP counts; no heap
        println!("{} by time {}", start.at, start.time);
    }
    // so far
    assert!(written.ends_with(b"\r\nz=60 -1h\r\n"));
    let behind = include_str!("session.rs").split("    // README.md:\n").nth(1).unwrap();
    let here = behind.split("    // so far\n").next().unwrap();
    let here: String = here.lines().map(|line| format!("{}\n", &line[4..])).collect();
    assert!(page::file("README.md").contains(&format!("```rust\n{here}```\n")), "README.md has these lines:\n{here}");
    Ok(())
}
