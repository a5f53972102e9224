//! The fixed list of stored answers: inputs and what std, the crate without k lines and, for the letter order, `regex` say to
//! them. The program crates/vectors reads the list and must print the same.
//!
//! An input line is `K=HEX`, an answer line `K` and decimal numbers:
//! - `u` end of the longest UTF-8 beginning; `t` 1 for a token, else 0;
//! - `p`, `n`, `d` a number of 16 bits, of 64 bits, a typed time: 0 and the value, or 8 or 9, and 0;
//! - `c` the cuts of a text, a line for each: kind, number, line, letter, place and length;
//! - `l` the letter order: 0, and 1 for yes or 0 for no;
//! - `r` reading a text: number, line, field, place and length, its empty, ignored and kept lines, and then the counts of
//!   the ten tables, all 0 when refused;
//! - `w` writing what was read: its empty, ignored and kept lines, the answers of the length, of the filling of an output
//!   without room and of one with room, and behind that line what was written; or zeros and the answer of the reader when
//!   it refuses;
//! - `o` the value of an o line, whose address is set as its username: 1 for present, and the fields;
//! - `m` the value of an m line, whose first format is set as its number of ports, or 0 if it is no number: the fields,
//!   with 1 for present before the number of ports.
use crate::leaf::{self, Numeral};
use crate::counts::{self, Counts};
use crate::{bad_byte, limits, order, texts, written, Refusal, Session};
use generate::{fields, Random};
use sdp_types::{Media, Origin};
use std::collections::BTreeSet;
use std::fmt::Write;
use std::fs;

/// The longest input, so that the program can have a fixed room for it.
pub const LONGEST: usize = 2_000;

/// The program's room for all inputs: `io::large_buffer`.
pub const ROOM: usize = 65_536;

/// The inputs, each with its kind, in their order and without repeats.
pub fn inputs() -> Vec<(u8, Vec<u8>)> {
    let mut list = List::default();
    utf8(&mut list);
    tokens(&mut list);
    numbers(&mut list);
    typed_times(&mut list);
    cuts(&mut list);
    random(&mut list);
    whole_texts(&mut list);
    to_be_written(&mut list);
    orders(&mut list);
    published(&mut list);
    builders(&mut list);
    list.inputs
}

/// The two files of the program: its standard input and the answers.
pub fn files() -> (String, String) {
    let (mut stdin, mut stdout) = (String::new(), String::new());
    for (kind, bytes) in inputs() {
        write!(stdin, "{}=", kind as char).unwrap();
        bytes.iter().for_each(|byte| write!(stdin, "{byte:02x}").unwrap());
        stdin.push('\n');
        answer(&mut stdout, kind, &bytes);
    }
    (stdin, stdout)
}

fn answer(out: &mut String, kind: u8, bytes: &[u8]) {
    let mut line = |kind: char, numbers: &[u64]| {
        out.push(kind);
        numbers.iter().for_each(|number| write!(out, " {number}").unwrap());
        out.push('\n');
    };
    let numeral = |Numeral { number, value }| [number, value];
    match kind {
        b'u' => line('u', &[leaf::utf8_end(bytes) as u64]),
        b't' => line('t', &[u64::from(leaf::is_token(bytes))]),
        b'p' => line('p', &numeral(leaf::number16(bytes))),
        b'n' => line('n', &numeral(leaf::number64(bytes))),
        b'd' => line('d', &numeral(leaf::typed_time(bytes))),
        b'c' => leaf::cuts(bytes)
            .iter()
            .for_each(|cut| line('c', &[cut.kind, cut.number, cut.line, cut.letter, cut.place, cut.len])),
        b'l' => line('l', &[0, u64::from(order::in_order(bytes))]),
        b'r' => line('r', &reading(bytes)),
        b'w' => match crate::read(bytes) {
            Ok(session) => {
                let text = String::from_utf8(written(&session)).unwrap();
                let len = text.len() as u64;
                let answers = [0, 22, 0].map(|number| [number, 0, 0, 0, len]);
                line('w', &[&lines(bytes)[..], &answers.concat()].concat());
                out.push_str(&text);
            }
            Err(refusal) => line('w', &[&[0; 3][..], &refused(bytes, refusal)].concat()),
        },
        b'o' => writeln!(out, "o {}", with_username(bytes)).unwrap(),
        b'm' => writeln!(out, "m {}", with_num_ports(bytes)).unwrap(),
        _ => panic!("no kind {}", kind as char),
    }
}

/// The three counts of an accepted text.
fn lines(text: &[u8]) -> [u64; 3] {
    let Counts { empty, ignored, kept } = counts::of(text);
    [empty, ignored, kept]
}

fn reading(text: &[u8]) -> [u64; 18] {
    let mut numbers = [0; 18];
    match crate::read(text) {
        Ok(session) => {
            numbers[5..8].copy_from_slice(&lines(text));
            let counts = limits::counts(&session).map(|count| count as u64);
            numbers[8..].copy_from_slice(&counts);
        }
        Err(refusal) => numbers[..5].copy_from_slice(&refused(text, refusal)),
    }
    numbers
}

/// The crate's refusal, and for 8 the place of the bad byte, which it doesn't say.
fn refused(text: &[u8], refusal: Refusal) -> [u64; 5] {
    let Refusal { number, line, field, place, len } = refusal;
    let bad_byte = || bad_byte::find(text, line, field).unwrap_or_else(|why| panic!("{}: {why}", text.escape_ascii()));
    [number, line, field, if number == 8 { bad_byte().place as u64 } else { place }, len]
}

/// The session of one line behind `v=0`.
fn of_line(letter: char, value: &[u8]) -> Session {
    let text = [format!("v=0\n{letter}=").as_bytes(), value].concat();
    crate::read(&text).unwrap_or_else(|refusal| panic!("{}: {refusal:?}", text.escape_ascii()))
}

/// An origin by the crate's own method, field by field.
fn with_username(value: &[u8]) -> String {
    let mut origin = of_line('o', value).origin;
    origin.set_username(origin.unicast_address.clone());
    let Origin {
        username,
        sess_id,
        sess_version,
        nettype,
        addrtype,
        unicast_address,
    } = origin;
    let (there, username) = (u8::from(username.is_some()), username.unwrap_or_default());
    format!("{there} {username} {sess_id} {sess_version} {nettype} {addrtype} {unicast_address}")
}

/// A media by the crate's own method, field by field.
fn with_num_ports(value: &[u8]) -> String {
    let mut media = of_line('m', value).medias.remove(0);
    let first = media.fmt.split(' ').find(|word| !word.is_empty());
    media.set_num_ports(first.and_then(|word| word.parse().ok()).unwrap_or(0));
    let Media {
        media,
        port,
        num_ports,
        proto,
        fmt,
        ..
    } = media;
    let (there, ports) = (u8::from(num_ports.is_some()), num_ports.unwrap_or_default());
    format!("{media} {port} {there} {ports} {proto} {fmt}")
}

#[derive(Default)]
struct List {
    inputs: Vec<(u8, Vec<u8>)>,
    seen: BTreeSet<(u8, Vec<u8>)>,
}

impl List {
    fn add(&mut self, kinds: &str, bytes: &[u8]) {
        assert!(bytes.len() <= LONGEST);
        for kind in kinds.bytes() {
            if self.seen.insert((kind, bytes.to_vec())) {
                self.inputs.push((kind, bytes.to_vec()));
            }
        }
    }
}

fn utf8(list: &mut List) {
    list.add("u", b"");
    // first and last of each row of RFC 3629's table
    for scalar in [
        0, 0x7f, 0x80, 0x7ff, 0x800, 0xfff, 0x1000, 0xcfff, 0xd000, 0xd7ff, 0xe000, 0xffff, 0x1_0000, 0x3_ffff,
        0x4_0000, 0xf_ffff, 0x10_0000, 0x10_ffff,
    ] {
        let whole = char::from_u32(scalar).unwrap().to_string().into_bytes();
        list.add("u", &whole);
        // cut short, and with a last byte that doesn't continue
        for end in 1..whole.len() {
            list.add("u", &whole[..end]);
            list.add("u", &[&whole[..end], b"A"].concat());
        }
    }
    for broken in fields::BROKEN {
        list.add("u", broken);
        list.add("u", &[b"ab", broken, b"cd"].concat());
    }
    // blocks of eight, with a byte that is not ASCII around each edge
    for run in [7, 8, 9, 15, 16, 17, 24, 40] {
        let ascii = vec![b'a'; run];
        list.add("u", &ascii);
        list.add("u", &[&ascii[..], b"\xc3\xa9", &ascii[..]].concat());
        list.add("u", &[&ascii[..], b"\xff", &ascii[..]].concat());
    }
    list.add("u", &[&vec![b'x'; LONGEST - 1][..], b"\x80"].concat());
}

fn tokens(list: &mut List) {
    list.add("t", b"");
    // both sides of each edge of the token's ranges
    for byte in [
        0x00, 0x09, 0x20, 0x21, 0x22, 0x23, 0x27, 0x28, 0x29, 0x2a, 0x2b, 0x2c, 0x2d, 0x2e, 0x2f, 0x30, 0x39, 0x3a,
        0x40, 0x41, 0x5a, 0x5b, 0x5c, 0x5d, 0x5e, 0x7e, 0x7f, 0x80, 0xff,
    ] {
        list.add("t", &[byte]);
        list.add("t", &[b'I', byte]);
    }
    for word in ["IN", "IP4", "in", "PSTN", "x-y.z", "I N", "IN ", " IN", "\u{e9}"] {
        list.add("t", word.as_bytes());
    }
}

fn numbers(list: &mut List) {
    for text in [
        "",
        "+",
        "-",
        "++",
        "+-1",
        "-0",
        "-1",
        "0",
        "+0",
        "00",
        "007",
        "+007",
        "1 ",
        " 1",
        "1a",
        "0x1",
        "1_0",
        "/",
        ":",
        "9",
        "10",
        "\u{661}",
        "\u{e9}",
        "255",
        "256",
        "65534",
        "65535",
        "65536",
        "+65535",
        "065535",
        "065536",
        "65540",
        "65600",
        "66000",
        "70000",
        "99999",
        "100000",
        "655350",
        "4294967295",
        "4294967296",
        "9223372036854775807",
        "9223372036854775808",
        "18446744073709551614",
        "18446744073709551615",
        "18446744073709551616",
        "18446744073709551620",
        "18446744073709551700",
        "18446744073709552000",
        "+18446744073709551615",
        "0018446744073709551615",
        "0018446744073709551616",
        "28446744073709551615",
        "20000000000000000000",
        "99999999999999999999",
        "100000000000000000000",
        "184467440737095516150",
        "000000000000000000000000000000000000000000000000007",
    ] {
        list.add("pn", text.as_bytes());
    }
    for bytes in [
        &b"\xff"[..],
        b"1\xff",
        b"\xff1",
        b"+\x80",
        b"12\xed\xa0\x80",
        b"1\xc3",
        b"1\0",
        b"1\r",
        b"x\xff",
    ] {
        list.add("pn", bytes);
    }
}

fn typed_times(list: &mut List) {
    for text in [
        "",
        "d",
        "h",
        "m",
        "s",
        "+",
        "+d",
        "-",
        "-d",
        "-1d",
        "+-1",
        "0",
        "0d",
        "+0s",
        "00h",
        "1d",
        "+1d",
        "1h",
        "1m",
        "1s",
        "1",
        "7d",
        "168h",
        "3600",
        "90",
        "1D",
        "1w",
        "1dd",
        "1sd",
        "1ms",
        "1 d",
        " 1d",
        "1d ",
        "1\u{e9}",
        "\u{e9}d",
        "1.5h",
        "18446744073709551615",
        "18446744073709551616",
    ] {
        list.add("d", text.as_bytes());
    }
    for (factor, unit) in [(86_400, "d"), (3_600, "h"), (60, "m"), (1, "s")] {
        for more in [-1, 0, 1] {
            let value = i128::from(u64::MAX / factor) + more;
            list.add("d", format!("{value}{unit}").as_bytes());
            list.add("d", format!("+00{value}{unit}").as_bytes());
        }
        list.add("d", format!("18446744073709551615{unit}").as_bytes());
        list.add("d", format!("18446744073709551616{unit}").as_bytes());
    }
    for bytes in [
        &b"\xff"[..],
        b"\xffd",
        b"1\xffd",
        b"1d\xff",
        b"1\xc3d",
        b"\xed\xa0\x80s",
        b"x\xff",
        b"d\xff",
    ] {
        list.add("d", bytes);
    }
}

fn cuts(list: &mut List) {
    // document 01, "Samples" and "Lines"
    for text in [
        "", "v=0", "v=0 ", "v=0\r", "v=0\r\n", "v=0\n", "v=0\n=x", "v=0\nabc", "v=0\nt=0 0\nr=d 1", "v=0\nz=\nz=", "v=0\na=x:\na=x",
        "\n", "\r", "\r\n", "\n\n", "\r\n\r\n", "\r\r\n", "\n\r", "v=0\n\r", "\nv=0", "\r\nv=0\r\n\r\ns=x\r\n", "=", "==", "=\n",
        "v", "v\n", "v=", "v=\n", "v==", "v==x\n", "vv=0", "v\r=0\n", "v=0\r\r\n", "v=\r\n", "v=\r\r\n", "\0", "v=\0\n", "v=0\0\r\n",
        "\0=x", "a\0b", "a\rb", "no\rform", "ab\0=", " v=0", "v =0", "\u{feff}v=0", "v=0\nx=\u{e9}\n\u{e9}=x\n",
        "v=0\ns=Desk 4\nx=new\nt=+60 0\nr=168h 3600 0 90\nz=60 -1h 61 +0\na=recvonly\nm=audio 5004/2 RTP/AVP 96\na=note:\n",
        "v=0\r\no=jdoe 3724394400 3724394405 IN IP4 198.51.100.1\r\ns=Call to John Smith\r\n\
         i=SDP Offer #1\r\nu=http://www.jdoe.example.com/home.html\r\ne=Jane Doe <jane@jdoe.example.com>\r\n\
         p=+1 617 555-6011\r\nc=IN IP4 198.51.100.1\r\nt=0 0\r\nm=audio 49170 RTP/AVP 0\r\nm=audio 49180 RTP/AVP 0\r\n\
         m=video 51372 RTP/AVP 99\r\nc=IN IP6 2001:db8::2\r\na=rtpmap:99 h263-1998/90000\r\n",
    ] {
        list.add("c", text.as_bytes());
    }
    for bytes in [
        &b"v=0\ns=\xed\xa0\x80"[..],
        b"v=0\ns=\xf4\x8f\xbf\xbf\n",
        b"\xff=\xff\n\xff",
        b"\xef\xbb\xbfv=0\n",
    ] {
        list.add("c", bytes);
    }
    list.add("c", &vec![b'\n'; 40]);
    list.add("c", &[&b"a="[..], &vec![b'x'; LONGEST - 2][..]].concat());
}

fn random(list: &mut List) {
    // a seed of its own: the list is fixed
    let mut random = Random::new(8866, "vectors");
    for _ in 0..25 {
        let mut string = fields::string(&mut random, 60);
        list.add("u", &string);
        fields::damage(&mut random, &mut string);
        list.add("u", &string);
        let mut token = fields::token(&mut random);
        list.add("t", &token);
        fields::damage(&mut random, &mut token);
        list.add("t", &token);
        let mut number = fields::number(&mut random);
        list.add("pn", &number);
        fields::damage(&mut random, &mut number);
        list.add("pn", &number);
        let mut time = fields::typed_time(&mut random);
        list.add("d", &time);
        fields::damage(&mut random, &mut time);
        list.add("d", &time);
    }
    for _ in 0..12 {
        let mut lines = generate::texts::lines(&mut random);
        lines.truncate(500);
        list.add("c", &lines);
        let text = generate::texts::text(&mut random);
        list.add("c", &text[..text.len().min(500)]);
    }
}

/// Whole texts: each refusal that a short text can have, each pair of 8 to 11 and a field, and some that are accepted.
#[rustfmt::skip] // a row for each letter
fn whole_texts(list: &mut List) {
    for text in [
        &b""[..],
        b"v=0",
        b"v=0 ",
        b"v=0\r",
        b"\r\n\nv=\n",
        b"v=0\n=x",
        b"v=0\nabc",
        b"x=\nv=0",
        b"v=0\nv=9\nx=\xff",
        b"v=0\nr=x",
        b"v=0\nm=a 1 p f\ni=\ni=",
        b"v=0\nm=  \nk=",
        b"v=0\nm=a 1 p \nr=x\nm=b 2/3 q \ni=\nc=I J h\nb=:1\nk=\na=",
        b"v=0\nt=0 0\nr=213503982334601d 1 0 1h\nt=1 2\nr=1 1 1",
        b"v=0\nz=0 -9223372036854775808 1 -+5",
        b"v=0\ns=Desk 4\nx=new\nt=+60 0\nr=168h 3600 0 90\nz=60 -1h 61 +0\na=recvonly\n\
          m=audio 5004/2 RTP/AVP 96\na=note:\n",
    ] {
        list.add("rw", text);
    }
    // the crate folds the casing of IN and IP4 and writes it folded
    list.add("r", b"v=0\no= u  1 2 in Ip4 h \ns=\xf4\x8f\xbf\xbf");
    // once more what may stand once
    for line in ["o=- 0 0 I J h", "s=", "i=", "u=", "c=I J h", "z="] {
        list.add("rw", format!("v=0\n{line}\n{}=", &line[..1]).as_bytes());
    }
    // a k line has no use: any value, any number of them; its form is tested, and its line is counted
    for text in [
        &b"v=0\nk=\nk=m:t\r\nk=\xff\nm= 1  \nk=:\nk=\xff:\xff"[..],
        b"k=\nv=0", b"\nk=:\n", b"v=0\nk=\nk=\xff\r\n\nt=x", b"v=0\nk=\nz=\nk=\nz=", b"v=0\nk=m\n=x",
        b"v=0\nk\n", b"v=0\nk:m", b"v=0\nkk=m", b"v=0\nk=\0", b"v=0\nk=\r", b"v=0\nk=\r\r\n", b"v=0\nk=m\nv=0\nk=\xffx\rx\n",
    ] {
        list.add("rw", text);
    }
    // in the last media that there is room for, a second title is seen
    list.add("r", ["v=0\n", &"m= 0  \n".repeat(32), "i=\ni=\n"].concat().as_bytes());
    // a full table, and one record more
    for (kinds, line, most) in [("rw", "e=", 16), ("r", "b=:1", 64), ("r", "t=0 0", 32), ("r", "m= 0  ", 32)] {
        for times in [most, most + 1] {
            list.add(kinds, ["v=0", &format!("\n{line}").repeat(times)].concat().as_bytes());
        }
    }
    for pairs in [64, 65] {
        list.add("r", ["v=0\nz=", &"0 0 ".repeat(pairs)].concat().as_bytes());
    }
    for line in [
        &b"o="[..], b"o=\xff", b"o=-", b"o=- \xff", b"o=- 0", b"o=- 0 \xff", b"o=- 0 x", b"o=- 0 0", b"o=- 0 0 (", b"o=- 0 0 I",
        b"o=- 0 0 I (", b"o=- 0 0 I J", b"o=- 0 0 I J \xff", b"o=- 0 0 I J h x",
        b"c=", b"c=(", b"c=I", b"c=I \xff", b"c=I J", b"c=I J \xff", b"c=I J h \xff",
        b"b=\xff", b"b=", b"b=:\xff", b"b=:x", b"b=:1:",
        b"t=", b"t=\xff", b"t=x", b"t=0", b"t=0 \xff", b"t=0 x", b"t=0 0 \xff",
        b"z=\xff", b"z=x", b"z=0", b"z=0 \xff", b"z=0 9223372036854775808",
        b"a=\xff", b"a=:\xff", b"k=\xff", b"k=:\xff",
        b"m=\xff", b"m=", b"m= 65536", b"m= 1/\xff", b"m= 1/", b"m= 1", b"m= 1 \xff", b"m= 1 ", b"m= 1  \xff",
        b"s=\xed\xa0\x80", b"i=\xff", b"u=\xff", b"e=\xff", b"p=\xff", b"m= 1  \ni=\xff",
        b"t=0 0\nr=", b"t=0 0\nr=\xffd", b"t=0 0\nr=d", b"t=0 0\nr=1", b"t=0 0\nr=1 \xff", b"t=0 0\nr=1 x", b"t=0 0\nr=1 1 \xff",
        b"t=0 0\nr=1 1 x",
    ] {
        list.add("rw", &[b"v=0\n", line].concat());
    }
    // 8 has the place of the byte within its field too: with a sign, with a unit, of a character cut off the first byte
    for text in [
        &b"v=0\r\n\nx=\xff\no=u \xc3\xa9\xe2\x82 0"[..], b"v=0\nt=0 0\nr=1 1 2 3\xffd", b"v=0\nz=0 -1\xff",
        b"v=0\na=x:y\xc3", b"v=0\nb=A\xc3:\xa9", b"v=0\ns=x\xff\xff",
    ] {
        list.add("r", text);
    }
}

/// What the writer decides by itself: what is absent, empty or a number's end, and the order of the lines.
fn to_be_written(list: &mut List) {
    for text in [
        // each letter, each with a value of its own, and then all in another order
        "v=0\no=u 1 2 N A h\ns=n\ni=d\nu=r\ne=m\np=q\nc=O B g\nb=X:3\nt=4 5\nr=6 7 8 9\nz=281474976710666 -11\n\
         k=l:y\na=f\na=w:x\nm=aa 12/13 pp 14\ni=t\nc=P C j\nc=Q D k\nb=Y:15\nk=o\na=s\nm=bb 16 qq 17 18\na=z:\n",
        "v=0\na=f\na=w:x\nk=l\nz=1 2 3 4\nt=4 5\nt=6 7\nr=8 9\nb=X:3\nc=O B g\np=q\np=q2\ne=m\ne=m2\nu=r\ni=d\n\
         s=n\no=- 1 2 N A h\nm=aa 12 pp 14\na=s\nk=o:\nb=Y:15\nb=Z:16\nc=P C j\ni=t\n",
        // absent, empty
        "v=0\no=- 0 0 N A h",
        "v=0\ni=\nu=\ne=\np=\nz=\nb=:0\na=\na=:\nk=:\nm= 0  \ni=\nk=:",
        "v=0\nk=m:\nm= 0  \nk=",
        // a username that only begins with -, a number of two digits, a letter that has no use after an m line
        "v=0\no=-x 10 10 N A h\nt=10 100\nm= 10/10  \nu=x",
        "v=0\nm=\u{e9} 0/0  \u{10ffff}\ns=x",
        // the ends of numbers
        "v=0\no=- 0 18446744073709551615 N A h\nt=18446744073709551615 0\nr=18446744073709551615 0 1 2 3",
        "v=0\nb=X:18446744073709551615\nm=a 65535/65535 p f\nb=Y:18446744073709551615",
        "v=0\nz=18446744073709551615 9223372036854775807 0 -9223372036854775808 1 -1 2 0",
        "v=0\nt=0 0\nr=7d 1h 0 25h\nr=60 86400s 1m\nt=00 +1\nz=+1 -1h 2 1d",
        // unknown letters and empty lines are dropped, LF becomes CR LF
        "v=0\r\nx=1\n\r\n\ny=2\na=b:c:d\r\n",
    ] {
        list.add("w", text.as_bytes());
    }
}

/// Letters in order and out of it, as lines.
fn orders(list: &mut List) {
    for letters in order::GOOD.split(' ').chain(order::BAD.split(' ')) {
        let lines: Vec<String> = letters.chars().map(|letter| format!("{letter}=\n")).collect();
        list.add("l", lines.concat().as_bytes());
    }
    // every time hands over to its repeats, and these to their zones
    list.add("l", &[b"v=\no=\ns=\n", &b"t=\nr=\nr=\nz=\n".repeat(20)[..]].concat());
    list.add("l", b"");
    for (before, after) in [("v=\no=\n", "s=\nt=\n"), ("v=\no=\ns=\nt=\n", "")] {
        for line in [
            "\n", "\r\n", "\r", "\r\r\n", "\0\n", "a\n", "=\n", "=a\n", "aa=\n", " a=\n", "a =\n", "a=\r", "a=\rb\n",
            "a=\0", "a=\r\r\n", "a==\r\n", "a=\u{e9}", "\u{e9}=",
        ] {
            list.add("l", format!("{before}{line}{after}").as_bytes());
        }
    }
}

/// The shorter ones of the published texts.
fn published(list: &mut List) {
    for path in texts::files(&texts::folder(), "sdp").unwrap() {
        let text = fs::read(&path).unwrap();
        let ours = !path.starts_with(texts::folder().join("published"));
        match text.len() {
            _ if ours => {}
            0..=210 => list.add("wl", &text),
            211..=260 => list.add("w", &text),
            _ => {}
        }
    }
}

/// What the small records hold before: something, nothing, and what is set, once more.
fn builders(list: &mut List) {
    for value in [
        "jdoe 3724394400 3724394405 IN IP4 198.51.100.1",
        "- 3724394400 3724394405 IN IP6 2001:db8::2",
        "alice 2890844526 2890844527 IN IP4 host.atlanta.example.com",
        "same 0 0 IN IP4 same",
        "- 0 0 IN IP4 -",
        "-- - 0 - - -",
        "u v 18446744073709551615 N A h",
        "u v +007 TN X y",
        "  u   v  1   N   A   h  ",
        "\u{e9} \u{10ffff} 9 ATM NSAP \u{661}",
        "a b 9223372036854775808 PSTN E164 +1-617-555-6011",
        "1 2 3 4 5 6",
    ] {
        list.add("o", value.as_bytes());
    }
    for value in [
        "audio 49170 RTP/AVP 0",
        "audio 49180/2 RTP/AVP 0",
        "video 51372/65535 RTP/AVP 99",
        "video 51372/1 RTP/AVP 1",
        "audio 5004/2 RTP/AVP 96 97 98",
        "audio 65535 RTP/AVP 65535",
        "audio 0/0 RTP/AVP 65536",
        "application 9 UDP/DTLS/SCTP webrtc-datachannel",
        "image 54111 udptl t38",
        " 1  ",
        " 7/8  2",
        "\u{e9} +1/+2 \u{10ffff} +3",
        "a 010/020 b 030 \u{661}",
    ] {
        list.add("m", value.as_bytes());
    }
}
