//! Whole texts: lines with every letter in use, mostly good, some damaged, with all kinds of line endings.
use crate::{fields, Random};

const ASCII: &[u8] = b"abcXYZ019 .:/=-+_@";

fn ascii(random: &mut Random, longest: usize) -> Vec<u8> {
    (0..random.below(longest + 1)).map(|_| random.letter(ASCII)).collect()
}

/// Good fields with one space, or now and then a run of them, between.
fn spaced(random: &mut Random, fields: Vec<Vec<u8>>) -> Vec<u8> {
    let mut value = Vec::new();
    for (i, field) in fields.iter().enumerate() {
        if i > 0 {
            let run = if random.once_in(12) { 3 } else { 1 };
            value.resize(value.len() + run, b' ');
        }
        value.extend(field);
    }
    value
}

fn small(random: &mut Random) -> Vec<u8> {
    match random.below(8) {
        0 => fields::number(random),
        _ => random.below(4_000_000).to_string().into_bytes(),
    }
}

fn time(random: &mut Random) -> Vec<u8> {
    match random.below(6) {
        0 => fields::typed_time(random),
        _ => {
            let unit = random.pick(&["", "s", "m", "h", "d"]);
            format!("{}{unit}", random.below(7_300)).into_bytes()
        }
    }
}

fn free(random: &mut Random) -> Vec<u8> {
    if random.once_in(4) {
        fields::string(random, 24)
    } else {
        ascii(random, 20)
    }
}

/// What follows the `=` of a line with this letter: mostly a good value.
pub fn value(random: &mut Random, letter: u8) -> Vec<u8> {
    let nettype = |r: &mut Random| match r.below(8) {
        0 => fields::token(r),
        1 => r
            .pick(&["in", "In", "tn", "ATM", "atm", "PSTN", "Pstn"])
            .as_bytes()
            .to_vec(),
        _ => b"IN".to_vec(),
    };
    let addrtype = |r: &mut Random| match r.below(8) {
        0 => fields::token(r),
        _ => r.pick(&["IP4", "IP6", "ip4", "Ip6"]).as_bytes().to_vec(),
    };
    let address = |r: &mut Random| {
        r.pick(&["0.0.0.0", "host.example", "224.2.36.42/127", "::1", "-"])
            .as_bytes()
            .to_vec()
    };
    match letter {
        b'v' => b"0".to_vec(),
        b'o' => {
            let user = random.pick(&["-", "jdoe", "\u{e9}"]).as_bytes().to_vec();
            let all = vec![
                user,
                small(random),
                small(random),
                nettype(random),
                addrtype(random),
                address(random),
            ];
            spaced(random, all)
        }
        b'c' => {
            let all = vec![nettype(random), addrtype(random), address(random)];
            spaced(random, all)
        }
        b'b' => [random.pick(&["AS", "CT", "X-y", ""]).as_bytes(), b":", &small(random)].concat(),
        b't' => {
            let all = vec![small(random), small(random)];
            spaced(random, all)
        }
        b'r' => {
            let all = (0..random.between(2, 5)).map(|_| time(random)).collect();
            spaced(random, all)
        }
        b'z' => {
            let mut all = Vec::new();
            for _ in 0..random.below(4) {
                all.push(small(random));
                let sign: &[u8] = if random.once_in(2) { b"-" } else { b"" };
                all.push([sign, &time(random)].concat());
            }
            spaced(random, all)
        }
        b'a' | b'k' => match random.below(3) {
            0 => free(random),
            _ => [
                random.pick(&["rtpmap", "clear", "x", ""]).as_bytes(),
                b":",
                &free(random),
            ]
            .concat(),
        },
        b'm' => {
            let port = match random.below(3) {
                0 => format!("{}/{}", random.below(65_536), random.below(5)),
                1 => format!("{}", 65_530 + random.below(8)),
                _ => format!("{}", random.below(65_536)),
            };
            format!(
                "{} {port} {} {}",
                random.pick(&["audio", "video", ""]),
                random.pick(&["RTP/AVP", "udp"]),
                random.pick(&["0", "96 97", ""])
            )
            .into_bytes()
        }
        _ => free(random),
    }
}

/// The letters in an order that is often the one of RFC 8866, and never far from it.
fn letters(random: &mut Random) -> Vec<u8> {
    let mut letters = vec![b'v'];
    for &letter in b"osiuepcbttrzkaa" {
        if !random.once_in(3) {
            letters.push(letter);
        }
    }
    if random.once_in(4) {
        letters.push(random.letter(b"vosiuepcbtrzkaxmq"));
    }
    if random.once_in(3) {
        let (a, b) = (random.below(letters.len()), random.below(letters.len()));
        // the version stays first more often than not
        if a > 0 && b > 0 || random.once_in(4) {
            letters.swap(a, b);
        }
    }
    for _ in 0..random.below(4) {
        letters.push(b'm');
        for &letter in b"icbkaarx" {
            if random.once_in(2) {
                letters.push(letter);
            }
        }
    }
    letters
}

/// A text with all its line ends: about half of them are accepted.
pub fn text(random: &mut Random) -> Vec<u8> {
    let ending: &[u8] = random.pick(&[b"\n".as_slice(), b"\r\n"]);
    let mut text = Vec::new();
    for letter in letters(random) {
        text.push(letter);
        text.push(b'=');
        let mut value = value(random, letter);
        if random.once_in(60) {
            fields::damage(random, &mut value);
        }
        text.extend(value);
        text.extend(ending);
        if random.once_in(25) {
            text.extend(ending); // an empty line
        }
    }
    if random.once_in(4) {
        text.truncate(text.len() - ending.len()); // a last line with no ending
    }
    if random.once_in(12) {
        fields::damage(random, &mut text);
    }
    text
}

/// Bytes for the cutting alone: many line ends, good and bad forms, long lines, any byte.
pub fn lines(random: &mut Random) -> Vec<u8> {
    let mut text = Vec::new();
    for _ in 0..random.below(20) {
        if !random.once_in(6) {
            text.push(if random.once_in(8) {
                random.byte()
            } else {
                random.letter(b"vosmax")
            });
            text.push(b'=');
            let longest = if random.once_in(10) { 300 } else { 20 };
            for _ in 0..random.below(longest) {
                let byte = random.byte();
                // a refusal ends the walk, so the three bad bytes are kept rare
                text.push(if matches!(byte, 0 | b'\r' | b'\n') { b'=' } else { byte });
            }
        }
        if random.once_in(25) {
            fields::damage(random, &mut text);
        }
        text.extend(random.pick(&[b"\n".as_slice(), b"\r\n", b"\n\n", b"\r\n\r\n"]));
    }
    match random.below(6) {
        0 => text.push(b'\r'),
        1 => text.truncate(text.len().saturating_sub(1)),
        2 => text.extend(b"a=last"),
        _ => {}
    }
    text
}
