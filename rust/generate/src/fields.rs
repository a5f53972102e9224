//! Single fields: characters, numbers, typed times, and damage to them.
use crate::Random;

/// A character, with the boundaries of RFC 3629's table as likely as all the others together.
pub fn character(random: &mut Random) -> char {
    const EDGES: [u32; 14] = [
        0x7f, 0x80, 0x7ff, 0x800, 0xfff, 0x1000, 0xcfff, 0xd7ff, 0xe000, 0xffff, 0x1_0000, 0x3_ffff, 0x4_0000,
        0x10_ffff,
    ];
    let scalar = match random.below(5) {
        0 => random.below(0x80) as u32,
        1 => random.below(0x800) as u32,
        2 => random.below(0x11_0000) as u32,
        _ => EDGES[random.below(EDGES.len())],
    };
    char::from_u32(scalar).unwrap_or('\u{fffd}')
}

/// Bytes that are no character's encoding, or only a part of one.
pub const BROKEN: [&[u8]; 18] = [
    b"\x80",
    b"\xbf",
    b"\xc0\x80",
    b"\xc1\xbf",
    b"\xc2",
    b"\xdf\x7f",
    b"\xe0\x9f\xbf",
    b"\xe0\xa0",
    b"\xed\xa0\x80",
    b"\xed\xbf\xbf",
    b"\xef\xbf",
    b"\xf0\x8f\xbf\xbf",
    b"\xf0\x90\x80",
    b"\xf4\x90\x80\x80",
    b"\xf4\x8f\xbf",
    b"\xf5\x80\x80\x80",
    b"\xfe",
    b"\xff",
];

/// A string of characters, runs of ASCII among them.
pub fn string(random: &mut Random, longest: usize) -> Vec<u8> {
    let mut string = Vec::new();
    let length = random.below(longest + 1);
    while string.len() < length {
        if random.once_in(2) {
            for _ in 0..random.below(24) {
                string.push(0x20 + random.below(0x5f) as u8);
            }
        } else {
            let mut room = [0; 4];
            string.extend(character(random).encode_utf8(&mut room).bytes());
        }
    }
    string
}

/// One byte changed, left out, put in or doubled, or the end cut off.
pub fn damage(random: &mut Random, bytes: &mut Vec<u8>) {
    let at = random.below(bytes.len() + 1);
    match random.below(6) {
        0 => bytes.insert(at, random.byte()),
        1 => {
            let broken = BROKEN[random.below(BROKEN.len())];
            bytes.splice(at..at, broken.iter().copied());
        }
        2 => bytes.truncate(at),
        _ if at == bytes.len() => bytes.push(random.letter(b" \0\r\n:=/+-0")),
        3 => {
            bytes.remove(at);
        }
        4 => bytes.insert(at, bytes[at]),
        _ => bytes[at] = random.byte(),
    }
}

/// A whole number in digits, with signs and zeros before it at times, and often near the end of 16 or 64 bits.
pub fn number(random: &mut Random) -> Vec<u8> {
    let mut text = Vec::new();
    if random.once_in(6) {
        text.push(b'+');
    }
    if random.once_in(5) {
        text.resize(text.len() + random.below(30), b'0');
    }
    match random.below(5) {
        0 => text.extend(random.below(100).to_string().bytes()),
        1 => text.extend((65_525 + random.below(20)).to_string().bytes()),
        2 => text.extend(near(u64::MAX, random).to_string().bytes()),
        3 => text.extend(random.next().to_string().bytes()),
        _ => (0..random.between(1, 30)).for_each(|_| text.push(b'0' + random.below(10) as u8)),
    }
    text
}

/// A number and perhaps a unit, often near the largest that the unit allows.
pub fn typed_time(random: &mut Random) -> Vec<u8> {
    let (unit, factor) = [("d", 86_400), ("h", 3_600), ("m", 60), ("s", 1), ("", 1)][random.below(5)];
    let mut text = match random.below(3) {
        0 => number(random),
        1 => near(u64::MAX / factor, random).to_string().into_bytes(),
        _ => random.below(100_000).to_string().into_bytes(),
    };
    text.extend(unit.bytes());
    text
}

/// Up to three beside `middle`, also beyond 64 bits.
pub fn near(middle: u64, random: &mut Random) -> u128 {
    (u128::from(middle) + random.below(7) as u128).saturating_sub(3)
}

pub fn token(random: &mut Random) -> Vec<u8> {
    const TOKEN: &[u8] = b"!#$%&'*+-.0123456789ABCDEFGHIJKLMNOPQRSTUVWXYZ^_`abcdefghijklmnopqrstuvwxyz{|}~";
    (0..random.between(1, 12)).map(|_| random.letter(TOKEN)).collect()
}
