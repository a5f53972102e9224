//! Ours beside Rust's own library: UTF-8 and whole numbers, and the answers of `cut` that need no crate to know them.
use compare::{cut, number16, number64, utf8_end, Numeral, Piece};
use generate::{every_string, fields, random::count, texts, Random};

fn same_utf8(bytes: &[u8]) {
    let end = std::str::from_utf8(bytes).map_or_else(|error| error.valid_up_to(), str::len);
    assert_eq!(utf8_end(bytes), end, "{bytes:02x?}");
}

#[test]
fn utf8_exhaustive() {
    let all: Vec<u8> = (0..=255).collect();
    let short = every_string(&all, 3, same_utf8);
    // four bytes: every lead byte, every second byte, and the edges of RFC 3629's table after them
    let edges = [
        0x00, 0x41, 0x7f, 0x80, 0x8f, 0x90, 0x9f, 0xa0, 0xbf, 0xc0, 0xc2, 0xe0, 0xed, 0xf0, 0xf4, 0xff,
    ];
    let mut four = 0u64;
    for lead in 0x80..=0xff {
        for second in 0..=0xff {
            for third in edges {
                for fourth in edges {
                    same_utf8(&[lead, second, third, fourth]);
                    four += 1;
                }
            }
        }
    }
    println!("utf8: {short} exhaustive to 3 bytes, {four} of 4 bytes compared");
    assert_eq!((short, four), (16_843_009, 128 * 256 * 256));
}

#[test]
fn utf8_runs_of_ascii() {
    // ours goes through ASCII eight bytes at a time: every run before, between and after, at every alignment
    let whole: [&[u8]; 6] = [
        b"\x7f",
        b"\xc2\x80",
        b"\xe0\xa0\x80",
        b"\xed\x9f\xbf",
        b"\xf0\x90\x80\x80",
        b"\xf4\x8f\xbf\xbf",
    ];
    let mut compared = 0u64;
    for middle in whole.iter().chain(&fields::BROKEN) {
        for before in 0..=40 {
            for after in 0..=40 {
                let mut bytes = vec![b'x'; 8];
                bytes.resize(8 + before, b'a');
                bytes.extend(*middle);
                bytes.resize(bytes.len() + after, b'~');
                for start in 0..8 {
                    same_utf8(&bytes[8 - start..]);
                    compared += 1;
                }
            }
        }
    }
    // the same without the letters before: the run itself starts at every alignment
    let room = vec![b'q'; 64];
    for start in 0..16 {
        for end in start..=64 {
            same_utf8(&room[start..end]);
            compared += 1;
        }
    }
    // one byte that is not ASCII in each place of an aligned stretch
    for length in 0..=48 {
        for at in 0..length {
            for byte in [0x80, 0xc3, 0xff] {
                let mut bytes = vec![b'z'; length];
                bytes[at] = byte;
                same_utf8(&bytes);
                compared += 1;
            }
        }
    }
    println!("utf8: {compared} with runs of ASCII compared");
}

#[test]
fn utf8_random() {
    let mut random = Random::of_test("utf8");
    let (mut compared, mut good) = (0u64, 0u64);
    for _ in 0..count(300_000) {
        let mut bytes = fields::string(&mut random, 200);
        same_utf8(&bytes);
        assert_eq!(utf8_end(&bytes), bytes.len());
        for _ in 0..random.between(1, 3) {
            fields::damage(&mut random, &mut bytes);
            same_utf8(&bytes);
            good += u64::from(utf8_end(&bytes) == bytes.len());
            compared += 1;
        }
        compared += 1;
    }
    println!("utf8: {compared} random compared, {good} of the damaged still good");
    assert!(good > 0 && good < compared / 2);
}

fn std_number<T: std::str::FromStr + Into<u64>>(bytes: &[u8]) -> Numeral {
    match std::str::from_utf8(bytes).map(str::parse::<T>) {
        Err(_) => Numeral { number: 8, value: 0 },
        Ok(Err(_)) => Numeral { number: 9, value: 0 },
        Ok(Ok(value)) => Numeral {
            number: 0,
            value: value.into(),
        },
    }
}

fn same_numbers(bytes: &[u8]) {
    assert_eq!(number16(bytes), std_number::<u16>(bytes), "16 bits, {bytes:02x?}");
    assert_eq!(number64(bytes), std_number::<u64>(bytes), "64 bits, {bytes:02x?}");
}

#[test]
fn numbers_exhaustive() {
    let all: Vec<u8> = (0..=255).collect();
    let bytes = every_string(&all, 2, same_numbers);
    // digits and their neighbours, signs, a space, a two-byte character and bytes that are none
    let short = every_string(b"0169+- /:a\xc3\xa9\xff", 5, same_numbers);
    let digits = every_string(b"0123456789", 5, same_numbers);
    let edges = every_string(b"+056", 7, same_numbers);
    println!(
        "numbers: {} exhaustive compared at 16 and 64 bits",
        bytes + short + digits + edges
    );
}

#[test]
fn numbers_at_their_ends() {
    let mut compared = 0u64;
    for middle in [
        0,
        9,
        99,
        255,
        32_767,
        65_535,
        u64::from(u32::MAX),
        i64::MAX as u64,
        u64::MAX / 10,
        u64::MAX,
    ] {
        for value in (u128::from(middle).saturating_sub(12))..=(u128::from(middle) + 12) {
            for before in ["", "+", "++", "-", " ", "+ ", "+-"] {
                for zeros in (0..=40).chain([1_000]) {
                    for after in ["", " ", "0", "+", "\u{e9}"] {
                        same_numbers(format!("{before}{}{value}{after}", "0".repeat(zeros)).as_bytes());
                        compared += 1;
                    }
                }
            }
        }
    }
    for text in [
        "", "+", "-", "++", "0", "+0", "-0", "00", "+00", "0x1", "1_0", "\u{661}", "1\0", "\01", "1\n",
    ] {
        same_numbers(text.as_bytes());
        compared += 1;
    }
    // what is meant, in case both sides were wrong together
    assert_eq!(
        number16(b"+0000065535"),
        Numeral {
            number: 0,
            value: 65_535
        }
    );
    assert_eq!(number16(b"65536"), Numeral { number: 9, value: 0 });
    assert_eq!(
        number64(b"18446744073709551615"),
        Numeral {
            number: 0,
            value: u64::MAX
        }
    );
    assert_eq!(number64(b"18446744073709551616"), Numeral { number: 9, value: 0 });
    assert_eq!(number64(b""), Numeral { number: 9, value: 0 });
    assert_eq!(number64(b"1\xff"), Numeral { number: 8, value: 0 });
    println!("numbers: {compared} at their ends compared");
}

#[test]
fn numbers_random() {
    let mut random = Random::of_test("numbers");
    let (mut compared, mut good16, mut good64) = (0u64, 0u64, 0u64);
    for _ in 0..count(500_000) {
        let mut bytes = fields::number(&mut random);
        for _ in 0..random.between(1, 2) {
            same_numbers(&bytes);
            compared += 1;
            good16 += u64::from(number16(&bytes).number == 0);
            good64 += u64::from(number64(&bytes).number == 0);
            fields::damage(&mut random, &mut bytes);
        }
    }
    println!("numbers: {compared} random compared, {good16} good at 16 bits, {good64} at 64");
    assert!(good16 > 0 && good16 < good64 && good64 < compared);
}

/// `cut` answers at every place and for every line number, not only where a walk from the start comes by.
#[test]
fn cut_is_total() {
    let mut random = Random::of_test("cut_is_total");
    let mut compared = 0u64;
    for _ in 0..count(20_000) {
        let text = if random.once_in(50) {
            Vec::new()
        } else {
            texts::lines(&mut random)
        };
        // at the end or beyond it there is the end
        for place in [
            text.len(),
            text.len() + 1,
            text.len() + 7,
            usize::MAX / 2,
            usize::MAX - 1,
            usize::MAX,
        ] {
            for line in [0, 1, 77, usize::MAX - 1, usize::MAX] {
                assert_eq!(
                    cut(&text, place, line),
                    Piece::default(),
                    "place {place} of {text:02x?}"
                );
                compared += 1;
            }
        }
        if text.is_empty() {
            continue;
        }
        // within the text: as if it started there
        let place = random.below(text.len());
        let rest = cut(&text[place..], 0, 1);
        for line in [0, 1, 2, 77, usize::MAX - 1, usize::MAX] {
            let mut due = Piece {
                line: line as u64,
                ..rest
            };
            if matches!(rest.kind, 1 | 2) {
                due.next_place += place as u64;
                // the last line number can't grow
                due.next_line = line.saturating_add(1) as u64;
            }
            if rest.kind == 2 {
                due.place += place as u64;
            }
            assert_ne!(rest.kind, 0, "there is a line");
            assert_eq!(cut(&text, place, line), due, "place {place} of {text:02x?}");
            compared += 1;
        }
    }
    println!("cut: {compared} at free places and line numbers compared");
}
