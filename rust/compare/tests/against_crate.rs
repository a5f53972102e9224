//! Ours beside the crate's own functions.
use compare::{cut, is_token, number16, number64, typed_time, Numeral, Piece};
use generate::{every_string, fields, random::count, texts, Random};
use oracle::leaf;

fn same_token(bytes: &[u8]) {
    assert_eq!(is_token(bytes), leaf::is_token(bytes), "{bytes:02x?}");
}

#[test]
fn token() {
    let all: Vec<u8> = (0..=255).collect();
    let exhaustive = every_string(&all, 3, same_token);
    let mut random = Random::of_test("token");
    let (mut compared, mut good) = (0u64, 0u64);
    for _ in 0..count(300_000) {
        let mut bytes = fields::token(&mut random);
        while random.once_in(2) {
            bytes.extend(fields::token(&mut random));
        }
        same_token(&bytes);
        good += u64::from(is_token(&bytes));
        fields::damage(&mut random, &mut bytes);
        same_token(&bytes);
        good += u64::from(is_token(&bytes));
        compared += 2;
    }
    println!("token: {exhaustive} exhaustive, {compared} random compared, {good} of these good");
    assert!(good > compared / 2 && good < compared);
}

fn same(ours: Numeral, theirs: leaf::Numeral, bytes: &[u8]) {
    assert_eq!((ours.number, ours.value), (theirs.number, theirs.value), "{bytes:02x?}");
}

#[test]
fn numbers() {
    let compare = |bytes: &[u8]| {
        same(number64(bytes), leaf::number64(bytes), bytes);
        same(number16(bytes), leaf::number16(bytes), bytes);
    };
    let exhaustive = every_string(b"0169+- \xc3\xa9\xff", 5, compare) + every_string(b"+0123456789", 5, compare);
    let mut random = Random::of_test("numbers");
    let (mut compared, mut numbers) = (0u64, [0u64; 10]);
    for _ in 0..count(300_000) {
        let mut bytes = fields::number(&mut random);
        compare(&bytes);
        fields::damage(&mut random, &mut bytes);
        compare(&bytes);
        numbers[number64(&bytes).number as usize] += 1;
        compared += 2;
    }
    println!("numbers: {exhaustive} exhaustive, {compared} random compared");
    assert!(numbers[0] > 0 && numbers[8] > 0 && numbers[9] > 0);
}

fn same_time(bytes: &[u8]) {
    same(typed_time(bytes), leaf::typed_time(bytes), bytes);
}

#[test]
fn typed_times_exhaustive() {
    let all: Vec<u8> = (0..=255).collect();
    let bytes = every_string(&all, 2, same_time);
    let short = every_string(b"019+-dhms \xc3\xa9\xff", 5, same_time);
    println!("typed time: {} exhaustive compared", bytes + short);
}

#[test]
fn typed_times_at_their_ends() {
    let mut compared = 0u64;
    for factor in [86_400, 3_600, 60, 1] {
        for middle in [
            u64::MAX / factor,
            i64::MAX as u64 / factor,
            u64::MAX / factor / 2,
            u64::MAX,
        ] {
            for value in (u128::from(middle) - 12)..=(u128::from(middle) + 12) {
                for unit in ["", "d", "h", "m", "s", "D", "x", "dd", "sd", " d", "\u{e9}"] {
                    for before in ["", "+", "-", "++", "000", "+0", " "] {
                        same_time(format!("{before}{value}{unit}").as_bytes());
                        compared += 1;
                    }
                }
            }
        }
    }
    for lone in [
        "", "d", "h", "m", "s", "+", "+d", "-", "-s", "+-d", "0d", "00", "\0", "d\0",
    ] {
        same_time(lone.as_bytes());
        compared += 1;
    }
    same_time(b"\xffd");
    same_time(b"1\xc3d");
    // document 01, "Samples"
    let largest = Numeral {
        number: 0,
        value: 18_446_744_073_709_526_400,
    };
    assert_eq!(typed_time(b"213503982334601d"), largest);
    assert_eq!(typed_time(b"213503982334602d"), Numeral { number: 9, value: 0 });
    println!("typed time: {} at the ends of each unit compared", compared + 2);
}

#[test]
fn typed_times_random() {
    let mut random = Random::of_test("typed time");
    let (mut compared, mut numbers) = (0u64, [0u64; 10]);
    for _ in 0..count(500_000) {
        let mut bytes = fields::typed_time(&mut random);
        same_time(&bytes);
        numbers[typed_time(&bytes).number as usize] += 1;
        fields::damage(&mut random, &mut bytes);
        same_time(&bytes);
        numbers[typed_time(&bytes).number as usize] += 1;
        compared += 2;
    }
    println!("typed time: {compared} random compared, {} good", numbers[0]);
    assert!(numbers[0] > 0 && numbers[8] > 0 && numbers[9] > 0);
}

fn piece(cut: &leaf::Cut) -> Piece {
    let leaf::Cut {
        kind,
        number,
        line,
        letter,
        place,
        len,
        next_place,
        next_line,
    } = *cut;
    Piece {
        kind,
        number,
        line,
        letter,
        place,
        len,
        next_place,
        next_line,
    }
}

/// Walks the text by our cuts, from its start to the end or a refusal, beside the crate's cuts.
fn same_cuts(text: &[u8]) -> u64 {
    let (mut place, mut line) = (0, 1);
    let theirs = leaf::cuts(text);
    for (at, theirs) in theirs.iter().enumerate() {
        let ours = cut(text, place, line);
        assert_eq!(ours, piece(theirs), "cut {at} of {text:02x?}");
        place = ours.next_place as usize;
        line = ours.next_line as usize;
    }
    theirs.len() as u64
}

#[test]
fn cuts_exhaustive() {
    let mut cuts = 0;
    let texts = every_string(b"\n\r\0=v0\xff", 7, |text| cuts += same_cuts(text));
    println!("cut: {texts} exhaustive texts, {cuts} cuts compared");
    assert!(cuts > texts);
}

#[test]
fn cuts_random() {
    let mut random = Random::of_test("cuts");
    let (mut texts, mut cuts, mut refused) = (0u64, 0u64, 0u64);
    for _ in 0..count(100_000) {
        for text in [texts::lines(&mut random), texts::text(&mut random)] {
            cuts += same_cuts(&text);
            refused += u64::from(leaf::cuts(&text).last().unwrap().kind == 3);
            texts += 1;
        }
    }
    println!("cut: {texts} random texts, {cuts} cuts compared, {refused} texts refused");
    assert!(refused > 0 && refused < texts / 2);
}
