//! The k lines are taken out as document 02, P4, says: those of good form behind the first line that isn't empty.
mod common;
use common::{accepted, refusal, refused};
use generate::{random::count, sessions, texts, Random};
use oracle::keys::without;
use oracle::{leaf, Refusal};

/// What is left, and the number in the whole text of each line that is left.
fn left(text: &[u8]) -> (Vec<u8>, Vec<u64>) {
    let left = without(text);
    let count = left.text.split_inclusive(|byte| *byte == b'\n').count() as u64;
    let numbers = (1..=count).map(|line| left.in_whole(Refusal::at_line(3, line as usize)).line);
    (left.text.clone(), numbers.collect())
}

fn is_left(text: &[u8], due: &[u8], lines: &[u64]) {
    assert_eq!(left(text), (due.to_vec(), lines.to_vec()), "{}", text.escape_ascii());
}

fn stays(text: &[u8]) {
    let count = text.split_inclusive(|byte| *byte == b'\n').count() as u64;
    is_left(text, text, &(1..=count).collect::<Vec<_>>());
}

#[test]
fn by_hand() {
    is_left(b"v=0\nk=x\ns=y\n", b"v=0\ns=y\n", &[1, 3]);
    // CR LF is an ending, and goes with its line
    is_left(b"v=0\r\nk=x\r\ns=y\r\n", b"v=0\r\ns=y\r\n", &[1, 3]);
    is_left(b"v=0\nk=\r\nm=a 1 p f\r\nk=:\ni=\n", b"v=0\nm=a 1 p f\r\ni=\n", &[1, 3, 5]);
    // the last line needs no LF
    is_left(b"v=0\nk=x", b"v=0\n", &[1]);
    is_left(b"v=0\nk=", b"v=0\n", &[1]);
    is_left(b"v=0\nk=x\nk=y", b"v=0\n", &[1]);
    // any value: none, not UTF-8, another =
    is_left(b"v=0\nk=\nk=\xff\xfe\nk==\nk=k=\ns=\n", b"v=0\ns=\n", &[1, 6]);
    // empty lines are counted, and stay
    is_left(b"\n\r\nv=0\n\nk=x\n\ns=y", b"\n\r\nv=0\n\n\ns=y", &[1, 2, 3, 4, 6, 7]);
    // a lone CR, one at the text's end and a NUL are bad form
    for line in [&b"k=\r"[..], b"k=x\r", b"k=\rx\n", b"k=x\r\r\n", b"k\r=x\n", b"k=\0\n", b"k=x\0", b"k\0=\n"] {
        stays(&[b"v=0\n", line].concat());
    }
    // no = at the second byte, and other letters
    for line in [&b"k\n"[..], b"k", b"k:x\n", b"kk=x\n", b"k =x\n", b" k=x\n", b"K=x\n", b"=k\n", b"a=k=\n"] {
        stays(&[b"v=0\n", line, b"s=\n"].concat());
    }
    // the first line that isn't empty stays, whatever it is; the next k line doesn't
    stays(b"k=x\nv=0\n");
    stays(b"\r\n\nk=x");
    is_left(b"\nk=x\nk=y\nv=0\n", b"\nk=x\nv=0\n", &[1, 2, 4]);
    is_left(b"x\nk=y\n", b"x\n", &[1]);
    stays(b"");
    stays(b"\n\n");
}

#[test]
fn refusals_are_moved_back() {
    assert_eq!(refused(&[b"k=", b"k=\xff", b"t=x"]), (9, 4, 15));
    assert_eq!(refused(&[b"z=", b"k=", b"z="]), (17, 4, 0));
    assert_eq!(refused(&[b"k=x", b"", b"k=x\ry"]), (3, 4, 0));
    assert_eq!(refused(&[b"k=x", b"k"]), (4, 3, 0));
    assert_eq!(refused(&[b"m=a 1 p f", b"k=", b"k=", b"kk="]), (5, 5, 0));
    assert_eq!(refused(&[b"a=x", b"k=", b"r=1 1"]), (20, 4, 0));
    // 21, and the limit counts in the whole text
    let mut lines: Vec<&[u8]> = vec![b"v=0", b"k=x"];
    lines.resize(18, b"e=");
    lines.push(b"k=\xff");
    accepted(&lines);
    lines.push(b"e=");
    assert_eq!(refused(&lines), (21, 20, 1));
    let mut long = b"v=0\nk=".to_vec();
    long.resize(32_768, b'x');
    assert!(oracle::read(&long).is_ok());
    long.push(b'x');
    assert_eq!(refusal(&long).number, 1);
    // no line, and the version's place
    assert_eq!(refusal(b"k=x\nv=0\nk=y\n"), Refusal { number: 6, ..Refusal::default() });
    assert_eq!(refusal(b"\nv=\nk=y\n"), Refusal { place: 3, ..Refusal::at_line(7, 2) });
}

/// The crate's own cutter finds the same k lines, as far as it goes.
#[test]
fn as_the_crate_cuts() {
    let mut random = Random::of_test("k lines");
    let (mut compared, mut taken) = (0, 0);
    for round in 0..count(20_000) {
        let text = match round % 3 {
            0 => sessions::text(&mut random),
            1 => texts::text(&mut random),
            _ => [&b"v=0\n"[..], &texts::lines(&mut random)].concat(),
        };
        let (cuts, (_, numbers)) = (leaf::cuts(&text), left(&text));
        let mut first = true;
        for cut in cuts.iter().filter(|cut| cut.line > 0) {
            let is_key = cut.kind == 2 && cut.letter == u64::from(b'k') && !first;
            first &= cut.kind == 1;
            assert_eq!(numbers.binary_search(&cut.line).is_err(), is_key, "line {} of {}", cut.line, text.escape_ascii());
            taken += u64::from(is_key);
        }
        compared += 1;
    }
    println!("k lines: {compared} texts, {taken} lines taken out");
    assert!(taken * 4 > compared);
}
