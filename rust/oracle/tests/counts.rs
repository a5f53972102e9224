//! The counts of lines, by hand and beside what the crate makes of the lines.
use generate::{random::count, sessions, texts, Random};
use oracle::counts::{lines, of, Counts};
use oracle::{leaf, limits, Session};

/// A text that is accepted, and its empty, ignored and kept lines.
const SAMPLES: [(&[u8], [u64; 3]); 30] = [
    (b"v=0", [0, 0, 1]),
    (b"v=0\n", [0, 0, 1]),
    (b"v=0\r\n", [0, 0, 1]),
    // empty: LF or CR LF alone, above the version line too
    (b"\nv=0", [1, 0, 1]),
    (b"\r\n\n\r\nv=0\r\n", [3, 0, 1]),
    (b"v=0\n\n", [1, 0, 1]),
    (b"v=0\n\r\n", [1, 0, 1]),
    (b"v=0\n\ns=x\r\n\r\n\ni=", [3, 0, 3]),
    // a space is a letter like any other, and a line of two bytes isn't empty
    (b"v=0\n ==\n =", [0, 2, 1]),
    // only the first v is kept
    (b"v=0\nv=0", [0, 1, 1]),
    (b"v=0\nv=9\nv=\xff\n", [0, 2, 1]),
    // k, anywhere
    (b"v=0\nk=\nk=clear:x\r\nk=\xff", [0, 3, 1]),
    (b"v=0\nm=a 1 p f\nk=x\nk=\n", [0, 2, 2]),
    // unknown letters, whatever follows
    (b"v=0\nx=new\ny=\xff\n\xff=\nS=\nM=a\n", [0, 5, 1]),
    // each letter of the session; z has a use though it has no pairs
    (b"v=0\no=- 0 0 I J h\ns=\ni=\nu=\ne=\np=\nc=I J h\nb=:1\nt=0 0\nr=1 1\nz=0 0\na=", [0, 0, 13]),
    (b"v=0\nz=", [0, 0, 2]),
    (b"v=0\nz=  \n", [0, 0, 2]),
    (b"v=0\na=\na=\ne=\np=\nt=0 0\nt=0 0\nr=1 1\nr=1 1\n", [0, 0, 9]),
    // each letter of a media
    (b"v=0\nm=a 1 p f\ni=\nc=I J h\nc=I J h\nb=:1\na=\nm=b 2 p f\ni=", [0, 0, 9]),
    // those of the session have no use there
    (b"v=0\nm=a 1 p f\no=\ns=\nu=\ne=\np=\nt=x\nr=x\nz=x\nv=\nk=\n", [0, 10, 2]),
    (b"v=0\ns=x\nm=a 1 p f\ns=y\nm=b 2 p f\ns=z\na=", [0, 2, 5]),
    // the last line has no LF: empty can't be, the others can
    (b"v=0\nx=", [0, 1, 1]),
    (b"v=0\n\nx=\r\ns=", [1, 1, 2]),
    (b"\nv=0\nv=0\nx=\nk=\ns=\n\nm= 1  \ns=\ni=\nk=\nm= 1  \na=", [2, 5, 6]),
    // CR LF throughout
    (b"v=0\r\na=\r\nx=\r\n", [0, 1, 2]),
    (b"v=0\r\n\r\nx=1\r\n\r\ny=2\r\na=b:c:d\r\n", [2, 2, 2]),
    // m before and behind lines of both
    (b"v=0\ni=\nm=a 1 p f\ni=\nt=\n", [0, 1, 4]),
    (b"v=0\nm=a 1 p f\nm=a 1 p f\nm=a 1 p f", [0, 0, 4]),
    (b"\n\n\n\n\nv=0\n\n\n\n\n", [9, 0, 1]),
    // document 01's text for `canon`
    (
        b"v=0\ns=Desk 4\nx=new\nt=+60 0\nr=168h 3600 0 90\nz=60 -1h 61 +0\na=recvonly\n\
          m=audio 5004/2 RTP/AVP 96\na=note:\n",
        [0, 1, 8],
    ),
];

#[test]
fn by_hand() {
    for (text, due) in SAMPLES {
        assert!(oracle::read(text).is_ok(), "{}", text.escape_ascii());
        let Counts { empty, ignored, kept } = of(text);
        assert_eq!([empty, ignored, kept], due, "{}", text.escape_ascii());
        assert_eq!(lines(text), due.iter().sum(), "{}", text.escape_ascii());
    }
    assert_eq!((lines(b""), lines(b"\n"), lines(b"\r"), lines(b"\n\n"), lines(b"\nx")), (0, 1, 1, 2, 2));
}

/// How many lines the crate has kept, by the records that it made of them. It doesn't tell whether there was an o, an s or
/// a z line, so these are looked for.
fn by_the_crate(text: &[u8], session: &Session) -> u64 {
    let [emails, phones, connections, bandwidths, times, repeats, _, _, attributes, medias] = limits::counts(session);
    let tables = emails + phones + connections + bandwidths + times + repeats + attributes + medias;
    let single = [session.session_description.is_some(), session.uri.is_some(), session.connection.is_some()];
    let titles = session.medias.iter().filter(|media| media.media_title.is_some()).count();
    let above = text.split(|byte| *byte == b'\n').take_while(|line| !line.starts_with(b"m="));
    let looked_for = above.filter(|line| [b"o=", b"s=", b"z="].iter().any(|start| line.starts_with(*start))).count();
    (1 + tables + single.into_iter().filter(|there| *there).count() + titles + looked_for) as u64
}

/// The empty lines and all lines by the crate's cutter and bstr, the kept ones by the crate's records, and the ignored ones
/// are what is left.
#[test]
fn of_generated_texts() {
    let mut random = Random::of_test("counts of lines");
    let (mut accepted, mut sums) = (0, [0; 3]);
    let texts = count(60_000);
    for round in 0..texts {
        let text = match round % 3 {
            0 => sessions::text(&mut random),
            1 => texts::text(&mut random),
            _ => {
                let good = sessions::good(&mut random);
                sessions::ended(&mut random, &good)
            }
        };
        let Ok(session) = oracle::read(&text) else { continue };
        let cuts = leaf::cuts(&text);
        let all = cuts.len() as u64 - 1; // the last is the end
        let empty = cuts.iter().filter(|cut| cut.kind == 1).count() as u64;
        let kept = by_the_crate(&text, &session);
        let due = Counts { empty, ignored: all - empty - kept, kept };
        assert_eq!((of(&text), lines(&text)), (due, all), "{}", text.escape_ascii());
        accepted += 1;
        for (sum, more) in sums.iter_mut().zip([due.empty, due.ignored, due.kept]) {
            *sum += more;
        }
    }
    println!("counts: {accepted} of {texts} texts; {sums:?} lines empty, ignored, kept");
    assert!(accepted * 3 > texts && sums.iter().all(|sum| *sum > texts / 4), "{sums:?}");
}
