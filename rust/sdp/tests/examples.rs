//! The examples in C and in Rust, run as a user runs them. They print the same for every text of the folder `texts`.
mod c;
mod page;
use page::path;
use std::fs;
use std::path::{Path, PathBuf};
use std::process::Output;

/// The program of examples/announce.rs, which cargo builds beside the tests, unless it is asked for one test only.
fn announce() -> PathBuf {
    let deps = std::env::current_exe().unwrap();
    let program = deps.parent().unwrap().parent().unwrap().join("examples/announce");
    let time = |path: &Path| fs::metadata(path).and_then(|file| file.modified()).ok();
    let source = time(Path::new(&path("rust/sdp/examples/announce.rs")));
    let fresh = source.is_some() && time(&program) >= source;
    assert!(fresh, "{} is old: cargo build --release --examples makes it", program.display());
    program
}

/// The program of c/example.c; each test has its own, because they run at the same time.
fn example(test: &str) -> PathBuf {
    c::compiled("c/example.c", &format!("example-{test}"))
}

/// Exit status, standard output as Rust would quote it, and standard error without the program's name.
fn parts(name: &str, output: Output) -> (Option<i32>, String, String) {
    let errors = String::from_utf8(output.stderr).expect("words");
    let unnamed = |line: &str| match line.strip_prefix(name) {
        Some(words) => format!("{words}\n"),
        None => panic!("{line:?} starts with {name}"),
    };
    (output.status.code(), output.stdout.escape_ascii().to_string(), errors.lines().map(unnamed).collect())
}

const FESTIVAL: &str = "name: Summer festival, main stage (line 3)
time: 3960000000 to 3962592000 (line 10)
  every 86400 s for 14400 s, from 0 (line 11)
  every 604800 s for 10800 s, from 82800 601200 (line 12)
time: 3963000000 to 3963086400 (line 13)
time: 3964000000 to 0 (line 14)
  every 604800 s for 5400 s, from 0 90000 172800 60 (line 15)
zone: -3600 s from 3960500000 on (line 16)
zone: 0 s from 3962000000 on (line 16)
zone: 5400 s from 3963500000 on (line 16)
starts: 3960000000 by time 1 (line 10), repeat 1 (line 11)
starts: 3960082800 by time 1 (line 10), repeat 2 (line 12)
starts: 3960086400 by time 1 (line 10), repeat 1 (line 11)
starts: 3960172800 by time 1 (line 10), repeat 1 (line 11)
starts: 3960259200 by time 1 (line 10), repeat 1 (line 11)
starts: 3960345600 by time 1 (line 10), repeat 1 (line 11)
starts: 3960432000 by time 1 (line 10), repeat 1 (line 11)
starts: 3960514800 by time 1 (line 10), repeat 1 (line 11)
starts: 3960597600 by time 1 (line 10), repeat 2 (line 12)
starts: 3960601200 by time 1 (line 10), repeat 1 (line 11)
media: audio to port 49230 (line 21)
  title: Stereo (line 22)
  rtpmap:96 L16/48000/2 (line 24)
lines: 23 kept, 1 ignored, 0 empty
";

#[test]
fn each_text() {
    let (rust, c) = (announce(), example("texts"));
    let (mut written, mut refused, mut festival) = (0, 0, false);
    for folder in ["published", "kinds"] {
        for entry in fs::read_dir(path(&format!("texts/{folder}"))).unwrap() {
            let file = entry.unwrap().path();
            if file.extension().map_or(true, |end| end != "sdp") {
                continue;
            }
            let name = file.to_str().unwrap();
            let of_c = parts("example: ", c::run(&c, &[name], b""));
            let of_rust = parts("announce: ", c::run(&rust, &[name], b""));
            assert_eq!(of_c, of_rust, "{name}");
            let (status, output, errors) = of_c;
            let due = fs::read(file.with_extension("expected")).unwrap();
            if let Some(numbers) = due.strip_prefix(b"refused ") {
                let number = numbers.split(|byte| *byte == b' ').next().unwrap();
                assert_eq!((status, &output[..]), (Some(1), ""), "{name}");
                let end = format!(" (refusal {})\n", std::str::from_utf8(number).unwrap());
                assert!(errors.ends_with(&end) && errors.lines().count() == 1, "{name}: {errors}");
                refused += 1;
                continue;
            }
            assert_eq!((status, &errors[..]), (Some(0), ""), "{name}");
            let told = output.strip_suffix(&due.escape_ascii().to_string()[..]);
            let told = told.unwrap_or_else(|| panic!("{name}: the written form is the last"));
            assert!(told.starts_with("name: "), "{name}");
            // the three counts are those of the text's lines
            let counts = told.rsplit("\\n").nth(1).and_then(|row| row.strip_prefix("lines: ")).unwrap_or("");
            let numbers: Vec<usize> = counts.split(", ").filter_map(|part| part.split_once(' ')?.0.parse().ok()).collect();
            let lines = fs::read(&file).unwrap().split_inclusive(|byte| *byte == b'\n').count();
            assert_eq!((numbers.len(), numbers.iter().sum::<usize>()), (3, lines), "{name}: {told}");
            if name.ends_with("/festival.sdp") {
                assert_eq!(told, FESTIVAL.as_bytes().escape_ascii().to_string());
                festival = true;
            }
            written += 1;
        }
    }
    println!("examples: {written} texts written, {refused} refused, by C and by Rust");
    assert!(festival && written > 0 && refused > 0);
}

/// Standard input, a text that is too long, and what can't be read or written.
#[test]
fn inputs_and_statuses() {
    for (name, program) in [("announce: ", announce()), ("example: ", example("inputs"))] {
        let run = |arguments: &[&str], input: &[u8]| parts(name, c::run(&program, arguments, input));
        let told = "name: \nlines: 1 kept, 0 ignored, 0 empty\n";
        let accepted = format!("{told}v=0\r\no=- 0 0 IN IP4 0.0.0.0\r\ns=\r\nt=0 0\r\n");
        let accepted = accepted.as_bytes().escape_ascii().to_string();
        assert_eq!(run(&[], b"v=0"), (Some(0), accepted, String::new()));
        let sentence = |words: &str| (Some(1), String::new(), format!("{words}\n"));
        assert_eq!(run(&[], b""), sentence("there is no version: the first line must be v=0 (refusal 6)"));
        assert_eq!(run(&[], &vec![b'\n'; 100_000]), sentence("the text has more than 32768 bytes (refusal 1)"));
        assert_eq!(
            run(&[], b"v=0\nz=1 one\n"),
            sentence(
                "line 2: a zone's offset is not a time from -2^63 to 2^63-1 seconds: a - or none, a whole number, then \
                 d, h, m, s or nothing (refusal 9)"
            )
        );
        assert_eq!(
            run(&[], b"v=0\r\n\r\no=- 1\xc3\xa9 \xe2\x82"),
            sentence("line 3: the origin's version is not UTF-8 from byte 15 on, the 9th byte of the line (refusal 8)")
        );
        // of these the text is good, and its list of starts is not
        for (lines, told) in [
            ("t=7 0\nz=9 0 8 0\n", "starts: the adjustment times of the z line fall (refusal 28)\n"),
            ("t=7 0\nr=1 1\n", "starts: there are more than 256 starts in the window (refusal 29)\n"),
            (&format!("t={} 0\n", u64::MAX - 1)[..], "starts: 18446744073709551614 by time 1 (line 2)\n"),
        ] {
            let (status, output, errors) = run(&[], format!("v=0\n{lines}").as_bytes());
            assert_eq!((status, &errors[..]), (Some(0), ""), "{lines}");
            assert!(output.contains(&told.as_bytes().escape_ascii().to_string()), "{output}");
        }
        for unreadable in ["no/such/file", "/"] {
            let (status, output, errors) = run(&[unreadable], b"");
            assert_eq!((status, &output[..], errors.lines().count()), (Some(2), "", 1), "{name}{unreadable}: {errors}");
        }
        let (status, _, errors) = parts(name, c::run_to(&program, &[], b"v=0", Some("/dev/full")));
        assert_eq!((status, errors.lines().count()), (Some(2), 1), "{name}{errors}");
    }
}
