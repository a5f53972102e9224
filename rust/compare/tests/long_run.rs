//! The program `long-run` as a user runs it: to its end, over a folder, with wrong words, and ended by Ctrl-C.
use generate as _; // without it the emulator dies when this program starts
use std::fs::{self, File, OpenOptions};
use std::io::{BufRead, BufReader, Read};
use std::process::{Child, Command, Output, Stdio};
use std::thread;
use std::time::{Duration, Instant};

fn start(words: &[&str]) -> Child {
    start_into(Stdio::piped(), words)
}

/// As cargo runs the tests: under an emulator where the program is x86-64 and the machine is not.
fn start_into(out: Stdio, words: &[&str]) -> Child {
    let runner = concat!(env!("CARGO_MANIFEST_DIR"), "/../../gate/run-x86");
    let mut command = Command::new(runner);
    command.arg(env!("CARGO_BIN_EXE_long-run")).args(words).stdout(out).stderr(Stdio::piped());
    command.spawn().unwrap_or_else(|error| panic!("{runner}: {error}"))
}

/// What Ctrl-C sends.
fn interrupt(child: &Child) {
    let number = child.id().to_string();
    let sent = Command::new("sh").args(["-c", "kill -s INT \"$1\"", "sh", &number]).status();
    assert!(sent.expect("a shell").success());
}

fn wait_until(what: &str, mut holds: impl FnMut() -> bool) {
    let start = Instant::now();
    while !holds() {
        assert!(start.elapsed() < Duration::from_secs(30), "it takes too long until {what}");
        thread::sleep(Duration::from_millis(2));
    }
}

fn run(words: &[&str]) -> (Option<i32>, String, String) {
    let Output { status, stdout, stderr } = start(words).wait_with_output().unwrap();
    (status.code(), String::from_utf8(stdout).unwrap(), String::from_utf8(stderr).unwrap())
}

#[test]
fn to_the_end() {
    let (status, out, errors) = run(&["7", "300", "5"]);
    assert_eq!((status, errors.as_str()), (Some(0), ""), "{out}");
    assert!(out.starts_with("long run: seed 7, 300 texts from number 5\n"), "{out}");
    assert!(out.contains("\n300 texts of ") && out.ends_with(", no difference\n"), "{out}");
    let (status, again, _) = run(&["7", "300", "5"]);
    // all but the progress and the time that it took
    let counts = |out: &str| -> Vec<String> {
        let timed = |line: &&str| line.contains(" a second, ") || line.contains(" compared in ");
        out.lines().filter(|line| !timed(line)).map(String::from).collect()
    };
    assert_eq!((status, counts(&again)), (Some(0), counts(&out)));
}

#[test]
fn a_folder() {
    let folder = concat!(env!("CARGO_MANIFEST_DIR"), "/../../texts/kinds");
    let files = std::fs::read_dir(folder).unwrap().count();
    let (status, out, errors) = run(&["--folder", folder]);
    assert_eq!((status, errors.as_str()), (Some(0), ""), "{out}");
    assert!(out.starts_with(&format!("long run: {files} files of ")) && out.contains(&format!("\n{files} texts of ")), "{out}");
    let (status, out, errors) = run(&["--folder", "nothing/there"]);
    assert_eq!((status, out.as_str()), (Some(2), ""));
    assert!(errors.starts_with("long-run: nothing/there: No such file"), "{errors}");
}

#[test]
fn wrong_words() {
    for words in [&["x"][..], &["1", "2", "3", "4"], &["--folder"], &["--folders", "x"], &["-1"]] {
        let (status, out, errors) = run(words);
        assert_eq!((status, out.as_str()), (Some(2), ""), "{words:?}");
        assert!(errors.starts_with("usage: long-run"), "{words:?}: {errors}");
    }
    let (status, out, errors) = run(&["--help"]);
    assert_eq!((status, errors.as_str()), (Some(0), ""));
    assert!(out.starts_with("usage: long-run"));
}

/// Progress comes while it runs, and Ctrl-C ends it with the counts so far.
#[test]
fn stopped_by_ctrl_c() {
    let mut child = start(&["7", "1000000000"]);
    let mut lines = BufReader::new(child.stdout.take().unwrap());
    let mut first = [String::new(), String::new()];
    for line in &mut first {
        lines.read_line(line).unwrap();
    }
    assert!(first[1].contains(" of 1000000000, ") && first[1].contains(" a second, ") && first[1].contains(" left, "), "{first:?}");
    interrupt(&child);
    let mut rest = String::new();
    lines.read_to_string(&mut rest).unwrap();
    assert_eq!(child.wait().unwrap().code(), Some(130));
    assert!(rest.contains("stopped after ") && rest.ends_with(", no difference\n"), "{rest}");
}

/// A clean stop needs someone who reads. Here the pipe is full, so the first Ctrl-C can't end it, and the second one does.
#[test]
fn ended_by_a_second_ctrl_c() {
    let pipe = concat!(env!("CARGO_TARGET_TMPDIR"), "/full-pipe");
    let _ = fs::remove_file(pipe);
    assert!(Command::new("mkfifo").arg(pipe).status().expect("mkfifo").success());
    // for both, since opening a pipe for one waits for the other
    let ours = OpenOptions::new().read(true).write(true).open(pipe).unwrap();
    let theirs = OpenOptions::new().write(true).open(pipe).unwrap();
    let mut child = start_into(theirs.into(), &["7", "1000000000"]);
    let mut first = String::new();
    BufReader::new(&ours).read_line(&mut first).unwrap();
    assert!(first.starts_with("long run: "), "{first}");
    let fill = format!("of={pipe}");
    let filled = Command::new("dd").env("LC_ALL", "C").args(["if=/dev/zero", &fill, "bs=1", "oflag=nonblock"]).output();
    let errors = String::from_utf8(filled.expect("dd").stderr).unwrap();
    assert!(errors.contains("Resource temporarily unavailable"), "{errors}");

    interrupt(&child);
    let stat = format!("/proc/{}/stat", child.id());
    wait_until("it waits for room", || fs::read_to_string(&stat).unwrap().contains(") S "));
    assert_eq!(child.try_wait().unwrap(), None);
    interrupt(&child);
    let mut ended = None;
    wait_until("it ends", || {
        ended = child.try_wait().unwrap();
        ended.is_some()
    });
    assert_eq!(ended.unwrap().code(), Some(130));
    let (mut said, mut rest) = (File::open(pipe).unwrap(), Vec::new());
    drop(ours);
    said.read_to_end(&mut rest).unwrap();
    assert!(rest.iter().all(|&byte| byte == 0), "it said something after the first Ctrl-C");
}

/// Nobody reads what it says: it ends by itself, without a word.
#[test]
fn a_closed_pipe() {
    let mut child = start(&["7", "1000000000"]);
    drop(child.stdout.take());
    let Output { status, stderr, .. } = child.wait_with_output().unwrap();
    assert_eq!((status.code(), &stderr[..]), (Some(2), &b""[..]));
}
