//! The program `canon` as a user runs it: on each text of the folder `texts`, on inputs at the limit, on inputs that
//! come in pieces, and stopped while it waits. The archive must say the same.
use compare::account::read;
use compare::area::SIZE;
use compare::{fill, length};
use generate::sessions::LONGEST;
use std::fs;
use std::io::{Read, Write};
use std::path::{Path, PathBuf};
use std::process::{Child, ChildStdin, Command, Stdio};
use std::thread;
use std::time::{Duration, Instant};

/// `target/bin/canon`, or the one in the folder that `RATTLE_BIN` names.
fn program() -> PathBuf {
    let here = env!("CARGO_MANIFEST_DIR");
    let folder = std::env::var("RATTLE_BIN").unwrap_or(format!("{here}/../../target/bin"));
    let path = Path::new(&folder).join("canon");
    assert!(path.is_file(), "there is no program {}: ./canon makes it", path.display());
    path.canonicalize().unwrap()
}

/// One run of the program, which may not take longer than a minute once its input has ended.
struct Run {
    child: Child,
    input: Option<ChildStdin>,
    output: thread::JoinHandle<Vec<u8>>,
    errors: thread::JoinHandle<Vec<u8>>,
}

impl Run {
    fn start() -> Self {
        Self::start_with(&[])
    }

    /// With more in its environment.
    fn start_with(more: &[(&str, &str)]) -> Self {
        // as cargo runs the tests: on x86-64 directly, else under an emulator
        let runner = concat!(env!("CARGO_MANIFEST_DIR"), "/../../gate/run-x86");
        let mut child = Command::new(runner)
            .arg(program())
            .envs(more.iter().copied())
            .stdin(Stdio::piped())
            .stdout(Stdio::piped())
            .stderr(Stdio::piped())
            .spawn()
            .unwrap_or_else(|error| panic!("{runner}: {error}"));
        fn all(mut from: impl Read + Send + 'static) -> thread::JoinHandle<Vec<u8>> {
            thread::spawn(move || {
                let mut bytes = Vec::new();
                from.read_to_end(&mut bytes).expect("the program's output can be read");
                bytes
            })
        }
        Run {
            input: child.stdin.take(),
            output: all(child.stdout.take().unwrap()),
            errors: all(child.stderr.take().unwrap()),
            child,
        }
    }

    /// Whether all was taken: a program that has its answer may end before its input does, and then the pipe is closed.
    fn feed(&mut self, bytes: &[u8]) -> bool {
        let input = self.input.as_mut().expect("the input is open");
        match input.write_all(bytes).and_then(|()| input.flush()) {
            Ok(()) => true,
            Err(error) if error.kind() == std::io::ErrorKind::BrokenPipe => false,
            Err(error) => panic!("the input: {error}"),
        }
    }

    /// By the shell, whose own `kill` needs no other program.
    fn signal(&self, name: &str) {
        let number = self.child.id().to_string();
        let sent = Command::new("sh").args(["-c", "kill -s \"$1\" \"$2\"", "sh", name, &number]).status();
        assert!(sent.expect("a shell").success(), "the signal {name} was sent");
    }

    /// T where the program is stopped, S where it sleeps.
    fn state(&self) -> char {
        let stat = fs::read_to_string(format!("/proc/{}/stat", self.child.id())).expect("the program is there");
        stat[stat.rfind(')').unwrap() + 2..].chars().next().unwrap()
    }

    /// Until the runner, a script, has become the program.
    fn wait_for_the_program(&self) {
        let start = Instant::now();
        let name = format!("/proc/{}/comm", self.child.id());
        while fs::read_to_string(&name).expect("the program is there").trim_end() == "run-x86" {
            assert!(start.elapsed() < Duration::from_secs(30), "the program doesn't start");
            thread::sleep(Duration::from_millis(2));
        }
    }

    fn wait_for(&self, state: char) {
        let start = Instant::now();
        while self.state() != state {
            assert!(start.elapsed() < Duration::from_secs(30), "the program's state is {}, not {state}", self.state());
            thread::sleep(Duration::from_millis(2));
        }
    }

    /// Closes the input, and gives all that was printed.
    fn finish(mut self) -> Vec<u8> {
        drop(self.input.take());
        let start = Instant::now();
        let status = loop {
            if let Some(status) = self.child.try_wait().unwrap() {
                break status;
            }
            if start.elapsed() > Duration::from_secs(60) {
                self.child.kill().unwrap();
                self.child.wait().unwrap();
                panic!("canon didn't end within a minute");
            }
            thread::sleep(Duration::from_millis(1));
        };
        let errors = self.errors.join().unwrap();
        assert!(errors.is_empty(), "canon printed to standard error: {}", errors.escape_ascii());
        assert!(status.success(), "canon ended with {status}");
        self.output.join().unwrap()
    }
}

fn canon(text: &[u8]) -> Vec<u8> {
    let mut run = Run::start();
    run.feed(text);
    run.finish()
}

/// What the archive says: reading, then the length, then the filling of so many bytes, in the form that `canon` prints.
fn archive(text: &[u8]) -> Vec<u8> {
    let mut area = vec![0xa5; SIZE];
    let answer = read(text, &mut area);
    if answer.number != 0 {
        return format!("refused {} line {} field {}\n", answer.number, answer.line, answer.field).into_bytes();
    }
    let needed = length(text, &area);
    assert_eq!(needed.number, 0, "what was read is written");
    let mut out = vec![0; needed.len as usize];
    assert_eq!(fill(text, &area, &mut out), needed);
    out
}

fn same(ours: &[u8], due: &[u8], what: &str) {
    assert_eq!(ours.escape_ascii().to_string(), due.escape_ascii().to_string(), "{what}");
}

/// Name, text and expected output of each.
fn texts() -> Vec<(String, Vec<u8>, Vec<u8>)> {
    let mut texts = Vec::new();
    for folder in ["published", "kinds"] {
        let folder = format!("{}/../../texts/{folder}", env!("CARGO_MANIFEST_DIR"));
        for entry in fs::read_dir(&folder).unwrap_or_else(|error| panic!("{folder}: {error}")) {
            let path = entry.unwrap().path();
            if path.extension().map_or(false, |end| end == "sdp") {
                let expected = path.with_extension("expected");
                let output = fs::read(&expected).unwrap_or_else(|error| panic!("{}: {error}", expected.display()));
                texts.push((path.display().to_string(), fs::read(&path).unwrap(), output));
            }
        }
    }
    texts.sort();
    assert!(texts.len() >= 32);
    texts
}

#[test]
fn each_text() {
    let (mut written, mut refused) = (0, 0);
    for (name, text, due) in texts() {
        same(&canon(&text), &due, &name);
        if due.starts_with(b"refused ") {
            refused += 1;
        } else {
            written += 1;
        }
    }
    println!("canon: {written} texts written, {refused} refused");
    assert!(written > 0 && refused > 0);
}

#[test]
fn the_archive_says_the_same() {
    let texts = texts();
    for (name, text, due) in &texts {
        same(&archive(text), due, name);
    }
    println!("canon: {} texts through the archive", texts.len());
}

/// What was written is read and written to the same again.
#[test]
fn canon_of_its_own_output() {
    let mut again = 0;
    for (name, _, due) in texts().iter().filter(|(.., due)| !due.starts_with(b"refused ")) {
        same(&canon(due), due, name);
        again += 1;
    }
    println!("canon: {again} outputs once more");
}

const TOO_LONG: &[u8] = b"refused 1 line 0 field 0\n";

/// The text of `LONGEST` bytes that grows most when it is written, and its written form. Every kept line ends in LF and
/// so grows by a byte; o and s are missing; the last line has no ending.
fn grows_most() -> (Vec<u8>, Vec<u8>) {
    let many = |line: &str, times: usize| vec![line.to_string(); times];
    let mut lines = many("v=0", 1);
    lines.extend(["i=", "u="].map(String::from));
    lines.extend(many("e=", 16));
    lines.extend(many("p=", 16));
    lines.extend(many("c=I J h", 1));
    lines.extend(many("b=:0", 64));
    for _ in 0..32 {
        lines.extend(many("t=0 0", 1));
        lines.extend(many("r=0 0", 2));
    }
    lines.extend(many("z=0 0", 1));
    for _ in 0..32 {
        lines.extend(["m= 0  ", "i="].map(String::from));
        lines.extend(many("c=I J h", 2));
        lines.extend(many("a=", 16));
    }
    let mut text = lines.join("\n").into_bytes();
    let padding = "x".repeat(LONGEST - text.len());
    text.extend(padding.bytes());
    lines.last_mut().unwrap().push_str(&padding);
    lines.splice(1..1, ["o=- 0 0 IN IP4 0.0.0.0", "s="].map(String::from));
    (text, lines.iter().flat_map(|line| [line.as_bytes(), b"\r\n"].concat()).collect())
}

#[test]
fn lengths_at_the_limit() {
    let (longest, written) = grows_most();
    assert_eq!((longest.len(), written.len()), (LONGEST, 33_634));
    let one_value = |len: usize| {
        let mut text = b"v=0\ns=".to_vec();
        text.resize(len, b'x');
        let output = [b"v=0\r\no=- 0 0 IN IP4 0.0.0.0\r\n", &text[4..], b"\r\nt=0 0\r\n"].concat();
        (text, output)
    };
    let mut more = longest.clone();
    more.push(b'x');
    for (text, due) in [
        (Vec::new(), b"refused 6 line 0 field 0\n".to_vec()),
        (b"\n".to_vec(), b"refused 6 line 0 field 0\n".to_vec()),
        (b"v=0".to_vec(), b"v=0\r\no=- 0 0 IN IP4 0.0.0.0\r\ns=\r\nt=0 0\r\n".to_vec()),
        one_value(4_095),
        one_value(4_096),
        one_value(4_097),
        one_value(LONGEST - 1),
        one_value(LONGEST),
        (one_value(LONGEST + 1).0, TOO_LONG.to_vec()),
        (longest, written),
        (more, TOO_LONG.to_vec()),
        (vec![b'\n'; LONGEST], b"refused 6 line 0 field 0\n".to_vec()),
        (vec![b'\n'; LONGEST + 1], TOO_LONG.to_vec()),
        (vec![b'\n'; 2 * LONGEST], TOO_LONG.to_vec()),
        (b"v=0\na=x\n".repeat(393_216), TOO_LONG.to_vec()), // 3 MB
        (vec![0; 3_000_000], TOO_LONG.to_vec()),
    ] {
        let what = format!("{} bytes", text.len());
        same(&archive(&text), &due, &what);
        same(&canon(&text), &due, &what);
    }
}

/// A few bytes at a time, with pauses: a reading that ends early, or takes one piece for all, shows here.
#[test]
fn inputs_in_pieces() {
    let chosen = ["desk4", "utf8-names", "rfc8866-5", "refused-half-zone", "unknown-lines"];
    let mut pieces = 0;
    for (name, text, due) in texts() {
        let stem = Path::new(&name).file_stem().unwrap().to_str().unwrap();
        if !chosen.contains(&stem) {
            continue;
        }
        for size in [1, 3, 50] {
            let mut run = Run::start();
            for piece in text.chunks(size) {
                assert!(run.feed(piece), "{name}: canon ended before its input did");
                pieces += 1;
                thread::sleep(Duration::from_micros(if size == 1 { 300 } else { 2_000 }));
            }
            same(&run.finish(), &due, &name);
        }
    }
    // longer pauses, and a long text in pieces that end at no round number
    let (longest, written) = grows_most();
    for size in [4_099, 20_011] {
        let mut run = Run::start();
        for piece in longest.chunks(size) {
            assert!(run.feed(piece), "canon ended before its input did");
            pieces += 1;
            thread::sleep(Duration::from_millis(20));
        }
        same(&run.finish(), &written, "the longest text in pieces");
    }
    // too long only by the last piece
    let mut run = Run::start();
    run.feed(&longest);
    thread::sleep(Duration::from_millis(20));
    run.feed(b"x");
    same(&run.finish(), TOO_LONG, "one byte too many, and late");
    println!("canon: {pieces} pieces");
    assert!(pieces > 500);
}

/// Stopped and continued while it waits for its input, and sent signals that a program ignores unless it asks for them.
#[test]
fn stopped_while_it_waits() {
    let (_, text, due) = texts().into_iter().find(|(name, ..)| name.ends_with("desk4.sdp")).expect("the sample");
    let mut run = Run::start();
    run.wait_for_the_program();
    for piece in text.chunks(40) {
        run.wait_for('S');
        run.signal("STOP");
        run.wait_for('T');
        assert!(run.feed(piece));
        run.signal("CONT");
        run.wait_for('S');
        run.signal("WINCH");
        run.signal("URG");
        run.wait_for('S');
    }
    // stopped when the input ends
    run.signal("STOP");
    run.wait_for('T');
    drop(run.input.take());
    run.signal("CONT");
    same(&run.finish(), &due, "stopped and continued");
}

/// Each read and each write fails once with EINTR, as when a signal comes, and then moves a few bytes only. A small library
/// that is loaded before libc does this; it tells how many calls it interrupted.
#[test]
fn interrupted_calls() {
    let here = env!("CARGO_MANIFEST_DIR");
    let folder = env!("CARGO_TARGET_TMPDIR");
    let (library, told) = (format!("{folder}/calls.so"), format!("{folder}/interrupted"));
    let source = format!("{here}/tests/interrupted/calls.c");
    let made = Command::new(format!("{here}/../../gate/link-x86"))
        .args(["-shared", "-fPIC", "-Wall", "-Werror", "-o", &library, &source])
        .status();
    assert!(made.expect("the C compiler runs").success(), "{source} can be compiled");
    let host = Command::new("uname").arg("-m").output().expect("uname").stdout;
    let preload = format!("LD_PRELOAD={library}");
    let before = if host.starts_with(b"x86_64") {
        ("LD_PRELOAD", library.as_str())
    } else {
        ("QEMU_SET_ENV", preload.as_str())
    };
    let (mut runs, mut interrupted) = (0, 0);
    let (longest, written) = grows_most();
    let long = ("the longest text".to_string(), longest, written);
    for (name, text, due) in texts().into_iter().chain([long]) {
        let _ = fs::remove_file(&told);
        let mut run = Run::start_with(&[before, ("INTERRUPTED", told.as_str())]);
        run.feed(&text);
        same(&run.finish(), &due, &name);
        let count = fs::read_to_string(&told).expect("the library tells its count");
        let count: usize = count.trim().parse().unwrap();
        // a read for every seven bytes and one for the end, and the same for what is written
        assert!(count >= text.len() / 7 + 1 + due.len() / 7, "{name}: {count} calls were interrupted");
        runs += 1;
        interrupted += count;
    }
    println!("canon: {interrupted} interrupted calls in {runs} runs");
}
