//! Programs, those in C compiled with the archive, run as cargo runs the tests: under an emulator where they are x86-64
//! and the machine is not.
#![allow(dead_code)] // each test file takes what it needs
use crate::page::path;
use std::fs::OpenOptions;
use std::io::Write;
use std::path::PathBuf;
use std::process::{Command, Output, Stdio};
use std::thread;

/// A C file of the repository, compiled strictly; the program has this name.
pub fn compiled(source: &str, name: &str) -> PathBuf {
    let (compiler, folder) = match cfg!(target_arch = "x86_64") {
        true => (path("gate/link-x86"), path("target/staticlib")),
        false => ("cc".to_string(), path("target/arm")),
    };
    let archive = std::env::var("RATTLE_STATICLIB").unwrap_or(folder) + "/libsdp.a";
    let program = PathBuf::from(env!("CARGO_TARGET_TMPDIR")).join(name);
    let made = Command::new(compiler)
        .args(["-std=c11", "-O2", "-Wall", "-Wextra", "-Werror", "-pedantic", "-I", &path("c"), "-o"])
        .arg(&program)
        .args([&path(source), &archive])
        .status();
    assert!(made.expect("the C compiler runs").success(), "{source} can be compiled");
    program
}

/// A run of a program with its arguments, on this input; its output goes to a file where one is given.
pub fn run_to(program: &PathBuf, arguments: &[&str], input: &[u8], output: Option<&str>) -> Output {
    let open = |file| OpenOptions::new().write(true).open(file).expect("the output can be opened");
    let output = output.map(open);
    let mut child = Command::new(path("gate/run-x86"))
        .arg(program)
        .args(arguments)
        .stdin(Stdio::piped())
        .stdout(output.map_or(Stdio::piped(), Stdio::from))
        .stderr(Stdio::piped())
        .spawn()
        .expect("the runner runs");
    let mut pipe = child.stdin.take().unwrap();
    let input = input.to_vec();
    // beside the reading, or a long input and a long output would wait for each other
    let writer = thread::spawn(move || pipe.write_all(&input));
    let output = child.wait_with_output().expect("the program ends");
    match writer.join().unwrap() {
        Err(error) if error.kind() != std::io::ErrorKind::BrokenPipe => panic!("the input: {error}"),
        _ => output, // a program may have enough before its input ends
    }
}

pub fn run(program: &PathBuf, arguments: &[&str], input: &[u8]) -> Output {
    run_to(program, arguments, input, None)
}

/// Holds a run to its status, and to how its output and its errors begin; where nothing is due, nothing may be said.
pub fn hold(output: Output, words: &[&str], status: i32, out: &str, errors: &str) {
    let said = (String::from_utf8(output.stdout).unwrap(), String::from_utf8(output.stderr).unwrap());
    assert_eq!(output.status.code(), Some(status), "{words:?}: {said:?}");
    assert!(said.0.starts_with(out) && said.0.is_empty() == out.is_empty(), "{words:?}: {said:?}");
    assert!(said.1.starts_with(errors) && said.1.is_empty() == errors.is_empty(), "{words:?}: {said:?}");
}
