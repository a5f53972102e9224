//! Writes the stored answers: `cargo run --release -p oracle --bin vectors -- ../crates/vectors`.
use std::{env, fs, path::PathBuf, process::ExitCode};

fn main() -> ExitCode {
    let words: Vec<_> = env::args_os().skip(1).collect();
    let [folder] = &words[..] else {
        eprintln!("usage: vectors FOLDER");
        return ExitCode::from(2);
    };
    let folder = PathBuf::from(folder);
    let (stdin, stdout) = oracle::vectors::files();
    for (name, text) in [("stdin", &stdin), ("stdout", &stdout)] {
        if let Err(error) = fs::write(folder.join(name), text) {
            eprintln!("{}: {error}", folder.join(name).display());
            return ExitCode::FAILURE;
        }
    }
    println!(
        "{} inputs, {} answer lines, {} bytes",
        stdin.lines().count(),
        stdout.lines().count(),
        stdin.len() + stdout.len()
    );
    ExitCode::SUCCESS
}
