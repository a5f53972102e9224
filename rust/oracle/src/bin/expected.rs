//! Writes NAME.expected beside each NAME.sdp: `cargo run --release -p oracle --bin expected -- ../texts`.
use oracle::texts;
use std::{env, fs, io, path::Path, process::ExitCode};

fn write(root: &Path) -> io::Result<(usize, usize)> {
    let (mut all, mut refused) = (0, 0);
    for path in texts::files(root, "sdp")? {
        let answer = texts::canon(&fs::read(&path)?);
        all += 1;
        refused += usize::from(answer.starts_with(b"refused "));
        fs::write(path.with_extension("expected"), answer)?;
    }
    Ok((all, refused))
}

fn main() -> ExitCode {
    let words: Vec<_> = env::args_os().skip(1).collect();
    let [root] = &words[..] else {
        eprintln!("usage: expected FOLDER");
        return ExitCode::from(2);
    };
    match write(Path::new(root)) {
        Ok((all, refused)) => {
            println!("{all} texts, {refused} of them refused");
            ExitCode::SUCCESS
        }
        Err(error) => {
            eprintln!("{}: {error}", Path::new(root).display());
            ExitCode::FAILURE
        }
    }
}
