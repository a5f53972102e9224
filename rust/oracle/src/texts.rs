//! The folder of texts at the repository's root: each NAME.sdp has NAME.expected beside it, which is what the program
//! `canon` must print for it. These files are made here, from the crate alone, which gets the texts without their k lines.
use crate::Refusal;
use std::path::{Path, PathBuf};
use std::{fs, io};

pub const FOLDERS: [&str; 2] = ["published", "kinds"];

/// What `canon` prints for a text: the written form, or one line that names the refusal.
pub fn canon(text: &[u8]) -> Vec<u8> {
    match crate::read(text) {
        Ok(session) => crate::written(&session),
        Err(refusal) => {
            let Refusal { number, line, field, .. } = refusal;
            format!("refused {number} line {line} field {field}\n").into_bytes()
        }
    }
}

/// `texts` at the repository's root.
pub fn folder() -> PathBuf {
    Path::new(env!("CARGO_MANIFEST_DIR")).join("../../texts")
}

/// The files of both folders that end in `.sdp`, or in another ending, in their order.
pub fn files(root: &Path, ending: &str) -> io::Result<Vec<PathBuf>> {
    let mut paths = Vec::new();
    for folder in FOLDERS {
        for entry in fs::read_dir(root.join(folder))? {
            let path = entry?.path();
            if path.extension().map_or(false, |end| end == ending) {
                paths.push(path);
            }
        }
    }
    paths.sort();
    Ok(paths)
}
