//! Lays copies of the crate's own files, unchanged, and of our stand-ins side by side. (Links would do, but rt ci refuses a link
//! anywhere in the checkout.)
use std::{fs, path::Path};

/// Compiled as they are; `parser.rs` is included by the stand-in of that name.
const PUBLISHED: [(&str, &str); 4] = [
    ("lib.rs", "lib.rs"),
    ("enums.rs", "enums.rs"),
    ("writer.rs", "writer.rs"),
    ("parser.rs", "published_parser.rs"),
];
const STAND_INS: [&str; 4] = ["attributes.rs", "builders.rs", "clock_signalling.rs", "parser.rs"];

fn copy(from: &Path, to: &Path) {
    let from = fs::canonicalize(from).unwrap_or_else(|e| panic!("{}: {e}", from.display()));
    println!("cargo:rerun-if-changed={}", from.display());
    println!("cargo:rerun-if-changed={}", to.display());
    let text = fs::read(&from).unwrap_or_else(|e| panic!("{}: {e}", from.display()));
    // a copy that is right stays, so that its time doesn't change
    if fs::symlink_metadata(to).map_or(true, |found| !found.is_file()) || fs::read(to).ok() != Some(text.clone()) {
        let _ = fs::remove_file(to);
        fs::write(to, text).unwrap_or_else(|e| panic!("{}: {e}", to.display()));
    }
}

fn main() {
    let here = std::env::var("CARGO_MANIFEST_DIR").unwrap();
    let here = Path::new(&here);
    let source = here.join("../../../shared/docs/src");
    let folder = here.join("../target/sdp-types");
    fs::create_dir_all(&folder).unwrap();
    for (published, name) in PUBLISHED {
        copy(&source.join(published), &folder.join(name));
    }
    for stand_in in STAND_INS {
        copy(&here.join("stand-ins").join(stand_in), &folder.join(stand_in));
    }
}
