//! The folder of texts: its expected outputs are what the crate says today, and its README lists every text.
use oracle::{fold, leaf, texts};
use std::collections::BTreeSet;
use std::fs;
use std::path::PathBuf;

fn files(ending: &str) -> Vec<PathBuf> {
    texts::files(&texts::folder(), ending).unwrap_or_else(|error| panic!("{}: {error}", texts::folder().display()))
}

#[test]
fn expected_outputs_are_the_crate_s() {
    let (mut accepted, mut refused) = (0, 0);
    for path in files("sdp") {
        let text = fs::read(&path).unwrap();
        let due = texts::canon(&text);
        let expected = path.with_extension("expected");
        let stored = fs::read(&expected).unwrap_or_else(|error| panic!("{}: {error}", expected.display()));
        assert_eq!(
            stored.escape_ascii().to_string(),
            due.escape_ascii().to_string(),
            "{}: make it again by the bin expected",
            expected.display()
        );
        if oracle::read(&text).is_ok() {
            accepted += 1;
        } else {
            refused += 1;
        }
    }
    println!("texts: {accepted} accepted, {refused} refused");
    assert!(accepted >= 45 && refused >= 15);
}

#[test]
fn each_text_has_its_output_and_its_row() {
    let names = |ending: &str| -> BTreeSet<PathBuf> {
        files(ending).iter().map(|path| path.with_extension("")).collect()
    };
    assert_eq!(names("sdp"), names("expected"));
    let page = fs::read_to_string(texts::folder().join("README.md")).unwrap();
    let mut rows: Vec<&str> = page.lines().filter_map(|line| line.strip_prefix("| `")?.split('`').next()).collect();
    rows.sort();
    let name = |path: &PathBuf| path.file_name().unwrap().to_str().unwrap().to_string();
    let mut due: Vec<String> = names("sdp").iter().map(name).collect();
    due.sort();
    assert_eq!(rows, due, "texts/README.md has a row for each text");
    let count = |folder: &str| names("sdp").iter().filter(|path| path.parent().unwrap().ends_with(folder)).count();
    assert!(count("published") >= 12 && count("kinds") >= 20);
}

/// The crate folds the casing of some nettypes and addrtypes, and ours keeps it. So that one expected file holds for
/// both, no text here has such a spelling.
#[test]
fn no_text_is_folded() {
    let mut words = 0;
    for path in files("sdp") {
        let text = fs::read(&path).unwrap();
        for cut in leaf::cuts(&text).iter().filter(|cut| cut.kind == 2) {
            let first = match cut.letter as u8 {
                b'o' => 3,
                b'c' => 0,
                _ => continue,
            };
            let value = &text[cut.place as usize..(cut.place + cut.len) as usize];
            let fields: Vec<&[u8]> = value.split(|byte| *byte == b' ').filter(|field| !field.is_empty()).collect();
            if let Some([nettype, addrtype]) = fields.get(first..first + 2) {
                assert_eq!(fold::nettype(nettype), *nettype, "{}", path.display());
                assert_eq!(fold::addrtype(addrtype), *addrtype, "{}", path.display());
                words += 2;
            }
        }
    }
    println!("texts: {words} nettypes and addrtypes, none folded");
    assert!(words > 100);
}

/// Document 01's sample for `canon` is one of them.
#[test]
fn the_sample_is_there() {
    let text = fs::read(texts::folder().join("kinds/desk4.sdp")).unwrap();
    let due = b"v=0\ns=Desk 4\nx=new\nt=+60 0\nr=168h 3600 0 90\nz=60 -1h 61 +0\na=recvonly\n\
        m=audio 5004/2 RTP/AVP 96\na=note:\n";
    assert_eq!(text, due);
    let output = fs::read(texts::folder().join("kinds/desk4.expected")).unwrap();
    let due = b"v=0\r\no=- 0 0 IN IP4 0.0.0.0\r\ns=Desk 4\r\nt=60 0\r\nr=7d 1h 0 90\r\nz=60 -1h 61 0\r\na=recvonly\r\n\
        m=audio 5004/2 RTP/AVP 96\r\na=note:\r\n";
    assert_eq!(output, due);
}
