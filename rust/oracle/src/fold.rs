//! The one difference in what is read: the crate folds the casing of some nettypes and addrtypes, document 01 keeps
//! the bytes. A comparison folds ours first. The crate does it in o, in the session's c and in a media's c.

fn fold(word: &[u8], folded: &[&str]) -> Vec<u8> {
    let known = folded.iter().find(|known| known.as_bytes().eq_ignore_ascii_case(word));
    known.map_or(word, |known| known.as_bytes()).to_vec()
}

pub fn nettype(word: &[u8]) -> Vec<u8> {
    fold(word, &["IN", "TN", "ATM", "PSTN"])
}

pub fn addrtype(word: &[u8]) -> Vec<u8> {
    fold(word, &["IP4", "IP6"])
}
