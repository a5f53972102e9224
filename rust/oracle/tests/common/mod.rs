//! Document 01's way to write samples: lines joined by LF, after `v=0` and, for an r line, after `t=0 0` too.
#![allow(dead_code)] // each test file takes what it needs
use oracle::{Refusal, Session};

/// Lines joined by LF, with none at the end.
pub fn join(lines: &[&[u8]]) -> Vec<u8> {
    lines.join(&b'\n')
}

/// A sample's text: it starts with the version line, or that is put before it.
pub fn sample(lines: &[&[u8]]) -> Vec<u8> {
    let before: &[&[u8]] = match lines[0].first() {
        Some(b'v') => &[],
        Some(b'r') => &[b"v=0", b"t=0 0"],
        _ => &[b"v=0"],
    };
    join(&[before, lines].concat())
}

pub fn accepted(lines: &[&[u8]]) -> Session {
    let text = sample(lines);
    oracle::read(&text).unwrap_or_else(|refusal| panic!("{:?}: {refusal:?}", String::from_utf8_lossy(&text)))
}

/// Number, line and field; place and length are 0.
pub fn refused(lines: &[&[u8]]) -> (u64, u64, u64) {
    let refusal = refusal(&sample(lines));
    assert_eq!((refusal.place, refusal.len), (0, 0));
    (refusal.number, refusal.line, refusal.field)
}

pub fn refusal(text: &[u8]) -> Refusal {
    match oracle::read(text) {
        Err(refusal) => refusal,
        Ok(session) => panic!("{:?} is accepted: {session:?}", String::from_utf8_lossy(text)),
    }
}
