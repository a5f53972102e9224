//! Makes a failing input small: parts are left out as long as it still fails, lines first, then bytes.

/// Tries in all: a text of which nothing can be left out must not take minutes.
const TRIES: usize = 10_000;

/// The text with as many of its units left out as can be, tried in halves, quarters and so on down to single ones.
fn without(mut units: Vec<&[u8]>, fails: &mut dyn FnMut(&[u8]) -> bool) -> Vec<u8> {
    let mut size = units.len();
    while size > 0 {
        let mut at = 0;
        while at < units.len() {
            let end = units.len().min(at + size);
            let rest = [&units[..at], &units[end..]].concat();
            if fails(&rest.concat()) {
                units = rest;
            } else {
                at = end;
            }
        }
        size /= 2;
    }
    units.concat()
}

/// The smallest text found for which `fails` still holds; it holds for `text`.
pub fn shrink(text: &[u8], mut fails: impl FnMut(&[u8]) -> bool) -> Vec<u8> {
    let mut small = text.to_vec();
    let mut tries = 0;
    let mut fails = |part: &[u8]| {
        tries += 1;
        tries <= TRIES && fails(part)
    };
    loop {
        let before = small.len();
        small = without(small.split_inclusive(|byte| *byte == b'\n').collect(), &mut fails);
        small = without(small.chunks(1).collect(), &mut fails);
        if small.len() == before {
            return small;
        }
    }
}
