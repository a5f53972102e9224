//! The texts: those of the folder `texts`, without their k lines, a few of them, and texts of doubling size.
use crate::sides::{Ours, Side, Theirs};
use compare::account;
use oracle::keys;
use std::path::Path;

/// Some texts of each sort, those on which ours fares worst with them.
const FEW: [&str; 9] = [
    "rfc8866-5",
    "rfc8866-5.10",
    "aes67-stereo",
    "empty-values",
    "festival-stages",
    "minimal",
    "numbers",
    "sip-hold",
    "webrtc-answer",
];

pub struct Case {
    pub name: String,
    pub text: Vec<u8>,
    /// whether both sides take it; else there is nothing to write
    pub accepted: bool,
}

impl Case {
    /// Both sides must do the same with a text, or comparing what it costs says nothing. So k lines are taken out first,
    /// which the crate reads and writes and ours ignores. None for a text that is refused by a limit that the crate doesn't
    /// have: refusals 1 and 21.
    fn new(name: String, text: Vec<u8>) -> Result<Option<Case>, String> {
        let text = keys::without(&text).text;
        let (mut ours, mut theirs) = (Ours::default(), Theirs::default());
        let answer = account::check(&text, ours.told(&text)).map_err(|why| format!("{name}: {why}"))?;
        if matches!(answer.number, 1 | 21) {
            return Ok(None);
        }
        let accepted = ours.read(&text);
        ours.both(&text);
        theirs.both(&text);
        if accepted != theirs.read(&text) || ours.written() != theirs.written() {
            return Err(format!("{name}: the two sides differ"));
        }
        // the output of another is still empty
        let mut exact = Ours::default();
        if exact.keep(&text) && (exact.exact(&text) != exact.length(&text) || exact.written() != theirs.written()) {
            return Err(format!("{name}: the length and the filling differ from the crate"));
        }
        Ok(Some(Case { name, text, accepted }))
    }
}

/// All texts of the folder, the published ones first, each group by name.
pub fn folder(texts: &Path) -> Result<Vec<Case>, String> {
    those(texts, |_| true)
}

/// A few texts of the folder.
pub fn few(texts: &Path) -> Result<Vec<Case>, String> {
    let cases = those(texts, |name| FEW.contains(&name))?;
    if cases.len() != FEW.len() {
        return Err(format!("{}: not all of {FEW:?} are there", texts.display()));
    }
    Ok(cases)
}

fn those(texts: &Path, wanted: fn(&str) -> bool) -> Result<Vec<Case>, String> {
    let mut cases = Vec::new();
    for (name, text) in stored(texts, wanted)? {
        match Case::new(name.clone(), text)? {
            Some(case) => cases.push(case),
            None => eprintln!("bench: {name} is left out: it is refused by a limit that the crate doesn't have"),
        }
    }
    Ok(cases)
}

/// The names and the texts as they are stored.
pub fn stored(texts: &Path, wanted: fn(&str) -> bool) -> Result<Vec<(String, Vec<u8>)>, String> {
    let mut all = Vec::new();
    for part in ["published", "kinds"] {
        let folder = texts.join(part);
        let say = |e: std::io::Error| format!("{}: {e}", folder.display());
        let mut names = Vec::new();
        for entry in std::fs::read_dir(&folder).map_err(say)? {
            let name = entry.map_err(say)?.file_name().into_string().map_err(|name| format!("{name:?}: not UTF-8"))?;
            names.extend(name.strip_suffix(".sdp").filter(|name| wanted(name)).map(str::to_string));
        }
        names.sort();
        for name in names {
            let text = std::fs::read(folder.join(format!("{name}.sdp"))).map_err(say)?;
            all.push((name, text));
        }
    }
    Ok(all)
}

/// Texts of 256 to 32,768 bytes, each twice as long as the one before, all alike: a media and its attributes for each
/// 1,024 bytes, so that no table is full.
pub fn doubling() -> Result<Vec<Case>, String> {
    let mut cases = Vec::new();
    for power in 8..=15 {
        let text = grown(1 << power);
        cases.push(Case::new(format!("grown-{}", text.len()), text)?.ok_or("a grown text is too long")?);
    }
    Ok(cases)
}

fn grown(size: usize) -> Vec<u8> {
    let mut text = b"v=0\r\no=- 1 1 IN IP4 192.0.2.1\r\ns=Grown\r\nt=0 0\r\n".to_vec();
    let mut medias = 0;
    let mut line = Vec::new();
    loop {
        line.clear();
        if text.len() >= medias * 1024 {
            medias += 1;
            line.extend(format!("m=audio {} RTP/AVP 96\r\n", 5000 + 2 * medias).bytes());
        } else {
            let at = text.len();
            line.extend(format!("a=fmtp:96 channel-order=SMPTE2110.(51,ST);place={at};remainder={};colorimetry=BT709\r\n", at % 7).bytes());
        }
        // the last line is an attribute of whatever length is left
        if text.len() + line.len() + 8 > size {
            let left = size - text.len() - 6;
            text.extend(b"a=x:");
            text.extend(std::iter::repeat(b'y').take(left));
            text.extend(b"\r\n");
            return text;
        }
        text.extend(&line);
    }
}
