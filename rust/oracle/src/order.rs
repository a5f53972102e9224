//! The letter order, by the crate `regex`. Nothing of ours goes down the lines. compare/tests/order.rs has this file too,
//! since it also runs where the crate sdp-types is missing.
use regex::bytes::Regex;
use std::sync::OnceLock;

/// Document 01: "v o s i? u? e* p* c? b*", "then any number of (m i? c* b* k? a*)". Between them document 02, P6, after the
/// grammar of RFC 8866, section 9: "one or more of (t, then optionally (r+ z?)), then k? a*".
pub const ORDER: &str = "v o s i? u? e* p* c? b* (t (r+ z?)?)+ k? a* (m i? c* b* k? a*)*";

/// Orders that the sentences describe, and some that they don't, by hand.
pub const GOOD: &str = "vost vostt vostr vostrtrrt vosit vosut vosiut vosepcbt voseeppbbt vosta vostaa vostm vostmm \
    vostmicbka vostmccbbkaam vostamk vostrz vostrrz vosttrz vostrtrz vostrzt vostrztrz vostrrztrtrza vostrzka vostrzm \
    vosiueepppcbbtrzttrrzkaamicccbbkaamm";
pub const BAD: &str = "v vos vot vst vosr vosrt ovst vvost voost vosst vosiit vosuit vospet vosbct vosccbt vostb vostzz vostkz \
    vostak vostzt vosttzr vosm vostmii vostmci vostmbc vostmkb vostmkk vostmak vostmt vostms vostx xvost vostmx vostme Vost \
    vost= vosz voszt vostz vostzka vosttz vostrtz vostrztz vostzr vostrzz vostrzr vostrkz vostrmz";

/// An order as an expression over a text's bytes, with a line in each letter's place. Document 01, "Lines": a line ends
/// with LF or CR LF, or with the text; it has no NUL and no other CR; empty lines are passed over.
pub fn matcher(order: &str) -> Regex {
    let line = |sign: char| match sign {
        'a'..='z' => format!(r"({sign} = [^\x00\r\n]* ((\r?\n)+ | \z))"),
        _ => sign.into(),
    };
    let lines: String = order.chars().map(line).collect();
    Regex::new(&format!(r"(?x-u) \A (\r?\n)* {lines} \z")).unwrap()
}

/// Whether every line of a text is of good form, and their letters are in order.
pub fn in_order(text: &[u8]) -> bool {
    static MADE: OnceLock<Regex> = OnceLock::new();
    MADE.get_or_init(|| matcher(ORDER)).is_match(text)
}
