//! The crate folds the casing of some nettypes and addrtypes; our folding for comparisons is the same.
mod common;
use common::accepted;
use generate::every_string;
use oracle::sdp_types::{AddrType, Connection, NetType, Origin};
use oracle::{fold, written, Session};
use std::str::FromStr;

/// The letters of all folded words in both casings, and some that are in none.
const LETTERS: &[u8] = b"INTAMPSintamps46Xx";

#[test]
fn same_as_the_crate() {
    let mut folded = 0;
    let compared = every_string(LETTERS, 5, |word| {
        let text = std::str::from_utf8(word).unwrap();
        let nettype = NetType::from_str(text).unwrap();
        let addrtype = AddrType::from_str(text).unwrap();
        assert_eq!(fold::nettype(word), nettype.as_str().as_bytes());
        assert_eq!(fold::addrtype(word), addrtype.as_str().as_bytes());
        for other in [nettype.as_str(), addrtype.as_str()] {
            assert_eq!(other.len(), word.len());
            folded += u64::from(other != text);
        }
    });
    println!("foldings: {compared} exhaustive compared, {folded} folded");
    // 2^2 + 2^2 + 2^3 + 2^4 casings of the nettypes and 2 * 2^2 of the addrtypes, without the six that are kept
    assert_eq!(folded, 4 + 4 + 8 + 16 + 8 - 6);
}

#[test]
fn in_origin_and_both_connections() {
    for (nettype, addrtype) in [
        ("in", "ip4"),
        ("Tn", "iP6"),
        ("aTm", "IP4"),
        ("pstN", "Ip6"),
        ("inn", "ip5"),
    ] {
        let (net, addr) = (fold::nettype(nettype.as_bytes()), fold::addrtype(addrtype.as_bytes()));
        let (net, addr) = (String::from_utf8(net).unwrap(), String::from_utf8(addr).unwrap());
        let connection = format!("c={nettype} {addrtype} h");
        let session = accepted(&[
            format!("o=u 1 2 {nettype} {addrtype} h").as_bytes(),
            connection.as_bytes(),
            b"m=a 1 p f",
            connection.as_bytes(),
        ]);
        assert_eq!(
            (session.origin.nettype.as_str(), session.origin.addrtype.as_str()),
            (&net[..], &addr[..])
        );
        for read in [session.connection.as_ref().unwrap(), &session.medias[0].connections[0]] {
            assert_eq!((read.nettype.as_str(), read.addrtype.as_str()), (&net[..], &addr[..]));
        }
    }
}

#[test]
fn the_writer_folds_nothing() {
    let (net, addr) = (NetType::Other("in".into()), AddrType::Other("ip4".into()));
    let mut session = Session::new(Origin::new("1", 2, net.clone(), addr.clone(), "h"), "");
    session.connection = Some(Connection::new(net, addr, "h"));
    assert_eq!(
        written(&session),
        b"v=0\r\no=- 1 2 in ip4 h\r\ns=\r\nc=in ip4 h\r\nt=0 0\r\n"
    );
}
