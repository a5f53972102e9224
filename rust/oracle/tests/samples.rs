//! Every sample of document 01, "Samples", on the running crate with our mapping and limits: the mapping is tested
//! here, and the paper itself.
mod common;
use common::{accepted, join, refusal, refused};
use oracle::{written, Refusal};

const V: &[u8] = b"v=0";

#[test]
fn version() {
    assert_eq!(
        refusal(b""),
        Refusal {
            number: 6,
            ..Refusal::default()
        }
    );
    assert_eq!(written(&accepted(&[V])).len(), 40);
    assert_eq!(
        refusal(b"v=0 "),
        Refusal {
            number: 7,
            line: 1,
            field: 0,
            place: 2,
            len: 2
        }
    );
    assert_eq!(refused(&[b"v=0\r"]), (3, 1, 0));
}

#[test]
fn line_form() {
    assert_eq!(refused(&[V, b"=x"]), (5, 2, 0));
    assert_eq!(refused(&[V, b"abc"]), (4, 2, 0));
}

#[test]
fn typed_times() {
    assert_eq!(refused(&[b"r=d 1"]), (9, 3, 18));
    let session = accepted(&[b"r=213503982334601d 1"]);
    assert_eq!(session.times[0].repeats[0].repeat_interval, 18_446_744_073_709_526_400);
    assert_eq!(refused(&[b"r=213503982334602d 1"]), (9, 3, 18));
}

#[test]
fn zones() {
    let offset = |line: &[u8]| accepted(&[line]).time_zones[0].offset;
    assert_eq!(offset(b"z=0 -9223372036854775808"), i64::MIN);
    assert_eq!(refused(&[b"z=0 9223372036854775808"]), (9, 2, 22));
    assert_eq!(offset(b"z=0 -+5"), -5);
    assert_eq!(refused(&[b"z=0 --5"]), (9, 2, 22));
    assert_eq!(refused(&[b"z=", b"z="]), (17, 3, 0));
}

#[test]
fn second_origin() {
    assert_eq!(refused(&[b"o=- 0 0 IN IP4 h", b"o=junk"]), (12, 3, 0));
}

#[test]
fn attributes() {
    assert_eq!(accepted(&[b"a=x:"]).attributes[0].value.as_deref(), Some(""));
    assert_eq!(accepted(&[b"a=x"]).attributes[0].value, None);
}

#[test]
fn bandwidth_and_media() {
    assert_eq!(refused(&[b"b=AS:5:"]), (11, 2, 14));
    assert_eq!(refused(&[b"m=a 65535/ p f"]), (9, 2, 30));
    assert_eq!(refused(&[b"m=a 65536 p f"]), (9, 2, 28));
    assert_eq!(refused(&[b"m=a 1 p"]), (10, 2, 32));
    assert_eq!(accepted(&[b"m=a 1 p "]).medias[0].fmt, "");
    assert_eq!(accepted(&[b"m=a 1 p f", b"r=junk"]).medias.len(), 1);
}

#[test]
fn encoding() {
    assert_eq!(refused(&[b"s=\xed\xa0\x80"]), (8, 2, 34));
    assert_eq!(accepted(&[b"s=\xf4\x8f\xbf\xbf"]).session_name, "\u{10ffff}");
}

#[test]
fn attributes_512() {
    let mut lines: Vec<&[u8]> = vec![V];
    lines.resize(513, b"a=x");
    assert_eq!(accepted(&lines).attributes.len(), 512);
    lines.push(b"a=x");
    assert_eq!(refused(&lines), (21, 514, 9));
    lines[513] = b"a=\xff";
    assert_eq!(refused(&lines), (8, 514, 23));
}

#[test]
fn canon() {
    let lines: [&[u8]; 10] = [
        V,
        b"s=Desk 4",
        b"x=new",
        b"t=+60 0",
        b"r=168h 3600 0 90",
        b"z=60 -1h 61 +0",
        b"a=recvonly",
        b"m=audio 5004/2 RTP/AVP 96",
        b"a=note:",
        b"",
    ];
    let session = oracle::read(&join(&lines)).unwrap();
    let output: [&[u8]; 10] = [
        V,
        b"o=- 0 0 IN IP4 0.0.0.0",
        b"s=Desk 4",
        b"t=60 0",
        b"r=7d 1h 0 90",
        b"z=60 -1h 61 0",
        b"a=recvonly",
        b"m=audio 5004/2 RTP/AVP 96",
        b"a=note:",
        b"",
    ];
    assert_eq!(written(&session), output.join(b"\r\n".as_slice()));
}
