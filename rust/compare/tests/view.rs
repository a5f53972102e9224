//! The view of the crate `sdp` beside sdp-types: made into a session of that crate, it is the one that the crate reads.
use compare::area::{Column, COLUMNS};
use compare::bench::refused;
use compare::made::keyed;
use compare::{account, lined, Answer, Told};
use generate::random::{count, from_env};
use generate::sessions::{self, LONGEST, TABLES};
use generate::{shrink, Random};
use oracle::refusal::line_start;
use oracle::sdp_types::{self, AddrType, NetType};
use sdp::{Area, Rows, SessionBuf};

fn connection(read: sdp::Connection) -> sdp_types::Connection {
    sdp_types::Connection {
        nettype: NetType::from(read.nettype),
        addrtype: AddrType::from(read.addrtype),
        connection_address: read.connection_address.into(),
    }
}

fn key(read: sdp::Key) -> sdp_types::Key {
    sdp_types::Key {
        method: read.method.into(),
        encryption_key: read.encryption_key.map(String::from),
    }
}

fn bandwidths(rows: Rows<sdp::Bandwidth>) -> Vec<sdp_types::Bandwidth> {
    rows.map(|read| sdp_types::Bandwidth {
        bwtype: read.bwtype.into(),
        bandwidth: read.bandwidth,
    })
    .collect()
}

fn attributes(rows: Rows<sdp::Attribute>) -> Vec<sdp_types::Attribute> {
    rows.map(|read| sdp_types::Attribute {
        attribute: read.attribute.into(),
        value: read.value.map(String::from),
    })
    .collect()
}

/// A view as a session of the crate. Nettype and addrtype are converted by the crate, which folds their casing.
fn session(view: sdp::Session) -> sdp_types::Session {
    let origin = view.origin();
    sdp_types::Session {
        origin: sdp_types::Origin {
            username: origin.username.map(String::from),
            sess_id: origin.sess_id.into(),
            sess_version: origin.sess_version,
            nettype: NetType::from(origin.nettype),
            addrtype: AddrType::from(origin.addrtype),
            unicast_address: origin.unicast_address.into(),
        },
        session_name: view.session_name().into(),
        session_description: view.session_description().map(String::from),
        uri: view.uri().map(String::from),
        emails: view.emails().map(String::from).collect(),
        phones: view.phones().map(String::from).collect(),
        connection: view.connection().map(connection),
        bandwidths: bandwidths(view.bandwidths()),
        times: view
            .times()
            .map(|time| sdp_types::Time {
                start_time: time.start_time,
                stop_time: time.stop_time,
                repeats: time
                    .repeats()
                    .map(|repeat| sdp_types::Repeat {
                        repeat_interval: repeat.repeat_interval,
                        active_duration: repeat.active_duration,
                        offsets: repeat.offsets().map(u64::from).collect(),
                    })
                    .collect(),
            })
            .collect(),
        time_zones: view
            .time_zones()
            .map(|zone| sdp_types::TimeZone {
                adjustment_time: zone.adjustment_time,
                offset: zone.offset,
            })
            .collect(),
        key: view.key().map(key),
        attributes: attributes(view.attributes()),
        medias: view
            .medias()
            .map(|media| sdp_types::Media {
                media: media.media.into(),
                port: media.port,
                num_ports: media.num_ports,
                proto: media.proto.into(),
                fmt: media.fmt.into(),
                media_title: media.media_title.map(String::from),
                connections: media.connections().map(connection).collect(),
                bandwidths: bandwidths(media.bandwidths()),
                key: media.key.map(key),
                attributes: attributes(media.attributes()),
            })
            .collect(),
    }
}

/// The lines of the view's records, column by column, each with as many zeros behind them as the column has room for.
fn lines_of(view: sdp::Session) -> Vec<(&'static str, Vec<usize>)> {
    let all = |lines: &mut dyn Iterator<Item = u64>| lines.map(|line| line as usize).collect::<Vec<_>>();
    let one = |line: u64| vec![line as usize];
    let times = || view.times();
    let repeats = || times().flat_map(|time| time.repeats());
    let medias = || view.medias();
    let of_columns = [
        one(view.origin().line()),
        one(view.line_of_session_name()),
        one(view.line_of_session_description()),
        one(view.line_of_uri()),
        one(view.connection().map_or(0, |connection| connection.line())),
        one(view.key().map_or(0, |key| key.line())),
        all(&mut view.emails().map(|email| email.line())),
        all(&mut view.phones().map(|phone| phone.line())),
        all(&mut medias().flat_map(|media| media.connections()).map(|connection| connection.line())),
        all(&mut view.bandwidths().chain(medias().flat_map(|media| media.bandwidths())).map(|row| row.line())),
        all(&mut times().map(|time| time.line())),
        all(&mut repeats().map(|repeat| repeat.line())),
        all(&mut repeats().flat_map(|repeat| repeat.offsets()).map(|offset| offset.line())),
        all(&mut view.time_zones().map(|zone| zone.line())),
        all(&mut view.attributes().chain(medias().flat_map(|media| media.attributes())).map(|row| row.line())),
        all(&mut medias().map(|media| media.line())),
        all(&mut medias().map(|media| media.line_of_media_title())),
        all(&mut medias().map(|media| media.key.map_or(0, |key| key.line()))),
    ];
    let padded = |(column, mut lines): (&'static Column, Vec<usize>)| {
        lines.resize(column.cells, 0);
        (column.name, lines)
    };
    COLUMNS.iter().zip(of_columns).map(padded).collect()
}

/// The same, by the text alone.
fn found(text: &[u8]) -> Vec<(&'static str, Vec<usize>)> {
    lined::found(text).into_iter().map(|(column, lines)| (column.name, lines)).collect()
}

/// Of 8, that the error and its sentence name the byte by its place, and by its number in the line; of others, that none is
/// named.
fn names_its_byte(text: &[u8], error: &sdp::Error) -> bool {
    let words = error.to_string();
    match (error.bad_byte(), error.byte_in_line()) {
        (Some(place), Some(nth)) => {
            let start = line_start(text, error.line() as usize) as u64;
            (error.number(), error.place(), start + nth) == (8, place, place + 1)
                && words.contains(&format!(" is not UTF-8 from byte {place} on, the {nth}"))
                && words.ends_with(" byte of the line (refusal 8)")
        }
        (None, None) => error.number() != 8 && !words.contains(" from byte "),
        _ => false,
    }
}

/// The crate's session of an accepted text, if both sides agree.
fn agree(text: &[u8], area: &mut Area) -> Result<Option<sdp_types::Session>, String> {
    match (sdp::read(text, area), oracle::read(text)) {
        (Err(error), Err(refusal)) => {
            let (number, line, field) = (error.number(), error.line(), error.field());
            refused(text, Answer { number, line, field, place: error.place(), len: error.len() }, refusal)?;
            let words = error.to_string();
            let with_line = words.starts_with(&format!("line {line}: ")) == (line > 0);
            if with_line && words.ends_with(&format!(" (refusal {number})")) && names_its_byte(text, &error) {
                Ok(None)
            } else {
                Err(format!("ours {words}, the crate {refusal:?}"))
            }
        }
        (Ok(view), Ok(due)) => {
            let ours = session(view);
            if ours != due {
                return Err(format!("ours {ours:?}\nthe crate {due:?}"));
            }
            if lines_of(view) != found(text) {
                return Err(format!("ours {:?}\nfound {:?}", lines_of(view), found(text)));
            }
            let counts = view.counts().ok_or("what was read has counts")?;
            account::check(text, Told { answer: Answer::default(), counts })?;
            // by name, for a name that is there in another case and for one that is not
            for name in ["RTPMAP", "x", ""].iter().copied().chain(due.attributes.last().map(|row| &row.attribute[..])) {
                let same = view.has_attribute(name) == due.has_attribute(name)
                    && view.get_first_attribute_value(name) == due.get_first_attribute_value(name)
                    && view.get_attribute_values(name).eq(due.get_attribute_values(name));
                if !same {
                    return Err(format!("the session's attributes {name:?}"));
                }
                for (ours, due) in view.medias().zip(&due.medias) {
                    let same = ours.has_attribute(name) == due.has_attribute(name)
                        && ours.get_attribute_values(name).eq(due.get_attribute_values(name));
                    if !same {
                        return Err(format!("a media's attributes {name:?}"));
                    }
                }
            }
            Ok(Some(due))
        }
        (ours, due) => Err(format!("ours {ours:?}\nthe crate {due:?}")),
    }
}

/// The crate's session, or the smallest text on which the two sides differ.
fn same(text: &[u8], area: &mut Area) -> Option<sdp_types::Session> {
    agree(text, area).unwrap_or_else(|_| {
        let small = shrink(text, |part| agree(part, area).is_err());
        let what = agree(&small, area).expect_err("the smallest text differs too");
        panic!("the view and the crate differ on {}\n{what}", small.escape_ascii())
    })
}

/// Mostly good texts; of the others many are refused, and then the answers must agree.
#[test]
fn generated() {
    let (seed, due) = (from_env("SEED", 8866), count(20_000));
    let mut random = Random::of_test("sessions in the view");
    let mut area = Area::new();
    let (mut accepted, mut refused, mut minus, mut offsets, mut medias, mut values) = (0, 0, 0, 0, 0, 0);
    for number in 0.. {
        if accepted == due {
            break;
        }
        let text = if number % 4 == 0 {
            sessions::nth(seed, number)
        } else {
            let lines = sessions::good(&mut random);
            sessions::ended(&mut random, &lines)
        };
        match same(&text, &mut area) {
            None => refused += 1,
            Some(session) => {
                accepted += 1;
                minus += session.time_zones.iter().filter(|zone| zone.offset < 0).count();
                let repeats = session.times.iter().flat_map(|time| &time.repeats);
                offsets += repeats.map(|repeat| repeat.offsets.len()).sum::<usize>();
                medias += session.medias.len();
                let attributes = session.medias.iter().flat_map(|media| &media.attributes);
                values += attributes.filter(|row| row.value.is_some()).count();
            }
        }
    }
    println!(
        "view: {accepted} sessions and {refused} refusals compared; {minus} zone offsets below 0, {offsets} offsets of \
         repeats, {medias} medias, {values} values of their attributes"
    );
    for seen in [minus, offsets, medias, values] {
        assert!(seen as u64 * 20 > due, "much of everything is seen");
    }
}

/// Areas with the keys of their texts, as an earlier release left them. The crate still reads those keys.
#[test]
fn kept_areas() {
    let mut random = Random::of_test("kept areas in the view");
    let mut area = Area::new();
    let (mut compared, mut keys) = (0, 0);
    while compared < count(2_000) {
        let lines = sessions::good(&mut random);
        let text = sessions::ended(&mut random, &lines);
        let Ok(due) = sdp_types::Session::parse(&text) else { continue }; // it refuses a second key, and one that is not UTF-8
        let of_text = usize::from(due.key.is_some()) + due.medias.iter().filter(|media| media.key.is_some()).count();
        let Ok(today) = sdp::read(&text, &mut area) else { continue };
        if of_text == 0 {
            continue;
        }
        let written = today.to_vec();
        let bytes: [u8; Area::SIZE] = keyed(&text, area.as_bytes()).try_into().expect("as long as before");
        let kept = Area::from_earlier(bytes[..Area::EARLIER].try_into().expect("the session"));
        let view = sdp::kept(&text, &kept).unwrap_or_else(|error| panic!("{error}: {}", text.escape_ascii()));
        assert_eq!(session(view), due, "{}", text.escape_ascii());
        assert!(lines_of(view).iter().all(|(_, lines)| lines.iter().all(|line| *line == 0)));
        // with the lines of today it is equal, and has them
        let with_lines = Area::from_bytes(bytes);
        let today = sdp::kept(&text, &with_lines).unwrap();
        assert!(today == view && lines_of(today) == found(&text), "{}", text.escape_ascii());
        assert_eq!((view.to_vec(), view.counts()), (written, None));
        keys += of_text;
        compared += 1;
    }
    println!("view: {compared} areas with {keys} keys");
}

/// Each table full.
#[test]
fn full_tables() {
    let mut random = Random::of_test("full tables in the view");
    let mut area = Area::new();
    for table in 1..=10 {
        // now and then the generator puts in one line too much, for another table
        let read = (0..50).find_map(|_| {
            let (mut session, mut media) = (vec![b"v=0".to_vec()], Vec::new());
            sessions::fill(&mut random, table, TABLES[table - 1], &mut session, &mut media);
            same(&[session, media].concat().join(&b'\n'), &mut area)
        });
        let read = read.unwrap_or_else(|| panic!("table {table} can be full"));
        let of_medias = |count: fn(&sdp_types::Media) -> usize| read.medias.iter().map(count).sum::<usize>();
        let repeats = || read.times.iter().flat_map(|time| &time.repeats);
        let counts = [
            read.emails.len(),
            read.phones.len(),
            of_medias(|media| media.connections.len()),
            read.bandwidths.len() + of_medias(|media| media.bandwidths.len()),
            read.times.len(),
            repeats().count(),
            repeats().map(|repeat| repeat.offsets.len()).sum(),
            read.time_zones.len(),
            read.attributes.len() + of_medias(|media| media.attributes.len()),
            read.medias.len(),
        ];
        assert_eq!(counts[table - 1], TABLES[table - 1], "table {table}");
    }
}

/// The crate reads what the view writes, and finds the session that it read before.
#[test]
fn written() {
    let mut random = Random::of_test("written by the view");
    let (texts, mut compared) = (count(2_000), 0);
    for _ in 0..texts {
        let lines = sessions::good(&mut random);
        let text = sessions::ended(&mut random, &lines);
        let Ok(mut due) = oracle::read(&text) else { continue };
        let written = SessionBuf::parse(&text[..]).expect("the crate reads it").session().to_vec();
        if written.len() > LONGEST {
            continue;
        }
        if due.times.is_empty() {
            due.times.push(sdp_types::Time::new(0, 0));
        }
        assert_eq!(oracle::read(&written).as_ref(), Ok(&due), "{}", text.escape_ascii());
        compared += 1;
    }
    println!("view: {compared} sessions written and read back by the crate");
    assert!(compared * 2 > texts);
}
