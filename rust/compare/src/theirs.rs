//! The crate's session as an area would show it, ours made comparable with it, and ours as a session of the crate.
use crate::area::{
    Attribute, Bandwidth, Connection, Key, Media, MediaConnection, Offset, Origin, Repeat, Seen, Time, Zone,
};
use oracle::sdp_types::{AddrType, NetType};
use oracle::{fold, sdp_types, Session};
use std::net::Ipv4Addr;

fn bytes(string: &String) -> Vec<u8> {
    string.as_bytes().to_vec()
}

fn maybe(string: &Option<String>) -> Option<Vec<u8>> {
    string.as_ref().map(bytes)
}

fn key(key: &Option<sdp_types::Key>) -> Option<Key<Vec<u8>>> {
    key.as_ref().map(|key| Key {
        method: bytes(&key.method),
        text: maybe(&key.encryption_key),
    })
}

fn connection(connection: &sdp_types::Connection) -> Connection<Vec<u8>> {
    Connection {
        nettype: connection.nettype.as_str().as_bytes().to_vec(),
        addrtype: connection.addrtype.as_str().as_bytes().to_vec(),
        address: bytes(&connection.connection_address),
    }
}

/// Repeats, offsets and what medias have are nested in the crate; in an area they name their owner. Keys are taken over
/// where the session has them.
pub fn of(session: &Session) -> Seen<Vec<u8>> {
    let origin = &session.origin;
    let mut seen = Seen {
        origin: Some(Origin {
            username: maybe(&origin.username),
            sess_id: bytes(&origin.sess_id),
            sess_version: origin.sess_version,
            nettype: origin.nettype.as_str().as_bytes().to_vec(),
            addrtype: origin.addrtype.as_str().as_bytes().to_vec(),
            unicast_address: bytes(&origin.unicast_address),
        }),
        name: bytes(&session.session_name),
        description: maybe(&session.session_description),
        uri: maybe(&session.uri),
        connection: session.connection.as_ref().map(connection),
        key: key(&session.key),
        emails: session.emails.iter().map(bytes).collect(),
        phones: session.phones.iter().map(bytes).collect(),
        ..Seen::default()
    };
    for (time, owner) in session.times.iter().zip(1..) {
        seen.times.push(Time {
            start: time.start_time,
            stop: time.stop_time,
        });
        for repeat in &time.repeats {
            seen.repeats.push(Repeat {
                owner,
                interval: repeat.repeat_interval,
                duration: repeat.active_duration,
            });
            let owner = seen.repeats.len() as u64;
            seen.offsets
                .extend(repeat.offsets.iter().map(|&value| Offset { owner, value }));
        }
    }
    seen.zones.extend(session.time_zones.iter().map(|zone| Zone {
        adjustment: zone.adjustment_time,
        offset: zone.offset,
    }));
    owned(&mut seen, 0, &session.bandwidths, &session.attributes);
    for (media, owner) in session.medias.iter().zip(1..) {
        seen.medias.push(Media {
            media: bytes(&media.media),
            port: u64::from(media.port),
            num_ports: media.num_ports.map(u64::from),
            proto: bytes(&media.proto),
            fmt: bytes(&media.fmt),
            title: maybe(&media.media_title),
            key: key(&media.key),
        });
        seen.connections.extend(media.connections.iter().map(|read| MediaConnection {
            owner,
            connection: connection(read),
        }));
        owned(&mut seen, owner, &media.bandwidths, &media.attributes);
    }
    seen
}

fn owned(
    seen: &mut Seen<Vec<u8>>,
    owner: u64,
    bandwidths: &[sdp_types::Bandwidth],
    attributes: &[sdp_types::Attribute],
) {
    seen.bandwidths.extend(bandwidths.iter().map(|read| Bandwidth {
        owner,
        bwtype: bytes(&read.bwtype),
        value: read.bandwidth,
    }));
    seen.attributes.extend(attributes.iter().map(|read| Attribute {
        owner,
        name: bytes(&read.attribute),
        value: maybe(&read.value),
    }));
}

/// What a missing o line stands for: `o=- 0 0 IN IP4 0.0.0.0`.
pub fn placeholder() -> Origin<Vec<u8>> {
    Origin {
        username: None,
        sess_id: b"0".to_vec(),
        sess_version: 0,
        nettype: b"IN".to_vec(),
        addrtype: b"IP4".to_vec(),
        unicast_address: b"0.0.0.0".to_vec(),
    }
}

/// Ours as the crate would have it: the casing folded, and the placeholder where there was no o line.
pub fn comparable(mut ours: Seen<Vec<u8>>) -> Seen<Vec<u8>> {
    let fold = |nettype: &mut Vec<u8>, addrtype: &mut Vec<u8>| {
        *nettype = fold::nettype(nettype);
        *addrtype = fold::addrtype(addrtype);
    };
    let origin = ours.origin.get_or_insert_with(placeholder);
    fold(&mut origin.nettype, &mut origin.addrtype);
    let of_medias = ours.connections.iter_mut().map(|row| &mut row.connection);
    for connection in ours.connection.iter_mut().chain(of_medias) {
        fold(&mut connection.nettype, &mut connection.addrtype);
    }
    ours
}

/// The crate's session with these strings, numbers, owners and keys, for the crate's writer: the other way round than `of`.
/// Nettype and addrtype keep their spelling. An error is a string that is not UTF-8: Rust has none such.
pub fn session(seen: &Seen<Vec<u8>>) -> Result<Session, String> {
    let string = |bytes: &Vec<u8>| String::from_utf8(bytes.clone()).map_err(|error| error.to_string());
    let maybe = |bytes: &Option<Vec<u8>>| bytes.as_ref().map(string).transpose();
    let nettype = |bytes: &Vec<u8>| string(bytes).map(NetType::Other);
    let addrtype = |bytes: &Vec<u8>| string(bytes).map(AddrType::Other);
    let connection = |read: &Connection<Vec<u8>>| {
        Ok::<_, String>(sdp_types::Connection {
            nettype: nettype(&read.nettype)?,
            addrtype: addrtype(&read.addrtype)?,
            connection_address: string(&read.address)?,
        })
    };
    let key = |read: &Option<Key<Vec<u8>>>| match read {
        None => Ok(None),
        Some(read) => Ok::<_, String>(Some(sdp_types::Key {
            method: string(&read.method)?,
            encryption_key: maybe(&read.text)?,
        })),
    };
    let strings = |all: &[Vec<u8>]| all.iter().map(string).collect::<Result<Vec<_>, _>>();
    let bandwidths = |owner: u64| {
        let rows = seen.bandwidths.iter().filter(|row| row.owner == owner);
        rows.map(|row| {
            Ok(sdp_types::Bandwidth {
                bwtype: string(&row.bwtype)?,
                bandwidth: row.value,
            })
        })
        .collect::<Result<Vec<_>, String>>()
    };
    let attributes = |owner: u64| {
        let rows = seen.attributes.iter().filter(|row| row.owner == owner);
        rows.map(|row| {
            Ok(sdp_types::Attribute {
                attribute: string(&row.name)?,
                value: maybe(&row.value)?,
            })
        })
        .collect::<Result<Vec<_>, String>>()
    };
    let origin = match &seen.origin {
        // as the crate's parser makes it where there is no o line
        None => sdp_types::Origin::with_ip_addr("0", 0, Ipv4Addr::UNSPECIFIED),
        Some(origin) => sdp_types::Origin {
            username: maybe(&origin.username)?,
            sess_id: string(&origin.sess_id)?,
            sess_version: origin.sess_version,
            nettype: nettype(&origin.nettype)?,
            addrtype: addrtype(&origin.addrtype)?,
            unicast_address: string(&origin.unicast_address)?,
        },
    };
    let mut session = Session::new(origin, string(&seen.name)?);
    session.session_description = maybe(&seen.description)?;
    session.uri = maybe(&seen.uri)?;
    session.emails = strings(&seen.emails)?;
    session.phones = strings(&seen.phones)?;
    session.connection = seen.connection.as_ref().map(connection).transpose()?;
    session.bandwidths = bandwidths(0)?;
    for (time, owner) in seen.times.iter().zip(1..) {
        let mut made = sdp_types::Time::new(time.start, time.stop);
        for (repeat, number) in seen.repeats.iter().zip(1..).filter(|(repeat, _)| repeat.owner == owner) {
            let mut inner = sdp_types::Repeat::new(repeat.interval, repeat.duration);
            let offsets = seen.offsets.iter().filter(|offset| offset.owner == number);
            inner.offsets = offsets.map(|offset| offset.value).collect();
            made.repeats.push(inner);
        }
        session.times.push(made);
    }
    let zones = seen.zones.iter();
    session.time_zones = zones.map(|zone| sdp_types::TimeZone::new(zone.adjustment, zone.offset)).collect();
    session.key = key(&seen.key)?;
    session.attributes = attributes(0)?;
    for (media, owner) in seen.medias.iter().zip(1..) {
        let connections = seen.connections.iter().filter(|row| row.owner == owner);
        session.medias.push(sdp_types::Media {
            media: string(&media.media)?,
            port: media.port as u16,
            num_ports: media.num_ports.map(|number| number as u16),
            proto: string(&media.proto)?,
            fmt: string(&media.fmt)?,
            media_title: maybe(&media.title)?,
            connections: connections.map(|row| connection(&row.connection)).collect::<Result<_, _>>()?,
            bandwidths: bandwidths(owner)?,
            key: key(&media.key)?,
            attributes: attributes(owner)?,
        });
    }
    Ok(session)
}
