//! A stand-in: the constructors that lib.rs names. The published builders.rs needs the whole attributes module.
use std::net::IpAddr;

pub struct Origin(pub crate::Origin);
impl Origin {
    pub fn with_ip_addr(id: impl ToString, version: u64, address: impl Into<IpAddr>) -> Self {
        Self(crate::Origin::with_ip_addr(id, version, address))
    }
    pub fn new(
        id: impl ToString,
        version: u64,
        nettype: crate::NetType,
        addrtype: crate::AddrType,
        address: impl ToString,
    ) -> Self {
        Self(crate::Origin::new(id, version, nettype, addrtype, address))
    }
}

pub struct Time(pub crate::Time);
impl Time {
    pub fn new(start_time: u64, stop_time: u64) -> Self {
        Self(crate::Time::new(start_time, stop_time))
    }
}

pub struct Repeat(pub crate::Repeat);
impl Repeat {
    pub fn new(repeat_interval: u64, active_duration: u64) -> Self {
        Self(crate::Repeat::new(repeat_interval, active_duration))
    }
}

pub struct Media(pub crate::Media);
impl Media {
    pub fn new(media: crate::MediaType, port: u16, proto: crate::TransportProto, fmt: impl ToString) -> Self {
        Self(crate::Media::new(media, port, proto, fmt))
    }
}

pub struct Session(pub crate::Session);
impl Session {
    pub fn new(origin: crate::Origin, session_name: impl ToString) -> Self {
        Self(crate::Session::new(origin, session_name))
    }
}
