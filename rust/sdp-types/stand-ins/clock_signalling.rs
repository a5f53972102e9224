//! A stand-in: the two attributes that enums.rs names.
use super::attributes::{named, AttributeError, TypedAttribute};

named! { ReferenceClock "ts-refclk" MediaClockSource "mediaclk" }
