//! The crate as a module: cargo wants a root file before build.rs has laid out the crate's own.
#![allow(unexpected_cfgs)] // the crate's serde feature, which is left out

// A formatter is to leave the crate's own files as they are.
#[rustfmt::skip]
#[path = "../../target/sdp-types/lib.rs"]
mod published;
pub use published::*;
