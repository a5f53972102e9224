//! A stand-in: just what lib.rs and enums.rs name of the crate's attributes module. No reading or writing of session
//! descriptions goes through it.

/// The way out for the parser's private functions: lib.rs re-exports this module, and the parser stays private.
pub use super::parser::probe;

#[derive(Debug, Clone, PartialEq, Eq)]
pub struct AttributeError;

pub trait TypedAttribute: std::str::FromStr<Err = AttributeError> {
    const NAME: &'static str;
}

#[derive(Debug, Clone, PartialEq, Eq)]
pub struct SrtpKeyParam;

macro_rules! named {
    ($($name:ident $text:literal)*) => { $(
        #[derive(Debug, Clone, PartialEq, Eq)]
        pub struct $name;

        impl std::str::FromStr for $name {
            type Err = AttributeError;
            fn from_str(_: &str) -> Result<Self, AttributeError> {
                Err(AttributeError)
            }
        }

        impl TypedAttribute for $name {
            const NAME: &'static str = $text;
        }
    )* };
}
pub(crate) use named;

named! { Fmtp "fmtp" Rtcp "rtcp" }
