//! What the project's answers are compared with: the running crate without k lines and keys, its refusals in document 01's
//! numbers, the two rules that document 01 adds on top of it, and document 02's bad byte and counts of lines. Nothing here
//! calls the project's own code.
pub mod bad_byte;
pub mod counts;
pub mod fold;
pub mod keys;
pub mod leaf;
pub mod limits;
pub mod order;
pub mod refusal;
pub mod texts;
pub mod vectors;

pub use refusal::Refusal;
pub use sdp_types;
pub use sdp_types::Session;

/// Reads as documents 01 and 02 say: the crate on the text without its k lines, with the limits on top.
pub fn read(text: &[u8]) -> Result<Session, Refusal> {
    limits::read(text)
}

/// The written form, by the crate's writer, of the session without its keys.
pub fn written(session: &Session) -> Vec<u8> {
    let mut output = Vec::new();
    keys::without_keys(session).write(&mut output).expect("a vector takes all that is written");
    output
}
