//! Our reader and writer beside the crate's, on the same texts: what they cost. And writing in two calls, our list of starts
//! and our letter order, which the crate doesn't have. The script `bench` in the repository's root puts it together.
pub mod cases;
pub mod cost;
pub mod marks;
pub mod order;
pub mod sides;
pub mod stack;
pub mod starts;
pub mod table;
pub mod two;
