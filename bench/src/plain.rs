//! Plain Rust that does what the library does: the same checks on the same
//! bytes, the same searches, the same refusals. It is what the library is
//! timed against.

mod curves;
pub mod every_length;
pub mod jumps;
pub mod machine;
pub mod normaliser;
pub mod sheet;
pub mod table;
pub mod writer;
