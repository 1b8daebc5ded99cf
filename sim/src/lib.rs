//! The cue executor and its timing sheet. `table`, `sheet`, `machine`,
//! `history` and `trackers` are written from document 01 and requests U1, U2, U5,
//! U6 and U7 of document 02 alone, but for the form in which a reply tells of
//! folded beats, `normalise` likewise, `write` from these and request U4, but for
//! the form in which it gets the numbers; their comments name the section, step
//! or refusal that the code renders.

pub mod check;
pub mod frames;
pub mod generate;
pub mod history;
pub mod machine;
pub mod normalise;
pub mod picture;
pub mod random;
pub mod sheet;
pub mod table;
pub mod text;
pub mod trackers;
pub mod write;
