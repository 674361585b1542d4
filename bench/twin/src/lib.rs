//! A second certifier, placer of saves, machine and rig for reading rounds.
//!
//! It was written from the pages in `docs`, by hand and without proofs, to be held
//! against the proved library, whose sources were not read: both must answer every input
//! alike, and its speed is the measure of the library's.

#![forbid(unsafe_code)]

pub mod certify;
mod graph;
pub mod headroom;
pub mod image;
pub mod machine;
pub mod opcode;
pub mod place;
pub mod price;
pub mod refusal;
pub mod rig;
pub mod supply;

#[cfg(test)]
mod tests;
