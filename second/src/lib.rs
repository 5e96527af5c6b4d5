//! A plain second judge of recorded TLS handshakes, generators of trace files, and the judge's
//! archive to compare it with.

pub mod archive;
pub mod file;
pub mod generate;
pub mod judge;
pub mod message;
mod patterns;
pub mod rng;
pub mod rules;
pub mod sample;
pub mod spy;
pub mod writer;
