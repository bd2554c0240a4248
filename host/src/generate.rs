//! Inputs to compare the archive with the matcher: all the small ones, and random ones by seed.
#![forbid(unsafe_code)]

pub mod damage;
pub mod every;
pub mod names;
pub mod random;
pub mod sheets;
pub mod texts;
