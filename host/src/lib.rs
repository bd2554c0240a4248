//! A second matcher, written from document 01 alone, inputs to compare the archive with it, and safe calls of the archive.

#[cfg(feature = "archive")]
pub mod archive;
pub mod generate;
pub mod matcher;
