//! The second matcher: what document 01 expects of each call, for every input.
#![forbid(unsafe_code)]

pub mod calls;
pub mod limits;
pub mod listing;
pub mod member;
pub mod readings;
pub mod sheet;
pub mod text;
