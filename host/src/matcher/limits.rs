//! Every bound, byte and number of document 01, by name.

use std::ops::RangeInclusive;

// Bounds.
pub const TEXT_MOST: usize = 512;
pub const OPEN_MOST: usize = 32;
pub const LEAVES_MOST: usize = 120;
pub const NODES_MOST: usize = 255;
pub const WAITING_MOST: usize = 128;
pub const NAME_MOST: usize = 255;
pub const REPEAT_DIGITS_MOST: usize = 2;
pub const LISTED_MOST: usize = 1000;

// Sizes.
/// The form byte and the two count bytes.
pub const SHEET_FIXED: usize = 3;
pub const SHEET_MOST: usize = SHEET_FIXED + LEAVES_MOST + NODES_MOST;
/// Bytes of the work area for each place.
pub const ROW: usize = 64;

// Bytes of a text.
pub const LITERAL_BYTES: RangeInclusive<u8> = 0x20..=0x7E;
pub const MARKS: [u8; 7] = *b"|*()\\{}";

// Bytes of a sheet.
pub const FORM: u8 = 1;
pub const NODE_LEAF: u8 = 0;
pub const NODE_EMPTY: u8 = 1;
pub const NODE_CAT: u8 = 2;
pub const NODE_UNION: u8 = 3;
pub const NODE_STAR: u8 = 4;

// Numbers given back by every call.
pub const DONE: u8 = 0;
pub const NO: u8 = 1;

// Refusals of a text.
pub const TEXT_LONG: u8 = 10;
pub const TEXT_BYTE: u8 = 11;
pub const OPERAND_MISSING: u8 = 12;
pub const CLOSE_UNOPENED: u8 = 13;
pub const OPEN_UNCLOSED: u8 = 14;
pub const OPEN_DEEP: u8 = 15;
pub const LEAVES_MANY: u8 = 16;
pub const NODES_MANY: u8 = 17;
pub const SHEET_SHORT: u8 = 18;
pub const REPEAT_FAULT: u8 = 19;

// Refusals of a sheet.
pub const SHEET_FORM: u8 = 20;
pub const SHEET_LENGTH: u8 = 21;
pub const SHEET_LEAVES: u8 = 22;
pub const SHEET_BYTE: u8 = 23;
pub const WAITING_FEW: u8 = 24;
pub const WAITING_END: u8 = 25;
pub const WAITING_MANY: u8 = 26;
pub const LEAVES_UNEQUAL: u8 = 27;

// Refusals of a name, of what is lent with it, and of a given sequence.
pub const NAME_LONG: u8 = 30;
pub const MAPPING_SHORT: u8 = 31;
pub const WORK_SHORT: u8 = 32;
pub const NO_READING: u8 = 33;

/// The second number stands this many bits above the first in what a call returns.
pub const SECOND_SHIFT: u32 = 8;
