//! Safe calls of the archive's exported functions.
//!
//! A slice is never null and has its true length, and what is lent `mut` overlaps nothing: all that the C header asks
//! of a caller, but for room on the stack.

mod exported {
    extern "C" {
        pub fn satchelram_version() -> u64;

        pub fn satchelram_sheet(
            text: *const u8,
            text_length: usize,
            sheet: *mut u8,
            sheet_length: usize,
        ) -> u64;

        pub fn satchelram_accept(
            sheet: *const u8,
            sheet_length: usize,
            name: *const u8,
            name_length: usize,
            work: *mut u8,
            work_length: usize,
        ) -> u64;

        pub fn satchelram_first(
            sheet: *const u8,
            sheet_length: usize,
            name: *const u8,
            name_length: usize,
            mapping: *mut u8,
            mapping_length: usize,
            work: *mut u8,
            work_length: usize,
        ) -> u64;

        pub fn satchelram_next(
            sheet: *const u8,
            sheet_length: usize,
            name: *const u8,
            name_length: usize,
            mapping: *mut u8,
            mapping_length: usize,
            work: *mut u8,
            work_length: usize,
        ) -> u64;

        pub fn satchelram_check(
            sheet: *const u8,
            sheet_length: usize,
            name: *const u8,
            name_length: usize,
            mapping: *const u8,
            mapping_length: usize,
            work: *mut u8,
            work_length: usize,
        ) -> u64;
    }
}

/// A call's answer, unpacked.
#[derive(Clone, Copy, Debug, PartialEq, Eq)]
pub struct Answer {
    pub number: u8,
    /// A place, or the length that the sheet call gives with 0 and 18, or 0. It has 24 bits.
    pub second: u32,
    /// 0 for the five calls below that have an answer.
    pub third: u32,
}

impl Answer {
    pub fn unpacked(packed: u64) -> Answer {
        Answer {
            number: packed as u8,
            second: (packed >> 8) as u32 & 0x00FF_FFFF,
            third: (packed >> 32) as u32,
        }
    }
}

/// The archive's version: 1,000,000 x major + 1,000 x minor + patch.
pub fn version() -> u64 {
    unsafe { exported::satchelram_version() }
}

/// Makes the sheet of a text.
pub fn sheet(text: &[u8], sheet: &mut [u8]) -> Answer {
    Answer::unpacked(unsafe {
        exported::satchelram_sheet(text.as_ptr(), text.len(), sheet.as_mut_ptr(), sheet.len())
    })
}

/// Is the name in the language?
pub fn accept(sheet: &[u8], name: &[u8], work: &mut [u8]) -> Answer {
    Answer::unpacked(unsafe {
        exported::satchelram_accept(
            sheet.as_ptr(),
            sheet.len(),
            name.as_ptr(),
            name.len(),
            work.as_mut_ptr(),
            work.len(),
        )
    })
}

/// The first reading of the name.
pub fn first(sheet: &[u8], name: &[u8], mapping: &mut [u8], work: &mut [u8]) -> Answer {
    Answer::unpacked(unsafe {
        exported::satchelram_first(
            sheet.as_ptr(),
            sheet.len(),
            name.as_ptr(),
            name.len(),
            mapping.as_mut_ptr(),
            mapping.len(),
            work.as_mut_ptr(),
            work.len(),
        )
    })
}

/// The next reading after the one that the mapping holds.
pub fn next(sheet: &[u8], name: &[u8], mapping: &mut [u8], work: &mut [u8]) -> Answer {
    Answer::unpacked(unsafe {
        exported::satchelram_next(
            sheet.as_ptr(),
            sheet.len(),
            name.as_ptr(),
            name.len(),
            mapping.as_mut_ptr(),
            mapping.len(),
            work.as_mut_ptr(),
            work.len(),
        )
    })
}

/// Is the sequence that the mapping holds a reading of the name?
pub fn check(sheet: &[u8], name: &[u8], mapping: &[u8], work: &mut [u8]) -> Answer {
    Answer::unpacked(unsafe {
        exported::satchelram_check(
            sheet.as_ptr(),
            sheet.len(),
            name.as_ptr(),
            name.len(),
            mapping.as_ptr(),
            mapping.len(),
            work.as_mut_ptr(),
            work.len(),
        )
    })
}

#[cfg(test)]
mod tests {
    use super::*;

    #[test]
    fn answers_come_apart() {
        let answer = Answer::unpacked(0xFEDC_BA98_7654_3210);
        let (number, second, third) = (0x10, 0x0076_5432, 0xFEDC_BA98);
        assert_eq!(
            answer,
            Answer {
                number,
                second,
                third
            }
        );
    }
}
