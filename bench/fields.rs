//! The immediates of jumps and branches.

/// The immediate of a jump.
#[inline]
pub fn jump_offset(word: u32) -> u32 {
    let sign = (word as i32 >> 31) as u32;
    sign << 20 | word & 0xff000 | (word >> 20 & 1) << 11 | (word >> 21 & 1023) << 1
}

/// The immediate of a branch.
#[inline]
pub fn branch_offset(word: u32) -> u32 {
    let sign = (word as i32 >> 31) as u32;
    sign << 12 | (word >> 7 & 1) << 11 | (word >> 25 & 63) << 5 | (word >> 8 & 15) << 1
}
