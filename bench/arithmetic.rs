//! What the plain interpreter's instructions compute, by the function fields of their words.

use crate::{End, ILLEGAL};

#[inline]
pub fn is_taken(f3: u32, a: u32, b: u32) -> Result<bool, End> {
    Ok(match f3 {
        0 => a == b,
        1 => a != b,
        4 => (a as i32) < b as i32,
        5 => a as i32 >= b as i32,
        6 => a < b,
        7 => a >= b,
        _ => return Err(ILLEGAL),
    })
}

#[inline]
pub fn compute_immediate(f7: u32, f3: u32, a: u32, b: u32) -> Result<u32, End> {
    Ok(match (f3, f7) {
        (0, _) => a.wrapping_add(b),
        (1, 0) => a << (b & 31),
        (2, _) => ((a as i32) < b as i32) as u32,
        (3, _) => (a < b) as u32,
        (4, _) => a ^ b,
        (5, 0) => a >> (b & 31),
        (5, 32) => (a as i32 >> (b & 31)) as u32,
        (6, _) => a | b,
        (7, _) => a & b,
        _ => return Err(ILLEGAL),
    })
}

#[inline]
pub fn compute(f7: u32, f3: u32, a: u32, b: u32) -> Result<u32, End> {
    let (signed_a, signed_b) = (a as i32, b as i32);
    Ok(match (f7, f3) {
        (0, 0) => a.wrapping_add(b),
        (32, 0) => a.wrapping_sub(b),
        (0, 1) => a << (b & 31),
        (0, 2) => (signed_a < signed_b) as u32,
        (0, 3) => (a < b) as u32,
        (0, 4) => a ^ b,
        (0, 5) => a >> (b & 31),
        (32, 5) => (signed_a >> (b & 31)) as u32,
        (0, 6) => a | b,
        (0, 7) => a & b,
        (1, 0) => a.wrapping_mul(b),
        (1, 1) => (signed_a as i64 * signed_b as i64 >> 32) as u32,
        (1, 2) => (signed_a as i64 * b as i64 >> 32) as u32,
        (1, 3) => (a as u64 * b as u64 >> 32) as u32,
        (1, 4 | 5) if b == 0 => u32::MAX,
        (1, 6 | 7) if b == 0 => a,
        (1, 4) => signed_a.wrapping_div(signed_b) as u32,
        (1, 5) => a / b,
        (1, 6) => signed_a.wrapping_rem(signed_b) as u32,
        (1, 7) => a % b,
        _ => return Err(ILLEGAL),
    })
}

/// What an atomic stores, from the word that it read and from rs2, by the upper five bits of its word.
#[inline]
pub fn swap_by(code: u32) -> Result<fn(u32, u32) -> u32, End> {
    Ok(match code {
        0b00001 => |_, b| b,
        0b00000 => |old, b| old.wrapping_add(b),
        0b00100 => |old, b| old ^ b,
        0b01100 => |old, b| old & b,
        0b01000 => |old, b| old | b,
        0b10000 => |old, b| (old as i32).min(b as i32) as u32,
        0b10100 => |old, b| (old as i32).max(b as i32) as u32,
        0b11000 => |old, b| old.min(b),
        0b11100 => |old, b| old.max(b),
        _ => return Err(ILLEGAL),
    })
}
