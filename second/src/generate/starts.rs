//! Where parts start: on a boundary of their elements, or beside one.

use crate::cases::boundaries::HELD;
use crate::random::Random;

/// How far boundaries are apart. Elements of sizes that are not held to them may start at any byte.
fn apart(element_size: u8) -> u64 {
    if HELD.contains(&element_size) {
        element_size as u64
    } else {
        1
    }
}

/// The first boundary from this byte on, where 64 bits have one.
pub fn boundary_from(start: u64, element_size: u8) -> u64 {
    start.checked_next_multiple_of(apart(element_size)).unwrap_or(start)
}

/// The last boundary up to this byte.
fn boundary_up_to(start: u64, element_size: u8) -> u64 {
    start - start % apart(element_size)
}

/// Mostly the boundary before or behind this byte, else the byte itself.
pub fn mostly_on_boundary(random: &mut Random, start: u64, element_size: u8) -> u64 {
    match random.below(12) {
        0 => start,
        1..=5 => boundary_from(start, element_size),
        _ => boundary_up_to(start, element_size),
    }
}

/// A byte off the boundaries, from just behind the one before this byte to just before the next. For elements that may
/// start anywhere it is any byte near this one.
pub fn off_boundary(random: &mut Random, start: u64, element_size: u8) -> u64 {
    let most = if HELD.contains(&element_size) { element_size as u64 - 1 } else { 3 };
    boundary_up_to(start, element_size).saturating_add(random.between(1, most))
}
