//! Room for so many bytes, at least one: buffers that are just long enough, a little or much longer, or too short.

use crate::random::Random;

/// A buffer's length, often next to the exact one.
pub fn length(random: &mut Random, exact: usize) -> usize {
    match random.below(9) {
        0 => 0,
        1 => random.below(exact),
        2 => exact - 1,
        3 | 4 => exact,
        5 => exact + random.between(10, 400),
        _ => exact + random.between(1, 9),
    }
}

/// What a buffer of this length is called.
pub fn name(length: usize, exact: usize) -> &'static str {
    match length {
        0 => "none",
        _ if length + 1 == exact => "one byte less",
        _ if length < exact => "too little",
        _ if length == exact => "exact",
        _ if length < exact + 10 => "more",
        _ => "much more",
    }
}
