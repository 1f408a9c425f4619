//! What a request costs: document 02's request (a).

use crate::table::in_grains;

/// The sizes at the ends of the ranges of cost.
pub const RANGE_ENDS: [i64; 7] = [1, 7, 8, 63, 64, 511, 512];

/// The cost of a request of that size, in tokens. Where the cost is beyond the
/// largest number, that number stands for it: no depth comes near. A size below
/// 1, which no request has, costs nothing.
pub fn cost(size: i64) -> i64 {
    match size {
        ..=0 => 0,
        1..=7 => 8,
        8..=63 => size + 4,
        64..=511 => size + 8,
        512.. => size.saturating_add(16),
    }
}

/// The grains of a request of that size, which waits in a table in order.
pub(crate) fn grains(size: i64) -> i64 {
    in_grains(cost(size))
}

/// The largest size whose cost is at most that depth, if there is one. No cost
/// is more than 16 above its size.
pub fn largest_size(depth: i64) -> Option<i64> {
    (1..=depth).rev().take(17).find(|&size| cost(size) <= depth)
}
