//! Document 02, #101: the credit of survival and death business, from S and T, the level and trend sums of both.

use crate::block::root_up;

/// S² + T² − 1.5 × S × T, doubled. It is 0 or more, because 2S² + 2T² is at least 4 × S × T.
pub(crate) fn twice_radicand(s: u64, t: u64) -> u128 {
    let (s, t) = (u128::from(s), u128::from(t));
    2 * s * s + 2 * t * t - 3 * s * t
}

/// The least whole number of cents whose square is at least S² + T² − 1.5 × S × T.
pub fn aggregate(s: u64, t: u64) -> u64 {
    // A whole square is at least a half number exactly when it is at least that number rounded up.
    u64::try_from(root_up(twice_radicand(s, t).div_ceil(2))).unwrap()
}

/// S + T less the aggregate.
pub fn mortality_credit(s: u64, t: u64) -> u64 {
    s + t - aggregate(s, t)
}
