//! "Operational risk": RO from the territories' volumes and three general figures.

use crate::{Refusal, GENERAL_NUMBERS, LARGEST_AMOUNT, MOST_VOLUMES, TERRITORY_NUMBERS, VOLUME_CLASSES};

/// The factors of the eight volume classes, in ten-thousandths.
const VOLUME_FACTORS: [u128; VOLUME_CLASSES] = [250, 250, 250, 175, 40, 15, 10, 10];

/// Gross components, segregated fund guarantee requirement, ceded premiums, in ten-thousandths.
const GENERAL_FACTORS: [u128; GENERAL_NUMBERS] = [575, 450, 250];

/// The operational call: 16 numbers per territory (eight pairs current, prior) and the first three of GEN.
pub fn operational_call(volumes: &[u64], general: &[u64; GENERAL_NUMBERS]) -> Result<u64, Refusal> {
    // "What is turned away": 15, then 7, positions running through both.
    if volumes.len() > MOST_VOLUMES || !volumes.len().is_multiple_of(TERRITORY_NUMBERS) {
        return Err(Refusal::nowhere(15));
    }
    if let Some(position) = volumes.iter().chain(general).position(|&amount| amount > LARGEST_AMOUNT) {
        return Err(Refusal::at_position(7, position));
    }
    Ok(ro(volumes, general))
}

/// RO: the sum, as a fraction over 50,000, is rounded up once, at the end.
pub(crate) fn ro(volumes: &[u64], general: &[u64; GENERAL_NUMBERS]) -> u64 {
    u64::try_from(over_50_000(volumes, general).div_ceil(50_000)).unwrap()
}

/// The exact operational figure: the numerator of its fraction over 50,000.
pub(crate) fn over_50_000(volumes: &[u64], general: &[u64; GENERAL_NUMBERS]) -> u128 {
    let mut sum = 0;
    for (number, pair) in volumes.chunks(2).enumerate() {
        let factor = VOLUME_FACTORS[number % VOLUME_CLASSES];
        let (current, prior) = (u128::from(pair[0]), u128::from(pair[1]));
        // Volume: factor × current.
        sum += factor * 5 * current;
        // Growth: factor × the excess of current over 120 % of prior, nothing if there is none, each class alone.
        sum += factor * (5 * current).saturating_sub(6 * prior);
    }
    for (factor, &amount) in GENERAL_FACTORS.iter().zip(general) {
        sum += factor * 5 * u128::from(amount);
    }
    sum
}
