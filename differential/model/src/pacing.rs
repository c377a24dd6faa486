//! Document 01, part 2.

/// The attempt delay; also the shell's entry of that name.
pub fn attempt_delay(delay: u64, multiplier: u32, in_progress: u64) -> u64 {
    // "Exponent is in-progress attempts less 1, never below 0."
    let exponent = in_progress.saturating_sub(1);
    // "Multiplier 0, at the C entry, counts as 1."
    let multiplier = multiplier.max(1);
    // "product above 2^64-1 becomes 2^64-1"
    delay.saturating_mul(power(multiplier, exponent))
}

/// "Power above 2^32-1 becomes 2^32-1". Multiplying stops at the cap, and a
/// multiplier of 1 never moves, so 32 rounds settle any exponent.
fn power(multiplier: u32, exponent: u64) -> u64 {
    let most = u64::from(u32::MAX);
    (0..exponent.min(32)).fold(1, |product, _| most.min(product * u64::from(multiplier)))
}
