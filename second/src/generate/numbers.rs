//! Numbers of rules and of signals, up to the last one's and past it.

use super::random::Random;

/// The number of one of so many, most often; else their count, or a number over it. Of some the last bits are the number of one. Where the sheet is
/// refused and there are none, it is more often too large, which must not count there.
pub fn number(random: &mut Random, count: Option<usize>) -> u64 {
    let weights = match count {
        Some(_) => [90, 4, 2, 3, 1],
        None => [50, 10, 20, 10, 10],
    };
    let count = count.unwrap_or(0);
    let number = random.below(count.max(1)) as u64;
    let far = [1 << 8, 1 << 16, 1 << 32, 1 << 32, 1 << 63].map(|bit| bit + number);
    let near = [64, 65, count as u64 + 1];
    match random.weighted(&weights) {
        0 => number,
        1 => count as u64,
        2 => random.pick(&near),
        3 => random.pick(&far),
        _ => u64::MAX,
    }
}
