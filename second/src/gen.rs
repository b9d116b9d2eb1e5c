//! Generators: ledgers sound and spoiled, calls, loss-sharing inputs, lists of
//! log ratios, day files good and damaged. Ends of ranges come far more often
//! than chance would have them, for that is where programs differ.

pub mod calls;
pub mod damage;
pub mod ledgers;
pub mod rates;
pub mod shares;
pub mod spoil;
pub mod texts;

use crate::rng::Rng;

/// A figure inside a range: an end, near an end, zero, of any size, or any.
pub fn inside(rng: &mut Rng, low: i64, high: i64) -> i64 {
    match rng.below(10) {
        0 => low,
        1 => high,
        2 => low.saturating_add(rng.between(0, 3)).min(high),
        3 => high.saturating_sub(rng.between(0, 3)).max(low),
        4 => rng.between(-3, 3).clamp(low, high),
        5..=7 => of_any_size(rng).clamp(low, high),
        _ => rng.between(low, high),
    }
}

/// A figure whose number of digits is drawn first, so that small and large
/// ones come alike.
pub fn of_any_size(rng: &mut Rng) -> i64 {
    let size = (rng.draw() >> 1 >> rng.below(63)) as i64;
    if rng.coin() {
        size
    } else {
        -size
    }
}

/// An argument for a range: mostly inside, else just outside or wild.
pub fn argument(rng: &mut Rng, low: i64, high: i64) -> i64 {
    match rng.below(16) {
        0 => rng.pick(&[i64::MIN, i64::MIN + 1, i64::MAX, i64::MAX - 1, -1, 0, 1]),
        1 => low.saturating_sub(1),
        2 => high.saturating_add(1),
        3 => {
            let any = of_any_size(rng);
            rng.pick(&[any, low.wrapping_neg(), high.wrapping_neg()])
        }
        _ => inside(rng, low, high),
    }
}

/// The number of one of `count` accounts or products, at times of none.
pub fn number(rng: &mut Rng, count: usize) -> i64 {
    let count = count as i64;
    if rng.one_in(12) {
        return rng.pick(&[-1, count, count + 1, i64::MIN, i64::MAX, -count, 1 << 32, 64, 16]);
    }
    match rng.below(4) {
        0 => 0,
        1 => (count - 1).max(0),
        _ => rng.between(0, (count - 1).max(0)),
    }
}
