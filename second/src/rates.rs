//! Margin rates from price history (M-105; source 001, article 4).
//!
//! The figures of a list are natural logarithms of price ratios in whole
//! hundred-thousandths. Their standard deviation times 2.33 times 100 is a
//! percentage; a rate counts its hundredths. So a rate is 0.233 times the
//! deviation of the whole figures, rounded up.

use crate::limits::{within, HISTORY, LOG_RATIO};
use crate::Reply;

/// 2, 8; the figure is the larger of the two rates. With it goes the list that
/// gave it, the 8-week list on a tie, as the caller lent it; when refused, the
/// empty part at the start of the 8-week list.
pub fn rate<'a>(weeks8: &'a [i64], weeks104: &'a [i64]) -> (Reply, &'a [i64]) {
    let refused = |number| (Reply::refused(number), &weeks8[..0]);
    if !HISTORY.contains(&weeks8.len()) || !HISTORY.contains(&weeks104.len()) {
        return refused(2);
    }
    let (Some(rate8), Some(rate104)) = (rate_of(weeks8), rate_of(weeks104)) else {
        return refused(8);
    };
    // The rates are compared and not the deviations: rounded up, two different
    // deviations may tie.
    if rate104 > rate8 {
        (Reply::done(rate104), weeks104)
    } else {
        (Reply::done(rate8), weeks8)
    }
}

/// The rate of a list of fitting length; none where a figure is out of range.
fn rate_of(figures: &[i64]) -> Option<i64> {
    let (mut sum, mut squares) = (0, 0);
    for &figure in figures {
        if !within(figure, -LOG_RATIO, LOG_RATIO) {
            return None;
        }
        sum += figure;
        squares += figure * figure;
    }
    // The count times the sum of the squared distances from the mean, and also
    // the sum of (x - y)² over all pairs of figures: never negative.
    let count = figures.len() as i64;
    Some(least_rate(count as u64, (count * squares - sum * sum) as u64))
}

/// The least rate r, and at least 1, with
/// r² × 10^6 × n × (n - 1) ≥ 233² × spread: the deviation squared is
/// spread / (n × (n - 1)), since it divides by the count less one (*house*).
///
/// The spread adds n × (n - 1) / 2 squares of at most 40,000². So r² need not
/// pass 233² × 800, which is below 6,591²: no rate reaches the 10,000 that a
/// close takes. And the spread is at most n² × 20,000², so that 233² times it
/// stays below 6×10^18, which 64 bits hold.
fn least_rate(n: u64, spread: u64) -> i64 {
    let square = (233 * 233 * spread).div_ceil(1_000_000 * n * (n - 1));
    // The root of a whole number, rounded up, and 1 for that of 0.
    square.saturating_sub(1).isqrt() as i64 + 1
}
