//! The ranges of "Units and sizes". All limits are inclusive.

use std::ops::RangeInclusive;

pub const ACCOUNTS: i64 = 64;
pub const PRODUCTS: i64 = 16;

pub const YEN_PRICE: i64 = 5_000_000;
pub const CROSS_PRICE: i64 = 200_000;
/// The most lots of a trade, and of a position on either side.
pub const LOTS: i64 = 1_000_000;
pub const YEN_BOOK: i64 = 10_000_000_000_000;
pub const CROSS_BOOK: i64 = 400_000_000_000;
pub const RATE: i64 = 10_000;
/// The least rate where the floor mark stands (source 001, article 4).
pub const FLOOR_RATE: i64 = 400;
pub const LAG: i64 = 2;

/// The most of a deposit or a withdrawal; the least is 1.
pub const AMOUNT: i64 = 1_000_000_000_000;
/// The most of a guarantee and of its cap; the least is 0.
pub const GUARANTEE: i64 = 1_000_000_000_000;
pub const GROSS: i64 = 1_000_000_000_000_000;
pub const MARGIN: i64 = 8_000_000_000_000;
pub const HOUSE: i64 = 100_000_000_000_000_000;

/// Loss sharing: the loss, a clearing deposit, a difference, the members.
pub const LOSS: i64 = 100_000_000_000_000;
pub const WEIGHT: i64 = 1_000_000_000_000;
pub const DIFFERENCE: i64 = 1_000_000_000_000;
pub const MEMBERS: usize = 64;

/// Margin rates: how many figures a list has, and the most of a figure on
/// either side, in hundred-thousandths (M-105).
pub const HISTORY: RangeInclusive<usize> = 2..=520;
pub const LOG_RATIO: i64 = 20_000;

/// The sheet program: bytes of a text, calls of a day.
pub const TEXT: usize = 65_536;
pub const CALLS: i64 = 1_000;

/// Whether a word lies in a range. Comparing cannot overflow, so it comes
/// before any sum: on spoiled words even an absolute value would not fit.
#[inline]
pub fn within(word: i64, low: i64, high: i64) -> bool {
    low <= word && word <= high
}

/// The most a product's price may be, by its kind.
#[inline]
pub fn price_limit(cross: bool) -> i64 {
    if cross {
        CROSS_PRICE
    } else {
        YEN_PRICE
    }
}

/// The most a product's book may be on either side, by its kind.
#[inline]
pub fn book_limit(cross: bool) -> i64 {
    if cross {
        CROSS_BOOK
    } else {
        YEN_BOOK
    }
}
