//! "The margin rules", over the eight figures of one account.

use crate::limits::{within, GROSS, GUARANTEE, MARGIN};

/// The words of an account's record before its positions.
pub const KIND: usize = 0;
pub const CASH: usize = 1;
pub const GUARANTEE_AT: usize = 2;
pub const CAP: usize = 3;
pub const MARGIN_AT: usize = 4;
pub const DUE: usize = 5;
pub const RECORD: usize = 8;

/// The figures of an account. In a sound record gross is at most 10^15, margin
/// 8×10^12 and guarantee 10^12, so no sum of them comes near 2^63.
#[derive(Clone, Copy, Debug)]
pub struct Account {
    /// Kind 1, a liquidity provider; a broker otherwise.
    pub provider: bool,
    pub cash: i64,
    pub guarantee: i64,
    pub cap: i64,
    pub margin: i64,
    pub due: [i64; 3],
}

impl Account {
    /// Reads the eight figures at the start of a record.
    #[inline]
    pub fn read(record: &[i64]) -> Account {
        let record: &[i64; RECORD] = record.first_chunk().expect("a record has eight figures");
        let [kind, cash, guarantee, cap, margin, due0, due1, due2] = *record;
        Account { provider: kind == 1, cash, guarantee, cap, margin, due: [due0, due1, due2] }
    }

    /// |cash| plus the absolute values of the three dues.
    #[inline]
    pub fn gross(&self) -> i64 {
        gross(self.cash, self.due)
    }

    /// Source 001, article 17.
    #[inline]
    pub fn lg_value(&self) -> i64 {
        lg_value(self.guarantee, self.cap)
    }

    /// Cash and LG value (source 001, 2(2)).
    #[inline]
    pub fn deposit(&self) -> i64 {
        self.cash + self.lg_value()
    }

    /// Initial margin less all three dues; negative figures stand (2(14)).
    #[inline]
    pub fn required(&self) -> i64 {
        self.margin - self.due.iter().sum::<i64>()
    }

    /// Required less deposit, or 0.
    #[inline]
    pub fn first_shortfall(&self) -> i64 {
        (self.required() - self.deposit()).max(0)
    }

    /// F: what due 0 takes away; L: the next-day need; less cash, or 0
    /// (source 001, articles 2(16) and 6).
    #[inline]
    pub fn second_shortfall(&self) -> i64 {
        let need = if self.provider { self.next_day_need() } else { taken_away(self.due[0]) };
        (need - self.cash).max(0)
    }

    /// What due 1 takes away, which may be 0, then adjusted by due 0: less if
    /// that is positive, more if negative; never below 0 (2(16), read as M-101
    /// says).
    #[inline]
    fn next_day_need(&self) -> i64 {
        (taken_away(self.due[1]) - self.due[0]).max(0)
    }

    #[inline]
    fn excess_one(&self) -> i64 {
        self.deposit() - self.required()
    }

    /// The LG does not count here (source 001, article 8).
    #[inline]
    fn excess_two(&self) -> i64 {
        if self.provider {
            self.cash + self.due[1] - self.margin - taken_away(self.due[0])
        } else {
            self.cash + self.due[0] - self.margin
        }
    }

    /// The least of cash and both excesses, or 0 if that is negative.
    #[inline]
    pub fn limit(&self) -> i64 {
        self.cash.min(self.excess_one()).min(self.excess_two()).max(0)
    }
}

/// |cash| plus the absolute values of the three dues, each of them far from
/// 2^63.
#[inline]
pub fn gross(cash: i64, [due0, due1, due2]: [i64; 3]) -> i64 {
    cash.abs() + due0.abs() + due1.abs() + due2.abs()
}

/// guarantee × 99 / 100 rounded down, at most the cap; neither is negative.
#[inline]
pub fn lg_value(guarantee: i64, cap: i64) -> i64 {
    (guarantee * 99 / 100).min(cap)
}

/// The absolute value of a negative due, else 0.
#[inline]
fn taken_away(due: i64) -> i64 {
    (-due).max(0)
}

/// Whether the eight figures of a record are in range, gross included, and an
/// L has neither guarantee nor cap: what a single record needs to be sound.
/// Gross is added up only when each of its four parts is within it.
#[inline]
pub fn sound_record(record: &[i64; RECORD]) -> bool {
    let [kind, cash, guarantee, cap, margin, due0, due1, due2] = *record;
    within(kind, 0, 1)
        && within(guarantee, 0, GUARANTEE)
        && within(cap, 0, GUARANTEE)
        && (kind == 0 || (guarantee == 0 && cap == 0))
        && within(margin, 0, MARGIN)
        && within(cash, -GROSS, GROSS)
        && within(due0, -GROSS, GROSS)
        && within(due1, -GROSS, GROSS)
        && within(due2, -GROSS, GROSS)
        && gross(cash, [due0, due1, due2]) <= GROSS
}
