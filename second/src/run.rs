//! The settlement run: begin, and one step for each account.

use crate::ledger::{self, Layout, HOUSE_AT, PHASE};
use crate::limits::{within, HOUSE};
use crate::margin::{CASH, DUE};
use crate::Reply;

/// Phase 0 to 1. 1, 7, 13: house must be in range after each account of the
/// run, not at its end alone.
pub fn begin(words: &mut [i64]) -> Reply {
    let Some(at) = ledger::sound(words) else { return Reply::refused(1) };
    if words[PHASE] != 0 {
        return Reply::refused(7);
    }
    if !house_fits(words, at) {
        return Reply::refused(13);
    }
    words[PHASE] = 1;
    Reply::done(0)
}

/// Whether house stays in range after each transfer of the whole run. House and
/// the dues of a sound ledger are far from 2^63.
fn house_fits(words: &[i64], at: Layout) -> bool {
    let mut house = words[HOUSE_AT];
    (0..at.n).all(|a| {
        house -= words[at.account(a) + DUE];
        within(house, -HOUSE, HOUSE)
    })
}

/// Phase f of 1 to n: account f-1's due 0 is added to its cash and taken from
/// house. 1, 7; the figure is the account stepped.
pub fn step(words: &mut [i64]) -> Reply {
    let Some(at) = ledger::sound(words) else { return Reply::refused(1) };
    let phase = words[PHASE] as usize;
    if phase == 0 || phase > at.n {
        return Reply::refused(7);
    }
    let account = phase - 1;
    let record = &mut words[at.account(account)..];
    let due = record[DUE];
    record[CASH] += due;
    record[DUE] = 0;
    words[HOUSE_AT] -= due;
    words[PHASE] += 1;
    Reply::done(account as i64)
}
