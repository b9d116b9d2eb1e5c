//! The teller window: deposits and withdrawals on a single account record of
//! eight figures, and the two rules which the ledger's calls share with it.

use crate::limits::{within, AMOUNT, GROSS};
use crate::margin::{sound_record, Account, CASH, RECORD};
use crate::Reply;

/// 1, 5, 10; the figure is the new cash.
pub fn deposit(record: &mut [i64; RECORD], amount: i64) -> Reply {
    if !sound_record(record) {
        return Reply::refused(1);
    }
    if !within(amount, 1, AMOUNT) {
        return Reply::refused(5);
    }
    pay_in(record, amount)
}

/// 1, 5, 11 with the limit; the figure is the new cash.
pub fn withdraw(record: &mut [i64; RECORD], amount: i64) -> Reply {
    if !sound_record(record) {
        return Reply::refused(1);
    }
    if !within(amount, 1, AMOUNT) {
        return Reply::refused(5);
    }
    pay_out(record, amount)
}

/// Adds a good amount to cash, unless gross would pass 10^15. Gross is taken
/// afterwards: where cash is negative a deposit lowers it.
pub(crate) fn pay_in(record: &mut [i64], amount: i64) -> Reply {
    let mut account = Account::read(record);
    account.cash += amount;
    if account.gross() > GROSS {
        return Reply::refused(10);
    }
    record[CASH] = account.cash;
    Reply::done(account.cash)
}

/// Takes a good amount from cash, unless it is above the limit.
pub(crate) fn pay_out(record: &mut [i64], amount: i64) -> Reply {
    let account = Account::read(record);
    let limit = account.limit();
    if amount > limit {
        return Reply::refused_with(11, limit);
    }
    record[CASH] = account.cash - amount;
    Reply::done(record[CASH])
}
