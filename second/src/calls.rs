//! The requests of "The day": deposit, withdrawal, guarantee, question, trade.
//!
//! Every one is taken in every phase. The tests stand in the order of "Numbers
//! returned"; the words are written only after the last of them.

use crate::ledger::{self, CROSS};
use crate::limits::{book_limit, price_limit, within, AMOUNT, GUARANTEE, LOTS};
use crate::margin::{lg_value, CAP, GUARANTEE_AT, KIND, RECORD};
use crate::{teller, Answer, Reply};

/// 1, 3, 5, 10; the figure is the new cash.
pub fn deposit(words: &mut [i64], account: i64, amount: i64) -> Reply {
    let Some(at) = ledger::sound(words) else { return Reply::refused(1) };
    let Some(a) = at.find_account(account) else { return Reply::refused(3) };
    if !within(amount, 1, AMOUNT) {
        return Reply::refused(5);
    }
    let record = at.account(a);
    teller::pay_in(&mut words[record..record + RECORD], amount)
}

/// 1, 3, 5, 11 with the limit; the figure is the new cash.
pub fn withdraw(words: &mut [i64], account: i64, amount: i64) -> Reply {
    let Some(at) = ledger::sound(words) else { return Reply::refused(1) };
    let Some(a) = at.find_account(account) else { return Reply::refused(3) };
    if !within(amount, 1, AMOUNT) {
        return Reply::refused(5);
    }
    let record = at.account(a);
    teller::pay_out(&mut words[record..record + RECORD], amount)
}

/// 1, 3, 5, 6; the figure is the new LG value. An L has none, not even 0 and 0.
pub fn guarantee(words: &mut [i64], account: i64, guarantee: i64, cap: i64) -> Reply {
    let Some(at) = ledger::sound(words) else { return Reply::refused(1) };
    let Some(a) = at.find_account(account) else { return Reply::refused(3) };
    if !within(guarantee, 0, GUARANTEE) || !within(cap, 0, GUARANTEE) {
        return Reply::refused(5);
    }
    let record = at.account(a);
    if words[record + KIND] == 1 {
        return Reply::refused(6);
    }
    words[record + GUARANTEE_AT] = guarantee;
    words[record + CAP] = cap;
    Reply::done(lg_value(guarantee, cap))
}

/// 1, 3; limit and both shortfalls. It only reads.
pub fn question(words: &[i64], account: i64) -> Answer {
    let Some(at) = ledger::sound(words) else { return Answer::refused(1) };
    let Some(a) = at.find_account(account) else { return Answer::refused(3) };
    let account = crate::margin::Account::read(&words[at.account(a)..]);
    Answer {
        number: 0,
        limit: account.limit(),
        first: account.first_shortfall(),
        second: account.second_shortfall(),
    }
}

/// 1, 3, 4, 6, 8, 9; the figure is 0. Buyer and seller are one F and one L, so
/// never the same account.
pub fn trade(
    words: &mut [i64],
    buyer: i64,
    seller: i64,
    product: i64,
    lots: i64,
    price: i64,
) -> Reply {
    let Some(at) = ledger::sound(words) else { return Reply::refused(1) };
    let (Some(buyer), Some(seller)) = (at.find_account(buyer), at.find_account(seller)) else {
        return Reply::refused(3);
    };
    let Some(j) = at.find_product(product) else { return Reply::refused(4) };
    if words[at.account(buyer) + KIND] == words[at.account(seller) + KIND] {
        return Reply::refused(6);
    }
    let cross = words[at.product(j) + CROSS] == 1;
    if !within(lots, 1, LOTS) || !within(price, 1, price_limit(cross)) {
        return Reply::refused(8);
    }
    // The value is at most 5×10^12, and a book starts within 10^13.
    let (value, book_limit) = (lots * price, book_limit(cross));
    let (bought, sold) = (at.position(buyer, j), at.position(seller, j));
    let [bought_lots, bought_book] = [words[bought] + lots, words[bought + 1] + value];
    let [sold_lots, sold_book] = [words[sold] - lots, words[sold + 1] - value];
    if !within(bought_lots, -LOTS, LOTS)
        || !within(bought_book, -book_limit, book_limit)
        || !within(sold_lots, -LOTS, LOTS)
        || !within(sold_book, -book_limit, book_limit)
    {
        return Reply::refused(9);
    }
    words[bought] = bought_lots;
    words[bought + 1] = bought_book;
    words[sold] = sold_lots;
    words[sold + 1] = sold_book;
    Reply::done(0)
}
