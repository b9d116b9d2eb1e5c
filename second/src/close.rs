//! The daily close.

use crate::ledger::{self, Layout, CROSS, HEAD, MARK, PHASE, PRICE, PRINCIPAL, PRODUCT, QUOTE};
use crate::limits::{price_limit, within, ACCOUNTS, FLOOR_RATE, GROSS, LAG, PRODUCTS, RATE};
use crate::margin::{gross, CASH, DUE, MARGIN_AT, RECORD};
use crate::Reply;

/// The due that a product's difference is added to.
#[derive(Clone, Copy, Default)]
enum Lag {
    #[default]
    Zero,
    One,
    Two,
}

/// What a close needs of one product.
#[derive(Clone, Copy, Default)]
struct Terms {
    price: i64,
    /// New price of the quote currency against yen, of a cross only.
    quote: i64,
    /// Y × rate, at most 5×10^10.
    y_rate: u64,
    cross: bool,
    lag: Lag,
}

/// What a close makes of one account.
#[derive(Clone, Copy, Default)]
struct Closed {
    margin: i64,
    due: [i64; 3],
}

/// 1, 2, 7, 8, 12 with the lowest account; the figure is 0.
pub fn close(
    words: &mut [i64],
    prices: &[i64],
    rates8: &[i64],
    rates104: &[i64],
    lags: &[i64],
) -> Reply {
    let Some(at) = ledger::sound(words) else { return Reply::refused(1) };
    let lists = [prices, rates8, rates104, lags];
    if lists.iter().any(|list| list.len() != at.p) {
        return Reply::refused(2);
    }
    if words[PHASE] != at.n as i64 + 1 {
        return Reply::refused(7);
    }
    // A small ledger has small tables, because clearing large ones takes time.
    if at.n <= 8 && at.p <= 4 {
        close_within::<8, 4>(words, at, lists)
    } else {
        close_within::<{ ACCOUNTS as usize }, { PRODUCTS as usize }>(words, at, lists)
    }
}

/// 8 and 12 of a close, with room for so many accounts and products.
///
/// All accounts are worked out before the first word is written, because a
/// refusal 12 of the last account must leave the first as it was.
fn close_within<const N: usize, const P: usize>(
    words: &mut [i64],
    at: Layout,
    lists: [&[i64]; 4],
) -> Reply {
    let (head, accounts) = words.split_at_mut(at.account(0));
    let mut terms = [Terms::default(); P];
    let terms = &mut terms[..at.p];
    if !find_terms(&head[HEAD..], lists, terms) {
        return Reply::refused(8);
    }
    let mut closed = [Closed::default(); N];
    let closed = &mut closed[..at.n];
    for (account, closed) in accounts.chunks_exact(at.stride()).zip(closed.iter_mut()) {
        close_account(account, terms, closed);
    }
    // Judged on the finished dues, never between two products.
    for (a, (account, closed)) in accounts.chunks_exact(at.stride()).zip(&*closed).enumerate() {
        if gross(account[CASH], closed.due) > GROSS {
            return Reply::refused_with(12, a as i64);
        }
    }
    write(head, accounts, terms, closed);
    Reply::done(0)
}

/// The terms of each product, if its figures are in range: the price by the
/// product's kind, both rates though a floor may govern, the lag. A cross names
/// products of lower number, whose prices have been tested before it.
fn find_terms(products: &[i64], lists: [&[i64]; 4], terms: &mut [Terms]) -> bool {
    let [prices, rates8, rates104, lags] = lists;
    let figures = prices.iter().zip(rates8).zip(rates104).zip(lags);
    let places = products.chunks_exact(PRODUCT).zip(terms);
    for ((product, terms), (((&price, &rate8), &rate104), &lag)) in places.zip(figures) {
        let cross = product[CROSS] == 1;
        if !within(price, 1, price_limit(cross))
            || !within(rate8, 1, RATE)
            || !within(rate104, 1, RATE)
            || !within(lag, 0, LAG)
        {
            return false;
        }
        let floor = if product[MARK] == 1 { FLOOR_RATE } else { 0 };
        let rate = rate8.max(rate104).max(floor);
        let y = if cross { prices[product[PRINCIPAL] as usize] } else { price };
        *terms = Terms {
            price,
            quote: if cross { prices[product[QUOTE] as usize] } else { 0 },
            y_rate: (y * rate) as u64,
            cross,
            lag: [Lag::Zero, Lag::One, Lag::Two][lag as usize],
        };
    }
    true
}

/// The dues moved down by one, each product's difference added to the due its
/// lag names, and the margin at the new prices. An old due is within 10^15, and
/// sixteen differences are within 4.8×10^14.
#[inline]
fn close_account(account: &[i64], terms: &[Terms], closed: &mut Closed) {
    closed.due = [account[DUE + 1], account[DUE + 2], 0];
    let mut initial = 0;
    for (position, terms) in account[RECORD..].chunks_exact(2).zip(terms) {
        let (lots, book) = (position[0], position[1]);
        closed.due[terms.lag as usize] += difference(lots, book, terms);
        initial += margin(lots, terms);
    }
    closed.margin = initial;
}

/// The difference in yen, with one rounding. The raw difference of a yen
/// product is within 5×10^12 + 10^13; that of a cross is within
/// 2×10^11 + 4×10^11, and times the quote's price within 3×10^18.
#[inline]
fn difference(lots: i64, book: i64, terms: &Terms) -> i64 {
    let raw = lots * terms.price - book;
    if terms.cross {
        floor_div(raw * terms.quote, 100_000, 30_000_000_000_000)
    } else {
        floor_div(raw, 10, 1_500_000_000_000)
    }
}

/// figure / by rounded down toward minus infinity (*house*), of a figure not
/// below -by × most. Raised by as much it is not negative, where division
/// rounds down.
#[inline]
fn floor_div(figure: i64, by: i64, most: i64) -> i64 {
    let raised = figure + by * most;
    debug_assert!(raised >= 0);
    (raised as u64 / by as u64) as i64 - most
}

/// The margin of one position, rounded up (*house*): |lots| × Y × rate is at
/// most 5×10^16. Added to before, it is divided once, without a remainder.
#[allow(clippy::manual_div_ceil)]
#[inline]
fn margin(lots: i64, terms: &Terms) -> i64 {
    ((lots.unsigned_abs() * terms.y_rate + 99_999) / 100_000) as i64
}

fn write(head: &mut [i64], accounts: &mut [i64], terms: &[Terms], closed: &[Closed]) {
    head[PHASE] = 0;
    for (product, terms) in head[HEAD..].chunks_exact_mut(PRODUCT).zip(terms) {
        product[PRICE] = terms.price;
    }
    let stride = RECORD + 2 * terms.len();
    for (account, closed) in accounts.chunks_exact_mut(stride).zip(closed) {
        account[MARGIN_AT] = closed.margin;
        account[DUE..RECORD].copy_from_slice(&closed.due);
        for (position, terms) in account[RECORD..].chunks_exact_mut(2).zip(terms) {
            position[1] = position[0] * terms.price;
        }
    }
}
