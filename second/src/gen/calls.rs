//! Calls for a ledger, steered toward its own edges: the limit and one yen
//! more, the gross of 10^15, the ends of positions and books.

use super::{argument, inside, number};
use crate::clerk::{Clerk, Lists};
use crate::ledger::{sound, Layout, CROSS, PHASE};
use crate::limits::{book_limit, price_limit, AMOUNT, GROSS, GUARANTEE, LAG, LOTS, RATE};
use crate::margin::{Account, CASH, KIND};
use crate::rng::Rng;

/// A call with its arguments.
#[derive(Clone, Debug, PartialEq, Eq)]
pub enum Call {
    Deposit { account: i64, amount: i64 },
    Withdraw { account: i64, amount: i64 },
    Guarantee { account: i64, guarantee: i64, cap: i64 },
    Question { account: i64 },
    Trade { buyer: i64, seller: i64, product: i64, lots: i64, price: i64 },
    Begin,
    Step,
    Close { prices: Vec<i64>, rates8: Vec<i64>, rates104: Vec<i64>, lags: Vec<i64> },
}

/// The kinds of call, in the order of `KINDS`.
#[derive(Clone, Copy, Debug, PartialEq, Eq)]
pub enum Kind {
    Deposit,
    Withdraw,
    Guarantee,
    Question,
    Trade,
    Begin,
    Step,
    Close,
}

pub const KINDS: [Kind; 8] = [
    Kind::Deposit,
    Kind::Withdraw,
    Kind::Guarantee,
    Kind::Question,
    Kind::Trade,
    Kind::Begin,
    Kind::Step,
    Kind::Close,
];

/// A reply or an answer: its number, and one figure or three.
#[derive(Clone, Copy, Debug, PartialEq, Eq)]
pub struct Outcome {
    pub number: u64,
    pub figures: [i64; 3],
}

impl Call {
    pub fn name(&self) -> &'static str {
        match self {
            Call::Deposit { .. } => "deposit",
            Call::Withdraw { .. } => "withdraw",
            Call::Guarantee { .. } => "guarantee",
            Call::Question { .. } => "question",
            Call::Trade { .. } => "trade",
            Call::Begin => "begin",
            Call::Step => "step",
            Call::Close { .. } => "close",
        }
    }

    /// Has a clerk do the call.
    pub fn put_to(&self, clerk: &dyn Clerk, words: &mut [i64]) -> Outcome {
        let reply = match self {
            Call::Deposit { account, amount } => clerk.deposit(words, *account, *amount),
            Call::Withdraw { account, amount } => clerk.withdraw(words, *account, *amount),
            Call::Guarantee { account, guarantee, cap } => {
                clerk.guarantee(words, *account, *guarantee, *cap)
            }
            Call::Question { account } => {
                let answer = clerk.question(words, *account);
                let figures = [answer.limit, answer.first, answer.second];
                return Outcome { number: answer.number, figures };
            }
            Call::Trade { buyer, seller, product, lots, price } => {
                clerk.trade(words, *buyer, *seller, *product, *lots, *price)
            }
            Call::Begin => clerk.begin(words),
            Call::Step => clerk.step(words),
            Call::Close { prices, rates8, rates104, lags } => {
                clerk.close(words, Lists { prices, rates8, rates104, lags })
            }
        };
        Outcome { number: reply.number, figures: [reply.figure, 0, 0] }
    }
}

/// A call of a kind for these words, which need not be sound.
pub fn of(rng: &mut Rng, kind: Kind, words: &[i64]) -> Call {
    // Spoiled words refuse every call; any arguments will do.
    let at = sound(words).unwrap_or(Layout { n: 0, p: 0 });
    match kind {
        Kind::Deposit => deposit(rng, words, at),
        Kind::Withdraw => withdraw(rng, words, at),
        Kind::Guarantee => Call::Guarantee {
            account: number(rng, at.n),
            guarantee: argument(rng, 0, GUARANTEE),
            cap: argument(rng, 0, GUARANTEE),
        },
        Kind::Question => Call::Question { account: number(rng, at.n) },
        Kind::Trade => trade(rng, words, at),
        Kind::Begin => Call::Begin,
        Kind::Step => Call::Step,
        Kind::Close => close(rng, words, at),
    }
}

/// A request of one account, or a trade: what a run may meet between steps.
pub fn request(rng: &mut Rng, words: &[i64]) -> Call {
    let kind = rng.pick(&KINDS[..5]);
    of(rng, kind, words)
}

/// The next call of a day: runs are run and closes come when they may.
pub fn of_day(rng: &mut Rng, words: &[i64]) -> Call {
    let kind = match (words.get(PHASE), words.first()) {
        _ if rng.one_in(3) => rng.pick(&KINDS),
        (Some(0), _) if rng.one_in(4) => Kind::Begin,
        (Some(&phase), Some(&n)) if phase == n + 1 && rng.one_in(4) => Kind::Close,
        (Some(&phase), Some(&n)) if phase >= 1 && phase <= n && rng.coin() => Kind::Step,
        _ => rng.pick(&KINDS[..5]),
    };
    of(rng, kind, words)
}

/// The account a call names, if it is there.
fn named(words: &[i64], at: Layout, account: i64) -> Option<Account> {
    at.find_account(account).map(|a| Account::read(&words[at.account(a)..]))
}

fn deposit(rng: &mut Rng, words: &[i64], at: Layout) -> Call {
    let account = number(rng, at.n);
    let mut amount = argument(rng, 1, AMOUNT);
    if let (Some(named), true) = (named(words, at, account), rng.one_in(3)) {
        // What brings gross to 10^15, or a yen beside it.
        let dues = named.gross() - named.cash.abs();
        let room = GROSS - dues - named.cash + rng.between(-1, 1);
        if (0..=AMOUNT + 1).contains(&room) {
            amount = room;
        }
    }
    Call::Deposit { account, amount }
}

fn withdraw(rng: &mut Rng, words: &[i64], at: Layout) -> Call {
    let account = number(rng, at.n);
    let mut amount = argument(rng, 1, AMOUNT);
    if let (Some(named), true) = (named(words, at, account), rng.coin()) {
        let limit = named.limit();
        amount = match rng.below(3) {
            0 => limit.max(1),
            1 => limit + 1,
            _ => rng.between(1, limit.max(1)),
        };
    }
    Call::Withdraw { account, amount }
}

fn trade(rng: &mut Rng, words: &[i64], at: Layout) -> Call {
    let (buyer, seller) = sides(rng, words, at);
    let product = number(rng, at.p);
    let mut lots = argument(rng, 1, LOTS);
    let most = price_limit(rng.coin());
    let mut price = argument(rng, 1, most);
    let found = (at.find_account(buyer), at.find_account(seller), at.find_product(product));
    if let ((Some(b), Some(s), Some(j)), true) = (found, rng.below(4) > 0) {
        let cross = words[at.product(j) + CROSS] == 1;
        price = argument(rng, 1, price_limit(cross));
        let (bought, sold) = (at.position(b, j), at.position(s, j));
        let room = (LOTS - words[bought]).min(LOTS + words[sold]);
        lots = match rng.below(6) {
            0 => room,
            1 => room + 1,
            2 | 3 => inside(rng, 1, room.max(1)),
            // As many as the buyer's or the seller's book will bear, or one more.
            _ => {
                let limit = book_limit(cross);
                let book = (limit - words[bought + 1]).min(limit + words[sold + 1]);
                book / price.clamp(1, price_limit(cross)) + rng.between(0, 1)
            }
        };
    }
    Call::Trade { buyer, seller, product, lots, price }
}

/// Mostly one F and one L; at times two alike, the same, or no account.
fn sides(rng: &mut Rng, words: &[i64], at: Layout) -> (i64, i64) {
    let buyer = number(rng, at.n);
    let other = match at.find_account(buyer) {
        Some(b) if rng.below(5) > 0 => {
            let kind = words[at.account(b) + KIND];
            let others: Vec<i64> = (0..at.n as i64)
                .filter(|&a| words[at.account(a as usize) + KIND] != kind)
                .collect();
            if others.is_empty() {
                buyer
            } else {
                rng.pick(&others)
            }
        }
        _ => number(rng, at.n),
    };
    (buyer, other)
}

fn close(rng: &mut Rng, words: &[i64], at: Layout) -> Call {
    let p = if at.p == 0 { 1 + rng.below(4) } else { at.p };
    let gentle = rng.coin();
    let mut prices = vec![];
    let mut rates8 = vec![];
    let mut rates104 = vec![];
    let mut lags = vec![];
    for j in 0..p {
        let product = words.get(at.product(j)..).unwrap_or(&[]);
        let cross = at.p > 0 && product[CROSS] == 1;
        prices.push(match product.get(crate::ledger::PRICE) {
            Some(&last) if at.p > 0 && gentle => {
                last.saturating_add(rng.between(-300, 300)).clamp(1, price_limit(cross))
            }
            _ => inside(rng, 1, price_limit(cross)),
        });
        rates8.push(inside(rng, 1, RATE));
        rates104.push(inside(rng, 1, RATE));
        lags.push(rng.between(0, LAG));
    }
    let mut lists = [prices, rates8, rates104, lags];
    match rng.below(8) {
        0 => wrong_figure(rng, &mut lists, words, at),
        1 => wrong_length(rng, &mut lists),
        _ => {}
    }
    let [prices, rates8, rates104, lags] = lists;
    Call::Close { prices, rates8, rates104, lags }
}

fn wrong_figure(rng: &mut Rng, lists: &mut [Vec<i64>; 4], words: &[i64], at: Layout) {
    let j = rng.below(lists[0].len());
    let cross = at.p > 0 && words[at.product(j) + CROSS] == 1;
    let which = rng.below(4);
    let (low, high) = match which {
        0 => (1, price_limit(cross)),
        3 => (0, LAG),
        _ => (1, RATE),
    };
    lists[which][j] = rng.pick(&[low - 1, high + 1, i64::MIN, i64::MAX, -1]);
}

fn wrong_length(rng: &mut Rng, lists: &mut [Vec<i64>; 4]) {
    let list = &mut lists[rng.below(4)];
    let other = rng.pick(&[0, list.len() - 1, list.len() + 1, list.len() + 16]);
    list.resize(other, 1);
    if rng.one_in(3) {
        for list in lists {
            list.resize(other, 1);
        }
    }
}

/// A ledger in phase n+1 and a close that brings one account's gross to 10^15
/// exactly, or one yen past it, where the drawn dues leave room for that.
pub fn close_at_the_edge(rng: &mut Rng, words: &mut [i64]) -> Option<Call> {
    let at = sound(words)?;
    let call = close(rng, words, at);
    let mut after = words.to_vec();
    if call.put_to(&crate::clerk::Plain, &mut after).number != 0 {
        return None;
    }
    let record = at.account(rng.below(at.n));
    let now = Account::read(&words[record..]);
    let then = Account::read(&after[record..]);
    let rest = |of: &Account| of.gross() - of.cash.abs();
    let cash = GROSS - rest(&then) + rng.between(0, 1);
    if cash < 0 || cash + rest(&now) > GROSS {
        return None;
    }
    words[record + CASH] = if rng.coin() { cash } else { -cash };
    Some(call)
}
