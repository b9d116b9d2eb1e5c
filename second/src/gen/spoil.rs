//! Spoiled ledgers: each clause of soundness broken in turn, wild words, wrong
//! lengths, counts that only fit the length formula.

// All breaks have one type, and some of them change the length.
#![allow(clippy::ptr_arg)]

use super::ledgers;
use crate::ledger::{Layout, CROSS, HOUSE_AT, MARK, N, P, PHASE, PRICE, PRINCIPAL, QUOTE};
use crate::limits::{book_limit, price_limit, ACCOUNTS, GROSS, GUARANTEE, HOUSE, LOTS, MARGIN};
use crate::margin::{Account, CAP, CASH, DUE, GUARANTEE_AT, KIND, MARGIN_AT};
use crate::rng::Rng;

/// Breaks a clause, or says that this ledger gives no occasion for it.
type Break = fn(&mut Rng, &mut Vec<i64>, Layout) -> bool;

/// The clauses, each by its name.
pub const BREAKS: [(&str, Break); 27] = [
    ("count out of range", count),
    ("counts that fit the length", fitting_counts),
    ("count that wraps to the length", wrapping_count),
    ("length", length),
    ("phase", |rng, w, at| put(w, PHASE, rng.pick(&[-1, at.n as i64 + 2, i64::MAX, i64::MIN]))),
    ("house", |rng, w, _| outside(rng, w, HOUSE_AT, -HOUSE, HOUSE)),
    ("product kind", |rng, w, at| of_product(rng, w, at, CROSS, 1)),
    ("floor mark", |rng, w, at| of_product(rng, w, at, MARK, 1)),
    ("price", price),
    ("yen product naming others", yen_names),
    ("cross names", cross_names),
    ("account kind", |rng, w, at| of_account(rng, w, at, KIND, 1)),
    ("gross", gross),
    ("gross that goes round", gross_round),
    ("guarantee", |rng, w, at| of_account(rng, w, at, GUARANTEE_AT, GUARANTEE)),
    ("cap", |rng, w, at| of_account(rng, w, at, CAP, GUARANTEE)),
    ("provider's guarantee", |rng, w, at| providers(rng, w, at, GUARANTEE_AT)),
    ("provider's cap", |rng, w, at| providers(rng, w, at, CAP)),
    ("margin", |rng, w, at| of_account(rng, w, at, MARGIN_AT, MARGIN)),
    ("lots of one position", lots),
    ("lots adding to something", lots_sum),
    ("book", book),
    ("due 0 behind the run", due_behind),
    ("house during the run", house_run),
    ("-2^63 somewhere", |rng, w, _| put_anywhere(rng, w, i64::MIN)),
    ("a wild word", |rng, w, _| {
        let size = rng.between(1 << 60, i64::MAX);
        let word = if rng.coin() { size } else { -size };
        put_anywhere(rng, w, word)
    }),
    ("wild all through", wild),
];

/// A spoiled ledger and the name of what is wrong with it.
pub fn spoiled(rng: &mut Rng) -> (&'static str, Vec<i64>) {
    let at = ledgers::sizes(rng);
    spoiled_of(rng, at)
}

/// The same, of a given size before it is spoiled.
pub fn spoiled_of(rng: &mut Rng, at: Layout) -> (&'static str, Vec<i64>) {
    loop {
        let which = rng.below(BREAKS.len());
        if let Some(found) = spoiled_by(rng, at, which) {
            return found;
        }
    }
}

/// A ledger spoiled in one named way, where the ledger drawn allows it.
pub fn spoiled_by(rng: &mut Rng, at: Layout, which: usize) -> Option<(&'static str, Vec<i64>)> {
    let mut words = ledgers::sound_of(rng, at);
    let (name, spoil) = BREAKS[which];
    spoil(rng, &mut words, at).then_some((name, words))
}

fn put(words: &mut [i64], at: usize, word: i64) -> bool {
    words[at] = word;
    true
}

fn put_anywhere(rng: &mut Rng, words: &mut [i64], word: i64) -> bool {
    let at = rng.below(words.len());
    put(words, at, word)
}

/// A word just outside its range, or far outside.
fn outside(rng: &mut Rng, words: &mut [i64], at: usize, low: i64, high: i64) -> bool {
    put(words, at, rng.pick(&[low - 1, high + 1, low - 1, high + 1, i64::MIN, i64::MAX]))
}

/// A word of some product past its range from 0.
fn of_product(rng: &mut Rng, words: &mut [i64], at: Layout, place: usize, high: i64) -> bool {
    let product = at.product(rng.below(at.p));
    outside(rng, words, product + place, 0, high)
}

/// A word of some account past its range from 0.
fn of_account(rng: &mut Rng, words: &mut [i64], at: Layout, place: usize, high: i64) -> bool {
    let record = at.account(rng.below(at.n));
    outside(rng, words, record + place, 0, high)
}

fn count(rng: &mut Rng, words: &mut Vec<i64>, _: Layout) -> bool {
    let place = rng.pick(&[N, P]);
    let most = if place == N { ACCOUNTS } else { 16 };
    put(words, place, rng.pick(&[0, -1, most + 1, i64::MIN, i64::MAX]))
}

/// Counts out of range for which 4 + 5p + n(8 + 2p) is the length all the same.
fn fitting_counts(rng: &mut Rng, words: &mut Vec<i64>, _: Layout) -> bool {
    let p = rng.between(-40, 40);
    let n = rng.between(-80, 80);
    let length = 4 + 5 * p + n * (8 + 2 * p);
    let in_range = (1..=64).contains(&n) && (1..=16).contains(&p);
    if in_range || !(4..=6_000).contains(&length) {
        return false;
    }
    words.resize(length as usize, 0);
    words[N] = n;
    words[P] = p;
    words[PHASE] = 0;
    true
}

/// n with its highest bit turned over: 2^63 × (8 + 2p) goes round to 0.
fn wrapping_count(_: &mut Rng, words: &mut Vec<i64>, _: Layout) -> bool {
    words[N] ^= i64::MIN;
    true
}

fn length(rng: &mut Rng, words: &mut Vec<i64>, at: Layout) -> bool {
    let right = words.len();
    let wrong = match rng.below(6) {
        0 => right - 1,
        1 => right + 1,
        2 => rng.below(5),
        3 => right + at.stride(),
        4 => right - at.stride(),
        _ => rng.below(right),
    };
    words.resize(wrong, 0);
    true
}

fn price(rng: &mut Rng, words: &mut Vec<i64>, at: Layout) -> bool {
    let product = at.product(rng.below(at.p));
    let most = price_limit(words[product + CROSS] == 1);
    outside(rng, words, product + PRICE, 1, most)
}

fn yen_names(rng: &mut Rng, words: &mut Vec<i64>, at: Layout) -> bool {
    let product = at.product(rng.below(at.p));
    let named = rng.pick(&[1, -1, at.p as i64 - 1, i64::MIN]);
    let place = rng.pick(&[PRINCIPAL, QUOTE]);
    words[product + CROSS] == 0 && named != 0 && put(words, product + place, named)
}

/// A cross that names itself, a later product, another cross, none, or the
/// same product twice.
fn cross_names(rng: &mut Rng, words: &mut Vec<i64>, at: Layout) -> bool {
    let crosses: Vec<usize> = (0..at.p).filter(|&j| words[at.product(j) + CROSS] == 1).collect();
    if crosses.is_empty() {
        return false;
    }
    let j = rng.pick(&crosses);
    let product = at.product(j);
    let place = rng.pick(&[PRINCIPAL, QUOTE]);
    let other = words[product + PRINCIPAL + QUOTE - place];
    let choice = rng.below(6);
    let named = match choice {
        0 => other,
        1 => j as i64,
        2 => crosses[0] as i64,
        3 => rng.between(j as i64, at.p as i64),
        4 => -1,
        _ => rng.pick(&[i64::MIN, i64::MAX, 16]),
    };
    put(words, product + place, named)
}

/// Gross one yen too large, or far too large, in any of its four figures.
fn gross(rng: &mut Rng, words: &mut Vec<i64>, at: Layout) -> bool {
    let record = at.account(rng.below(at.n));
    let place = record + rng.pick(&[CASH, DUE, DUE + 1, DUE + 2]);
    let rest = Account::read(&words[record..]).gross() - words[place].abs();
    let size = GROSS + 1 - rest + rng.pick(&[0, 0, 1, GROSS]);
    put(words, place, if rng.coin() { size } else { -size })
}

/// Figures whose absolute values add to 0 in 64 bits.
fn gross_round(rng: &mut Rng, words: &mut Vec<i64>, at: Layout) -> bool {
    let record = at.account(rng.below(at.n));
    let figures = match rng.below(3) {
        0 => [1 << 62, 1 << 62, 1 << 62, 1 << 62],
        1 => [i64::MIN, i64::MIN, 0, 0],
        _ => [i64::MAX, i64::MAX, 1, -1],
    };
    for (place, figure) in [CASH, DUE, DUE + 1, DUE + 2].into_iter().zip(figures) {
        words[record + place] = figure;
    }
    true
}

fn providers(rng: &mut Rng, words: &mut [i64], at: Layout, place: usize) -> bool {
    let record = at.account(rng.below(at.n));
    let figure = rng.pick(&[1, 1_000_000, GUARANTEE]);
    words[record + KIND] == 1 && put(words, record + place, figure)
}

/// Lots past their range on one side, made good on the other: only the range
/// of a position is broken, the sum is not.
fn lots(rng: &mut Rng, words: &mut Vec<i64>, at: Layout) -> bool {
    if at.n < 2 {
        return false;
    }
    let j = rng.below(at.p);
    let buyer = rng.below(at.n);
    let seller = (buyer + 1 + rng.below(at.n - 1)) % at.n;
    let far = rng.pick(&[0, 1, 1 << 40, i64::MAX - 2 * LOTS - 1]);
    let moved = LOTS + 1 - words[at.position(buyer, j)].abs() + far;
    let sign = if words[at.position(buyer, j)] < 0 { -1 } else { 1 };
    words[at.position(buyer, j)] += sign * moved;
    words[at.position(seller, j)] -= sign * moved;
    true
}

fn lots_sum(rng: &mut Rng, words: &mut Vec<i64>, at: Layout) -> bool {
    let place = at.position(rng.below(at.n), rng.below(at.p));
    let off = rng.pick(&[1, -1, 2]);
    let sum = words[place] + off;
    sum.abs() <= LOTS && put(words, place, sum)
}

fn book(rng: &mut Rng, words: &mut Vec<i64>, at: Layout) -> bool {
    let j = rng.below(at.p);
    let limit = book_limit(words[at.product(j) + CROSS] == 1);
    let place = at.position(rng.below(at.n), j) + 1;
    outside(rng, words, place, -limit, limit)
}

fn due_behind(rng: &mut Rng, words: &mut Vec<i64>, at: Layout) -> bool {
    let behind = (words[PHASE] - 1).max(0) as usize;
    if behind == 0 {
        return false;
    }
    let record = at.account(rng.below(behind));
    let account = Account::read(&words[record..]);
    account.gross() < GROSS && put(words, record + DUE, rng.pick(&[1, -1]))
}

/// House one yen past what some step of the run would bear.
fn house_run(rng: &mut Rng, words: &mut Vec<i64>, at: Layout) -> bool {
    let phase = words[PHASE];
    if phase == 0 || phase > at.n as i64 {
        return false;
    }
    let (low, high) = ledgers::house_room(words, at, phase as usize - 1);
    let house = rng.pick(&[low - 1, high + 1]);
    house.abs() <= HOUSE && put(words, HOUSE_AT, house)
}

fn wild(rng: &mut Rng, words: &mut Vec<i64>, _: Layout) -> bool {
    let from = rng.pick(&[0, 2, 4]);
    for word in &mut words[from..] {
        *word = rng.any();
    }
    true
}
