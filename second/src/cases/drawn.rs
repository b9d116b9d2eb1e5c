//! Cases drawn by the generators.

use crate::gen::calls::{self, Call, Kind};
use crate::gen::ledgers::{self, Flavour};
use crate::gen::{argument, damage, rates, shares, spoil, texts};
use crate::ledger::Layout;
use crate::limits::AMOUNT;
use crate::margin::{Account, RECORD};
use crate::rng::Rng;

/// A case of a kind, as the lists it lends.
pub fn draw(rng: &mut Rng, kind: char) -> Vec<Vec<i64>> {
    match kind {
        'H' => {
            let of = shares::draw(rng, 64);
            // What the written lists hold before needs few digits here.
            let (first, second) = (vec![7; of.first.len()], vec![-7; of.second.len()]);
            vec![vec![of.loss], of.deposits, of.differences, of.marks, first, second]
        }
        'M' => {
            let of = rates::draw(rng);
            vec![of.weeks8, of.weeks104]
        }
        'P' | 'R' => teller(rng),
        'X' => {
            let text = match rng.below(3) {
                0 => texts::small(rng).bytes(),
                _ => damage::draw(rng).1,
            };
            vec![vec![], text.into_iter().map(i64::from).collect()]
        }
        _ => ledger_case(rng, kind),
    }
}

fn teller(rng: &mut Rng) -> Vec<Vec<i64>> {
    let mut record = vec![0; RECORD];
    let flavour = Flavour::draw(rng);
    ledgers::record(rng, &mut record, flavour);
    let limit = Account::read(&record).limit();
    let amount = match rng.below(3) {
        0 => limit.max(1),
        1 => limit + 1,
        _ => argument(rng, 1, AMOUNT),
    };
    if rng.one_in(4) {
        let place = rng.below(RECORD);
        record[place] = argument(rng, 0, AMOUNT);
    }
    vec![vec![amount], record]
}

fn ledger_case(rng: &mut Rng, kind: char) -> Vec<Vec<i64>> {
    let at = Layout { n: rng.pick(&[1, 2, 2, 2, 3, 3]), p: 1 + rng.below(4) };
    let done = at.n as i64 + 1;
    let running = rng.between(1, at.n as i64);
    let flavour = Flavour::draw(rng);
    let mut words = match rng.below(8) {
        0 => spoil::spoiled_of(rng, at).1,
        1..=6 if kind == 'C' => ledgers::of(rng, at, flavour, done),
        1..=5 if kind == 'S' => ledgers::of(rng, at, flavour, running),
        1..=5 if kind == 'B' => ledgers::of(rng, at, flavour, 0),
        _ => ledgers::sound_of(rng, at),
    };
    let kind = match kind {
        'D' => Kind::Deposit,
        'W' => Kind::Withdraw,
        'G' => Kind::Guarantee,
        'Q' => Kind::Question,
        'T' => Kind::Trade,
        'B' => Kind::Begin,
        'S' => Kind::Step,
        _ => Kind::Close,
    };
    let edge = if kind == Kind::Close { calls::close_at_the_edge(rng, &mut words) } else { None };
    let call = edge.filter(|_| rng.coin()).unwrap_or_else(|| calls::of(rng, kind, &words));
    match call {
        Call::Deposit { account, amount } | Call::Withdraw { account, amount } => {
            vec![vec![account, amount], words]
        }
        Call::Guarantee { account, guarantee, cap } => vec![vec![account, guarantee, cap], words],
        Call::Question { account } => vec![vec![account], words],
        Call::Trade { buyer, seller, product, lots, price } => {
            vec![vec![buyer, seller, product, lots, price], words]
        }
        Call::Begin | Call::Step => vec![vec![], words],
        Call::Close { prices, rates8, rates104, lags } => {
            vec![vec![], words, prices, rates8, rates104, lags]
        }
    }
}
