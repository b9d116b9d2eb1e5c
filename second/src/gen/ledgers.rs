//! Sound ledgers, at random and at the ends of every range.

use super::inside;
use crate::ledger::{Layout, CROSS, HOUSE_AT, MARK, N, P, PHASE, PRICE, PRINCIPAL, QUOTE};
use crate::limits::{book_limit, price_limit, GROSS, GUARANTEE, HOUSE, LOTS, MARGIN};
use crate::margin::{CAP, CASH, DUE, GUARANTEE_AT, KIND, MARGIN_AT};
use crate::rng::Rng;

/// How a ledger's figures are drawn.
#[derive(Clone, Copy, Debug, PartialEq, Eq)]
pub enum Flavour {
    /// As on an ordinary day: no figure near an end, books near lots × price.
    Ordinary,
    /// Each figure by itself, ends favoured.
    Any,
    /// Each figure at one end or the other.
    Ends,
    /// All at the upper end, gross exactly 10^15.
    Max,
    /// All at the lower end, gross exactly 10^15 in negative figures.
    Min,
    /// Zero wherever zero is in range.
    Zero,
}

const FLAVOURS: [Flavour; 10] = [
    Flavour::Ordinary,
    Flavour::Ordinary,
    Flavour::Ordinary,
    Flavour::Any,
    Flavour::Any,
    Flavour::Any,
    Flavour::Ends,
    Flavour::Max,
    Flavour::Min,
    Flavour::Zero,
];

impl Flavour {
    pub fn draw(rng: &mut Rng) -> Flavour {
        rng.pick(&FLAVOURS)
    }

    fn figure(self, rng: &mut Rng, low: i64, high: i64) -> i64 {
        match self {
            Flavour::Ordinary => rng.between(low.max(-2_000_000), high.min(2_000_000)),
            Flavour::Any => inside(rng, low, high),
            Flavour::Ends => rng.pick(&[low, high]),
            Flavour::Max => high,
            Flavour::Min => low,
            Flavour::Zero => 0_i64.clamp(low, high),
        }
    }

    fn gross(self, rng: &mut Rng) -> i64 {
        match self {
            Flavour::Max | Flavour::Min => GROSS,
            _ => self.figure(rng, 0, GROSS),
        }
    }

    fn sign(self, rng: &mut Rng) -> i64 {
        match self {
            Flavour::Max => 1,
            Flavour::Min => -1,
            _ => rng.pick(&[1, 1, -1]),
        }
    }
}

/// Counts of accounts and products: mostly small, at times the largest.
pub fn sizes(rng: &mut Rng) -> Layout {
    let n = match rng.below(16) {
        0 => 1,
        1 => 64,
        2 => rng.between(1, 64),
        _ => rng.between(2, 6),
    };
    let p = match rng.below(16) {
        0 => 1,
        1 => 16,
        2 => rng.between(1, 16),
        _ => rng.between(1, 5),
    };
    Layout { n: n as usize, p: p as usize }
}

/// A sound ledger of any size, flavour and phase.
pub fn sound(rng: &mut Rng) -> Vec<i64> {
    let at = sizes(rng);
    sound_of(rng, at)
}

/// A sound ledger of a given size, of any flavour and phase.
pub fn sound_of(rng: &mut Rng, at: Layout) -> Vec<i64> {
    let flavour = Flavour::draw(rng);
    let last = at.n as i64 + 1;
    let phase = match rng.below(10) {
        0..=2 => 0,
        3 => 1,
        4 => last - 1,
        5 | 6 => last,
        _ => rng.between(0, last),
    };
    of(rng, at, flavour, phase)
}

/// A sound ledger of a given size, flavour and phase.
pub fn of(rng: &mut Rng, at: Layout, flavour: Flavour, phase: i64) -> Vec<i64> {
    let mut words = vec![0; at.length()];
    words[N] = at.n as i64;
    words[P] = at.p as i64;
    products(rng, &mut words, at, flavour);
    for a in 0..at.n {
        record(rng, &mut words[at.account(a)..], flavour);
    }
    mix_kinds(rng, &mut words, at);
    for j in 0..at.p {
        lots(rng, &mut words, at, flavour, j);
        books(rng, &mut words, at, flavour, j);
    }
    set_phase(rng, &mut words, at, flavour, phase);
    debug_assert_eq!(crate::ledger::sound(&words), Some(at));
    words
}

/// A sound ledger as a day file can state it: phase and house 0.
pub fn opening(rng: &mut Rng, at: Layout, flavour: Flavour) -> Vec<i64> {
    let mut words = of(rng, at, flavour, 0);
    words[HOUSE_AT] = 0;
    words
}

fn products(rng: &mut Rng, words: &mut [i64], at: Layout, flavour: Flavour) {
    let mut yen: Vec<i64> = vec![];
    for j in 0..at.p {
        let cross = yen.len() >= 2 && rng.below(5) < 2;
        let product = &mut words[at.product(j)..];
        product[CROSS] = i64::from(cross);
        product[MARK] = i64::from(rng.coin());
        product[PRICE] = match flavour {
            Flavour::Ordinary if cross => rng.between(5_000, 20_000),
            Flavour::Ordinary => rng.between(500_000, 2_000_000),
            _ => flavour.figure(rng, 1, price_limit(cross)),
        };
        if cross {
            let principal = rng.below(yen.len());
            let quote = (principal + 1 + rng.below(yen.len() - 1)) % yen.len();
            product[PRINCIPAL] = yen[principal];
            product[QUOTE] = yen[quote];
        } else {
            yen.push(j as i64);
        }
    }
}

/// The eight figures of an account; cash and dues are drawn from its gross.
pub fn record(rng: &mut Rng, record: &mut [i64], flavour: Flavour) {
    record[KIND] = i64::from(rng.coin());
    if record[KIND] == 0 {
        record[GUARANTEE_AT] = flavour.figure(rng, 0, GUARANTEE);
        record[CAP] = flavour.figure(rng, 0, GUARANTEE);
    }
    record[MARGIN_AT] = flavour.figure(rng, 0, MARGIN);
    let gross = flavour.gross(rng);
    let mut parts = [0; 4];
    if rng.one_in(4) {
        parts[rng.below(4)] = gross;
    } else {
        let mut cuts = [rng.between(0, gross), rng.between(0, gross), rng.between(0, gross)];
        cuts.sort_unstable();
        parts = [cuts[0], cuts[1] - cuts[0], cuts[2] - cuts[1], gross - cuts[2]];
    }
    for (at, part) in [CASH, DUE, DUE + 1, DUE + 2].into_iter().zip(parts) {
        record[at] = part * flavour.sign(rng);
    }
    // Requests mean more where there is something to withdraw.
    if flavour == Flavour::Ordinary && rng.coin() {
        record[CASH] = record[CASH].abs() + rng.between(0, 4_000_000);
    }
}

/// Where all accounts are of one kind, mostly turns one over: a trade needs an
/// F and an L.
fn mix_kinds(rng: &mut Rng, words: &mut [i64], at: Layout) {
    let kind = words[at.account(0) + KIND];
    if at.n < 2 || (1..at.n).any(|a| words[at.account(a) + KIND] != kind) || rng.one_in(8) {
        return;
    }
    let record = &mut words[at.account(rng.below(at.n))..];
    record[KIND] = 1 - kind;
    record[GUARANTEE_AT] = 0;
    record[CAP] = 0;
}

/// Lots that add to zero: what one account gets another gives.
fn lots(rng: &mut Rng, words: &mut [i64], at: Layout, flavour: Flavour, j: usize) {
    if flavour == Flavour::Zero || at.n == 1 {
        return;
    }
    if matches!(flavour, Flavour::Max | Flavour::Min) {
        for pair in 0..at.n / 2 {
            words[at.position(2 * pair, j)] = LOTS;
            words[at.position(2 * pair + 1, j)] = -LOTS;
        }
        return;
    }
    for _ in 0..rng.below(at.n + 1) {
        let buyer = rng.below(at.n);
        let seller = (buyer + 1 + rng.below(at.n - 1)) % at.n;
        let room = (LOTS - words[at.position(buyer, j)]).min(LOTS + words[at.position(seller, j)]);
        let moved = match flavour {
            Flavour::Ordinary => rng.between(0, room.min(500)),
            Flavour::Ends => room,
            _ => inside(rng, 0, room),
        };
        words[at.position(buyer, j)] += moved;
        words[at.position(seller, j)] -= moved;
    }
}

fn books(rng: &mut Rng, words: &mut [i64], at: Layout, flavour: Flavour, j: usize) {
    let cross = words[at.product(j) + CROSS] == 1;
    let limit = book_limit(cross);
    let price = words[at.product(j) + PRICE];
    for a in 0..at.n {
        let position = at.position(a, j);
        let lots = words[position];
        words[position + 1] = match flavour {
            Flavour::Ordinary => lots * (price + rng.between(-500, 500)),
            Flavour::Any if rng.coin() => {
                let away = inside(rng, -1_000_000, 1_000_000);
                (lots * price + away).clamp(-limit, limit)
            }
            _ => flavour.figure(rng, -limit, limit),
        };
    }
}

/// Puts a ledger into a phase: due 0 zero where the run has been, and house
/// such that every step still to come keeps it in range.
fn set_phase(rng: &mut Rng, words: &mut [i64], at: Layout, flavour: Flavour, phase: i64) {
    words[PHASE] = phase;
    for a in 0..(phase - 1).max(0) as usize {
        let record = &mut words[at.account(a)..];
        // Gross stays what it was.
        let more = record[DUE].abs();
        record[CASH] += if record[CASH] < 0 { -more } else { more };
        record[DUE] = 0;
    }
    let (low, high) = house_room(words, at, (phase - 1).max(0) as usize);
    words[HOUSE_AT] = if phase == 0 {
        let edge = [low, high, low - 1, high + 1, -HOUSE, HOUSE];
        match rng.below(4) {
            0 => rng.pick(&edge).clamp(-HOUSE, HOUSE),
            _ => flavour.figure(rng, -HOUSE, HOUSE),
        }
    } else if phase == at.n as i64 + 1 {
        flavour.figure(rng, -HOUSE, HOUSE)
    } else {
        flavour.figure(rng, low, high)
    };
}

/// The least and the most house may be so that the run from account `from`
/// keeps it within ±10^17. A run moves at most 64 × 10^15, so there is room.
pub fn house_room(words: &[i64], at: Layout, from: usize) -> (i64, i64) {
    let (mut moved, mut least, mut most) = (0, 0, 0);
    for a in from..at.n {
        moved -= words[at.account(a) + DUE];
        least = moved.min(least);
        most = moved.max(most);
    }
    (-HOUSE - least, HOUSE - most)
}
