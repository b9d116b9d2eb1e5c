//! Demand 3: a run with requests between its transfers gives the answers and
//! the ledger of three stretches: first the one-account requests of accounts
//! that had not had their transfer, then the run, then all the rest, every
//! trade included.

use second::clerk::Plain;
use second::gen::calls::{request, Call, Outcome};
use second::gen::ledgers::{self, Flavour};
use second::ledger::{sound, PHASE};
use second::rng::Rng;

/// Which stretch a call of a mixture belongs to.
#[derive(Clone, Copy, PartialEq, Eq, Debug)]
enum Stretch {
    Before,
    Run,
    After,
}

/// Judged at the moment of the request: in phase f, account a has had its
/// transfer when a ≤ f-2.
fn stretch(call: &Call, words: &[i64]) -> Stretch {
    let account = match *call {
        Call::Deposit { account, .. }
        | Call::Withdraw { account, .. }
        | Call::Guarantee { account, .. }
        | Call::Question { account } => account,
        Call::Begin | Call::Step => return Stretch::Run,
        Call::Trade { .. } | Call::Close { .. } => return Stretch::After,
    };
    let at = sound(words).expect("a sound ledger");
    match at.find_account(account) {
        Some(a) if a as i64 > words[PHASE] - 2 => Stretch::Before,
        _ => Stretch::After,
    }
}

/// A mixture drawn for a ledger, with its answers; the ledger moves along.
fn mixture(rng: &mut Rng, words: &mut Vec<i64>, transfers: usize) -> Vec<(Call, Stretch, Outcome)> {
    let mut done = vec![];
    let put = |call: Call, words: &mut Vec<i64>, done: &mut Vec<_>| {
        let stretch = stretch(&call, words);
        let outcome = call.put_to(&Plain, words);
        done.push((call, stretch, outcome));
    };
    if words[PHASE] == 0 {
        put(Call::Begin, words, &mut done);
    }
    let often = rng.pick(&[2, 4, 8]);
    for _ in 0..transfers {
        for _ in 0..rng.below(often) {
            let call = request(rng, words);
            put(call, words, &mut done);
        }
        put(Call::Step, words, &mut done);
    }
    for _ in 0..rng.below(often) {
        let call = request(rng, words);
        put(call, words, &mut done);
    }
    done
}

fn three_stretches_agree(seed: u64, phase: i64, rounds: usize) {
    let mut rng = Rng::new(seed);
    let mut placed = [0; 2];
    let mut refused = 0;
    let mut traded = 0;
    for _ in 0..rounds {
        let mut at = ledgers::sizes(&mut rng);
        at.n = at.n.min(12);
        let flavour = Flavour::draw(&mut rng);
        let start = ledgers::of(&mut rng, at, flavour, phase);
        let mut refusal = start.clone();
        if phase == 0 && second::begin(&mut refusal).number != 0 {
            continue; // The demand speaks of an accepted begin.
        }
        let mut mixed = start.clone();
        // At times the run stops half way, at times it is asked to go on past
        // its end.
        let transfers = rng.below(at.n + 2);
        let done = mixture(&mut rng, &mut mixed, transfers);
        let mut apart = start.clone();
        for stretch in [Stretch::Before, Stretch::Run, Stretch::After] {
            for (call, placed, outcome) in &done {
                if *placed == stretch {
                    assert_eq!(call.put_to(&Plain, &mut apart), *outcome, "{call:?} {start:?}");
                }
            }
        }
        assert_eq!(apart, mixed, "{start:?}");
        for (_, stretch, outcome) in &done {
            placed[0] += usize::from(*stretch == Stretch::Before);
            placed[1] += usize::from(*stretch == Stretch::After);
            refused += usize::from(matches!(outcome.number, 10 | 11));
        }
        traded += done
            .iter()
            .filter(|(call, _, outcome)| call.name() == "trade" && outcome.number == 0)
            .count();
    }
    assert!(placed.iter().all(|&count| count > rounds), "{placed:?} placed");
    assert!(refused > rounds / 4, "{refused} refused by the account's own figures");
    assert!(traded > rounds / 10, "{traded} trades done between transfers");
}

#[test]
fn from_the_ledger_after_begin() {
    three_stretches_agree(21, 1, 3_000);
}

#[test]
fn from_the_ledger_before_begin() {
    three_stretches_agree(22, 0, 3_000);
}

/// That the placing matters: with all requests before the run some answers
/// would differ, so the test above does not hold by emptiness.
#[test]
fn the_stretches_cannot_be_joined() {
    let mut rng = Rng::new(23);
    let mut differing = 0;
    for _ in 0..400 {
        let at = ledgers::sizes(&mut rng);
        let start = ledgers::of(&mut rng, at, Flavour::Ordinary, 1);
        let mut mixed = start.clone();
        let done = mixture(&mut rng, &mut mixed, at.n);
        let mut joined = start.clone();
        let requests = done.iter().filter(|(_, stretch, _)| *stretch != Stretch::Run);
        differing += usize::from(
            requests
                .into_iter()
                .any(|(call, _, outcome)| call.put_to(&Plain, &mut joined) != *outcome),
        );
    }
    assert!(differing > 40, "{differing} of 400 differ");
}
