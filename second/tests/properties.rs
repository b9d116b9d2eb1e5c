//! Properties over generated input: soundness against a second telling of it,
//! sound in and sound out, refusals that change nothing, shares that add up.

use second::clerk::Plain;
use second::gen::calls::{self, KINDS};
use second::gen::ledgers::{self, Flavour};
use second::gen::{shares, spoil, texts};
use second::ledger::{self, Layout};
use second::rng::Rng;
use second::{share, sheet};

/// Soundness clause by clause, in the paper's order and words.
fn is_sound(words: &[i64]) -> bool {
    let w: Vec<i128> = words.iter().map(|&word| i128::from(word)).collect();
    if w.len() < 4 || !(1..=64).contains(&w[0]) || !(1..=16).contains(&w[1]) {
        return false;
    }
    let (n, p) = (w[0] as usize, w[1] as usize);
    if w.len() != 4 + 5 * p + n * (8 + 2 * p) {
        return false;
    }
    let product = |j: usize, k: usize| w[4 + 5 * j + k];
    let account = |a: usize, k: usize| w[4 + 5 * p + a * (8 + 2 * p) + k];
    let ten = |exponent: u32| 10_i128.pow(exponent);
    let mut sound = (0..=w[0] + 1).contains(&w[2]) && w[3].abs() <= ten(17);
    for j in 0..p {
        sound &= (0..=1).contains(&product(j, 0)) && (0..=1).contains(&product(j, 1));
        let (names, most) = ([product(j, 3), product(j, 4)], [5_000_000, 200_000]);
        if product(j, 0) == 1 {
            sound &= (1..=most[1]).contains(&product(j, 2)) && names[0] != names[1];
            for name in names {
                sound &= (0..j as i128).contains(&name) && product(name as usize, 0) == 0;
            }
        } else {
            sound &= (1..=most[0]).contains(&product(j, 2)) && names == [0, 0];
        }
        if !sound {
            return false;
        }
        let book = if product(j, 0) == 1 { 4 * ten(11) } else { ten(13) };
        sound &= (0..n).all(|a| account(a, 8 + 2 * j).abs() <= ten(6));
        sound &= (0..n).all(|a| account(a, 9 + 2 * j).abs() <= book);
        sound &= (0..n).map(|a| account(a, 8 + 2 * j)).sum::<i128>() == 0;
    }
    for a in 0..n {
        let gross = account(a, 1).abs() + (5..8).map(|k| account(a, k).abs()).sum::<i128>();
        sound &= (0..=1).contains(&account(a, 0)) && gross <= ten(15);
        sound &= (2..4).all(|k| (0..=ten(12)).contains(&account(a, k)));
        sound &= (0..=8 * ten(12)).contains(&account(a, 4));
        sound &= account(a, 0) == 0 || (account(a, 2) == 0 && account(a, 3) == 0);
        sound &= w[2] == 0 || a as i128 >= w[2] - 1 || account(a, 5) == 0;
    }
    if sound && (1..=w[0]).contains(&w[2]) {
        let from = w[2] as usize - 1;
        for last in from..n {
            let taken = (from..=last).map(|a| account(a, 5)).sum::<i128>();
            sound &= (w[3] - taken).abs() <= ten(17);
        }
    }
    sound
}

#[test]
fn generated_ledgers_are_sound() {
    let mut rng = Rng::new(11);
    for _ in 0..4_000 {
        let words = ledgers::sound(&mut rng);
        assert!(is_sound(&words), "{words:?}");
        assert!(ledger::sound(&words).is_some(), "{words:?}");
    }
}

#[test]
fn the_largest_ledgers_are_sound_in_every_phase() {
    let mut rng = Rng::new(12);
    for flavour in [Flavour::Max, Flavour::Min, Flavour::Ends, Flavour::Any] {
        for phase in 0..=65 {
            let words = ledgers::of(&mut rng, Layout { n: 64, p: 16 }, flavour, phase);
            assert!(is_sound(&words) && ledger::sound(&words).is_some());
        }
    }
}

#[test]
fn spoiled_ledgers_are_unsound_and_refused_by_every_call() {
    let mut rng = Rng::new(13);
    for which in 0..spoil::BREAKS.len() {
        let mut found = 0;
        for _ in 0..4_000 {
            let at = ledgers::sizes(&mut rng);
            let Some((name, words)) = spoil::spoiled_by(&mut rng, at, which) else { continue };
            found += 1;
            assert!(!is_sound(&words), "{name}: {words:?}");
            let kind = KINDS[found % KINDS.len()];
            let call = calls::of(&mut rng, kind, &words);
            let mut after = words.clone();
            let given = call.put_to(&Plain, &mut after);
            assert_eq!((given.number, given.figures), (1, [0; 3]), "{name}: {call:?} {words:?}");
            assert_eq!(after, words, "{name}: {call:?}");
            if found == 60 {
                break;
            }
        }
        assert!(found >= 10, "{}: only {found}", spoil::BREAKS[which].0);
    }
}

#[test]
fn both_tellings_of_soundness_agree_on_changed_words() {
    let mut rng = Rng::new(14);
    let (mut sound, mut not) = (0, 0);
    for _ in 0..20_000 {
        let mut words = ledgers::sound(&mut rng);
        for _ in 0..1 + rng.below(3) {
            let place = rng.below(words.len());
            let near = words[place].saturating_add(rng.between(-2, 2));
            let limit = rng.pick(&[
                1,
                2,
                64,
                65,
                1_000_001,
                200_001,
                5_000_001,
                1_000_000_000_001,
                i64::MIN,
            ]);
            let inner = limit.saturating_sub(1);
            words[place] = rng.pick(&[near, limit, limit.wrapping_neg(), inner]);
        }
        assert_eq!(is_sound(&words), ledger::sound(&words).is_some(), "{words:?}");
        if is_sound(&words) {
            sound += 1;
        } else {
            not += 1;
        }
    }
    assert!(sound > 1_000 && not > 1_000, "{sound} sound, {not} not");
}

#[test]
fn sound_in_sound_out_and_refusals_change_nothing() {
    let mut rng = Rng::new(15);
    for _ in 0..600 {
        let mut words = ledgers::sound(&mut rng);
        for _ in 0..60 {
            let call = calls::of_day(&mut rng, &words);
            let before = words.clone();
            let given = call.put_to(&Plain, &mut words);
            assert!(is_sound(&words), "{call:?} {before:?}");
            if given.number != 0 || call.name() == "question" {
                assert_eq!(words, before, "{call:?}");
            }
            if given.number != 0 && given.number != 11 && given.number != 12 {
                assert_eq!(given.figures, [0; 3], "{call:?}");
            }
        }
    }
}

#[test]
fn cash_and_house_keep_their_sum() {
    let mut rng = Rng::new(16);
    for _ in 0..400 {
        let mut words = ledgers::sound(&mut rng);
        let at = ledger::sound(&words).expect("a sound ledger");
        let all = |words: &[i64]| {
            let cash = (0..at.n).map(|a| i128::from(words[at.account(a) + 1])).sum::<i128>();
            cash + i128::from(words[3])
        };
        for _ in 0..40 {
            let call = calls::of_day(&mut rng, &words);
            let before = all(&words);
            let given = call.put_to(&Plain, &mut words);
            let paid = match call {
                calls::Call::Deposit { amount, .. } if given.number == 0 => amount,
                calls::Call::Withdraw { amount, .. } if given.number == 0 => -amount,
                _ => 0,
            };
            assert_eq!(all(&words), before + i128::from(paid), "{call:?}");
        }
    }
}

#[test]
fn shares_add_to_their_layers() {
    let mut rng = Rng::new(17);
    for _ in 0..20_000 {
        let mut of = shares::good(&mut rng, 64);
        let given =
            share(of.loss, &of.deposits, &of.differences, &of.marks, &mut of.first, &mut of.second);
        assert_eq!(given.number, 0);
        let sum = |list: &[i64]| list.iter().map(|&x| i128::from(x)).sum::<i128>();
        let survivor = |a: usize| of.marks[a] == 0;
        let members = 0..of.marks.len();
        let weight = |a: usize| i128::from(if survivor(a) { of.deposits[a] } else { 0 });
        let gain = |a: usize| i128::from(if survivor(a) { of.differences[a].max(0) } else { 0 });
        let owed = |a: usize| i128::from(if survivor(a) { 0 } else { (-of.differences[a]).max(0) });
        let one = members.clone().map(weight).sum::<i128>().min(i128::from(of.loss));
        let rest = i128::from(of.loss) - one;
        let (gains, owing) =
            (members.clone().map(gain).sum::<i128>(), members.clone().map(owed).sum::<i128>());
        let two = rest.min(owing).min(gains);
        assert_eq!(sum(&of.first), one);
        assert_eq!(sum(&of.second), two);
        assert_eq!(i128::from(given.figure), rest - two);
        check_shares(one, &members.clone().map(weight).collect::<Vec<_>>(), &of.first);
        check_shares(two, &members.clone().map(gain).collect::<Vec<_>>(), &of.second);
    }
}

/// The shares by another way: the next yen's owner found by search each time.
fn check_shares(layer: i128, weights: &[i128], shares: &[i64]) {
    let sum = weights.iter().sum::<i128>().max(1);
    let mut expected: Vec<i128> = weights.iter().map(|w| layer * w / sum).collect();
    let mut rest: Vec<i128> = weights.iter().map(|w| layer * w % sum).collect();
    for _ in 0..layer - expected.iter().sum::<i128>() {
        let most = *rest.iter().max().expect("a member");
        let owner = rest.iter().position(|&r| r == most).expect("the largest");
        expected[owner] += 1;
        rest[owner] = -1;
    }
    assert_eq!(expected, shares.iter().map(|&s| i128::from(s)).collect::<Vec<_>>());
}

#[test]
fn refused_sharings_leave_the_lists() {
    let mut rng = Rng::new(18);
    let mut refused = [0; 9];
    for _ in 0..20_000 {
        let of = shares::draw(&mut rng, 64);
        let (mut first, mut second) = (of.first.clone(), of.second.clone());
        let given =
            share(of.loss, &of.deposits, &of.differences, &of.marks, &mut first, &mut second);
        if given.number != 0 {
            assert_eq!((given.figure, first, second), (0, of.first, of.second));
        }
        refused[given.number as usize] += 1;
    }
    assert!([2, 5, 8].iter().all(|&number| refused[number] > 100), "{refused:?}");
}

#[test]
fn sheets_fit_their_room() {
    let mut rng = Rng::new(19);
    for _ in 0..300 {
        let (_, text) = second::gen::damage::draw(&mut rng);
        let out = sheet(&text);
        assert!(out.len() < 65_536 && out.ends_with(b"\n"));
    }
}

/// M-101: one sheet in ten shows an L who owes today and not tomorrow.
#[test]
fn sheets_show_who_owes_today() {
    let mut rng = Rng::new(20);
    let mut showing = 0;
    for _ in 0..300 {
        let text = texts::good(&mut rng);
        let accounts = &text.lines[text.accounts_from()..text.positions_from()];
        let out = String::from_utf8(sheet(&text.bytes())).expect("a sheet is plain text");
        let mut shown = accounts.iter().zip(out.lines().skip(1 + text.calls));
        showing += usize::from(shown.any(|(account, line)| {
            let figures: Vec<i64> = line.split(' ').map(|f| f.parse().expect("a figure")).collect();
            account.starts_with('L') && figures[2] < 0 && figures[3] >= 0
        }));
    }
    assert!(showing > 30, "{showing} of 300");
}
