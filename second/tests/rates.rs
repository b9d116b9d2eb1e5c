//! Margin rates (M-105): figures worked from the rule, and over generated lists
//! rates that are enough and no larger, handed back with the caller's own list.

use second::gen::rates;
use second::limits::LOG_RATIO;
use second::rng::Rng;
use second::{rate, Reply};
use std::cmp::Ordering;

fn reply(number: u64, figure: i64) -> Reply {
    Reply { number, figure }
}

/// The rate of a list by itself, beside one whose rate is 1.
#[test]
fn rates_by_hand() {
    let halves = [[-20_000; 260], [20_000; 260]].concat();
    let alike_but_one = [vec![5; 519], vec![6]].concat();
    for (list, expected) in [
        (&[0, 100][..], 17),
        (&[0, 200], 33),
        // 0.233 times a deviation of 1,000 is whole; a bit more rounds up.
        (&[-1_000, 1_000, -1_000, 1_000, 0], 233),
        (&[-1_000, 1_000, -1_000, 1_001, 0], 234),
        (&[-1_000, 1_000, -1_000, 999, 0], 233),
        (&[-2_000, 0, 0, 0, 2_000, 0, 0, 0, 0], 233),
        (&[-20_000, 20_000, 0], 4_660),
        // At least 1: without any deviation, and with one of less than 1.
        (&[5, 5, 5], 1),
        (&[0, 0], 1),
        (&[-20_000; 520], 1),
        (&[0, 1], 1),
        (&[0, 6], 1),
        (&[0, 7], 2),
        (&alike_but_one, 1),
        (&[-20_000, 20_000], 6_591),
        (&halves, 4_665),
    ] {
        assert_eq!(rate(list, &[5, 5, 5]).0, reply(0, expected), "{list:?}");
        assert_eq!(rate(&[5, 5, 5], list).0, reply(0, expected), "{list:?}");
    }
}

/// The larger rate governs, the 8-week list on a tie of the rates, though
/// the deviations may differ.
#[test]
fn which_list_governs() {
    let whole = [-1_000, 1_000, -1_000, 1_000, 0];
    for (weeks8, weeks104, figure, first) in [
        (&[0, 200][..], &[0, 100][..], 33, true),
        (&[0, 100], &[0, 200], 33, false),
        (&[0, 100], &[0, 100], 17, true),
        (&[0, 100], &[100, 0], 17, true),
        (&[0, 100], &[-20_000, -19_900], 17, true),
        (&[0, 98], &[0, 103], 17, true),
        (&[0, 97], &[0, 98], 17, false),
        (&[0, 103], &[0, 104], 18, false),
        (&whole, &[-1_000, 1_000, -1_000, 999, 0], 233, true),
        (&[-1_000, 1_000, -1_000, 999, 0], &whole, 233, true),
        (&whole, &[-1_000, 1_000, -1_000, 1_001, 0], 234, false),
        (&[5, 5, 5], &[-7, -7], 1, true),
        (&[5, 5], &[0, 6], 1, true),
        (&[5, 5], &[0, 7], 2, false),
    ] {
        let (given, governs) = rate(weeks8, weeks104);
        assert_eq!(given, reply(0, figure), "{weeks8:?} {weeks104:?}");
        let expected = if first { weeks8 } else { weeks104 };
        assert!(std::ptr::eq(governs, expected), "{weeks8:?} {weeks104:?}");
    }
}

#[test]
fn refused_in_order() {
    let (good, long) = ([0, 100], [5; 521]);
    let last_past = [vec![5; 519], vec![20_001]].concat();
    for (list, number) in [
        (&[][..], 2),
        (&[7], 2),
        (&long, 2),
        (&[20_001], 2),
        (&[i64::MIN], 2),
        (&[20_001; 521], 2),
        (&[0, 20_001], 8),
        (&[-20_001, 0], 8),
        (&[i64::MIN, i64::MIN], 8),
        (&[i64::MAX, 0], 8),
        (&last_past, 8),
    ] {
        for (weeks8, weeks104) in [(list, &good[..]), (&good, list), (list, list)] {
            assert_eq!(refused(weeks8, weeks104), number, "{weeks8:?} {weeks104:?}");
        }
    }
    // A length comes before a figure, whichever list it is.
    for short in [&[][..], &[7], &long] {
        assert_eq!(refused(short, &[0, 20_001]), 2);
        assert_eq!(refused(&[0, 20_001], short), 2);
    }
    // Both ends of both ranges are taken.
    assert_eq!(rate(&[20_000, -20_000], &[-20_000; 520]).0, reply(0, 6_591));
}

/// The number of a refusal, whose figure is 0 and whose part is the empty one at
/// the start of the 8-week list.
fn refused(weeks8: &[i64], weeks104: &[i64]) -> u64 {
    let (given, part) = rate(weeks8, weeks104);
    assert_eq!(given.figure, 0);
    assert!(std::ptr::eq(part, &weeks8[..0]), "{weeks8:?} {weeks104:?}");
    given.number
}

/// A rate against the exact figure, straight from article 4: the mean, the
/// distances from it, the count less one. The distances are multiplied by the
/// count, so that they are whole; 0.233 is 233 thousandths.
fn against_exact(rate: i64, list: &[i64]) -> Ordering {
    let count = list.len() as i128;
    let sum: i128 = list.iter().map(|&x| i128::from(x)).sum();
    let distances = list.iter().map(|&x| count * i128::from(x) - sum);
    let squares: i128 = distances.map(|distance| distance * distance).sum();
    // squares / (count² × (count - 1)) is the deviation squared.
    let left = (1_000 * i128::from(rate)).pow(2) * count.pow(2) * (count - 1);
    left.cmp(&(233_i128.pow(2) * squares))
}

/// Enough, and one less would not be, or it is 1.
fn is_the_least(rate: i64, list: &[i64]) -> bool {
    let enough = |rate| against_exact(rate, list).is_ge();
    enough(rate) && (rate == 1 || rate > 1 && !enough(rate - 1))
}

/// The rate of a list that fits.
fn alone(list: &[i64]) -> i64 {
    let (given, part) = rate(list, list);
    assert!(given.number == 0 && std::ptr::eq(part, list), "{given:?} {list:?}");
    given.figure
}

#[test]
fn rates_are_enough_and_one_less_is_not() {
    let mut rng = Rng::new(24);
    let (mut whole, mut ones) = (0, 0);
    for _ in 0..10_000 {
        let of = rates::good(&mut rng);
        for list in [&of.weeks8, &of.weeks104] {
            let rate = alone(list);
            assert!(is_the_least(rate, list), "{rate} {list:?}");
            // And so below the 10,000 that a close takes.
            assert!((1..=6_591).contains(&rate), "{rate} {list:?}");
            whole += usize::from(against_exact(rate, list).is_eq());
            ones += usize::from(rate == 1);
        }
    }
    assert!(whole > 500 && ones > 500, "{whole} whole, {ones} of 1");
}

/// All distances of two figures: the rate grows with them, and the largest rate
/// of all is that of the two ends.
#[test]
fn rates_of_two_figures() {
    let mut before = 1;
    for apart in 0..=2 * LOG_RATIO {
        let rate = alone(&[-LOG_RATIO, apart - LOG_RATIO]);
        assert!(rate == before || rate == before + 1, "{apart}");
        assert!(is_the_least(rate, &[0, apart]), "{apart}");
        before = rate;
    }
    assert_eq!(before, 6_591);
}

/// Half of the figures at either end, for every count: more of them deviate
/// less.
#[test]
fn rates_of_the_ends() {
    let mut before = 6_591;
    for count in 2..=520 {
        let list: Vec<i64> =
            (0..count).map(|k| if k % 2 == 0 { -LOG_RATIO } else { LOG_RATIO }).collect();
        let rate = alone(&list);
        assert!(is_the_least(rate, &list) && rate <= before, "{count}");
        before = rate;
    }
    assert_eq!(before, 4_665);
}

#[test]
fn order_and_shift_leave_the_rate() {
    let mut rng = Rng::new(25);
    for _ in 0..5_000 {
        let list = rates::good(&mut rng).weeks8;
        let rate = alone(&list);
        let mut other = list.clone();
        other.rotate_left(rng.below(list.len()));
        other.swap(0, rng.below(list.len()));
        assert_eq!(alone(&other), rate, "{list:?}");
        other.sort();
        assert_eq!(alone(&other), rate, "{list:?}");
        // As far down as the range allows, as far up, and anywhere between.
        let (down, up) = (-LOG_RATIO - other[0], LOG_RATIO - other[other.len() - 1]);
        for shift in [down, up, rng.between(down, up)] {
            let shifted: Vec<i64> = list.iter().map(|&x| x + shift).collect();
            assert_eq!(alone(&shifted), rate, "{shift} {list:?}");
        }
        let mirrored: Vec<i64> = list.iter().map(|&x| -x).collect();
        assert_eq!(alone(&mirrored), rate, "{list:?}");
    }
}

#[test]
fn the_governing_list_is_the_callers_own() {
    let mut rng = Rng::new(26);
    let (mut longer, mut ties, mut shorter) = (0, 0, 0);
    for _ in 0..10_000 {
        let of = rates::good(&mut rng);
        let (short, long) = (alone(&of.weeks8), alone(&of.weeks104));
        let (given, part) = rate(&of.weeks8, &of.weeks104);
        assert_eq!((given.number, given.figure), (0, short.max(long)));
        let expected = if long > short { &of.weeks104 } else { &of.weeks8 };
        assert!(std::ptr::eq(part, expected.as_slice()), "{of:?}");
        match long.cmp(&short) {
            Ordering::Greater => longer += 1,
            Ordering::Equal => ties += 1,
            Ordering::Less => shorter += 1,
        }
    }
    let all = [longer, ties, shorter];
    assert!(all.iter().all(|&times| times > 1_000), "{all:?}");
}

#[test]
fn refused_rates_hand_back_the_empty_part() {
    let mut rng = Rng::new(27);
    let mut seen = [0; 9];
    for _ in 0..10_000 {
        let of = rates::draw(&mut rng);
        let lists = [&of.weeks8, &of.weeks104];
        let number = if lists.iter().any(|list| list.len() < 2 || list.len() > 520) {
            2
        } else if lists.iter().any(|list| list.iter().any(|&x| !(-20_000..=20_000).contains(&x))) {
            8
        } else {
            0
        };
        let (given, part) = rate(&of.weeks8, &of.weeks104);
        assert_eq!(given.number, number, "{of:?}");
        if number != 0 {
            assert_eq!(given.figure, 0);
            assert!(std::ptr::eq(part, &of.weeks8[..0]), "{of:?}");
        }
        seen[number as usize] += 1;
    }
    assert!([0, 2, 8].iter().all(|&number| seen[number] > 500), "{seen:?}");
}
