//! Inputs for loss sharing: ties, zeros, all in default, maxima, wrong lengths.

use super::{argument, inside};
use crate::limits::{DIFFERENCE, LOSS, WEIGHT};
use crate::rng::Rng;

/// A loss and the five lists, the two written ones with what they hold before.
#[derive(Clone, Debug)]
pub struct Loss {
    pub loss: i64,
    pub deposits: Vec<i64>,
    pub differences: Vec<i64>,
    pub marks: Vec<i64>,
    pub first: Vec<i64>,
    pub second: Vec<i64>,
}

/// A sharing of up to `most` members, good or bad.
pub fn draw(rng: &mut Rng, most: usize) -> Loss {
    let mut drawn = good(rng, most);
    match rng.below(12) {
        0 => wrong_lengths(rng, &mut drawn),
        1 => drawn.loss = rng.pick(&[-1, LOSS + 1, i64::MIN, i64::MAX, -LOSS]),
        2 => wrong_figure(rng, &mut drawn),
        3 => {
            // More than one thing wrong: the lowest number is returned.
            wrong_figure(rng, &mut drawn);
            drawn.loss = argument(rng, 0, LOSS);
            if rng.coin() {
                wrong_lengths(rng, &mut drawn);
            }
        }
        _ => {}
    }
    drawn
}

/// A sharing that will be answered with 0.
pub fn good(rng: &mut Rng, most: usize) -> Loss {
    let count = match rng.below(8) {
        0 => 1,
        1 => most,
        2 => rng.between(1, most as i64) as usize,
        _ => rng.between(1, most.min(8) as i64) as usize,
    };
    let deposits = weights(rng, count, 0, WEIGHT);
    let differences = weights(rng, count, -DIFFERENCE, DIFFERENCE);
    let marks: Vec<i64> = match rng.below(8) {
        0 => vec![0; count],
        1 => vec![1; count],
        _ => {
            let often = rng.pick(&[2, 3, 6]);
            (0..count).map(|_| i64::from(rng.one_in(often))).collect()
        }
    };
    let loss = loss_near(rng, &deposits, &differences, &marks);
    let first = (0..count).map(|_| rng.any()).collect();
    let second = (0..count).map(|_| rng.any()).collect();
    Loss { loss, deposits, differences, marks, first, second }
}

/// Weights: all alike, alike but for a yen, zeros among them, small, or any.
fn weights(rng: &mut Rng, count: usize, low: i64, high: i64) -> Vec<i64> {
    let common = inside(rng, low, high);
    let way = rng.below(7);
    let one = |rng: &mut Rng| match way {
        0 => common,
        1 => (common + rng.between(-1, 1)).clamp(low, high),
        2 => rng.pick(&[common, 0]),
        3 => rng.between(low.max(-9), 9),
        4 => rng.pick(&[low, high]),
        5 => rng.between(low, high),
        _ => inside(rng, low, high),
    };
    (0..count).map(|_| one(rng)).collect()
}

/// A loss about where one of the ceilings lies, or small, or any.
fn loss_near(rng: &mut Rng, deposits: &[i64], differences: &[i64], marks: &[i64]) -> i64 {
    let survivors = |list: &[i64]| -> i64 {
        list.iter().zip(marks).filter(|(_, &mark)| mark == 0).map(|(&x, _)| x.max(0)).sum()
    };
    let owed: i64 =
        differences.iter().zip(marks).filter(|(_, &m)| m == 1).map(|(&x, _)| (-x).max(0)).sum();
    let one = survivors(deposits);
    let two = survivors(differences).min(owed);
    let loss = match rng.below(10) {
        0 => one + rng.between(-2, 2),
        1 => one + two + rng.between(-2, 2),
        2 => one + rng.between(0, two),
        3 => rng.between(0, one),
        4 => rng.between(0, 100),
        5 => one + rng.between(0, 100),
        6 => LOSS,
        _ => inside(rng, 0, LOSS),
    };
    loss.clamp(0, LOSS)
}

fn lists(of: &mut Loss) -> [&mut Vec<i64>; 5] {
    [&mut of.deposits, &mut of.differences, &mut of.marks, &mut of.first, &mut of.second]
}

fn wrong_lengths(rng: &mut Rng, of: &mut Loss) {
    let length = rng.pick(&[0, 65, 66]);
    if rng.coin() {
        for list in lists(of) {
            list.resize(length, 0);
        }
    } else {
        let list = &mut lists(of)[rng.below(5)];
        let other = rng.pick(&[list.len() + 1, list.len() - 1, length]);
        list.resize(other, 0);
    }
}

fn wrong_figure(rng: &mut Rng, of: &mut Loss) {
    let a = rng.below(of.deposits.len());
    match rng.below(3) {
        0 => of.deposits[a] = rng.pick(&[-1, WEIGHT + 1, i64::MIN, i64::MAX]),
        1 => {
            let wrong = [DIFFERENCE + 1, -DIFFERENCE - 1, i64::MIN, i64::MAX];
            of.differences[a] = rng.pick(&wrong);
        }
        _ => of.marks[a] = rng.pick(&[-1, 2, i64::MIN, i64::MAX]),
    }
}
