//! Lists of log ratios: ends, ties, whole figures and their neighbours, wrong
//! lengths and figures, one list lent as a part of the other.

use super::{inside, of_any_size};
use crate::limits::{HISTORY, LOG_RATIO};
use crate::rng::Rng;

/// The two lists of a margin rate.
#[derive(Clone, Debug)]
pub struct Windows {
    pub weeks8: Vec<i64>,
    pub weeks104: Vec<i64>,
    /// Where the 8-week list begins in the other, if it is lent as its part.
    pub part_at: Option<usize>,
}

/// Two lists, good or bad.
pub fn draw(rng: &mut Rng) -> Windows {
    let mut drawn = good(rng);
    match rng.below(10) {
        0 => wrong_length(rng, &mut drawn),
        1 => wrong_figure(rng, &mut drawn),
        2 => {
            // More than one thing wrong: the lowest number is returned.
            wrong_figure(rng, &mut drawn);
            if rng.coin() {
                wrong_length(rng, &mut drawn);
            }
            wrong_figure(rng, &mut drawn);
        }
        _ => {}
    }
    if rng.one_in(8) {
        lend_a_part(rng, &mut drawn);
    }
    drawn
}

/// Two lists that lie apart and will be answered with 0.
pub fn good(rng: &mut Rng) -> Windows {
    let one = list(rng);
    let other = if rng.one_in(3) { tied(rng, &one) } else { list(rng) };
    let (weeks8, weeks104) = if rng.coin() { (one, other) } else { (other, one) };
    Windows { weeks8, weeks104, part_at: None }
}

/// A list in range, at times moved to where its rate is about to change.
fn list(rng: &mut Rng) -> Vec<i64> {
    let mut list = if rng.one_in(5) { whole(rng) } else { figures(rng) };
    match rng.below(6) {
        0 => nudge(rng, &mut list),
        1 => to_a_step(rng, &mut list),
        _ => {}
    }
    list
}

/// Figures all alike, alike but for 1, at the ends, small, daily ones, or any.
fn figures(rng: &mut Rng) -> Vec<i64> {
    let (least, most) = (*HISTORY.start(), *HISTORY.end());
    let count = match rng.below(10) {
        0 | 1 => least,
        2 => 40,
        3 => most,
        4 => most - 1,
        5 => rng.between(least as i64, most as i64) as usize,
        _ => rng.between(2, 9) as usize,
    };
    let common = inside(rng, -LOG_RATIO, LOG_RATIO);
    let way = rng.below(7);
    let one = |rng: &mut Rng| match way {
        0 => common,
        1 => (common + rng.between(-1, 1)).clamp(-LOG_RATIO, LOG_RATIO),
        2 => rng.pick(&[-LOG_RATIO, LOG_RATIO]),
        3 => rng.between(-9, 9),
        4 => rng.between(-1_500, 1_500),
        5 => rng.between(-LOG_RATIO, LOG_RATIO),
        _ => inside(rng, -LOG_RATIO, LOG_RATIO),
    };
    (0..count).map(|_| one(rng)).collect()
}

/// A list whose exact figure is a whole number. Among 2kj² + 1 figures k are
/// j × a above the others and k as far below them, so that the deviation is a.
/// It is a multiple of 1,000, and the rate the same multiple of 233.
fn whole(rng: &mut Rng) -> Vec<i64> {
    let j = rng.between(1, 3);
    let pairs = match rng.below(4) {
        0 => 259 / (j * j),
        1 => rng.between(1, 259 / (j * j)),
        _ => rng.between(1, 3),
    };
    let size = 1_000 * j * rng.between(1, 20 / j);
    let common = inside(rng, size - LOG_RATIO, LOG_RATIO - size);
    let mut list = vec![common; (2 * pairs * j * j + 1) as usize];
    for pair in list.chunks_exact_mut(2).take(pairs as usize) {
        pair[0] -= size;
        pair[1] += size;
    }
    shuffle(rng, &mut list);
    list
}

/// Another list of the same rate, or of one but little larger or smaller.
fn tied(rng: &mut Rng, list: &[i64]) -> Vec<i64> {
    let mut other = list.to_vec();
    match rng.below(7) {
        0 => {}
        1 => shuffle(rng, &mut other),
        2 => {
            let down = list.iter().map(|&figure| figure + LOG_RATIO).min().expect("a figure");
            let up = list.iter().map(|&figure| LOG_RATIO - figure).min().expect("a figure");
            let shift = inside(rng, -down, up);
            other.iter_mut().for_each(|figure| *figure += shift);
        }
        3 => other.iter_mut().for_each(|figure| *figure = -*figure),
        4 => nudge(rng, &mut other),
        5 => to_a_step(rng, &mut other),
        _ => other = pair(rng, crate::rate(list, list).0.figure),
    }
    other
}

/// The two figures farthest apart that have this rate, or two a bit farther.
fn pair(rng: &mut Rng, rate: i64) -> Vec<i64> {
    let farthest = (2_000_000 * rate * rate / (233 * 233)).isqrt() + rng.pick(&[0, 0, 1]);
    let apart = farthest.min(2 * LOG_RATIO);
    let low = inside(rng, -LOG_RATIO, LOG_RATIO - apart);
    vec![low, low + apart]
}

/// One figure by one.
fn nudge(rng: &mut Rng, list: &mut [i64]) {
    let figure = &mut list[rng.below(list.len())];
    *figure = (*figure + rng.pick(&[-1, 1])).clamp(-LOG_RATIO, LOG_RATIO);
}

/// Raises the largest figure to the first place with a larger rate, or to the
/// one before it. The deviation grows with the largest figure.
fn to_a_step(rng: &mut Rng, list: &mut [i64]) {
    let at = (0..list.len()).max_by_key(|&at| list[at]).expect("a figure");
    let start = crate::rate(list, list).0.figure;
    let (mut low, mut high) = (list[at], LOG_RATIO + 1);
    while high - low > 1 {
        list[at] = (low + high) / 2;
        if crate::rate(list, list).0.figure > start {
            high = list[at];
        } else {
            low = list[at];
        }
    }
    list[at] = if rng.coin() { high.min(LOG_RATIO) } else { low };
}

fn shuffle(rng: &mut Rng, list: &mut [i64]) {
    for last in (1..list.len()).rev() {
        list.swap(last, rng.below(last + 1));
    }
}

/// Makes the 8-week list a part of the 104-week list: its start, its end, or
/// from within, the whole and the empty part included.
fn lend_a_part(rng: &mut Rng, of: &mut Windows) {
    let most = of.weeks104.len();
    let any = rng.below(most + 1);
    let count = rng.pick(&[most.min(40), most.min(2), most, any, any]);
    let at = rng.pick(&[0, most - count, (most - count) / 2]);
    of.weeks8 = of.weeks104[at..at + count].to_vec();
    of.part_at = Some(at);
}

/// One list or both.
fn at_fault<'a>(rng: &mut Rng, of: &'a mut Windows) -> Vec<&'a mut Vec<i64>> {
    match rng.below(3) {
        0 => vec![&mut of.weeks8],
        1 => vec![&mut of.weeks104],
        _ => vec![&mut of.weeks8, &mut of.weeks104],
    }
}

fn wrong_length(rng: &mut Rng, of: &mut Windows) {
    for list in at_fault(rng, of) {
        let figure = list.last().copied().unwrap_or(0);
        let most = *HISTORY.end();
        list.resize(rng.pick(&[0, 1, 1, most + 1, most + 2, 2 * most, 4_098]), figure);
    }
}

fn wrong_figure(rng: &mut Rng, of: &mut Windows) {
    for list in at_fault(rng, of).into_iter().filter(|list| !list.is_empty()) {
        let any = rng.below(list.len());
        let at = rng.pick(&[0, list.len() - 1, any]);
        let past = LOG_RATIO + 1;
        list[at] = match rng.below(4) {
            0 | 1 => rng.pick(&[past, -past]),
            2 => rng.pick(&[i64::MIN, i64::MIN + 1, i64::MAX, 1 << 16, 1 << 32, -(1 << 32)]),
            // Past the range even if small before.
            _ => {
                let any = of_any_size(rng);
                any.saturating_add(if any < 0 { -past } else { past })
            }
        };
    }
}
