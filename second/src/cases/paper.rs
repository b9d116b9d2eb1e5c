//! Cases by hand.

use crate::limits::{AMOUNT, GROSS, HOUSE, LOG_RATIO};

/// The paper's own figures that are not among R1 to R12, as cases of a kind:
/// those of "Figures by hand", and M-101's; and lists by hand for M-105.
pub fn paper(kind: char) -> Vec<Vec<Vec<i64>>> {
    // An F and an L by their cash and dues, all else 0.
    let words = |house: i64, broker: [i64; 4], provider: [i64; 4]| {
        let mut words = vec![2, 1, 0, house, 0, 0, 1_502_500, 0, 0];
        for (kind, [cash, due0, due1, due2]) in [(0, broker), (1, provider)] {
            words.extend([kind, cash, 0, 0, 0, due0, due1, due2, 0, 0]);
        }
        words
    };
    let cash = |amount: i64| words(0, [amount, 0, 0, 0], [0; 4]);
    let million = 1_000_000;
    match kind {
        // Gross comes to 10^15, and to one yen more.
        'D' => [0, 1].map(|more| vec![vec![0, AMOUNT], cash(GROSS - AMOUNT + more)]).to_vec(),
        'W' => vec![vec![vec![0, 0], cash(million)]],
        // An F and an L alike, and a question about each.
        'Q' => [
            [80_000, -100_000, 300_000, 0],
            [80_000, -100_000, -50_000, 0],
            [80_000, 60_000, -50_000, 0],
            [-5, 60_000, -50_000, 0],
            [-5, 7, 3, 0],
            [0, -GROSS, 0, 0],
        ]
        .into_iter()
        .flat_map(|figures| [0, 1].map(|a| vec![vec![a], words(0, figures, figures)]))
        .collect(),
        'B' => vec![vec![vec![], words(HOUSE, [0, -1, 0, 0], [0, 1, 0, 0])]],
        'H' => vec![vec![
            vec![12 * million],
            vec![5 * million; 3],
            vec![900_000, -100_000, -2_500_000],
            vec![0, 0, 1],
            vec![7; 3],
            vec![-7; 3],
        ]],
        'M' => windows(),
        _ => vec![],
    }
}

/// Pairs of lists of log ratios: rates at their edges, ties, lengths and figures
/// at the ends of their ranges and past them, more than one thing wrong.
fn windows() -> Vec<Vec<Vec<i64>>> {
    [windows_taken(), windows_refused()].concat()
}

fn windows_taken() -> Vec<Vec<Vec<i64>>> {
    let end = LOG_RATIO;
    let (hundred, fives) = (vec![0, 100], vec![5; 3]);
    // The exact figure is 233, and a bit more or less than it.
    let whole = |last: i64| vec![-1_000, 1_000, -1_000, last, 0];
    let halves = [vec![-end; 260], vec![end; 260]].concat();
    // One-digit figures as they come.
    let small = |count: i64| (0..count).map(|k| k * k * k % 19 - 9).collect::<Vec<i64>>();
    vec![
        vec![hundred.clone(), fives.clone()],
        vec![fives.clone(), vec![0, 200]],
        vec![whole(1_000), hundred.clone()],
        vec![hundred.clone(), whole(1_001)],
        vec![whole(999), whole(1_000)],
        vec![whole(1_000), whole(1_001)],
        vec![fives.clone(), vec![-7; 2]],
        vec![vec![-end, end], vec![0, 200]],
        vec![vec![0, 200], halves],
        // Ties: the same figures, in another order, and a larger deviation that
        // comes to the same rate; the next larger one does not. Nothing moves in
        // the one window and a little in the other: both rates are 1.
        vec![hundred.clone(), hundred.clone()],
        vec![hundred.clone(), vec![100, 0]],
        vec![hundred.clone(), vec![0, 103]],
        vec![hundred, vec![0, 104]],
        vec![vec![0, 0], vec![0, 1]],
        // As many figures as the two windows have.
        vec![small(40), small(520)],
        vec![but_last(520, end), fives],
        vec![but_last(520, 6), small(520)],
    ]
}

/// Figures alike but for the last.
fn but_last(count: usize, last: i64) -> Vec<i64> {
    [vec![5; count - 1], vec![last]].concat()
}

fn windows_refused() -> Vec<Vec<Vec<i64>>> {
    let past = LOG_RATIO + 1;
    let hundred = vec![0, 100];
    vec![
        // Lengths.
        vec![vec![7], hundred.clone()],
        vec![hundred.clone(), vec![7]],
        vec![vec![5; 521], hundred.clone()],
        vec![hundred.clone(), vec![5; 521]],
        vec![vec![], hundred.clone()],
        vec![hundred.clone(), vec![]],
        vec![vec![], vec![]],
        // Figures.
        vec![vec![past, 0], hundred.clone()],
        vec![hundred.clone(), vec![0, -past]],
        vec![but_last(520, past), hundred.clone()],
        vec![vec![i64::MIN, i64::MAX], hundred.clone()],
        vec![hundred, vec![i64::MAX, i64::MIN]],
        // Both: the length comes first.
        vec![vec![7], vec![0, past]],
        vec![vec![0, past], vec![7]],
        vec![vec![], vec![past; 3]],
        vec![vec![-past], vec![5; 3]],
    ]
}
