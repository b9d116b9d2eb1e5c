//! "Sharing a default loss" (source 000, 12-7(2)).

use crate::limits::{within, DIFFERENCE, LOSS, MEMBERS, WEIGHT};
use crate::Reply;

/// 2, 5, 8; the figure is what remains uncovered. The two lists written take
/// the shares of layer one and of layer two.
pub fn share(
    loss: i64,
    deposits: &[i64],
    differences: &[i64],
    marks: &[i64],
    first: &mut [i64],
    second: &mut [i64],
) -> Reply {
    let count = deposits.len();
    let lengths = [differences.len(), marks.len(), first.len(), second.len()];
    if count == 0 || count > MEMBERS || lengths.iter().any(|&length| length != count) {
        return Reply::refused(2);
    }
    if !within(loss, 0, LOSS) {
        return Reply::refused(5);
    }
    if !figures_fit(deposits, differences, marks) {
        return Reply::refused(8);
    }

    // Layer one: by the survivors' deposits. Sums of 64 stay within 6.4×10^13.
    let kept = |a: usize| if marks[a] == 0 { deposits[a] } else { 0 };
    let sum = (0..count).map(kept).sum::<i64>();
    let layer = sum.min(loss);
    shares(layer, sum, kept, first);
    let remains = loss - layer;

    // Layer two: by the survivors' positive differences, and at most what the
    // defaulters' negative differences come to (*house*).
    let gained = |a: usize| if marks[a] == 0 { differences[a].max(0) } else { 0 };
    let owed = |a: usize| if marks[a] == 1 { (-differences[a]).max(0) } else { 0 };
    let sum = (0..count).map(gained).sum::<i64>();
    let layer = remains.min((0..count).map(owed).sum()).min(sum);
    shares(layer, sum, gained, second);
    Reply::done(remains - layer)
}

/// Ranged for defaulters too, though only some of their figures count.
fn figures_fit(deposits: &[i64], differences: &[i64], marks: &[i64]) -> bool {
    deposits.iter().all(|&deposit| within(deposit, 0, WEIGHT))
        && differences.iter().all(|&figure| within(figure, -DIFFERENCE, DIFFERENCE))
        && marks.iter().all(|&mark| within(mark, 0, 1))
}

/// layer × weight / sum rounded down; the yen left go one each to the largest
/// remainders, the lower account first on a tie (*house*). An empty layer gives
/// zeros, so the sum is never 0 where it divides.
fn shares(layer: i64, sum: i64, weight: impl Fn(usize) -> i64, shares: &mut [i64]) {
    if layer == 0 {
        return shares.fill(0);
    }
    let mut remainders = [0; MEMBERS];
    let mut order = [0_u8; MEMBERS];
    let (mut left, mut count) = (layer, 0);
    for (a, share) in shares.iter_mut().enumerate() {
        let (whole, remainder) = divided(layer, weight(a), sum);
        *share = whole;
        left -= whole;
        if remainder > 0 {
            remainders[a] = remainder;
            order[count] = a as u8;
            count += 1;
        }
    }
    if left == 0 {
        return;
    }
    // Fewer yen are left than there are remainders above zero. Those that get
    // one are put before the others, in no order of their own.
    let before =
        |&a: &u8, &b: &u8| remainders[b as usize].cmp(&remainders[a as usize]).then(a.cmp(&b));
    let (gets_one, _, _) = order[..count].select_nth_unstable_by(left as usize, before);
    for &mut a in gets_one {
        shares[a as usize] += 1;
    }
}

/// Quotient and remainder of layer × weight by the sum. The product may reach
/// 6.4×10^25; where it passes 64 bits it is divided in 128. The layer is at most
/// the sum, so the quotient is at most the weight.
#[inline]
fn divided(layer: i64, weight: i64, sum: i64) -> (i64, i64) {
    match layer.checked_mul(weight) {
        Some(product) => (product / sum, product % sum),
        None => {
            let (product, sum) = (layer as u128 * weight as u128, sum as u128);
            let whole = product / sum;
            (whole as i64, (product - whole * sum) as i64)
        }
    }
}
