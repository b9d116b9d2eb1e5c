//! Cases on file, with the replies this program gives, for another program to
//! run.
//!
//! One case a line; lines that begin with `#` say something to the reader. A
//! line is its kind (one letter), then lists, then what is expected, all parted
//! by single spaces. A list is its count and then so many decimal figures.
//!
//! | kind | lists | expected |
//! |---|---|---|
//! | `D` deposit | (account, amount), words | number, figure, checksum |
//! | `W` withdrawal | (account, amount), words | number, figure, checksum |
//! | `G` guarantee | (account, guarantee, cap), words | number, figure, checksum |
//! | `Q` question | (account), words | number, limit, first, second, checksum |
//! | `T` trade | (buyer, seller, product, lots, price), words | number, figure, checksum |
//! | `B` begin, `S` step | (), words | number, figure, checksum |
//! | `C` close | (), words, prices, 8-week rates, 104-week rates, lags | number, figure, checksum |
//! | `H` sharing | (loss), deposits, differences, marks, first, second | number, figure, checksum |
//! | `P` teller's deposit | (amount), record | number, figure, checksum |
//! | `R` teller's withdrawal | (amount), record | number, figure, checksum |
//! | `X` sheet | (), bytes of the text | bytes of the sheet, 0, checksum |
//! | `M` margin rate | 8-week list, 104-week list | number, figure, checksum |
//!
//! The checksum is of the words at exit: of the ledger or the record; of the
//! list `first` and after it `second`; of the sheet's bytes; of the list that a
//! margin rate hands back. It begins with how many they are, and each word w in
//! turn makes of a sum c (c × 1,000,003 + r) mod 2,147,483,647, where r is
//! w mod 2,147,483,647 taken from 0 upward. No step of it leaves signed 64 bits.

mod drawn;
mod paper;

use crate::clerk::{Clerk, Members, Plain};
use crate::gen::calls::Call;
use crate::limits::TEXT;
use crate::margin::RECORD;
use crate::rng::Rng;
use drawn::draw;
use paper::paper;

const SEED: u64 = 1_975;
/// Longer cases are drawn anew, so that the file stays small.
const LONGEST: usize = 900;

/// How many of each kind at the least, and the numbers that must come up.
const KINDS: [(char, usize, &[i64]); 13] = [
    ('D', 50, &[0, 1, 3, 5, 10]),
    ('W', 60, &[0, 1, 3, 5, 11]),
    ('G', 50, &[0, 1, 3, 5, 6]),
    ('Q', 40, &[0, 1, 3]),
    ('T', 60, &[0, 1, 3, 4, 6, 8, 9]),
    ('B', 40, &[0, 1, 7, 13]),
    ('S', 30, &[0, 1, 7]),
    ('C', 70, &[0, 1, 2, 7, 8, 12]),
    ('H', 70, &[0, 2, 5, 8]),
    ('P', 30, &[0, 1, 5, 10]),
    ('R', 40, &[0, 1, 5, 11]),
    ('X', 40, &[]),
    ('M', 30, &[0, 2, 8]),
];

/// The whole file, always the same.
pub fn write() -> String {
    let mut rng = Rng::new(SEED);
    let mut file = String::from(
        "# Cases of the margin ledger: kind, lists (count, figures), number, figures, checksum.\n\
         # The format is told at the top of src/cases.rs.\n",
    );
    for (kind, times, numbers) in KINDS {
        for lists in paper(kind) {
            file += &expected(&Plain, kind, &lists);
            file.push('\n');
        }
        let mut written = 0;
        let mut missing = numbers.to_vec();
        while written < times || !missing.is_empty() {
            let lists = draw(&mut rng, kind);
            let number = outcome(&Plain, kind, &lists)[0];
            let line = expected(&Plain, kind, &lists);
            if line.len() <= LONGEST && (written < times || missing.contains(&number)) {
                missing.retain(|&wanted| wanted != number);
                file += &line;
                file.push('\n');
                written += 1;
            }
        }
    }
    file
}

/// Has a clerk do every case of a file again; the first line that comes out
/// otherwise, and what it came to.
pub fn check(clerk: &dyn Clerk, file: &str) -> Result<usize, String> {
    let mut done = 0;
    for line in file.lines().filter(|line| !line.starts_with('#')) {
        let again = lists(line)
            .map(|(kind, lists)| expected(clerk, kind, &lists))
            .ok_or_else(|| format!("not a case: {line}"))?;
        if again != line {
            return Err(format!("on file: {line}\ncame to: {again}"));
        }
        done += 1;
    }
    Ok(done)
}

/// The sum that stands for a list of words.
pub fn checksum(words: impl ExactSizeIterator<Item = i64>) -> i64 {
    const MODULUS: i64 = 2_147_483_647;
    let count = words.len() as i64;
    words.fold(count, |sum, word| (sum * 1_000_003 + word.rem_euclid(MODULUS)) % MODULUS)
}

/// The kind of a line and its lists.
fn lists(line: &str) -> Option<(char, Vec<Vec<i64>>)> {
    let mut fields = line.split(' ');
    let kind = fields.next()?.chars().next()?;
    let many = match kind {
        'C' | 'H' => 6,
        _ => 2,
    };
    let mut lists = vec![];
    for _ in 0..many {
        let count: usize = fields.next()?.parse().ok()?;
        let list: Option<Vec<i64>> = (0..count).map(|_| fields.next()?.parse().ok()).collect();
        lists.push(list?);
    }
    Some((kind, lists))
}

/// The line of a case: what it lends, and what a clerk makes of it.
fn expected(clerk: &dyn Clerk, kind: char, lists: &[Vec<i64>]) -> String {
    let mut line = kind.to_string();
    for list in lists {
        line += &format!(" {}", list.len());
        for figure in list {
            line += &format!(" {figure}");
        }
    }
    for figure in outcome(clerk, kind, lists) {
        line += &format!(" {figure}");
    }
    line
}

/// Number, figures and checksum.
fn outcome(clerk: &dyn Clerk, kind: char, lists: &[Vec<i64>]) -> Vec<i64> {
    match kind {
        'H' => {
            let of = Members { deposits: &lists[1], differences: &lists[2], marks: &lists[3] };
            let (mut first, mut second) = (lists[4].clone(), lists[5].clone());
            let reply = clerk.share(lists[0][0], of, &mut first, &mut second);
            let written = [first, second].concat();
            vec![reply.number as i64, reply.figure, checksum(written.into_iter())]
        }
        'M' => rated(clerk, &lists[0], &lists[1]),
        'P' | 'R' => {
            let mut record: [i64; RECORD] =
                lists[1].as_slice().try_into().expect("a record has eight figures");
            let reply = match kind {
                'P' => clerk.teller_deposit(&mut record, lists[0][0]),
                _ => clerk.teller_withdraw(&mut record, lists[0][0]),
            };
            vec![reply.number as i64, reply.figure, checksum(record.into_iter())]
        }
        'X' => {
            let text: Vec<u8> = lists[1].iter().map(|&byte| byte as u8).collect();
            let mut out = vec![0; TEXT];
            let length = clerk.sheet(&text, &mut out);
            let sum = checksum(out[..length].iter().map(|&byte| i64::from(byte)));
            vec![length as i64, 0, sum]
        }
        _ => {
            let mut words = lists[1].clone();
            let outcome = call(kind, lists).put_to(clerk, &mut words);
            let figures = if kind == 'Q' { 3 } else { 1 };
            let mut all = vec![outcome.number as i64];
            all.extend(&outcome.figures[..figures]);
            all.push(checksum(words.into_iter()));
            all
        }
    }
}

/// Number, rate and checksum of the part handed back: -1, which no list has,
/// where it is no part of either list.
fn rated(clerk: &dyn Clerk, weeks8: &[i64], weeks104: &[i64]) -> Vec<i64> {
    let rating = clerk.rate(weeks8, weeks104);
    let part = rating.part(weeks8, weeks104);
    let sum = part.map_or(-1, |part| checksum(part.iter().copied()));
    vec![rating.reply.number as i64, rating.reply.figure, sum]
}

/// The call on a ledger that a kind and its lists make.
fn call(kind: char, lists: &[Vec<i64>]) -> Call {
    match (kind, lists[0].as_slice()) {
        ('D', &[account, amount]) => Call::Deposit { account, amount },
        ('W', &[account, amount]) => Call::Withdraw { account, amount },
        ('G', &[account, guarantee, cap]) => Call::Guarantee { account, guarantee, cap },
        ('Q', &[account]) => Call::Question { account },
        ('T', &[buyer, seller, product, lots, price]) => {
            Call::Trade { buyer, seller, product, lots, price }
        }
        ('B', &[]) => Call::Begin,
        ('S', &[]) => Call::Step,
        ('C', &[]) => Call::Close {
            prices: lists[2].clone(),
            rates8: lists[3].clone(),
            rates104: lists[4].clone(),
            lags: lists[5].clone(),
        },
        _ => panic!("no case of kind {kind} with {:?}", lists[0]),
    }
}
