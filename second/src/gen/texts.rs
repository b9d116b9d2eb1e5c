//! Day files: good ones, ones with an unsound start, and full-size ones.

use super::calls::{of_day, Call};
use super::ledgers::{opening, sizes, Flavour};
use crate::clerk::Plain;
use crate::ledger::{sound, Layout, CROSS, MARK, PRICE, PRINCIPAL, QUOTE};
use crate::margin::{CASH, KIND, RECORD};
use crate::rng::Rng;

/// A day file as its lines, without the line feeds.
#[derive(Clone, Debug)]
pub struct Text {
    pub lines: Vec<String>,
    pub at: Layout,
    pub positions: usize,
    pub calls: usize,
}

/// Lines before the first product.
pub const CONTENTS: usize = 6;

impl Text {
    pub fn bytes(&self) -> Vec<u8> {
        let mut bytes = vec![];
        for line in &self.lines {
            bytes.extend_from_slice(line.as_bytes());
            bytes.push(b'\n');
        }
        bytes
    }

    pub fn products_from(&self) -> usize {
        CONTENTS
    }

    pub fn accounts_from(&self) -> usize {
        CONTENTS + self.at.p
    }

    pub fn positions_from(&self) -> usize {
        self.accounts_from() + self.at.n
    }

    pub fn calls_from(&self) -> usize {
        self.positions_from() + self.positions
    }
}

/// A well-formed day file of any size, its start sound.
pub fn good(rng: &mut Rng) -> Text {
    let at = sizes(rng);
    let flavour = Flavour::draw(rng);
    let calls = match rng.below(8) {
        0 => 0,
        1 => rng.below(120),
        _ => rng.below(25),
    };
    sized(rng, at, flavour, calls)
}

/// A small day file, for cases that are kept on file.
pub fn small(rng: &mut Rng) -> Text {
    let at = Layout { n: 1 + rng.below(3), p: 1 + rng.below(3) };
    let calls = rng.below(7);
    sized(rng, at, Flavour::Ordinary, calls)
}

/// A day file of given counts; the calls follow the ledger as it moves.
pub fn sized(rng: &mut Rng, at: Layout, flavour: Flavour, calls: usize) -> Text {
    let words = opening(rng, at, flavour);
    let mut moving = words.clone();
    let mut drawn = vec![];
    while drawn.len() < calls {
        let call = of_day(rng, &moving);
        if has_line(&call, at) {
            call.put_to(&Plain, &mut moving);
            drawn.push(call);
        }
    }
    write(rng, &words, &drawn)
}

/// A day of the largest counts within 65,536 bytes: 64 accounts, 16 products,
/// 1,000 calls, or of smaller counts and as many calls. Every kind of call
/// comes, most of them accepted.
pub fn full(rng: &mut Rng, at: Layout, calls: usize) -> Text {
    loop {
        let text = sized(rng, at, Flavour::Ordinary, calls);
        if text.bytes().len() <= crate::limits::TEXT {
            return text;
        }
    }
}

/// A question has no line, nor has a close with lists of another length.
fn has_line(call: &Call, at: Layout) -> bool {
    match call {
        Call::Question { .. } => false,
        Call::Close { prices, rates8, rates104, lags } => {
            [prices, rates8, rates104, lags].iter().all(|list| list.len() == at.p)
        }
        _ => true,
    }
}

/// The text of a ledger and calls. Positions come in any order; those of 0 0
/// are left out or stated.
pub fn write(rng: &mut Rng, words: &[i64], calls: &[Call]) -> Text {
    let at = sound(words).expect("a sound ledger");
    let mut positions = vec![];
    for a in 0..at.n {
        for j in 0..at.p {
            let position = &words[at.position(a, j)..];
            if position[0] != 0 || position[1] != 0 || rng.one_in(8) {
                positions.push(format!("{a} {j} {} {}", position[0], position[1]));
            }
        }
    }
    if rng.coin() {
        shuffle(rng, &mut positions);
    }
    let mut lines = vec![
        "FXDAY".to_string(),
        format!("PRODUCTS {}", at.p),
        format!("ACCOUNTS {}", at.n),
        format!("POSITIONS {}", positions.len()),
        format!("CALLS {}", calls.len()),
        "END".to_string(),
    ];
    lines.extend((0..at.p).map(|j| product(&words[at.product(j)..])));
    lines.extend((0..at.n).map(|a| account(&words[at.account(a)..])));
    let stated = positions.len();
    lines.append(&mut positions);
    lines.extend(calls.iter().filter_map(entry));
    Text { lines, at, positions: stated, calls: calls.len() }
}

fn shuffle(rng: &mut Rng, lines: &mut [String]) {
    for last in (1..lines.len()).rev() {
        lines.swap(last, rng.below(last + 1));
    }
}

fn product(words: &[i64]) -> String {
    if words[CROSS] == 0 {
        return format!("Y {} {}", words[MARK], words[PRICE]);
    }
    format!("X {} {} {} {}", words[MARK], words[PRICE], words[PRINCIPAL], words[QUOTE])
}

fn account(words: &[i64]) -> String {
    let mut line = if words[KIND] == 0 { "F" } else { "L" }.to_string();
    for figure in &words[CASH..RECORD] {
        line += &format!(" {figure}");
    }
    line
}

/// The line of a call; a question has none.
pub fn entry(call: &Call) -> Option<String> {
    Some(match call {
        Call::Deposit { account, amount } => format!("D {account} {amount}"),
        Call::Withdraw { account, amount } => format!("W {account} {amount}"),
        Call::Guarantee { account, guarantee, cap } => format!("G {account} {guarantee} {cap}"),
        Call::Question { .. } => return None,
        Call::Trade { buyer, seller, product, lots, price } => {
            format!("T {buyer} {seller} {product} {lots} {price}")
        }
        Call::Begin => "B".to_string(),
        Call::Step => "S".to_string(),
        Call::Close { prices, rates8, rates104, lags } => {
            let mut line = "C".to_string();
            for j in 0..prices.len() {
                line += &format!(" {} {} {} {}", prices[j], rates8[j], rates104[j], lags[j]);
            }
            line
        }
    })
}
