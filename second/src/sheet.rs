//! "The sheet": a day file's text to the text of its sheet.

use crate::ledger::{self, HOUSE_AT};
use crate::limits::TEXT;
use crate::margin::Account;
use crate::reader::{self, Bad, Day, Entry};
use crate::{begin, close, deposit, guarantee, step, trade, withdraw, Reply};

/// The sheet of a text: `FXSHEET`, the answers, the accounts and house; or one
/// `BAD` line. Every line is closed by a line feed, the `BAD` line too.
pub fn sheet(text: &[u8]) -> Vec<u8> {
    if text.len() > TEXT {
        return bad(0);
    }
    let mut day = match reader::read(text) {
        Ok(day) => day,
        Err(Bad(line)) => return bad(line),
    };
    if ledger::sound(&day.words).is_none() {
        return bad(0);
    }
    let mut out = Vec::with_capacity(TEXT);
    out.extend_from_slice(b"FXSHEET\n");
    for entry in &day.entries {
        let reply = perform(entry, &mut day.words, day.at.p, &day.figures);
        put_number(&mut out, reply.number as i64, b' ');
        put_number(&mut out, reply.figure, b'\n');
    }
    put_accounts(&mut out, &day);
    out.extend_from_slice(b"HOUSE ");
    put_number(&mut out, day.words[HOUSE_AT], b'\n');
    out
}

fn bad(line: usize) -> Vec<u8> {
    let mut out = b"BAD ".to_vec();
    put_number(&mut out, line as i64, b'\n');
    out
}

fn perform(entry: &Entry, words: &mut [i64], p: usize, figures: &[i64]) -> Reply {
    match *entry {
        Entry::Deposit { account, amount } => deposit(words, account, amount),
        Entry::Withdraw { account, amount } => withdraw(words, account, amount),
        Entry::Guarantee { account, guarantee: letter, cap } => {
            guarantee(words, account, letter, cap)
        }
        Entry::Begin => begin(words),
        Entry::Step => step(words),
        Entry::Trade { buyer, seller, product, lots, price } => {
            trade(words, buyer, seller, product, lots, price)
        }
        Entry::Close { from } => {
            let list = |k: usize| &figures[from + k * p..][..p];
            close(words, list(0), list(1), list(2), list(3))
        }
    }
}

/// Per account its number, cash, three dues, limit and two shortfalls.
fn put_accounts(out: &mut Vec<u8>, day: &Day) {
    for a in 0..day.at.n {
        let account = Account::read(&day.words[day.at.account(a)..]);
        put_number(out, a as i64, b' ');
        put_number(out, account.cash, b' ');
        for due in account.due {
            put_number(out, due, b' ');
        }
        put_number(out, account.limit(), b' ');
        put_number(out, account.first_shortfall(), b' ');
        put_number(out, account.second_shortfall(), b'\n');
    }
}

/// A number in decimal, and the byte that follows it, put together from the
/// end: a sign, at most 19 digits and that byte.
fn put_number(out: &mut Vec<u8>, figure: i64, after: u8) {
    let mut bytes = [after; 21];
    let mut from = bytes.len() - 1;
    let mut rest = figure.unsigned_abs();
    loop {
        from -= 1;
        bytes[from] = b'0' + (rest % 10) as u8;
        rest /= 10;
        if rest == 0 {
            break;
        }
    }
    if figure < 0 {
        from -= 1;
        bytes[from] = b'-';
    }
    out.extend_from_slice(&bytes[from..]);
}
