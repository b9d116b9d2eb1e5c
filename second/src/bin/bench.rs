//! Times the archive that `HEIDBUMMEN_LIB` named at build time against this
//! program: the same input, alternating rounds, medians.
//!
//! `bench [--rounds N] [--self]`
//!
//! Deposits, trades, runs and closes change their words. A trade is timed with
//! its reverse, which brings the words back; for the others the words are
//! restored before each timed part, outside it. Sheets are written into a room
//! that is lent again each time. Exit status: 2 if there is nothing to time.

use second::clerk::{other, Clerk, Lists, Members, Plain};
use second::gen::ledgers::{self, Flavour};
use second::gen::{shares, texts};
use second::ledger::Layout;
use second::limits::{GROSS, TEXT};
use second::margin::{CAP, CASH, DUE, GUARANTEE_AT, KIND};
use second::rng::Rng;
use std::hint::black_box;
use std::process::ExitCode;
use std::time::Instant;

const SEED: u64 = 4_711;

/// One timed part: prepares its words, then gives nanoseconds for each call.
type Part = Box<dyn FnMut(&dyn Clerk) -> f64>;

fn main() -> ExitCode {
    let (rounds, with_self) = match options() {
        Ok(options) => options,
        Err(why) => {
            eprintln!("{why}\nusage: bench [--rounds N] [--self]");
            return ExitCode::from(2);
        }
    };
    let Some(other) = other(with_self) else {
        eprintln!(
            "no archive is linked: build with HEIDBUMMEN_LIB=/path/to/libinterface.a, or give --self"
        );
        return ExitCode::from(2);
    };
    let name = if with_self { "itself" } else { "proved" };
    println!("medians of {rounds} alternating rounds, nanoseconds a call");
    for at in [Layout { n: 64, p: 16 }, Layout { n: 4, p: 2 }] {
        println!("\nn = {}, p = {}", at.n, at.p);
        table(rounds, parts(at), name, other);
    }
    println!("\nwithout a ledger");
    table(rounds, parts_apart(), name, other);
    ExitCode::SUCCESS
}

fn table(rounds: usize, parts: Vec<(&str, Part)>, name: &str, other: &dyn Clerk) {
    println!("{:<34}{:>13}{:>13}{:>14}", "call", "plain", name, "proved/plain");
    for (call, part) in parts {
        let (plain, proved) = alternate(rounds, part, other);
        println!("{call:<34}{plain:>13.1}{proved:>13.1}{:>14.2}", proved / plain);
    }
}

/// Medians of both clerks; each goes first in every second round.
fn alternate(rounds: usize, mut part: Part, other: &dyn Clerk) -> (f64, f64) {
    let clerks = [&Plain as &dyn Clerk, other];
    let mut times = [vec![], vec![]];
    for clerk in clerks {
        part(clerk); // warms up
    }
    for round in 0..rounds {
        for turn in 0..2 {
            let which = (round + turn) % 2;
            times[which].push(part(clerks[which]));
        }
    }
    let [plain, proved] = times.map(median);
    (plain, proved)
}

fn median(mut times: Vec<f64>) -> f64 {
    times.sort_by(f64::total_cmp);
    times[times.len() / 2]
}

/// Nanoseconds for each of `times` turns.
fn timed(times: usize, mut turn: impl FnMut()) -> f64 {
    let start = Instant::now();
    for _ in 0..times {
        turn();
    }
    start.elapsed().as_nanos() as f64 / times as f64
}

/// An ordinary ledger in a phase, account 0 an F and account 1 an L.
fn ledger(at: Layout, phase: i64) -> Vec<i64> {
    let mut words = ledgers::of(&mut Rng::new(SEED), at, Flavour::Ordinary, phase);
    words[at.account(0) + KIND] = 0;
    words[at.account(1) + KIND] = 1;
    words[at.account(1) + GUARANTEE_AT] = 0;
    words[at.account(1) + CAP] = 0;
    assert!(second::ledger::sound(&words).is_some());
    words
}

fn parts(at: Layout) -> Vec<(&'static str, Part)> {
    // About a millisecond for each timed part, and a megabyte of copies.
    let times = 20_000 / at.n;
    let copies = 2_048 / at.n;
    let last = at.n as i64 - 1;
    vec![
        ("soundness (question about -1)", question(ledger(at, 0), -1, times, 3)),
        ("deposit", deposit(at, last, times)),
        ("deposit refused with 10", refused_deposit(at, last, times)),
        ("question", question(ledger(at, 0), last, times, 0)),
        ("question, an L who owes today", question(owing(at), 1, times, 0)),
        ("trade (there and back, each)", trade(at, times)),
        ("run (begin and n steps)", run(at, copies.min(64))),
        ("close", close(at, copies)),
        ("loss sharing, n members", sharing(at, times)),
        ("sheet, 1,000 calls", sheet(at)),
    ]
}

/// Calls that take neither n nor p, about a millisecond for each as well.
fn parts_apart() -> Vec<(&'static str, Part)> {
    vec![
        ("margin rate, 40 and 520 figures", rate(40, 520, 2_000)),
        ("margin rate, 2 and 2 figures", rate(2, 2, 40_000)),
    ]
}

/// An ordinary ledger whose account 1 is the provider of M-101.
fn owing(at: Layout) -> Vec<i64> {
    let mut words = ledger(at, 0);
    let record = &mut words[at.account(1)..];
    record[CASH] = 80_000;
    record[DUE..DUE + 3].copy_from_slice(&[-100_000, 300_000, 0]);
    words
}

fn question(words: Vec<i64>, account: i64, times: usize, number: u64) -> Part {
    Box::new(move |clerk| {
        assert_eq!(clerk.question(&words, account).number, number);
        timed(times, || {
            black_box(clerk.question(black_box(&words), black_box(account)));
        })
    })
}

fn deposit(at: Layout, account: i64, times: usize) -> Part {
    let start = ledger(at, 0);
    let mut words = start.clone();
    Box::new(move |clerk| {
        words.copy_from_slice(&start);
        assert_eq!(clerk.deposit(&mut words, account, 1).number, 0);
        timed(times, || {
            black_box(clerk.deposit(black_box(&mut words), black_box(account), black_box(1)));
        })
    })
}

fn refused_deposit(at: Layout, account: i64, times: usize) -> Part {
    let mut words = ledger(at, 0);
    let record = &mut words[at.account(account as usize)..];
    record[CASH] = GROSS;
    record[DUE..DUE + 3].fill(0);
    Box::new(move |clerk| {
        assert_eq!(clerk.deposit(&mut words, account, 1).number, 10);
        timed(times, || {
            black_box(clerk.deposit(black_box(&mut words), black_box(account), black_box(1)));
        })
    })
}

fn trade(at: Layout, times: usize) -> Part {
    let product = at.p as i64 - 1;
    let start = ledger(at, 0);
    let mut words = start.clone();
    Box::new(move |clerk| {
        let mut there_and_back = || {
            let words = black_box(&mut words);
            let there = clerk.trade(words, 0, 1, black_box(product), 3, 10_000);
            let back = clerk.trade(words, 1, 0, black_box(product), 3, 10_000);
            black_box((there, back))
        };
        let (there, back) = there_and_back();
        assert_eq!((there.number, back.number), (0, 0));
        let each = timed(times / 2, || {
            black_box(there_and_back());
        });
        assert_eq!(words, start);
        each / 2.0
    })
}

/// So many copies of a ledger, restored outside the timed part.
fn restore(copies: &mut [Vec<i64>], start: &[i64]) {
    for copy in copies {
        copy.copy_from_slice(start);
    }
}

fn run(at: Layout, count: usize) -> Part {
    let start = ledger(at, 0);
    let mut copies = vec![start.clone(); count];
    Box::new(move |clerk| {
        restore(&mut copies, &start);
        let mut next = copies.iter_mut();
        let each = timed(count, || {
            let words = next.next().expect("a copy for each turn");
            black_box(clerk.begin(words));
            for _ in 0..at.n {
                black_box(clerk.step(black_box(words)));
            }
        });
        assert!(copies.iter().all(|words| words[2] == at.n as i64 + 1));
        each
    })
}

fn close(at: Layout, count: usize) -> Part {
    let start = ledger(at, at.n as i64 + 1);
    let mut copies = vec![start.clone(); count];
    let prices: Vec<i64> = (0..at.p).map(|j| start[at.product(j) + 2] + 17).collect();
    let (rates8, rates104) = (vec![450; at.p], vec![333; at.p]);
    let lags: Vec<i64> = (0..at.p as i64).map(|j| j % 3).collect();
    Box::new(move |clerk| {
        restore(&mut copies, &start);
        let lists = Lists { prices: &prices, rates8: &rates8, rates104: &rates104, lags: &lags };
        let mut next = copies.iter_mut();
        let each = timed(count, || {
            let words = next.next().expect("a copy for each turn");
            black_box(clerk.close(black_box(words), black_box(lists)));
        });
        assert!(copies.iter().all(|words| words[2] == 0));
        each
    })
}

fn sharing(at: Layout, times: usize) -> Part {
    let mut rng = Rng::new(SEED);
    // All lists of n members, one in eight in default, both layers in use.
    let mut figures =
        |low: i64| -> Vec<i64> { (0..at.n).map(|_| rng.between(low, 900_000_000_000)).collect() };
    let (deposits, differences) = (figures(100_000_000_000), figures(-900_000_000_000));
    let marks: Vec<i64> = (0..at.n as i64).map(|a| i64::from(a % 8 == 1)).collect();
    let kept: i64 = deposits.iter().zip(&marks).filter(|(_, &m)| m == 0).map(|(&d, _)| d).sum();
    let first = vec![0; at.n];
    let mut of = shares::Loss {
        loss: kept + 123_456_789,
        deposits,
        differences,
        marks,
        second: first.clone(),
        first,
    };
    Box::new(move |clerk| {
        let members =
            Members { deposits: &of.deposits, differences: &of.differences, marks: &of.marks };
        let (first, second) = (&mut of.first, &mut of.second);
        assert_eq!(clerk.share(of.loss, members, first, second).number, 0);
        timed(times, || {
            let loss = black_box(of.loss);
            black_box(clerk.share(loss, black_box(members), black_box(first), black_box(second)));
        })
    })
}

/// Lists of so many daily log ratios, at most a percent and a half in size.
fn rate(short: usize, long: usize, times: usize) -> Part {
    let mut rng = Rng::new(SEED);
    let mut figures =
        |count: usize| -> Vec<i64> { (0..count).map(|_| rng.between(-1_500, 1_500)).collect() };
    let (weeks8, weeks104) = (figures(short), figures(long));
    Box::new(move |clerk| {
        assert_eq!(clerk.rate(&weeks8, &weeks104).reply.number, 0);
        timed(times, || {
            black_box(clerk.rate(black_box(&weeks8), black_box(&weeks104)));
        })
    })
}

fn sheet(at: Layout) -> Part {
    let text = texts::full(&mut Rng::new(SEED), at, 1_000).bytes();
    let mut out = vec![0; TEXT];
    Box::new(move |clerk| {
        let length = clerk.sheet(&text, &mut out);
        assert!(out[..length].starts_with(b"FXSHEET\n"));
        timed(1, || {
            black_box(clerk.sheet(black_box(&text), black_box(&mut out)));
        })
    })
}

fn options() -> Result<(usize, bool), String> {
    let (mut rounds, mut with_self) = (31, false);
    let mut given = std::env::args().skip(1);
    while let Some(name) = given.next() {
        match name.as_str() {
            "--self" => with_self = true,
            "--rounds" => {
                let figure = given.next().ok_or("--rounds takes a number")?;
                rounds = figure.parse().map_err(|why| format!("--rounds: {why}"))?;
            }
            _ => return Err(format!("{name} is not known")),
        }
    }
    if rounds == 0 {
        return Err("--rounds takes a number above 0".to_string());
    }
    Ok((rounds, with_self))
}
