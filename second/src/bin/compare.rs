//! Compares this program with the archive that `HEIDBUMMEN_LIB` named at build
//! time, over random and adversarial input.
//!
//! `compare [--seconds N] [--seed S] [--only R] [--trace] [--self]`
//!
//! Without `--seed`, a fixed list of seeds and one fresh seed share the time.
//! `--only R` does the one round R of the seed again. `--trace` tells each round
//! before it begins, so that one which ends the process can be found. `--self`
//! compares this program with itself, to try the harness without an archive.
//! Exit status: 0 alike, 1 a difference, 2 nothing to compare with.

use second::clerk::{other, Plain};
use second::harness::{Difference, Harness};
use second::rng::Rng;
use std::io::Write;
use std::process::ExitCode;
use std::time::{Duration, Instant, SystemTime, UNIX_EPOCH};

const SEEDS: [u64; 5] = [1, 2, 20_260, 4_294_967_296, 18_446_744_073_709_551_615];

struct Options {
    seconds: f64,
    seed: Option<u64>,
    only: Option<u64>,
    trace: bool,
    with_self: bool,
}

fn main() -> ExitCode {
    let options = match options() {
        Ok(options) => options,
        Err(why) => {
            eprintln!(
                "{why}\nusage: compare [--seconds N] [--seed S] [--only R] [--trace] [--self]"
            );
            return ExitCode::from(2);
        }
    };
    let Some(other) = other(options.with_self) else {
        eprintln!(
            "no archive is linked: build with HEIDBUMMEN_LIB=/path/to/libinterface.a, or give --self"
        );
        return ExitCode::from(2);
    };
    let seeds = match options.seed {
        Some(seed) => vec![seed],
        None => [&SEEDS[..], &[fresh_seed()]].concat(),
    };
    println!(
        "left: this program; right: {}",
        if options.with_self { "itself" } else { "the archive" }
    );
    let mut harness = Harness::new(&Plain, other);
    let share = Duration::from_secs_f64(options.seconds / seeds.len() as f64);
    for seed in seeds {
        // Said before the first round, lest a crash take the seed with it.
        print!("seed {seed}: ");
        let _ = std::io::stdout().flush();
        let (rounds, found) = match options.only {
            Some(round) => (1, one_round(&mut harness, seed, round).err().map(|d| (round, d))),
            None => rounds(&mut harness, seed, share, options.trace),
        };
        println!("{rounds} rounds");
        if let Some((round, Difference(what))) = found {
            println!("DIFFERENCE, to be had again with --seed {seed} --only {round}\n{what}");
            return ExitCode::from(1);
        }
    }
    report(&harness);
    ExitCode::SUCCESS
}

fn one_round(harness: &mut Harness, seed: u64, round: u64) -> Result<(), Difference> {
    harness.round(&mut Rng::of_round(seed, round))
}

/// Rounds until the time is up or two answers differ.
fn rounds(
    harness: &mut Harness,
    seed: u64,
    time: Duration,
    trace: bool,
) -> (u64, Option<(u64, Difference)>) {
    let start = Instant::now();
    let mut round = 0;
    while start.elapsed() < time {
        if trace {
            eprintln!("round {round}");
        }
        if let Err(difference) = one_round(harness, seed, round) {
            return (round + 1, Some((round, difference)));
        }
        round += 1;
    }
    (round, None)
}

/// Calls by kind and number, so that one sees what was tried.
fn report(harness: &Harness) {
    println!("{:<20}{:>8}{:>14}", "call", "number", "times");
    for ((name, number), times) in &harness.counts {
        println!("{name:<20}{number:>8}{times:>14}");
    }
    println!("{} calls, no difference", harness.asked);
}

fn fresh_seed() -> u64 {
    let now = SystemTime::now().duration_since(UNIX_EPOCH).unwrap_or_default();
    Rng::new(now.as_nanos() as u64).draw()
}

fn options() -> Result<Options, String> {
    let mut options =
        Options { seconds: 30.0, seed: None, only: None, trace: false, with_self: false };
    let mut given = std::env::args().skip(1);
    while let Some(name) = given.next() {
        let mut figure = || given.next().ok_or(format!("{name} takes a number"));
        let wrong = |why: &dyn std::fmt::Display| format!("{name}: {why}");
        match name.as_str() {
            "--seconds" => options.seconds = figure()?.parse().map_err(|e| wrong(&e))?,
            "--seed" => options.seed = Some(figure()?.parse().map_err(|e| wrong(&e))?),
            "--only" => options.only = Some(figure()?.parse().map_err(|e| wrong(&e))?),
            "--trace" => options.trace = true,
            "--self" => options.with_self = true,
            _ => return Err(format!("{name} is not known")),
        }
    }
    if options.only.is_some() && options.seed.is_none() {
        return Err("--only needs its --seed".to_string());
    }
    if !options.seconds.is_finite() || options.seconds <= 0.0 {
        return Err("--seconds takes a number above 0".to_string());
    }
    Ok(options)
}
