//! The harness itself: this program agrees with itself, each of a row of wrong
//! clerks is found out, and what M-101 speaks of is asked often.

use second::clerk::{Clerk, Lists, Members, Plain, Rating, Window};
use second::harness::Harness;
use second::ledger::{sound, PHASE};
use second::margin::{Account, CASH, DUE};
use second::rng::Rng;
use second::{Answer, Reply};
use std::cell::Cell;

#[test]
fn this_program_agrees_with_itself() {
    let mut harness = Harness::new(&Plain, &Plain);
    for round in 0..3_000 {
        harness.round(&mut Rng::of_round(1, round)).expect("no difference");
    }
    // Every number of every call has come up.
    for (name, numbers) in [
        ("deposit", &[0, 1, 3, 5, 10][..]),
        ("withdraw", &[0, 1, 3, 5, 11]),
        ("guarantee", &[0, 1, 3, 5, 6]),
        ("question", &[0, 1, 3]),
        ("trade", &[0, 1, 3, 4, 6, 8, 9]),
        ("begin", &[0, 1, 7, 13]),
        ("step", &[0, 1, 7]),
        ("close", &[0, 1, 2, 7, 8, 12]),
        ("share", &[0, 2, 5, 8]),
        ("rate", &[0, 2, 8]),
        ("teller deposit", &[0, 1, 5, 10]),
        ("teller withdraw", &[0, 1, 5, 11]),
    ] {
        for &number in numbers {
            assert!(harness.counts.contains_key(&(name, number)), "{name} never gave {number}");
        }
    }
}

fn is_found_out(wrong: &dyn Clerk, name: &str) {
    let mut harness = Harness::new(&Plain, wrong);
    let found = (0..20_000).any(|round| harness.round(&mut Rng::of_round(2, round)).is_err());
    assert!(found, "{name} was not found out");
}

/// One of the paper's four empty programs.
struct RefusesEverything;
impl Clerk for RefusesEverything {
    fn deposit(&self, _: &mut [i64], _: i64, _: i64) -> Reply {
        Reply::refused(1)
    }
}

struct ConstantReply;
impl Clerk for ConstantReply {
    fn step(&self, words: &mut [i64]) -> Reply {
        second::step(words);
        Reply { number: 0, figure: 0 }
    }
}

struct LeavesTheLedgerAlone;
impl Clerk for LeavesTheLedgerAlone {
    fn trade(&self, words: &mut [i64], b: i64, s: i64, product: i64, l: i64, price: i64) -> Reply {
        second::trade(&mut words.to_vec(), b, s, product, l, price)
    }
}

/// Moves all dues at the first step and idles after.
struct MovesAllAtOnce;
impl Clerk for MovesAllAtOnce {
    fn step(&self, words: &mut [i64]) -> Reply {
        let phase = words.get(PHASE).copied();
        let given = second::step(words);
        if given.number == 0 && phase == Some(1) {
            let at = sound(words).expect("a sound ledger");
            for a in 1..at.n {
                let record = at.account(a);
                words[record + CASH] += words[record + DUE];
                words[record + DUE] = 0;
            }
        }
        given
    }
}

/// This program's answer, and the account where it is not refused.
fn answered(words: &[i64], account: i64) -> (Answer, Option<Account>) {
    let answer = second::question(words, account);
    let at = sound(words).filter(|_| answer.number == 0);
    (answer, at.map(|at| Account::read(&words[at.account(account as usize)..])))
}

/// Lets the LG count in excess two.
struct CountsTheLetterTwice;
impl Clerk for CountsTheLetterTwice {
    fn question(&self, words: &[i64], account: i64) -> Answer {
        let (mut answer, asked) = answered(words, account);
        if let Some(a) = asked.filter(|a| !a.provider) {
            let two = a.deposit() + a.due[0] - a.margin;
            let one = a.deposit() - a.required();
            answer.limit = a.cash.min(one).min(two).max(0);
        }
        answer
    }
}

/// Holds required margin at zero when it is negative.
struct HoldsRequiredAtZero;
impl Clerk for HoldsRequiredAtZero {
    fn question(&self, words: &[i64], account: i64) -> Answer {
        let (mut answer, asked) = answered(words, account);
        if let Some(a) = asked {
            answer.first = (a.required().max(0) - a.deposit()).max(0);
        }
        answer
    }
}

/// Asks an L for nothing unless due 1 is negative: document 01 without M-101.
struct LooksAtTomorrowAlone;
impl Clerk for LooksAtTomorrowAlone {
    fn question(&self, words: &[i64], account: i64) -> Answer {
        let (mut answer, asked) = answered(words, account);
        if let Some(a) = asked.filter(|a| a.provider && a.due[1] >= 0) {
            answer.second = (-a.cash).max(0);
        }
        answer
    }
}

/// Rounds a loss of a yen product toward zero.
struct RoundsTowardZero;
impl Clerk for RoundsTowardZero {
    fn close(&self, words: &mut [i64], lists: Lists) -> Reply {
        let before = words.to_vec();
        let given = Plain.close(words, lists);
        if let (0, Some(at)) = (given.number, sound(&before)) {
            for a in 0..at.n {
                for j in (0..at.p).filter(|&j| before[at.product(j)] == 0) {
                    let position = &before[at.position(a, j)..];
                    let raw = position[0] * lists.prices[j] - position[1];
                    let lag = lists.lags[j] as usize;
                    words[at.account(a) + DUE + lag] += i64::from(raw < 0 && raw % 10 != 0);
                }
            }
        }
        given
    }
}

/// Gives a tie to the higher account.
struct TieToTheHigher;
impl Clerk for TieToTheHigher {
    fn share(&self, loss: i64, of: Members, first: &mut [i64], second: &mut [i64]) -> Reply {
        let given = Plain.share(loss, of, first, second);
        let members = if given.number == 0 { of.marks.len() } else { 0 };
        for (a, b) in (0..members).zip(1..members) {
            let alike = of.marks[a] == of.marks[b] && of.deposits[a] == of.deposits[b];
            if alike && first[a] == first[b] + 1 {
                first.swap(a, b);
            }
        }
        given
    }
}

/// An answer about a rate, with another list in place of the one handed back.
fn handing_back(given: Rating, weeks8: &[i64], weeks104: &[i64], part: &[i64]) -> Rating {
    let starts = [weeks8.as_ptr(), weeks104.as_ptr()];
    Rating::told(given.reply, starts, part.as_ptr(), part.len())
}

/// Takes the 104-week list on a tie.
struct TieToTheLonger;
impl Clerk for TieToTheLonger {
    fn rate(&self, weeks8: &[i64], weeks104: &[i64]) -> Rating {
        let given = Plain.rate(weeks8, weeks104);
        let tie = given == Plain.rate(weeks8, weeks8)
            && given.reply == Plain.rate(weeks104, weeks104).reply;
        match given.reply.number {
            0 if tie => handing_back(given, weeks8, weeks104, weeks104),
            _ => given,
        }
    }
}

/// Compares the deviations, so that it sees no tie of rates that are rounded up.
struct ComparesDeviations;
impl Clerk for ComparesDeviations {
    fn rate(&self, weeks8: &[i64], weeks104: &[i64]) -> Rating {
        let given = Plain.rate(weeks8, weeks104);
        if given.reply.number != 0 || deviation(weeks104) <= deviation(weeks8) {
            return given;
        }
        handing_back(given, weeks8, weeks104, weeks104)
    }
}

fn deviation(list: &[i64]) -> f64 {
    let count = list.len() as f64;
    let mean = list.iter().sum::<i64>() as f64 / count;
    let squares: f64 = list.iter().map(|&x| (x as f64 - mean).powi(2)).sum();
    (squares / (count - 1.0)).sqrt()
}

/// Works the figure out in floating point, as a spreadsheet does.
struct RoundsOnTheWay;
impl Clerk for RoundsOnTheWay {
    fn rate(&self, weeks8: &[i64], weeks104: &[i64]) -> Rating {
        let mut given = Plain.rate(weeks8, weeks104);
        if given.reply.number == 0 {
            let exact = deviation(weeks8).max(deviation(weeks104)) / 100_000.0 * 2.33 * 100.0;
            given.reply.figure = ((exact * 100.0).ceil() as i64).max(1);
        }
        given
    }
}

/// Goes on to the next rate where the exact figure is a whole number.
struct PassesAWholeFigure;
impl Clerk for PassesAWholeFigure {
    fn rate(&self, weeks8: &[i64], weeks104: &[i64]) -> Rating {
        let mut given = Plain.rate(weeks8, weeks104);
        if given.reply.number == 0 {
            let exact = deviation(weeks8).max(deviation(weeks104)) * 0.233;
            given.reply.figure += i64::from((exact - given.reply.figure as f64).abs() < 1e-9);
        }
        given
    }
}

/// Divides by the count.
struct DividesByTheCount;
impl Clerk for DividesByTheCount {
    fn rate(&self, weeks8: &[i64], weeks104: &[i64]) -> Rating {
        let mut given = Plain.rate(weeks8, weeks104);
        if given.reply.number == 0 {
            let whole = |list: &[i64]| deviation(list) * (1.0 - 1.0 / list.len() as f64).sqrt();
            let exact = whole(weeks8).max(whole(weeks104)) * 0.233;
            given.reply.figure = (exact.ceil() as i64).max(1);
        }
        given
    }
}

/// Hands back a copy.
struct HandsBackACopy;
impl Clerk for HandsBackACopy {
    fn rate(&self, weeks8: &[i64], weeks104: &[i64]) -> Rating {
        let given = Plain.rate(weeks8, weeks104);
        let copy = weeks104.to_vec();
        match given.from {
            Window::Weeks104 => handing_back(given, weeks8, weeks104, &copy),
            _ => given,
        }
    }
}

/// Hands back the whole 8-week list though it refuses.
struct HandsBackOnRefusal;
impl Clerk for HandsBackOnRefusal {
    fn rate(&self, weeks8: &[i64], weeks104: &[i64]) -> Rating {
        let given = Plain.rate(weeks8, weeks104);
        match given.reply.number {
            0 => given,
            _ => handing_back(given, weeks8, weeks104, weeks8),
        }
    }
}

/// Looks at the 8-week list, length and figures, before the other.
struct OneListAfterTheOther;
impl Clerk for OneListAfterTheOther {
    fn rate(&self, weeks8: &[i64], weeks104: &[i64]) -> Rating {
        let first = Plain.rate(weeks8, weeks8);
        match first.reply.number {
            0 => Plain.rate(weeks8, weeks104),
            _ => first,
        }
    }
}

/// Writes one word past the list.
struct WritesBeside;
impl Clerk for WritesBeside {
    fn begin(&self, words: &mut [i64]) -> Reply {
        // The harness lends the words within a larger list of its own.
        unsafe { *words.as_mut_ptr().add(words.len()) = 0 };
        second::begin(words)
    }
}

/// Alters the record although it refuses.
struct AltersOnRefusal;
impl Clerk for AltersOnRefusal {
    fn teller_withdraw(&self, record: &mut [i64; 8], amount: i64) -> Reply {
        let given = second::teller::withdraw(record, amount);
        if given.number == 11 {
            record[CASH] = given.figure;
        }
        given
    }
}

/// Takes a text of 65,537 bytes.
struct ReadsTooMuch;
impl Clerk for ReadsTooMuch {
    fn sheet(&self, text: &[u8], out: &mut [u8]) -> usize {
        let cut = if text.len() == 65_537 { &text[..65_536] } else { text };
        Plain.sheet(cut, out)
    }
}

/// Leaves a byte past the sheet.
struct SpillsAByte;
impl Clerk for SpillsAByte {
    fn sheet(&self, text: &[u8], out: &mut [u8]) -> usize {
        let length = Plain.sheet(text, out);
        if length > 0 {
            out[length] = 0;
        }
        length
    }
}

#[test]
fn wrong_clerks_are_found_out() {
    is_found_out(&RefusesEverything, "refuses everything");
    is_found_out(&ConstantReply, "constant reply");
    is_found_out(&LeavesTheLedgerAlone, "leaves the ledger alone");
    is_found_out(&MovesAllAtOnce, "moves all at once");
    is_found_out(&CountsTheLetterTwice, "counts the letter twice");
    is_found_out(&HoldsRequiredAtZero, "holds required at zero");
    is_found_out(&LooksAtTomorrowAlone, "looks at tomorrow alone");
    is_found_out(&RoundsTowardZero, "rounds toward zero");
    is_found_out(&TieToTheHigher, "tie to the higher");
    is_found_out(&TieToTheLonger, "tie to the longer");
    is_found_out(&ComparesDeviations, "compares deviations");
    is_found_out(&RoundsOnTheWay, "rounds on the way");
    is_found_out(&PassesAWholeFigure, "passes a whole figure");
    is_found_out(&DividesByTheCount, "divides by the count");
    is_found_out(&HandsBackACopy, "hands back a copy");
    is_found_out(&HandsBackOnRefusal, "hands back on refusal");
    is_found_out(&OneListAfterTheOther, "one list after the other");
    is_found_out(&WritesBeside, "writes beside the list");
    is_found_out(&AltersOnRefusal, "alters on refusal");
    is_found_out(&ReadsTooMuch, "reads too much");
    is_found_out(&SpillsAByte, "spills a byte");
}

/// Counts the questions about an L, and of these the ones about an L who owes
/// today and not tomorrow: with too little cash, and with enough.
#[derive(Default)]
struct CountsWhoOwe(Cell<[u32; 3]>);
impl Clerk for CountsWhoOwe {
    fn question(&self, words: &[i64], account: i64) -> Answer {
        let (answer, asked) = answered(words, account);
        if let Some(a) = asked.filter(|a| a.provider) {
            let owes = a.due[0] < 0 && a.due[1] >= 0;
            let short = a.cash + a.due[0] < 0;
            let [all, lacking, able] = self.0.get();
            self.0.set([
                all + 1,
                lacking + u32::from(owes && short),
                able + u32::from(owes && !short),
            ]);
        }
        answer
    }
}

/// These are the providers that M-101 speaks of: one question in twenty about an
/// L, one in fifty without and one with enough cash.
#[test]
fn questions_about_who_owes_today_come_often() {
    let counts = CountsWhoOwe::default();
    let mut harness = Harness::new(&Plain, &counts);
    for round in 0..3_000 {
        harness.round(&mut Rng::of_round(3, round)).expect("no difference");
    }
    let [all, lacking, able] = counts.0.get();
    assert!(20 * (lacking + able) > all, "{lacking} and {able} of {all}");
    assert!(50 * lacking > all && 50 * able > all, "{lacking} and {able} of {all}");
}
