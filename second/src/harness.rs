//! Two clerks side by side: the same input to both, and every reply, word,
//! list and byte compared at exit.

use crate::clerk::{Clerk, Members, Rating};
use crate::gen::calls::{self, Call, Kind, Outcome, KINDS};
use crate::gen::ledgers::{self, Flavour};
use crate::gen::{argument, damage, rates, shares, spoil};
use crate::limits::{AMOUNT, GROSS, TEXT};
use crate::margin::{Account, RECORD};
use crate::rng::Rng;
use crate::Reply;
use std::collections::BTreeMap;

/// What differs, with all that is needed to do it again.
#[derive(Clone, Debug)]
pub struct Difference(pub String);

/// How often each kind of call gave each number.
pub type Counts = BTreeMap<(&'static str, u64), u64>;

/// Words lent to a clerk between two fences, so that a write beside the list
/// shows as well.
struct Lent {
    room: Vec<i64>,
}

const FENCE: [i64; 4] = [0x5EED_FACE, -1, i64::MIN, 0x0F0F_0F0F];

impl Lent {
    fn new(words: &[i64]) -> Lent {
        Lent { room: [&FENCE, words, &FENCE].concat() }
    }

    fn list(&mut self) -> &mut [i64] {
        let end = self.room.len() - FENCE.len();
        &mut self.room[FENCE.len()..end]
    }

    fn seen(&self) -> &[i64] {
        &self.room[FENCE.len()..self.room.len() - FENCE.len()]
    }
}

/// Where two lists with their fences first differ.
fn first_difference(left: &Lent, right: &Lent) -> Option<String> {
    let place = (0..left.room.len()).find(|&at| left.room[at] != right.room[at])?;
    let (one, other) = (left.room[place], right.room[place]);
    let word = place as i64 - FENCE.len() as i64;
    Some(format!("word {word} of {}: left {one}, right {other}", left.seen().len()))
}

/// The two clerks and the count of what they were asked.
pub struct Harness<'a> {
    left: &'a dyn Clerk,
    right: &'a dyn Clerk,
    pub counts: Counts,
    pub asked: u64,
}

impl<'a> Harness<'a> {
    pub fn new(left: &'a dyn Clerk, right: &'a dyn Clerk) -> Harness<'a> {
        Harness { left, right, counts: Counts::new(), asked: 0 }
    }

    fn count(&mut self, name: &'static str, number: u64) {
        self.asked += 1;
        *self.counts.entry((name, number)).or_insert(0) += 1;
    }

    /// One round: a single call of some kind, a day, or a run.
    pub fn round(&mut self, rng: &mut Rng) -> Result<(), Difference> {
        match rng.below(35) {
            0..=15 => {
                let kind = rng.pick(&KINDS);
                self.single(rng, kind)
            }
            16 | 17 => self.close_edge(rng),
            18..=20 => self.teller(rng),
            21..=24 => self.sharing(rng),
            25..=28 => self.text(rng),
            29 => self.day(rng),
            30 | 31 => self.run(rng),
            _ => self.rating(rng),
        }
    }

    /// One call on a ledger sound or spoiled.
    fn single(&mut self, rng: &mut Rng, kind: Kind) -> Result<(), Difference> {
        let mut words = match (rng.below(8), kind) {
            (0 | 1, _) => spoil::spoiled(rng).1,
            // A close is refused with 7 but in phase n+1.
            (2..=5, Kind::Close) => closing(rng),
            _ => ledgers::sound(rng),
        };
        let call = calls::of(rng, kind, &words);
        self.call(&call, &mut words).map(|_| ())
    }

    fn close_edge(&mut self, rng: &mut Rng) -> Result<(), Difference> {
        let mut words = closing(rng);
        match calls::close_at_the_edge(rng, &mut words) {
            Some(call) => self.call(&call, &mut words).map(|_| ()),
            None => Ok(()),
        }
    }

    /// Whole days: runs, closes and requests as they come.
    fn day(&mut self, rng: &mut Rng) -> Result<(), Difference> {
        let mut words = ledgers::sound(rng);
        for _ in 0..20 + rng.below(60) {
            let call = calls::of_day(rng, &words);
            self.call(&call, &mut words)?;
        }
        Ok(())
    }

    /// A settlement run with requests between the transfers.
    fn run(&mut self, rng: &mut Rng) -> Result<(), Difference> {
        let at = ledgers::sizes(rng);
        let flavour = Flavour::draw(rng);
        let phase = rng.pick(&[0, 0, 1]);
        let mut words = ledgers::of(rng, at, flavour, phase);
        if phase == 0 {
            self.call(&Call::Begin, &mut words)?;
        }
        for _ in 0..at.n + 1 {
            for _ in 0..rng.below(3) {
                let call = calls::request(rng, &words);
                self.call(&call, &mut words)?;
            }
            self.call(&Call::Step, &mut words)?;
        }
        Ok(())
    }

    /// One call put to both clerks; the words go on as they left them.
    pub fn call(&mut self, call: &Call, words: &mut Vec<i64>) -> Result<Outcome, Difference> {
        let (mut one, mut other) = (Lent::new(words), Lent::new(words));
        // Lists that are only read are lent apart, to see them unaltered.
        let (kept, lent) = (call.clone(), call.clone());
        let left = call.put_to(self.left, one.list());
        let right = lent.put_to(self.right, other.list());
        self.count(call.name(), left.number);
        let wrong = if left != right {
            Some(format!("left {left:?}, right {right:?}"))
        } else if lent != kept {
            Some(format!("a list that is only read became {lent:?}"))
        } else {
            first_difference(&one, &other)
        };
        if let Some(wrong) = wrong {
            return Err(Difference(format!("{kept:?}\nwords {words:?}\n{wrong}")));
        }
        words.clear();
        words.extend_from_slice(one.seen());
        Ok(left)
    }

    /// The teller's window on a record sound or spoiled.
    fn teller(&mut self, rng: &mut Rng) -> Result<(), Difference> {
        let mut record = [0; RECORD];
        let flavour = Flavour::draw(rng);
        ledgers::record(rng, &mut record, flavour);
        let account = Account::read(&record);
        let amount = match rng.below(6) {
            0 => account.limit(),
            1 => account.limit() + 1,
            2 => {
                let dues = account.gross() - account.cash.abs();
                let room = GROSS - dues - account.cash;
                room + rng.between(-1, 1)
            }
            _ => argument(rng, 1, AMOUNT),
        };
        if rng.one_in(4) {
            let place = rng.below(RECORD);
            let most = rng.pick(&[1, AMOUNT, 8 * AMOUNT, GROSS]);
            record[place] = argument(rng, 0, most);
        }
        let deposit = rng.coin();
        let (mut one, mut other) = (Lent::new(&record), Lent::new(&record));
        let left = at_window(self.left, one.list(), deposit, amount);
        let right = at_window(self.right, other.list(), deposit, amount);
        let name = if deposit { "teller deposit" } else { "teller withdraw" };
        self.count(name, left.number);
        let wrong = differing(left, right).or_else(|| first_difference(&one, &other));
        match wrong {
            Some(wrong) => Err(Difference(format!("{name} {amount}\nrecord {record:?}\n{wrong}"))),
            None => Ok(()),
        }
    }

    fn sharing(&mut self, rng: &mut Rng) -> Result<(), Difference> {
        let drawn = shares::draw(rng, 64);
        let (kept, lent) = (&drawn, drawn.clone());
        let mut one = [Lent::new(&kept.first), Lent::new(&kept.second)];
        let mut other = [Lent::new(&kept.first), Lent::new(&kept.second)];
        let left = share(self.left, kept, &mut one);
        let right = share(self.right, &lent, &mut other);
        self.count("share", left.number);
        let read =
            |of: &shares::Loss| [of.deposits.clone(), of.differences.clone(), of.marks.clone()];
        let wrong = differing(left, right)
            .or_else(|| (read(&lent) != read(kept)).then(|| format!("a read list: {lent:?}")))
            .or_else(|| first_difference(&one[0], &other[0]).map(|d| format!("layer one, {d}")))
            .or_else(|| first_difference(&one[1], &other[1]).map(|d| format!("layer two, {d}")));
        match wrong {
            Some(wrong) => Err(Difference(format!("share {kept:?}\n{wrong}"))),
            None => Ok(()),
        }
    }

    fn rating(&mut self, rng: &mut Rng) -> Result<(), Difference> {
        let drawn = rates::draw(rng);
        let lend = || [Lent::new(&drawn.weeks8), Lent::new(&drawn.weeks104)];
        let (one, other) = (lend(), lend());
        let left = rate(self.left, drawn.part_at, &one);
        let right = rate(self.right, drawn.part_at, &other);
        self.count("rate", left.reply.number);
        let wrong = (left != right)
            .then(|| format!("left {left:?}, right {right:?}"))
            .or_else(|| first_difference(&one[0], &other[0]).map(|d| format!("8-week list, {d}")))
            .or_else(|| {
                first_difference(&one[1], &other[1]).map(|d| format!("104-week list, {d}"))
            });
        match wrong {
            Some(wrong) => Err(Difference(format!("rate {drawn:?}\n{wrong}"))),
            None => Ok(()),
        }
    }

    fn text(&mut self, rng: &mut Rng) -> Result<(), Difference> {
        let (what, text) = damage::draw(rng);
        let room = match rng.below(16) {
            0 => rng.pick(&[0, 1, 4_096, TEXT - 1]),
            1 => TEXT + rng.below(100),
            _ => TEXT,
        };
        self.sheet(what, &text, room)
    }

    /// One sheet by both clerks, in rooms that were filled alike before.
    pub fn sheet(&mut self, what: &str, text: &[u8], room: usize) -> Result<(), Difference> {
        let fill = |room: usize| -> Vec<u8> { (0..room + 8).map(|k| (k % 251) as u8).collect() };
        let (mut one, mut other) = (fill(room), fill(room));
        let left = self.left.sheet(text, &mut one[..room]);
        let right = self.right.sheet(text, &mut other[..room]);
        let name = match &one[..left] {
            [] => "sheet without room",
            [b'F', ..] => "sheet",
            [b'B', b'A', b'D', b' ', b'0', ..] => "sheet BAD 0",
            _ => "sheet BAD line",
        };
        self.count(name, 0);
        if left == right && one == other {
            return Ok(());
        }
        let place = (0..one.len()).find(|&at| one[at] != other[at]);
        let shown = |out: &[u8], length: usize| {
            String::from_utf8_lossy(&out[..length.min(room).min(2_000)]).into_owned()
        };
        Err(Difference(format!(
            "sheet of a text ({what}), room {room}\ntext {:?}\nlengths: left {left}, right {right}; \
             first byte that differs {place:?}\nleft {:?}\nright {:?}",
            String::from_utf8_lossy(text),
            shown(&one, left),
            shown(&other, right),
        )))
    }
}

/// A sound ledger whose run is done.
fn closing(rng: &mut Rng) -> Vec<i64> {
    let at = ledgers::sizes(rng);
    let flavour = Flavour::draw(rng);
    ledgers::of(rng, at, flavour, at.n as i64 + 1)
}

fn differing(left: Reply, right: Reply) -> Option<String> {
    (left != right).then(|| format!("left {left:?}, right {right:?}"))
}

fn at_window(clerk: &dyn Clerk, record: &mut [i64], deposit: bool, amount: i64) -> Reply {
    let record = record.try_into().expect("eight figures");
    if deposit {
        clerk.teller_deposit(record, amount)
    } else {
        clerk.teller_withdraw(record, amount)
    }
}

fn share(clerk: &dyn Clerk, of: &shares::Loss, lists: &mut [Lent; 2]) -> Reply {
    let members =
        Members { deposits: &of.deposits, differences: &of.differences, marks: &of.marks };
    let [first, second] = lists;
    clerk.share(of.loss, members, first.list(), second.list())
}

/// The 8-week list is lent by itself, or as the part of the other that begins
/// at a place.
fn rate(clerk: &dyn Clerk, part_at: Option<usize>, lists: &[Lent; 2]) -> Rating {
    let [weeks8, weeks104] = lists.each_ref().map(Lent::seen);
    match part_at {
        Some(at) => clerk.rate(&weeks104[at..at + weeks8.len()], weeks104),
        None => clerk.rate(weeks8, weeks104),
    }
}
