//! One face for every program that takes the ledger's calls, so that two of
//! them can be set side by side.

use crate::limits::TEXT;
use crate::margin::RECORD;
use crate::{Answer, Reply};

/// The four lists of a close.
#[derive(Clone, Copy, Debug)]
pub struct Lists<'a> {
    pub prices: &'a [i64],
    pub rates8: &'a [i64],
    pub rates104: &'a [i64],
    pub lags: &'a [i64],
}

/// The three lists that loss sharing reads.
#[derive(Clone, Copy, Debug)]
pub struct Members<'a> {
    pub deposits: &'a [i64],
    pub differences: &'a [i64],
    pub marks: &'a [i64],
}

/// The answer about a margin rate: the reply, where the part handed back
/// begins, and how many figures it has.
#[derive(Clone, Copy, Debug, PartialEq, Eq)]
pub struct Rating {
    pub reply: Reply,
    pub from: Window,
    pub count: usize,
}

/// A list lent for a margin rate, told by its first figure's place.
#[derive(Clone, Copy, Debug, PartialEq, Eq)]
pub enum Window {
    Weeks8,
    Weeks104,
    Neither,
}

impl Rating {
    /// Told by the place and not by the figures there, so that a copy shows.
    /// `starts` has the places of the 8-week and of the 104-week list; where
    /// they are the same, the count tells the lists apart.
    pub fn told(reply: Reply, starts: [*const i64; 2], part: *const i64, count: usize) -> Rating {
        let from = match starts.iter().position(|&start| start == part) {
            Some(0) => Window::Weeks8,
            Some(_) => Window::Weeks104,
            None => Window::Neither,
        };
        Rating { reply, from, count }
    }

    /// The part handed back, of lists that lie apart; none if it is no part.
    pub fn part<'a>(&self, weeks8: &'a [i64], weeks104: &'a [i64]) -> Option<&'a [i64]> {
        match self.from {
            Window::Weeks8 => weeks8.get(..self.count),
            Window::Weeks104 => weeks104.get(..self.count),
            Window::Neither => None,
        }
    }
}

/// Every call. What a clerk does not say otherwise, this program answers.
pub trait Clerk {
    fn deposit(&self, words: &mut [i64], account: i64, amount: i64) -> Reply {
        crate::deposit(words, account, amount)
    }
    fn withdraw(&self, words: &mut [i64], account: i64, amount: i64) -> Reply {
        crate::withdraw(words, account, amount)
    }
    fn guarantee(&self, words: &mut [i64], account: i64, guarantee: i64, cap: i64) -> Reply {
        crate::guarantee(words, account, guarantee, cap)
    }
    fn question(&self, words: &[i64], account: i64) -> Answer {
        crate::question(words, account)
    }
    fn trade(
        &self,
        words: &mut [i64],
        buyer: i64,
        seller: i64,
        product: i64,
        lots: i64,
        price: i64,
    ) -> Reply {
        crate::trade(words, buyer, seller, product, lots, price)
    }
    fn begin(&self, words: &mut [i64]) -> Reply {
        crate::begin(words)
    }
    fn step(&self, words: &mut [i64]) -> Reply {
        crate::step(words)
    }
    fn close(&self, words: &mut [i64], lists: Lists) -> Reply {
        crate::close(words, lists.prices, lists.rates8, lists.rates104, lists.lags)
    }
    fn share(&self, loss: i64, of: Members, first: &mut [i64], second: &mut [i64]) -> Reply {
        crate::share(loss, of.deposits, of.differences, of.marks, first, second)
    }
    fn rate(&self, weeks8: &[i64], weeks104: &[i64]) -> Rating {
        let (reply, part) = crate::rate(weeks8, weeks104);
        Rating::told(reply, [weeks8.as_ptr(), weeks104.as_ptr()], part.as_ptr(), part.len())
    }
    fn teller_deposit(&self, record: &mut [i64; RECORD], amount: i64) -> Reply {
        crate::teller::deposit(record, amount)
    }
    fn teller_withdraw(&self, record: &mut [i64; RECORD], amount: i64) -> Reply {
        crate::teller::withdraw(record, amount)
    }
    /// The bytes written at the start of `out`; 0 where it is under 65,536.
    fn sheet(&self, text: &[u8], out: &mut [u8]) -> usize {
        if out.len() < TEXT {
            return 0;
        }
        let sheet = crate::sheet(text);
        out[..sheet.len()].copy_from_slice(&sheet);
        sheet.len()
    }
}

/// This program itself.
pub struct Plain;

impl Clerk for Plain {}

/// What this program is set against: itself, or the archive where one is linked.
pub fn other(with_self: bool) -> Option<&'static dyn Clerk> {
    if with_self {
        return Some(&Plain);
    }
    #[cfg(interface)]
    return Some(&crate::interface::Interface);
    #[cfg(not(interface))]
    None
}
