//! The margin ledger a second time, in plain Rust.
//!
//! This program is written from the paper alone and shares no line with the
//! proved one. It serves as the yardstick: the proved program's replies, words,
//! lists and sheets are compared with these, and its speed with this speed.
//! Every word is tested to be in range before anything is added to it. From
//! then on the ranges of the paper bound each sum and product, and 64 bits hold
//! all but one of them: a layer times a weight in loss sharing.

pub mod calls;
pub mod cases;
pub mod clerk;
pub mod close;
pub mod gen;
pub mod harness;
#[cfg(interface)]
pub mod interface;
pub mod ledger;
pub mod limits;
pub mod margin;
pub mod rates;
pub mod reader;
pub mod rng;
pub mod run;
pub mod share;
pub mod sheet;
pub mod teller;

pub use calls::{deposit, guarantee, question, trade, withdraw};
pub use close::close;
pub use rates::rate;
pub use run::{begin, step};
pub use share::share;
pub use sheet::sheet;

/// The answer to a call: its number ("Numbers returned") and its figure.
#[repr(C)]
#[derive(Clone, Copy, Debug, PartialEq, Eq)]
pub struct Reply {
    pub number: u64,
    pub figure: i64,
}

impl Reply {
    /// Number 0 with its figure.
    pub const fn done(figure: i64) -> Reply {
        Reply { number: 0, figure }
    }

    /// A refusal whose figure is 0: all of them but 11 and 12.
    pub const fn refused(number: u64) -> Reply {
        Reply { number, figure: 0 }
    }

    /// A refusal that names a figure: 11 the limit, 12 the account.
    pub const fn refused_with(number: u64, figure: i64) -> Reply {
        Reply { number, figure }
    }
}

/// The answer to a question about one account: all three 0 when refused.
#[derive(Clone, Copy, Debug, PartialEq, Eq)]
pub struct Answer {
    pub number: u64,
    pub limit: i64,
    pub first: i64,
    pub second: i64,
}

impl Answer {
    pub const fn refused(number: u64) -> Answer {
        Answer { number, limit: 0, first: 0, second: 0 }
    }
}
