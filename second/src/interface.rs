//! The archive of the proved program, through its C names.

use crate::clerk::{Clerk, Lists, Members, Rating};
use crate::margin::RECORD;
use crate::{Answer, Reply};

extern "C" {
    fn fx_deposit(words: *mut i64, count: usize, account: i64, amount: i64) -> Reply;
    fn fx_withdraw(words: *mut i64, count: usize, account: i64, amount: i64) -> Reply;
    fn fx_guarantee(words: *mut i64, count: usize, account: i64, guarantee: i64, cap: i64)
        -> Reply;
    fn fx_question(
        words: *const i64,
        count: usize,
        account: i64,
        limit: *mut i64,
        first: *mut i64,
        second: *mut i64,
    ) -> u64;
    fn fx_trade(
        words: *mut i64,
        count: usize,
        buyer: i64,
        seller: i64,
        product: i64,
        lots: i64,
        price: i64,
    ) -> Reply;
    fn fx_begin(words: *mut i64, count: usize) -> Reply;
    fn fx_step(words: *mut i64, count: usize) -> Reply;
    fn fx_close(
        words: *mut i64,
        count: usize,
        prices: *const i64,
        prices_count: usize,
        rates8: *const i64,
        rates8_count: usize,
        rates104: *const i64,
        rates104_count: usize,
        lags: *const i64,
        lags_count: usize,
    ) -> Reply;
    fn fx_share(
        loss: i64,
        deposits: *const i64,
        deposits_count: usize,
        differences: *const i64,
        differences_count: usize,
        marks: *const i64,
        marks_count: usize,
        first: *mut i64,
        first_count: usize,
        second: *mut i64,
        second_count: usize,
    ) -> Reply;
    fn fx_rate(
        weeks8: *const i64,
        weeks8_count: usize,
        weeks104: *const i64,
        weeks104_count: usize,
        governs: *mut *const i64,
        governs_count: *mut usize,
    ) -> Reply;
    // The record is eight words in the order of `struct fx_account`.
    fn fx_teller_deposit(account: *mut i64, amount: i64) -> Reply;
    fn fx_teller_withdraw(account: *mut i64, amount: i64) -> Reply;
    fn fx_sheet(text: *const u8, length: usize, out: *mut u8, room: usize) -> usize;
}

/// The archive that `HEIDBUMMEN_LIB` named when this package was built.
pub struct Interface;

// Each call lends lists that live until it returns, with their true lengths;
// the lists written are disjoint from the others because Rust lends them so.
impl Clerk for Interface {
    fn deposit(&self, words: &mut [i64], account: i64, amount: i64) -> Reply {
        unsafe { fx_deposit(words.as_mut_ptr(), words.len(), account, amount) }
    }
    fn withdraw(&self, words: &mut [i64], account: i64, amount: i64) -> Reply {
        unsafe { fx_withdraw(words.as_mut_ptr(), words.len(), account, amount) }
    }
    fn guarantee(&self, words: &mut [i64], account: i64, guarantee: i64, cap: i64) -> Reply {
        unsafe { fx_guarantee(words.as_mut_ptr(), words.len(), account, guarantee, cap) }
    }
    fn question(&self, words: &[i64], account: i64) -> Answer {
        // Figures that the call fails to write must show as a difference.
        let (mut limit, mut first, mut second) = (i64::MIN, i64::MIN, i64::MIN);
        let number = unsafe {
            fx_question(words.as_ptr(), words.len(), account, &mut limit, &mut first, &mut second)
        };
        Answer { number, limit, first, second }
    }
    fn trade(
        &self,
        words: &mut [i64],
        buyer: i64,
        seller: i64,
        product: i64,
        lots: i64,
        price: i64,
    ) -> Reply {
        let count = words.len();
        unsafe { fx_trade(words.as_mut_ptr(), count, buyer, seller, product, lots, price) }
    }
    fn begin(&self, words: &mut [i64]) -> Reply {
        unsafe { fx_begin(words.as_mut_ptr(), words.len()) }
    }
    fn step(&self, words: &mut [i64]) -> Reply {
        unsafe { fx_step(words.as_mut_ptr(), words.len()) }
    }
    fn close(&self, words: &mut [i64], lists: Lists) -> Reply {
        let Lists { prices, rates8, rates104, lags } = lists;
        unsafe {
            fx_close(
                words.as_mut_ptr(),
                words.len(),
                prices.as_ptr(),
                prices.len(),
                rates8.as_ptr(),
                rates8.len(),
                rates104.as_ptr(),
                rates104.len(),
                lags.as_ptr(),
                lags.len(),
            )
        }
    }
    fn share(&self, loss: i64, of: Members, first: &mut [i64], second: &mut [i64]) -> Reply {
        unsafe {
            fx_share(
                loss,
                of.deposits.as_ptr(),
                of.deposits.len(),
                of.differences.as_ptr(),
                of.differences.len(),
                of.marks.as_ptr(),
                of.marks.len(),
                first.as_mut_ptr(),
                first.len(),
                second.as_mut_ptr(),
                second.len(),
            )
        }
    }
    fn rate(&self, weeks8: &[i64], weeks104: &[i64]) -> Rating {
        // What the call fails to write must show as a difference.
        let kept = 0_i64;
        let (mut governs, mut count) = (&raw const kept, usize::MAX);
        let reply = unsafe {
            fx_rate(
                weeks8.as_ptr(),
                weeks8.len(),
                weeks104.as_ptr(),
                weeks104.len(),
                &mut governs,
                &mut count,
            )
        };
        // A list without figures has none to point at: the pointer then stays.
        let start = if weeks8.is_empty() { &raw const kept } else { weeks8.as_ptr() };
        Rating::told(reply, [start, weeks104.as_ptr()], governs, count)
    }
    fn teller_deposit(&self, record: &mut [i64; RECORD], amount: i64) -> Reply {
        unsafe { fx_teller_deposit(record.as_mut_ptr(), amount) }
    }
    fn teller_withdraw(&self, record: &mut [i64; RECORD], amount: i64) -> Reply {
        unsafe { fx_teller_withdraw(record.as_mut_ptr(), amount) }
    }
    fn sheet(&self, text: &[u8], out: &mut [u8]) -> usize {
        unsafe { fx_sheet(text.as_ptr(), text.len(), out.as_mut_ptr(), out.len()) }
    }
}
