//! "The ledger's words": where each word lies, and when the list is sound.

use crate::limits::{book_limit, price_limit, within, ACCOUNTS, HOUSE, LOTS, PRODUCTS};
use crate::margin::{sound_record, DUE, RECORD};

/// The words at the head.
pub const N: usize = 0;
pub const P: usize = 1;
pub const PHASE: usize = 2;
pub const HOUSE_AT: usize = 3;
pub const HEAD: usize = 4;

/// The words of a product.
pub const CROSS: usize = 0;
pub const MARK: usize = 1;
pub const PRICE: usize = 2;
pub const PRINCIPAL: usize = 3;
pub const QUOTE: usize = 4;
pub const PRODUCT: usize = 5;

/// The counts of a ledger, from which every place follows.
#[derive(Clone, Copy, Debug, PartialEq, Eq)]
pub struct Layout {
    pub n: usize,
    pub p: usize,
}

impl Layout {
    /// Length of the list: 4 + 5p + n(8 + 2p).
    pub const fn length(self) -> usize {
        self.account(self.n)
    }

    /// Where product j begins.
    #[inline]
    pub const fn product(self, j: usize) -> usize {
        HEAD + PRODUCT * j
    }

    /// Words of one account, its positions included.
    #[inline]
    pub const fn stride(self) -> usize {
        RECORD + 2 * self.p
    }

    /// Where account a begins.
    #[inline]
    pub const fn account(self, a: usize) -> usize {
        HEAD + PRODUCT * self.p + a * self.stride()
    }

    /// Where account a holds its lots of product j; the book follows.
    #[inline]
    pub const fn position(self, a: usize, j: usize) -> usize {
        self.account(a) + RECORD + 2 * j
    }

    /// An account number of a call, if there is such an account.
    #[inline]
    pub fn find_account(self, number: i64) -> Option<usize> {
        usize::try_from(number).ok().filter(|&a| a < self.n)
    }

    /// A product number of a call, if there is such a product.
    #[inline]
    pub fn find_product(self, number: i64) -> Option<usize> {
        usize::try_from(number).ok().filter(|&j| j < self.p)
    }

    /// The counts of a list of the right length. Both counts are ranged before
    /// the length is worked out: n = -20, p = -5 would satisfy the formula.
    fn of(words: &[i64]) -> Option<Layout> {
        if words.len() < HEAD || !within(words[N], 1, ACCOUNTS) || !within(words[P], 1, PRODUCTS) {
            return None;
        }
        let at = Layout { n: words[N] as usize, p: words[P] as usize };
        (words.len() == at.length()).then_some(at)
    }
}

/// The layout of a sound ledger, or nothing. Every call begins here.
pub fn sound(words: &[i64]) -> Option<Layout> {
    let at = Layout::of(words)?;
    let sound = within(words[PHASE], 0, words[N] + 1)
        && within(words[HOUSE_AT], -HOUSE, HOUSE)
        && sound_products(&words[HEAD..at.account(0)])
        && sound_accounts(words, at);
    sound.then_some(at)
}

fn sound_products(products: &[i64]) -> bool {
    products.chunks_exact(PRODUCT).enumerate().all(|(j, product)| {
        within(product[CROSS], 0, 1)
            && within(product[MARK], 0, 1)
            && within(product[PRICE], 1, price_limit(product[CROSS] == 1))
            && if product[CROSS] == 1 {
                product[PRINCIPAL] != product[QUOTE]
                    && lower_yen(products, j, product[PRINCIPAL])
                    && lower_yen(products, j, product[QUOTE])
            } else {
                product[PRINCIPAL] == 0 && product[QUOTE] == 0
            }
    })
}

/// Whether a word names a yen product of a number below j.
fn lower_yen(products: &[i64], j: usize, named: i64) -> bool {
    within(named, 0, j as i64 - 1) && products[PRODUCT * named as usize + CROSS] == 0
}

/// What the walk over the accounts keeps of one product.
#[derive(Clone, Copy, Default)]
struct Column {
    book_limit: i64,
    /// The lots so far, at most 64 × 10^6 on either side.
    lots: i64,
}

/// Every account's figures and positions in range, its due 0 as the run asks,
/// and each product's lots adding to zero over the accounts. Books are tied to
/// nothing but their range.
fn sound_accounts(words: &[i64], at: Layout) -> bool {
    let (head, mut rest) = words.split_at(at.account(0));
    let mut columns = [Column::default(); PRODUCTS as usize];
    let columns = &mut columns[..at.p];
    for (column, product) in columns.iter_mut().zip(head[HEAD..].chunks_exact(PRODUCT)) {
        column.book_limit = book_limit(product[CROSS] == 1);
    }
    let (phase, mut house, mut a) = (head[PHASE], head[HOUSE_AT], 0);
    while let Some((account, after)) = rest.split_at_checked(at.stride()) {
        let Some((record, positions)) = account.split_first_chunk() else { return false };
        if !sound_record(record) {
            return false;
        }
        for (position, column) in positions.chunks_exact(2).zip(columns.iter_mut()) {
            let (lots, book, limit) = (position[0], position[1], column.book_limit);
            if !within(lots, -LOTS, LOTS) || !within(book, -limit, limit) {
                return false;
            }
            column.lots += lots;
        }
        if !sound_due(phase, a, record[DUE], &mut house) {
            return false;
        }
        (rest, a) = (after, a + 1);
    }
    columns.iter().all(|column| column.lots == 0)
}

/// Phase f of 1 or more: due 0 is zero in every account below f-1. Phase 1 to
/// n: house stays in range after each step still to come. The due has been
/// tested, so no difference comes near 2^63.
#[inline]
fn sound_due(phase: i64, a: i64, due: i64, house: &mut i64) -> bool {
    if phase == 0 {
        return true;
    }
    if a < phase - 1 {
        return due == 0;
    }
    *house -= due;
    within(*house, -HOUSE, HOUSE)
}
