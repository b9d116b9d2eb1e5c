//! "The day file": a text read into a starting ledger and its calls.
//!
//! All lines are read before anything is judged by soundness, so that a bad
//! line is named even where the start is unsound as well.

use crate::ledger::{Layout, CROSS, MARK, N, P, PRICE, QUOTE};
use crate::limits::{within, ACCOUNTS, CALLS, PRODUCTS};
use crate::margin::{CASH, KIND, RECORD};

/// The number of the first bad line, counted from 1.
#[derive(Clone, Copy, Debug, PartialEq, Eq)]
pub struct Bad(pub usize);

/// A call as its line gives it. A close's figures lie with the day's others.
#[derive(Clone, Copy, Debug, PartialEq, Eq)]
pub enum Entry {
    Deposit {
        account: i64,
        amount: i64,
    },
    Withdraw {
        account: i64,
        amount: i64,
    },
    Guarantee {
        account: i64,
        guarantee: i64,
        cap: i64,
    },
    Begin,
    Step,
    Trade {
        buyer: i64,
        seller: i64,
        product: i64,
        lots: i64,
        price: i64,
    },
    /// Where in `Day::figures` its four lists of p begin, one after another.
    Close {
        from: usize,
    },
}

/// A day file read to its end.
#[derive(Debug)]
pub struct Day {
    pub words: Vec<i64>,
    pub at: Layout,
    pub entries: Vec<Entry>,
    pub figures: Vec<i64>,
}

/// Reads a whole text, which the caller has found not overlong. Whatever is
/// wrong with a line, it is bad under its own number.
pub fn read(text: &[u8]) -> Result<Day, Bad> {
    let mut reader = Reader { text, place: 0, line: 0 };
    reader.day().ok_or(Bad(reader.line))
}

/// A view that holds the text and its place.
struct Reader<'a> {
    text: &'a [u8],
    place: usize,
    /// The number of the line being read.
    line: usize,
}

impl Reader<'_> {
    fn day(&mut self) -> Option<Day> {
        self.fixed(b"FXDAY\n")?;
        let p = self.count(b"PRODUCTS ", 1, PRODUCTS)? as usize;
        let n = self.count(b"ACCOUNTS ", 1, ACCOUNTS)? as usize;
        let positions = self.count(b"POSITIONS ", 0, i64::MAX)?;
        let calls = self.count(b"CALLS ", 0, CALLS)?;
        self.fixed(b"END\n")?;

        let at = Layout { n, p };
        let mut words = vec![0; at.length()];
        words[N] = n as i64;
        words[P] = p as i64;
        for j in 0..p {
            self.product(&mut words[at.product(j)..])?;
        }
        for a in 0..n {
            self.account(&mut words[at.account(a)..])?;
        }
        let mut stated = vec![false; n * p];
        for _ in 0..positions {
            self.position(at, &mut words, &mut stated)?;
        }
        let (mut entries, mut figures) = (Vec::with_capacity(calls as usize), vec![]);
        for _ in 0..calls {
            entries.push(self.entry(p, &mut figures)?);
        }
        self.end()?;
        Some(Day { words, at, entries, figures })
    }

    /// A line that is one fixed word and its line feed.
    fn fixed(&mut self, line: &[u8]) -> Option<()> {
        self.line += 1;
        self.take(line)
    }

    /// A line of the table of contents.
    fn count(&mut self, word: &[u8], low: i64, high: i64) -> Option<i64> {
        self.line += 1;
        self.take(word)?;
        self.number(b'\n').filter(|&count| within(count, low, high))
    }

    /// `Y mark price` or `X mark price principal quote`.
    fn product(&mut self, words: &mut [i64]) -> Option<()> {
        match self.letter()? {
            b'Y' => self.fields(&mut words[MARK..=PRICE]),
            b'X' => {
                words[CROSS] = 1;
                self.fields(&mut words[MARK..=QUOTE])
            }
            _ => None,
        }
    }

    /// `F` or `L`, then the seven figures of the record.
    fn account(&mut self, words: &mut [i64]) -> Option<()> {
        words[KIND] = match self.letter()? {
            b'F' => 0,
            b'L' => 1,
            _ => return None,
        };
        self.fields(&mut words[CASH..RECORD])
    }

    /// Account, product, lots, book. One that was stated before is a repeat,
    /// even if it was stated as 0 0.
    fn position(&mut self, at: Layout, words: &mut [i64], stated: &mut [bool]) -> Option<()> {
        self.line += 1;
        let mut figures = [0; 4];
        self.numbers(&mut figures)?;
        let a = at.find_account(figures[0])?;
        let j = at.find_product(figures[1])?;
        if std::mem::replace(&mut stated[a * at.p + j], true) {
            return None;
        }
        words[at.position(a, j)..][..2].copy_from_slice(&figures[2..]);
        Some(())
    }

    fn entry(&mut self, p: usize, figures: &mut Vec<i64>) -> Option<Entry> {
        Some(match self.letter()? {
            b'D' => {
                let [account, amount] = self.array()?;
                Entry::Deposit { account, amount }
            }
            b'W' => {
                let [account, amount] = self.array()?;
                Entry::Withdraw { account, amount }
            }
            b'G' => {
                let [account, guarantee, cap] = self.array()?;
                Entry::Guarantee { account, guarantee, cap }
            }
            b'B' => self.take(b"\n").map(|()| Entry::Begin)?,
            b'S' => self.take(b"\n").map(|()| Entry::Step)?,
            b'T' => {
                let [buyer, seller, product, lots, price] = self.array()?;
                Entry::Trade { buyer, seller, product, lots, price }
            }
            b'C' => self.close(p, figures)?,
            _ => return None,
        })
    }

    /// Price, 8-week rate, 104-week rate and lag of each product in turn, put
    /// into four lists as a close takes them.
    fn close(&mut self, p: usize, figures: &mut Vec<i64>) -> Option<Entry> {
        let mut read = [0; 4 * PRODUCTS as usize];
        let read = &mut read[..4 * p];
        self.fields(read)?;
        let from = figures.len();
        for list in 0..4 {
            figures.extend(read.chunks_exact(4).map(|product| product[list]));
        }
        Some(Entry::Close { from })
    }

    /// Nothing may follow the last line; what does counts as the next line.
    fn end(&mut self) -> Option<()> {
        self.line += 1;
        (self.place == self.text.len()).then_some(())
    }

    /// The letter that a line begins with.
    fn letter(&mut self) -> Option<u8> {
        self.line += 1;
        let letter = *self.text.get(self.place)?;
        self.place += 1;
        Some(letter)
    }

    /// So many numbers that follow a line's letter, to the end of the line.
    fn array<const K: usize>(&mut self) -> Option<[i64; K]> {
        let mut figures = [0; K];
        self.fields(&mut figures)?;
        Some(figures)
    }

    /// The same, as many as there is room for.
    fn fields(&mut self, room: &mut [i64]) -> Option<()> {
        self.take(b" ")?;
        self.numbers(room)
    }

    /// As many numbers as there is room for, one space between, and the line's
    /// end.
    fn numbers(&mut self, room: &mut [i64]) -> Option<()> {
        let (last, others) = room.split_last_mut()?;
        for word in others {
            *word = self.number(b' ')?;
        }
        *last = self.number(b'\n')?;
        Some(())
    }

    /// These very bytes.
    fn take(&mut self, bytes: &[u8]) -> Option<()> {
        if !self.text[self.place..].starts_with(bytes) {
            return None;
        }
        self.place += bytes.len();
        Some(())
    }

    /// A decimal field and the byte that closes it: no plus sign, no leading
    /// zeros, no -0, within 64 bits.
    fn number(&mut self, close: u8) -> Option<i64> {
        let negative = self.take(b"-").is_some();
        let digits = &self.text[self.place..];
        let (mut size, mut length) = (0_u64, 0);
        // 2^63 has 19 digits, and no 19 digits pass 64 bits.
        for digit in digits.iter().take(19).take_while(|byte| byte.is_ascii_digit()) {
            size = size * 10 + u64::from(digit - b'0');
            length += 1;
        }
        if length == 0 || (digits[0] == b'0' && (length > 1 || negative)) {
            return None;
        }
        if digits.get(length) != Some(&close) {
            return None;
        }
        self.place += length + 1;
        if negative {
            0_i64.checked_sub_unsigned(size)
        } else {
            i64::try_from(size).ok()
        }
    }
}
