//! Day files damaged: each kind of bad line that the paper names, unsound
//! starts, bytes flipped, cut off, put in.

use super::texts::{self, Text, CONTENTS};
use crate::limits::TEXT;
use crate::rng::Rng;

/// Fields that are no good number, and some at the ends of 64 bits.
pub const FIELDS: [&str; 24] = [
    "",
    "-",
    "-0",
    "00",
    "01",
    "-01",
    "+1",
    "1.0",
    "1e3",
    "0x1",
    "A",
    " 1",
    "1\t",
    "--1",
    "1-",
    "1\r",
    "9223372036854775808",
    "-9223372036854775809",
    "99999999999999999999",
    "18446744073709551617",
    "340282366920938463463374607431768211457",
    "9223372036854775807",
    "-9223372036854775808",
    "-1",
];

/// Ways to damage the lines; each gives back whether it found an occasion.
type Damage = fn(&mut Rng, &mut Text) -> bool;

pub const DAMAGES: [(&str, Damage); 15] = [
    ("header", |rng, t| {
        t.lines[0] =
            rng.pick(&["FXDAY ", "fxday", "FXDA", "FXDAYS", "", " FXDAY", "FXDAY\r"]).into();
        true
    }),
    ("contents word", contents_word),
    ("count", count),
    ("end of contents", |rng, t| {
        t.lines[5] = rng.pick(&["END ", "end", "EN", "ENDS", "", "END 0"]).into();
        true
    }),
    ("field", field),
    ("fields", fields),
    ("letter", letter),
    ("position of none", |rng, t| {
        let figures = rng.pick(&["64 0 0 0", "0 16 0 0", "-1 0 1 1", "0 -1 1 1"]);
        position(rng, t, figures.to_string())
    }),
    ("position twice", |rng, t| {
        if t.positions < 2 {
            return false;
        }
        let (one, other) = (rng.below(t.positions), rng.below(t.positions));
        let from = t.positions_from();
        t.lines[from + one] = t.lines[from + other].clone();
        one != other
    }),
    ("line gone", |rng, t| {
        let line = rng.below(t.lines.len());
        t.lines.remove(line);
        true
    }),
    ("line twice", |rng, t| {
        let line = rng.below(t.lines.len());
        let copy = t.lines[line].clone();
        t.lines.insert(line, copy);
        true
    }),
    ("lines swapped", |rng, t| {
        let (one, other) = (rng.below(t.lines.len()), rng.below(t.lines.len()));
        t.lines.swap(one, other);
        true
    }),
    ("line feed put in", |rng, t| {
        let line = rng.below(t.lines.len() + 1);
        t.lines.insert(line, String::new());
        true
    }),
    ("unsound start", unsound),
    ("two damages", |rng, t| {
        let (one, other) = (rng.below(7), rng.below(14));
        // The first may have taken away what the second looks for.
        DAMAGES[other].1(rng, t) && t.lines.len() > CONTENTS && DAMAGES[one].1(rng, t)
    }),
];

/// A text good or damaged, and the name of what was done to it.
pub fn draw(rng: &mut Rng) -> (&'static str, Vec<u8>) {
    match rng.below(12) {
        0..=2 => ("good", texts::good(rng).bytes()),
        3..=7 => damaged(rng),
        8 | 9 => {
            let text = texts::good(rng).bytes();
            bytes(rng, text)
        }
        10 => crowded(rng),
        _ => {
            let small = texts::small(rng).bytes();
            bytes(rng, small)
        }
    }
}

/// A text with damaged lines.
pub fn damaged(rng: &mut Rng) -> (&'static str, Vec<u8>) {
    loop {
        let mut text = if rng.coin() { texts::small(rng) } else { texts::good(rng) };
        // Fields have the most ways to be wrong.
        let (name, damage) = match rng.below(4) {
            0 => ("field", field as Damage),
            _ => rng.pick(&DAMAGES),
        };
        if damage(rng, &mut text) {
            return (name, text.bytes());
        }
    }
}

/// Bytes flipped, cut off, taken out, put in, added.
fn bytes(rng: &mut Rng, mut text: Vec<u8>) -> (&'static str, Vec<u8>) {
    let place = rng.below(text.len());
    let name = match rng.below(8) {
        0 => {
            text[place] ^= 1 << rng.below(8);
            "bit flipped"
        }
        1 => {
            text.truncate(place);
            "cut off"
        }
        2 => {
            text.remove(place);
            "byte gone"
        }
        3 => {
            let byte = rng.pick(b"0123456789 -\n+BSCDFLY\0\xff\r\t");
            text.insert(place, byte);
            "byte put in"
        }
        4 => {
            let byte = rng.pick(b"0123456789 -\nBSCDFLY");
            text[place] = byte;
            "byte changed"
        }
        5 => {
            text.pop();
            "no last line feed"
        }
        6 => {
            let more = rng.pick(&["\n", " ", "B\n", "B", "\0", "HOUSE 0\n"]);
            text.extend_from_slice(more.as_bytes());
            "bytes after the last call"
        }
        _ => {
            for _ in 0..1 + rng.below(4) {
                let place = rng.below(text.len());
                text[place] = rng.any() as u8;
            }
            "bytes changed"
        }
    };
    (name, text)
}

/// Texts at and past 65,536 bytes: a good day is filled up with call lines.
pub fn crowded(rng: &mut Rng) -> (&'static str, Vec<u8>) {
    let mut text = texts::small(rng);
    let length = TEXT + rng.pick(&[0, 0, 0, 1, 2, 9_000]) - rng.pick(&[0, 0, 1]);
    // Three digits now and at the end, so that what is missing stays exact.
    text.lines[4] = "CALLS 100".to_string();
    let mut missing = length - text.bytes().len();
    while missing > 0 {
        // `T` and five figures: 12 bytes at the least, 107 at the most.
        let size = match missing {
            0..=107 => missing,
            108..=300 => (missing / 2).min(107),
            _ => 60 + rng.below(48),
        };
        text.lines.push(trade_line(rng, size));
        text.calls += 1;
        missing -= size;
    }
    text.lines[4] = format!("CALLS {}", text.calls);
    let mut bytes = text.bytes();
    if rng.one_in(5) {
        let from = bytes.len() - 1 - rng.below(3_000);
        bytes[from..].fill(b'\n');
        return ("filled up with line feeds", bytes);
    }
    ("near 65,536 bytes", bytes)
}

/// A well-formed trade line of a given size with its line feed, 12 to 107.
fn trade_line(rng: &mut Rng, size: usize) -> String {
    let mut widths = [1; 5];
    let mut left = size.saturating_sub(12).min(5 * 19);
    while left > 0 {
        let which = rng.below(5);
        if widths[which] < 20 {
            widths[which] += 1;
            left -= 1;
        }
    }
    let figure = |rng: &mut Rng, width: usize| match width {
        1 => rng.below(10).to_string(),
        20 => "-9223372036854775808".to_string(),
        _ => {
            let mut digits = rng.pick(&["1", "2", "7"]).to_string();
            for _ in 1..width {
                digits.push((b'0' + rng.below(10) as u8) as char);
            }
            digits
        }
    };
    let figures: Vec<String> = widths.iter().map(|&width| figure(rng, width)).collect();
    format!("T {}", figures.join(" "))
}

fn contents_word(rng: &mut Rng, text: &mut Text) -> bool {
    let line = 1 + rng.below(4);
    let (word, count) = text.lines[line].split_once(' ').unwrap_or(("", ""));
    text.lines[line] = match rng.below(6) {
        0 => format!("{} {count}", word.to_lowercase()),
        1 => format!("{word}S {count}"),
        2 => format!("{word}  {count}"),
        3 => word.to_string(),
        4 => format!("{word} {count} 0"),
        _ => format!("{}{count}", &word[..word.len().min(3)]),
    };
    true
}

/// A count at or past the edge of its own range, or any that is odd.
fn count(rng: &mut Rng, text: &mut Text) -> bool {
    let line = 1 + rng.below(4);
    let word = text.lines[line].split(' ').next().unwrap_or("").to_string();
    let edges = [
        ["0", "17", "16", "1"],
        ["0", "65", "64", "1"],
        ["-1", "1025", "9223372036854775807", "1"],
        ["-1", "1001", "1000", "0"],
    ];
    let odd = [
        "9223372036854775808",
        "-9223372036854775808",
        "",
        "01",
        "+1",
        "-0",
        "4294967297",
        "2",
        "3",
    ];
    let wrong = if rng.coin() { rng.pick(&edges[line - 1]) } else { rng.pick(&odd) };
    text.lines[line] = format!("{word} {wrong}");
    true
}

/// One field of a line becomes something else.
fn field(rng: &mut Rng, text: &mut Text) -> bool {
    let line = 1 + rng.below(text.lines.len() - 1);
    let mut fields: Vec<&str> = text.lines[line].split(' ').collect();
    if fields.len() < 2 {
        return false;
    }
    let place = 1 + rng.below(fields.len() - 1);
    fields[place] = rng.pick(&FIELDS);
    text.lines[line] = fields.join(" ");
    true
}

/// A wrong number of fields, or spaces where none belong.
fn fields(rng: &mut Rng, text: &mut Text) -> bool {
    let at = rng.below(text.lines.len());
    let line = &text.lines[at];
    text.lines[at] = match rng.below(6) {
        0 => format!("{line} 0"),
        1 => line.rsplit_once(' ').map_or(String::new(), |(start, _)| start.to_string()),
        2 => line.replacen(' ', "  ", 1),
        3 => format!(" {line}"),
        4 => format!("{line} "),
        _ => line.replacen(' ', "\t", 1),
    };
    true
}

/// The letter of a product, account or call becomes another.
fn letter(rng: &mut Rng, text: &mut Text) -> bool {
    let line = CONTENTS + rng.below(text.lines.len() - CONTENTS);
    let rest = text.lines[line].get(1..).unwrap_or("").to_string();
    let letters = ["Y", "X", "F", "L", "D", "W", "G", "B", "S", "T", "C", "Q", "y", "", "YY", "-"];
    text.lines[line] = rng.pick(&letters).to_string() + &rest;
    true
}

fn position(rng: &mut Rng, text: &mut Text, line: String) -> bool {
    if text.positions == 0 {
        return false;
    }
    let place = text.positions_from() + rng.below(text.positions);
    text.lines[place] = line;
    true
}

/// A well-formed figure that soundness will not bear, and at times one that
/// it will.
fn unsound(rng: &mut Rng, text: &mut Text) -> bool {
    let last = text.calls_from();
    let line = CONTENTS + rng.below(last - CONTENTS);
    let mut fields: Vec<&str> = text.lines[line].split(' ').collect();
    let first = usize::from(line < text.positions_from());
    let skip = if first == 0 { 2 } else { 1 };
    let place = skip + rng.below(fields.len() - skip);
    let wrong = [
        "-1",
        "0",
        "1",
        "2",
        "5000001",
        "200001",
        "1000001",
        "-1000001",
        "1000000000001",
        "1000000000000001",
        "-1000000000000001",
        "8000000000001",
        "10000000000001",
        "400000000001",
        "9223372036854775807",
        "-9223372036854775808",
        "16",
    ];
    fields[place] = rng.pick(&wrong);
    text.lines[line] = fields.join(" ");
    true
}
