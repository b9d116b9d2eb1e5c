//! The day file and the sheet: the paper's example byte for byte, and every
//! kind of bad line under its number.

use second::sheet;

const DAY: &str = "FXDAY
PRODUCTS 1
ACCOUNTS 2
POSITIONS 0
CALLS 6
END
Y 0 1502500
F 50000 0 0 0 200000 0 0
L 300000 0 0 0 -200000 0 0
W 0 60000
B
S
W 0 60000
S
W 1 100001
";

const SHEET: &str = "FXSHEET
11 50000
0 0
0 0
0 190000
0 1
11 100000
0 190000 0 0 0 190000 0 0
1 100000 0 0 0 100000 0 0
HOUSE 0
";

/// A day with every kind of line: lines 7 to 9 products, 10 and 11 accounts,
/// 12 and 13 positions, 14 to 20 calls.
const EVERY: &str = "FXDAY
PRODUCTS 3
ACCOUNTS 2
POSITIONS 2
CALLS 7
END
Y 1 1502500
Y 0 1600000
X 0 10850 1 0
F 1000000 1000001 1000001 600000 -100000 50000 0
L 1000000 0 0 600000 100000 -50000 0
1 2 -10 -108500
0 2 10 108500
D 0 1
W 1 2
G 0 5 6
T 0 1 2 1 10850
B
S
C 1502500 400 333 0 1600000 1 1 1 10873 1 1 2
";

fn shown(text: &str) -> String {
    String::from_utf8(sheet(text.as_bytes())).expect("a sheet is plain text")
}

/// The text with one line replaced.
fn with(text: &str, line: usize, by: &str) -> String {
    let lines = text.lines().enumerate();
    lines.map(|(at, old)| format!("{}\n", if at + 1 == line { by } else { old })).collect()
}

fn bad(line: usize) -> String {
    format!("BAD {line}\n")
}

#[test]
fn the_papers_example() {
    assert_eq!(shown(DAY), SHEET);
}

#[test]
fn a_day_of_every_line() {
    let sheet = shown(EVERY);
    let expected = "FXSHEET\n0 1000001\n0 999998\n0 4\n0 0\n0 0\n0 0\n7 0\n\
                    0 900001 0 50000 0 300001 0 0\n1 999998 100000 -50000 0 349998 0 0\n\
                    HOUSE 100000\n";
    assert_eq!(sheet, expected);
}

/// M-101: the sheet asks him for 20,000.
#[test]
fn a_provider_who_owes_today() {
    let day = "FXDAY\nPRODUCTS 1\nACCOUNTS 1\nPOSITIONS 0\nCALLS 0\nEND\nY 0 1\n\
               L 80000 0 0 0 -100000 300000 0\n";
    assert_eq!(shown(day), "FXSHEET\n0 80000 -100000 300000 0 80000 0 20000\nHOUSE 0\n");
}

#[test]
fn lengths_of_the_text() {
    assert_eq!(sheet(b""), b"BAD 1\n");
    assert_eq!(sheet(&[b'\n'; 65_537]), b"BAD 0\n");
    assert_eq!(sheet(&[b'\n'; 65_536]), b"BAD 1\n");
    let mut long = DAY.as_bytes().to_vec();
    long.resize(65_537, b'x');
    assert_eq!(sheet(&long), b"BAD 0\n");
    long.truncate(65_536);
    assert_eq!(sheet(&long), b"BAD 16\n");
}

/// A good day filled up with call lines to 65,536 bytes is read, one of a byte
/// more is not.
#[test]
fn a_good_text_of_just_the_length() {
    let mut rng = second::rng::Rng::new(31);
    let mut seen = [0; 2];
    while seen.iter().any(|&count| count < 3) {
        let text = second::gen::damage::crowded(&mut rng);
        match (text.0, text.1.len()) {
            ("near 65,536 bytes", 65_536) => {
                assert!(sheet(&text.1).starts_with(b"FXSHEET\n"));
                seen[0] += 1;
            }
            ("near 65,536 bytes", 65_537) => {
                assert_eq!(sheet(&text.1), b"BAD 0\n");
                seen[1] += 1;
            }
            _ => {}
        }
    }
}

#[test]
fn bytes_after_the_last_call() {
    for more in ["\n", "B", "B\n", " ", "\0"] {
        assert_eq!(shown(&format!("{DAY}{more}")), bad(16));
    }
    let none = "FXDAY\nPRODUCTS 1\nACCOUNTS 1\nPOSITIONS 0\nCALLS 0\nEND\nY 0 1\nF 0 0 0 0 0 0 0\n";
    assert_eq!(shown(none), "FXSHEET\n0 0 0 0 0 0 0 0\nHOUSE 0\n");
    assert_eq!(shown(&format!("{none}\n")), bad(9));
}

#[test]
fn missing_lines_and_line_feeds() {
    let lines: Vec<&str> = EVERY.lines().collect();
    for kept in 0..lines.len() {
        let mut text: String = lines[..kept].iter().map(|line| format!("{line}\n")).collect();
        assert_eq!(shown(&text), bad(kept + 1), "{kept} lines kept");
        // The next line without its line feed is bad under its own number.
        text += lines[kept];
        assert_eq!(shown(&text), bad(kept + 1), "{kept} lines and one unclosed");
    }
}

#[test]
fn the_header_and_the_contents() {
    for line in ["fxday", "FXDAY ", " FXDAY", "FXDAY\r", "", "FXDAYS", "FXDA", "FXDAY 1"] {
        assert_eq!(shown(&with(EVERY, 1, line)), bad(1), "{line:?}");
    }
    for (at, word, outside) in [
        (2, "PRODUCTS", ["0", "17", "-1"]),
        (3, "ACCOUNTS", ["0", "65", "-1"]),
        (4, "POSITIONS", ["-1", "-9223372036854775808", "9223372036854775808"]),
        (5, "CALLS", ["-1", "1001", "9223372036854775807"]),
    ] {
        for count in outside.iter().chain(&["", "01", "+1", "-0", "1 ", " 1", "1.0", "x", "1 1"]) {
            assert_eq!(
                shown(&with(EVERY, at, &format!("{word} {count}"))),
                bad(at),
                "{word} {count}"
            );
        }
        assert_eq!(shown(&with(EVERY, at, word)), bad(at));
        assert_eq!(shown(&with(EVERY, at, &format!("{} 2", word.to_lowercase()))), bad(at));
    }
    for line in ["END ", "end", "", "END 0"] {
        assert_eq!(shown(&with(EVERY, 6, line)), bad(6), "{line:?}");
    }
    // A count in range but wrong shows where the lines stop fitting.
    assert_eq!(shown(&with(EVERY, 2, "PRODUCTS 2")), bad(9));
    assert_eq!(shown(&with(EVERY, 2, "PRODUCTS 4")), bad(10));
    assert_eq!(shown(&with(EVERY, 3, "ACCOUNTS 3")), bad(12));
    assert_eq!(shown(&with(EVERY, 4, "POSITIONS 9223372036854775807")), bad(14));
    assert_eq!(shown(&with(EVERY, 4, "POSITIONS 0")), bad(12));
    assert_eq!(shown(&with(EVERY, 5, "CALLS 6")), bad(20));
    assert_eq!(shown(&with(EVERY, 5, "CALLS 1000")), bad(21));
}

#[test]
fn fields_that_are_no_numbers() {
    let wrong = [
        "",
        "-",
        "-0",
        "00",
        "01",
        "-01",
        "+1",
        "1.0",
        "1e3",
        "0x1",
        "A",
        "--1",
        "1-",
        "\t1",
        "1\r",
        "9223372036854775808",
        "-9223372036854775809",
        "99999999999999999999",
        "18446744073709551617",
    ];
    for (at, line) in EVERY.lines().enumerate().skip(1) {
        let fields: Vec<&str> = line.split(' ').collect();
        for place in 1..fields.len() {
            for field in wrong {
                let mut changed = fields.clone();
                changed[place] = field;
                let line = changed.join(" ");
                assert_eq!(shown(&with(EVERY, at + 1, &line)), bad(at + 1), "{line:?}");
            }
        }
    }
}

#[test]
fn fields_at_the_ends_of_64_bits_are_read() {
    let start = shown(EVERY);
    for line in ["D 0 9223372036854775807", "D 0 -9223372036854775808"] {
        let sheet = shown(&with(EVERY, 14, line));
        assert!(sheet.starts_with("FXSHEET\n5 0\n"), "{sheet}");
    }
    for line in ["D 9223372036854775807 1", "D -9223372036854775808 1", "D -1 1"] {
        let sheet = shown(&with(EVERY, 14, line));
        assert!(sheet.starts_with("FXSHEET\n3 0\n"), "{sheet}");
    }
    let trade = shown(&with(EVERY, 17, "T 0 1 3 1 1"));
    assert_eq!(trade, start.replacen("0 4\n0 0\n", "0 4\n4 0\n", 1));
}

#[test]
fn wrong_numbers_of_fields_and_letters() {
    for (at, line) in EVERY.lines().enumerate() {
        for changed in [format!("{line} 0"), format!("{line} "), format!(" {line}")] {
            assert_eq!(shown(&with(EVERY, at + 1, &changed)), bad(at + 1), "{changed:?}");
        }
        if let Some((shorter, _)) = line.rsplit_once(' ') {
            assert_eq!(shown(&with(EVERY, at + 1, shorter)), bad(at + 1), "{shorter:?}");
            let wider = line.replacen(' ', "  ", 1);
            assert_eq!(shown(&with(EVERY, at + 1, &wider)), bad(at + 1), "{wider:?}");
        }
        assert_eq!(shown(&with(EVERY, at + 1, "")), bad(at + 1));
        let letter = format!("Q{}", &line[1..]);
        assert_eq!(shown(&with(EVERY, at + 1, &letter)), bad(at + 1), "{letter:?}");
        let small = line.to_lowercase();
        if small != line {
            assert_eq!(shown(&with(EVERY, at + 1, &small)), bad(at + 1), "{small:?}");
        }
    }
    assert_eq!(shown(&with(EVERY, 7, "X 1 1502500")), bad(7));
    assert_eq!(shown(&with(EVERY, 9, "Y 0 10850 1 0")), bad(9));
}

#[test]
fn positions_of_none_and_repeats() {
    for line in ["2 2 1 1", "-1 2 1 1", "0 3 1 1", "0 -1 1 1", "64 0 0 0"] {
        assert_eq!(shown(&with(EVERY, 13, line)), bad(13), "{line:?}");
    }
    assert_eq!(shown(&with(EVERY, 13, "1 2 10 108500")), bad(13));
    // Stated as 0 0 it is stated.
    let text = with(&with(EVERY, 12, "0 2 0 0"), 13, "0 2 0 0");
    assert_eq!(shown(&text), bad(13));
}

#[test]
fn unsound_starts() {
    for (line, by) in [
        (7, "Y 2 1502500"),
        (7, "Y 0 5000001"),
        (7, "Y 0 0"),
        (9, "X 0 200001 1 0"),
        (9, "X 0 10850 1 1"),
        (9, "X 0 10850 2 0"),
        (9, "X 0 10850 1 -1"),
        (9, "X 0 10850 16 0"),
        (10, "F 1000000 -1 0 0 0 0 0"),
        (10, "F 1000000000000000 0 0 0 1 0 0"),
        (10, "F 0 0 0 8000000000001 0 0 0"),
        (11, "L 0 1 0 0 0 0 0"),
        (12, "1 2 -11 -108500"),
        (12, "1 2 -10 -400000000001"),
    ] {
        let text = with(EVERY, line, by);
        assert_eq!(shown(&text), bad(0), "{by:?}");
        // A bad line is named even so, and even if it is the last.
        assert_eq!(shown(&with(&text, 20, "C 1")), bad(20), "{by:?}");
        assert_eq!(shown(&format!("{text}\n")), bad(21), "{by:?}");
    }
}
