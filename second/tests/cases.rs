//! The file of cases: the same every time, small enough, every number in it.

use second::cases::{check, checksum, write};
use second::clerk::Plain;
use std::collections::BTreeSet;

#[test]
fn the_file_is_small_and_comes_out_again() {
    let file = write();
    assert_eq!(file, write());
    // The gate's program has room for so many bytes.
    assert!(file.len() <= 196_608, "{} bytes", file.len());
    let done = check(&Plain, &file).expect("all cases as on file");
    assert!((300..1_000).contains(&done), "{done} cases");
}

/// The proved code runs the very file that this program writes.
#[test]
fn it_is_the_file_of_the_gate() {
    let path = concat!(env!("CARGO_MANIFEST_DIR"), "/../crates/cases/stdin");
    let gate = std::fs::read_to_string(path).expect("the cases that the proved code runs");
    assert!(gate == write(), "`cases > crates/cases/stdin` writes it anew");
}

#[test]
fn every_number_is_in_it() {
    let file = write();
    let mut seen = BTreeSet::new();
    for line in file.lines().filter(|line| !line.starts_with('#')) {
        let fields: Vec<&str> = line.split(' ').collect();
        // Number, one figure or a question's three, checksum.
        let back = if fields[0] == "Q" { 5 } else { 3 };
        seen.insert((fields[0], fields[fields.len() - back]));
    }
    for (kind, numbers) in [
        ("D", &["0", "1", "3", "5", "10"][..]),
        ("W", &["0", "1", "3", "5", "11"]),
        ("G", &["0", "1", "3", "5", "6"]),
        ("Q", &["0", "1", "3"]),
        ("T", &["0", "1", "3", "4", "6", "8", "9"]),
        ("B", &["0", "1", "7", "13"]),
        ("S", &["0", "1", "7"]),
        ("C", &["0", "1", "2", "7", "8", "12"]),
        ("H", &["0", "2", "5", "8"]),
        ("P", &["0", "1", "5", "10"]),
        ("R", &["0", "1", "5", "11"]),
        ("M", &["0", "2", "8"]),
    ] {
        for number in numbers {
            assert!(seen.contains(&(kind, *number)), "{kind} never gives {number}");
        }
    }
}

/// "Figures by hand": gross of 10^15 taken and a yen more refused, a withdrawal
/// of 0, a house that would pass 10^17, and what is left of 12,000,000; of M-101
/// the provider who owes today; of M-105 rates at their edges.
#[test]
fn the_papers_figures_are_in_it() {
    let file = write();
    for (start, end) in [
        (
            "D 2 0 1000000000000 29 2 1 0 0 0 0 1502500 0 0 0 999000000000000 ",
            " 0 1000000000000000 ",
        ),
        ("D 2 0 1000000000000 29 2 1 0 0 0 0 1502500 0 0 0 999000000000001 ", " 10 0 "),
        ("W 2 0 0 ", " 5 0 "),
        ("Q 1 1 29 2 1 0 0 0 0 1502500 0 0 0 80000 0 0 0 -100000 300000 ", " 0 80000 0 20000 "),
        ("B 0 29 2 1 0 100000000000000000 ", " 13 0 "),
        ("H 1 12000000 3 5000000 5000000 5000000 ", " 0 1100000 "),
        ("M 2 0 100 3 5 5 5 ", " 0 17 "),
        ("M 3 5 5 5 2 0 200 ", " 0 33 "),
        ("M 5 -1000 1000 -1000 1000 0 2 0 100 ", " 0 233 "),
        ("M 2 0 100 5 -1000 1000 -1000 1001 0 ", " 0 234 "),
        ("M 3 5 5 5 2 -7 -7 ", " 0 1 "),
        ("M 2 -20000 20000 2 0 200 ", " 0 6591 "),
        ("M 2 0 200 520 -20000 ", " 20000 0 4665 "),
        ("M 1 7 2 0 100 ", " 2 0 "),
        ("M 2 0 100 521 ", " 2 0 "),
        ("M 2 20001 0 2 0 100 ", " 8 0 "),
        ("M 1 7 2 0 20001 ", " 2 0 "),
        ("M 0 2 0 100 ", " 2 0 "),
    ] {
        let found = |line: &&str| {
            line.starts_with(start) && line[..line.rfind(' ').unwrap() + 1].ends_with(end)
        };
        assert!(file.lines().any(|line| found(&line)), "{start}..{end}");
    }
}

/// The checksum of a rate tells which list was handed back: the 8-week list on a
/// tie, and nothing, whose checksum is 0, on a refusal. Lists of figures have
/// room for 1,024.
#[test]
fn rates_hand_back_a_list() {
    let file = write();
    let mut handed = [0; 3];
    for line in file.lines().filter(|line| line.starts_with('M')) {
        let fields: Vec<i64> = line[2..].split(' ').map(|f| f.parse().expect("a figure")).collect();
        let (weeks8, rest) = fields[1..].split_at(fields[0] as usize);
        let (weeks104, expected) = rest[1..].split_at(rest[0] as usize);
        assert!(weeks8.len() <= 1_024 && weeks104.len() <= 1_024);
        let &[number, _, sum] = expected else { panic!("not a case: {line}") };
        let sums = [weeks8, weeks104, &[]].map(|list| checksum(list.iter().copied()));
        let which = sums.iter().position(|&of_list| of_list == sum).expect("a list's checksum");
        assert_eq!(number != 0, sum == 0, "{line}");
        handed[which] += 1;
    }
    assert!(handed.iter().all(|&times| times >= 10), "{handed:?}");
}

#[test]
fn a_changed_file_is_noticed() {
    let file = write();
    let line = file.lines().find(|line| line.starts_with('D')).expect("a deposit");
    let (start, sum) = line.rsplit_once(' ').expect("a checksum");
    let sum: i64 = sum.parse().expect("a number");
    let changed = file.replacen(line, &format!("{start} {}", sum + 1), 1);
    assert!(check(&Plain, &changed).is_err());
}

#[test]
fn checksums_by_hand() {
    assert_eq!(checksum([].into_iter()), 0);
    assert_eq!(checksum([5].into_iter()), 1_000_008);
    assert_eq!(checksum([-1].into_iter()), (1_000_003 + 2_147_483_646) % 2_147_483_647);
    let _ = checksum([i64::MIN, i64::MAX].into_iter());
}
