//! "Figures by hand": R1 to R12 and the others, that of M-101, and each number
//! of "Numbers returned" at its edge.

use second::ledger::{sound, Layout, HOUSE_AT, PHASE};
use second::limits::{AMOUNT, GROSS, HOUSE};
use second::margin::{Account, CASH, DUE, MARGIN_AT};
use second::{begin, close, deposit, guarantee, question, share, step, teller, trade, withdraw};
use second::{Answer, Reply};

const TWO: Layout = Layout { n: 2, p: 1 };

fn reply(number: u64, figure: i64) -> Reply {
    Reply { number, figure }
}

/// A broker and a provider, one yen product without floor, run done.
fn two(price: i64) -> Vec<i64> {
    let mut words = vec![2, 1, 3, 0, 0, 0, price, 0, 0];
    words.extend([0, 0, 0, 0, 0, 0, 0, 0, 0, 0]);
    words.extend([1, 0, 0, 0, 0, 0, 0, 0, 0, 0]);
    assert!(sound(&words).is_some());
    words
}

/// Yen products 0 and 1 and a cross of 0 against 1; a broker and a provider.
fn cross() -> Vec<i64> {
    let mut words = vec![2, 3, 3, 0];
    words.extend([0, 0, 1_600_000, 0, 0, 0, 0, 1_502_500, 0, 0, 1, 0, 10_850, 0, 1]);
    words.extend([0; 14]);
    words.extend([1, 0, 0, 0, 0, 0, 0, 0, 0, 0, 0, 0, 0, 0]);
    assert!(sound(&words).is_some());
    words
}

fn account(words: &[i64], a: usize) -> Account {
    let at = sound(words).expect("a sound ledger");
    Account::read(&words[at.account(a)..])
}

fn broker(figures: [i64; 7]) -> [i64; 8] {
    let [cash, guarantee, cap, margin, d0, d1, d2] = figures;
    [0, cash, guarantee, cap, margin, d0, d1, d2]
}

fn provider(figures: [i64; 5]) -> [i64; 8] {
    let [cash, margin, d0, d1, d2] = figures;
    [1, cash, 0, 0, margin, d0, d1, d2]
}

#[test]
fn r1_and_r2_margin() {
    for (lots, price, rate, mark, margin) in [
        (30, 1_502_500, 400, 0, 180_300),
        (1, 1_502_501, 333, 0, 5_004),
        // The floor of 400 governs where the mark stands.
        (30, 1_502_500, 1, 1, 180_300),
        (30, 1_502_500, 399, 1, 180_300),
    ] {
        let mut words = two(1_000_000);
        words[5] = mark;
        assert_eq!(trade(&mut words, 0, 1, 0, lots, price), reply(0, 0));
        assert_eq!(close(&mut words, &[price], &[rate], &[1], &[0]), reply(0, 0));
        assert_eq!(account(&words, 0).margin, margin);
        assert_eq!(account(&words, 1).margin, margin);
    }
}

#[test]
fn r3_and_r4_difference_of_a_yen_product() {
    let mut words = two(1_502_500);
    assert_eq!(trade(&mut words, 0, 1, 0, 7, 1_502_500), reply(0, 0));
    assert_eq!(close(&mut words, &[1_502_503], &[1], &[1], &[2]), reply(0, 0));
    assert_eq!(account(&words, 0).due, [0, 0, 2]);
    assert_eq!(account(&words, 1).due, [0, 0, -3]);
    assert_eq!(words[PHASE], 0);
    assert_eq!(words[TWO.position(0, 0) + 1], 7 * 1_502_503);
    assert_eq!(words[TWO.position(1, 0) + 1], -7 * 1_502_503);
    assert_eq!(words[TWO.product(0) + 2], 1_502_503);
}

#[test]
fn r5_and_r6_difference_of_a_cross() {
    let mut words = cross();
    assert_eq!(trade(&mut words, 0, 1, 2, 10, 10_850), reply(0, 0));
    let prices = [1_700_000, 1_502_500, 10_873];
    assert_eq!(close(&mut words, &prices, &[100; 3], &[1; 3], &[0, 0, 1]), reply(0, 0));
    assert_eq!(account(&words, 0).due, [0, 3_455, 0]);
    assert_eq!(account(&words, 1).due, [0, -3_456, 0]);
    // The margin goes by the principal's price: 10 × 1,700,000 × 100 / 100,000.
    assert_eq!(account(&words, 0).margin, 17_000);
}

#[test]
fn r7_lg_value() {
    let mut words = two(1);
    assert_eq!(guarantee(&mut words, 0, 1_000_001, 1_000_001), reply(0, 990_000));
    assert_eq!(guarantee(&mut words, 0, 1_000_001, 5), reply(0, 5));
    assert_eq!(guarantee(&mut words, 1, 0, 0), reply(6, 0));
}

#[test]
fn r8_limit_of_a_broker() {
    let record = broker([1_000_000, 1_000_001, 1_000_001, 600_000, -100_000, 50_000, 0]);
    let mut window = record;
    assert_eq!(teller::withdraw(&mut window, 300_001), reply(11, 300_000));
    assert_eq!(window, record);
    assert_eq!(teller::withdraw(&mut window, 300_000), reply(0, 700_000));
    let mut words = two(1);
    words[PHASE] = 0;
    words[TWO.account(0)..][..8].copy_from_slice(&record);
    assert_eq!(question(&words, 0), Answer { number: 0, limit: 300_000, first: 0, second: 0 });
    assert_eq!(withdraw(&mut words, 0, 300_001), reply(11, 300_000));
    assert_eq!(withdraw(&mut words, 0, 300_000), reply(0, 700_000));
}

#[test]
fn r9_limit_of_a_provider() {
    let mut words = two(1);
    words[PHASE] = 0;
    let record = provider([1_000_000, 600_000, 100_000, -50_000, 0]);
    words[TWO.account(1)..][..8].copy_from_slice(&record);
    assert_eq!(question(&words, 1).limit, 350_000);
    assert_eq!(begin(&mut words), reply(0, 0));
    assert_eq!(step(&mut words), reply(0, 0));
    assert_eq!(question(&words, 1).limit, 350_000);
    assert_eq!(step(&mut words), reply(0, 1));
    assert_eq!(question(&words, 1).limit, 450_000);
    assert_eq!(words[HOUSE_AT], -100_000);
    assert_eq!(words[PHASE], 3);
    assert_eq!(step(&mut words), reply(7, 0));
}

#[test]
fn r10_shortfalls() {
    let account = Account::read(&broker([80_000, 0, 0, 600_000, -100_000, 0, 0]));
    assert_eq!(account.first_shortfall(), 620_000);
    assert_eq!(account.second_shortfall(), 20_000);
}

#[test]
fn shortfalls_at_the_edges() {
    // No need, and cash below zero: the sentence subtracts cash all the same.
    assert_eq!(Account::read(&broker([-5, 0, 0, 0, 0, 0, 0])).second_shortfall(), 5);
    assert_eq!(Account::read(&provider([-5, 0, 0, 0, 0])).second_shortfall(), 5);
    // Due 0 adjusts the next-day need, which starts at 0 unless due 1 is negative.
    let need = |d0, d1| Account::read(&provider([80_000, 0, d0, d1, 0])).second_shortfall();
    assert_eq!(need(-80_000, 1), 0);
    assert_eq!(need(-80_001, 1), 1);
    assert_eq!(need(-100_000, 0), 20_000);
    assert_eq!(need(-100_000, -1), 20_001);
    assert_eq!(need(30_000, -100_000), 0);
    assert_eq!(need(10_000, -100_000), 10_000);
    // Required margin stays negative: an excess of dues counts.
    let rich = Account::read(&broker([0, 0, 0, 0, 0, 500, 0]));
    assert_eq!((rich.required(), rich.first_shortfall(), rich.limit()), (-500, 0, 0));
}

/// M-101: cash and dues, margin 0; limit and both shortfalls of an F, for whom
/// nothing changes, and of an L.
#[test]
fn m101_who_owes_today() {
    for ([cash, d0, d1, d2], of_broker, of_provider) in [
        ([80_000, -100_000, 300_000, 0], [0, 0, 20_000], [80_000, 0, 20_000]),
        ([80_000, -100_000, 0, 300_000], [0, 0, 20_000], [0, 0, 20_000]),
        ([80_000, -100_000, -50_000, 0], [0, 70_000, 20_000], [0, 70_000, 70_000]),
        ([80_000, 60_000, -50_000, 0], [80_000, 0, 0], [30_000, 0, 0]),
        // No need, and none below 0 either: only the cash below zero is short.
        ([-5, 60_000, -50_000, 0], [0, 0, 5], [0, 0, 5]),
        ([-5, 7, 3, 0], [0, 0, 5], [0, 0, 5]),
        ([0, -GROSS, 0, 0], [0, GROSS, GROSS], [0, GROSS, GROSS]),
    ] {
        let mut words = two(1);
        words[PHASE] = 0;
        words[TWO.account(0)..][..8].copy_from_slice(&broker([cash, 0, 0, 0, d0, d1, d2]));
        words[TWO.account(1)..][..8].copy_from_slice(&provider([cash, 0, d0, d1, d2]));
        for (a, [limit, first, second]) in [(0, of_broker), (1, of_provider)] {
            let expected = Answer { number: 0, limit, first, second };
            assert_eq!(question(&words, a), expected, "{cash} {d0} {d1} {d2}");
        }
    }
}

#[test]
fn r11_and_r12_shares() {
    let mut first = [-9; 3];
    let mut second = [-9; 3];
    let weights = [5_000_000, 7_000_000, 9_000_000];
    let zero = [0; 3];
    assert_eq!(share(10, &weights, &zero, &zero, &mut first, &mut second), reply(0, 0));
    assert_eq!((first, second), ([3, 3, 4], [0, 0, 0]));
    assert_eq!(share(10, &[8, 8, 8], &zero, &zero, &mut first, &mut second), reply(0, 0));
    assert_eq!(first, [4, 3, 3]);
}

#[test]
fn three_members_and_a_default() {
    let (mut first, mut second) = ([0; 3], [0; 3]);
    let differences = [900_000, -100_000, -2_500_000];
    let given =
        share(12_000_000, &[5_000_000; 3], &differences, &[0, 0, 1], &mut first, &mut second);
    assert_eq!(given, reply(0, 1_100_000));
    assert_eq!(first, [5_000_000, 5_000_000, 0]);
    assert_eq!(second, [900_000, 0, 0]);
}

#[test]
fn sharing_refused_and_all_in_default() {
    let (mut first, mut second) = ([7; 2], [7; 2]);
    assert_eq!(share(-1, &[0; 2], &[0; 1], &[0; 2], &mut first, &mut second), reply(2, 0));
    assert_eq!(share(-1, &[-1; 2], &[0; 2], &[0; 2], &mut first, &mut second), reply(5, 0));
    assert_eq!(share(0, &[-1; 2], &[0; 2], &[1; 2], &mut first, &mut second), reply(8, 0));
    assert_eq!(share(0, &[0; 2], &[0; 2], &[2; 2], &mut first, &mut second), reply(8, 0));
    assert_eq!((first, second), ([7; 2], [7; 2]));
    assert_eq!(share(9, &[5; 2], &[5; 2], &[1; 2], &mut first, &mut second), reply(0, 9));
    assert_eq!((first, second), ([0; 2], [0; 2]));
    let (mut none, mut nothing) = ([0; 0], [0; 0]);
    assert_eq!(share(0, &[], &[], &[], &mut none, &mut nothing), reply(2, 0));
    let (mut many, mut more) = ([0; 65], [0; 65]);
    assert_eq!(share(0, &[0; 65], &[0; 65], &[0; 65], &mut many, &mut more), reply(2, 0));
}

#[test]
fn shares_past_64_bits() {
    let (mut first, mut second) = ([0; 64], [0; 64]);
    let mut deposits = [1_000_000_000_000; 64];
    deposits[63] -= 1;
    let loss = 63_999_999_999_998;
    let given = share(loss, &deposits, &[0; 64], &[0; 64], &mut first, &mut second);
    assert_eq!(given, reply(0, 0));
    assert_eq!(first.iter().sum::<i64>(), loss);
    // Each rounds down to a yen below its weight w, remainder sum - w, and 63
    // yen are left: one for the smallest weight, 62 for the lower accounts.
    assert_eq!(first[..62], [1_000_000_000_000; 62]);
    assert_eq!(first[62..], [999_999_999_999; 2]);
}

#[test]
fn deposit_to_the_gross_of_10_15() {
    let mut words = two(1);
    words[PHASE] = 0;
    words[TWO.account(0) + CASH] = GROSS - AMOUNT - 7;
    words[TWO.account(0) + DUE] = -7;
    assert_eq!(deposit(&mut words, 0, AMOUNT), reply(0, GROSS - 7));
    assert_eq!(deposit(&mut words, 0, 1), reply(10, 0));
    assert_eq!(withdraw(&mut words, 0, 0), reply(5, 0));
    assert_eq!(deposit(&mut words, 0, AMOUNT + 1), reply(5, 0));
    assert_eq!(deposit(&mut words, 2, 0), reply(3, 0));
    // With negative cash a deposit lowers gross.
    words[TWO.account(0) + CASH] = 7 - GROSS;
    assert_eq!(deposit(&mut words, 0, AMOUNT), reply(0, 7 - GROSS + AMOUNT));
}

#[test]
fn begin_that_house_would_not_bear() {
    let mut words = two(1);
    words[PHASE] = 0;
    words[HOUSE_AT] = HOUSE;
    words[TWO.account(0) + DUE] = -1;
    words[TWO.account(1) + DUE] = 1;
    let before = words.clone();
    assert_eq!(begin(&mut words), reply(13, 0));
    assert_eq!(words, before);
    // The other way round house never passes its range.
    words[TWO.account(0) + DUE] = 1;
    words[TWO.account(1) + DUE] = -1;
    assert_eq!(begin(&mut words), reply(0, 0));
    assert_eq!(begin(&mut words), reply(7, 0));
}

#[test]
fn trades_refused_in_their_order() {
    let mut words = two(1);
    for (buyer, seller, product, lots, price, number) in [
        (-1, 1, 9, 0, 0, 3),
        (0, 2, 9, 0, 0, 3),
        (0, 0, 1, 0, 0, 4),
        (0, 0, 0, 0, 0, 6),
        (0, 1, 0, 0, 1, 8),
        (0, 1, 0, 1_000_001, 1, 8),
        (0, 1, 0, 1, 0, 8),
        (0, 1, 0, 1, 5_000_001, 8),
        (0, 1, 0, 1_000_000, 5_000_000, 0),
        (0, 1, 0, 1, 1, 9),
        (1, 0, 0, 1, 1, 0),
    ] {
        let given = trade(&mut words, buyer, seller, product, lots, price);
        assert_eq!(given, reply(number, 0), "{buyer} {seller} {product} {lots} {price}");
    }
    let mut words = cross();
    assert_eq!(trade(&mut words, 0, 1, 2, 1, 200_001), reply(8, 0));
    assert_eq!(trade(&mut words, 0, 1, 2, 1, 200_000), reply(0, 0));
    // A book alone can stand in the way.
    words[Layout { n: 2, p: 3 }.position(0, 2) + 1] = 400_000_000_000;
    assert_eq!(trade(&mut words, 0, 1, 2, 1, 1), reply(9, 0));
}

#[test]
fn closes_refused_in_their_order() {
    let mut words = two(1_000_000);
    words[PHASE] = 2;
    assert_eq!(close(&mut words, &[], &[1], &[1], &[0]), reply(2, 0));
    assert_eq!(close(&mut words, &[0], &[1], &[1], &[0]), reply(7, 0));
    words[PHASE] = 3;
    assert_eq!(close(&mut words, &[0], &[1], &[1], &[0]), reply(8, 0));
    assert_eq!(close(&mut words, &[1], &[0], &[1], &[0]), reply(8, 0));
    assert_eq!(close(&mut words, &[1], &[1], &[10_001], &[0]), reply(8, 0));
    assert_eq!(close(&mut words, &[1], &[1], &[1], &[3]), reply(8, 0));
    assert_eq!(close(&mut words, &[1], &[1], &[1], &[-1]), reply(8, 0));
    // Account 1 alone would pass: a loss of one yen above a gross of 10^15.
    words[TWO.account(1) + CASH] = GROSS;
    words[TWO.position(1, 0) + 1] = 1;
    assert_eq!(close(&mut words, &[1], &[1], &[1], &[0]), reply(12, 1));
    words[TWO.account(1) + CASH] = GROSS - 1;
    assert_eq!(close(&mut words, &[1], &[1], &[1], &[0]), reply(0, 0));
}

#[test]
fn a_close_moves_the_dues_down() {
    let mut words = two(10);
    words[TWO.account(0) + DUE + 1] = 5;
    words[TWO.account(0) + DUE + 2] = -8;
    words[TWO.account(0) + MARGIN_AT] = 99;
    assert_eq!(close(&mut words, &[20], &[1], &[1], &[0]), reply(0, 0));
    assert_eq!(account(&words, 0).due, [5, -8, 0]);
    assert_eq!(account(&words, 0).margin, 0);
}

#[test]
fn gross_is_judged_on_the_finished_dues() {
    // Two products, a gain and a loss of 10^12 in one due: no excess between.
    let mut words = vec![1, 2, 2, 0, 0, 0, 1, 0, 0, 0, 0, 1, 0, 0];
    words.extend([0, GROSS, 0, 0, 0, 0, 0, 0, 0, -10_000_000_000_000, 0, 10_000_000_000_000]);
    assert!(sound(&words).is_some());
    assert_eq!(close(&mut words, &[1; 2], &[1; 2], &[1; 2], &[0, 1]), reply(12, 0));
    assert_eq!(close(&mut words, &[1; 2], &[1; 2], &[1; 2], &[1; 2]), reply(0, 0));
    assert_eq!(account(&words, 0).due, [0, 0, 0]);
}

#[test]
fn the_teller_refuses_in_order() {
    let mut odd = [2, 0, 0, 0, 0, 0, 0, 0];
    assert_eq!(teller::deposit(&mut odd, 0), reply(1, 0));
    let mut letter = [1, 0, 0, 1, 0, 0, 0, 0];
    assert_eq!(teller::withdraw(&mut letter, 0), reply(1, 0));
    let mut wild = [0, i64::MIN, 0, 0, 0, i64::MIN, 0, 0];
    assert_eq!(teller::deposit(&mut wild, 1), reply(1, 0));
    let mut full = [0, GROSS, 0, 0, 0, 0, 0, 0];
    assert_eq!(teller::deposit(&mut full, 0), reply(5, 0));
    assert_eq!(teller::deposit(&mut full, 1), reply(10, 0));
    let mut empty = [0; 8];
    assert_eq!(teller::withdraw(&mut empty, 1), reply(11, 0));
    assert_eq!(teller::deposit(&mut empty, 1), reply(0, 1));
}
