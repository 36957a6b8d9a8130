//! Curves lengthened by what a bond costs, worked by hand.

#[path = "samples/flat_curve.rs"]
mod flat_curve;

use flat_curve::flat_curve;
use seddolki_model::{
    assemble, bond_of, bond_value, bootstrap, check, new_node, Answer, Curve, Date, Ground, Node,
    Quote, Record, BLOCK, BOND,
};

/// The day that the books are for.
const DAY: Date = Date::from_days(9_815);

/// The most that an amount can be.
const MOST: u64 = 1_000_000_000_000;

const COMPONENTS: [i32; 3] = [250_000, -3, 0];

fn flat(rate: u32) -> Curve {
    Curve {
        ranges: [300, 0, 0],
        ..flat_curve(1, rate, 250_000)
    }
}

/// A bond that pays yearly.
fn bond(first_payment_day: u16, payments: u16, coupon: u32, nominal: u64) -> [u8; BOND] {
    bond_of(&Record {
        first_payment_day,
        period: 365,
        payments,
        coupon,
        nominal,
        ..Record::default()
    })
}

fn quote(bond: [u8; BOND], cash: u64) -> Quote {
    Quote {
        curve: 1,
        bond,
        cash,
        components: COMPONENTS,
    }
}

/// What the call answers, and the bytes that it leaves of a book of one curve.
fn run(curve: &Curve, quote: &Quote) -> (Answer, Vec<u8>) {
    let mut bytes = assemble(7, DAY, &[*curve], &[]);
    let used = bytes.len();
    let answer = bootstrap(&mut bytes, used, DAY, quote);
    (answer, bytes)
}

fn done() -> Answer {
    Ok(0).into()
}

fn refused(ground: Ground) -> Answer {
    Err(ground.alone()).into()
}

/// The new node's rate at each cash.
fn gives(curve: &Curve, bond: [u8; BOND], rates: &[(u64, u32)]) {
    for &(cash, rate) in rates {
        let quote = quote(bond, cash);
        let mut longer = *curve;
        longer.node_count += 1;
        longer.places[2] = Node {
            day: quote.purchase().last_payment_day() as u16,
            rate,
            components: COMPONENTS,
        };
        let left = assemble(7, DAY, &[longer], &[]);
        assert_eq!(run(curve, &quote), (done(), left), "cash {cash}");
        assert_eq!(new_node(curve, &quote), longer.places[2]);
    }
}

#[test]
fn one_payment_in_three_years() {
    // the cubes of 1,000,000 / 1,250,000 and / 1,249,999 in units of 10^-12
    // are 512,000,000,000 and 512,001,228,800; those of a half and of
    // 1,000,000 / 1,999,999 are 125,000,000,000 and 125,000,187,500
    gives(
        &flat(250_000),
        bond(1_095, 1, 0, MOST),
        &[
            (MOST, 0),
            (MOST - 1, 1),
            (512_001_228_800, 249_999),
            (512_001_228_799, 250_000),
            (512_000_000_000, 250_000),
            (125_000_187_500, 999_999),
            (125_000_187_499, 1_000_000),
            (125_000_000_000, 1_000_000),
        ],
    );
}

#[test]
fn the_smallest_of_many_rates_that_fit() {
    // a kuruş is worth 1 at most; 8 are worth less than 1.5, so 1, from a rate
    // at which the cube of 1 and the rate passes 16/3, and 11 from 22/3; at
    // 1,000,000 both are still worth 1
    let curve = flat(250_000);
    gives(&curve, bond(1_095, 1, 0, 1), &[(1, 0)]);
    gives(&curve, bond(1_095, 1, 0, 8), &[(1, 747_161), (8, 0)]);
    gives(&curve, bond(1_095, 1, 0, 11), &[(1, 942_826), (11, 0)]);
}

#[test]
fn payments_are_rounded_one_by_one() {
    // 3 in one year and in two: 1.5 and 0.75, so 2 and 1; behind them 33 in
    // three, less than 32.5 from a rate at which the cube of 1 and the rate
    // passes 66/65, and less than 4.5 from 22/3
    gives(
        &flat(1_000_000),
        bond(365, 3, 100_000, 30),
        &[(36, 0), (35, 5_103), (7, 942_826)],
    );
}

#[test]
fn no_rate_fits() {
    let curve = flat(250_000);
    let bonds = [
        (MOST, 124_999_999_999),
        (MOST - 1, MOST),
        (77, 78),
        (16, 1),
        // an eighth is 1.5, so 2
        (12, 1),
    ];
    for (nominal, cash) in bonds {
        let quote = quote(bond(1_095, 1, 0, nominal), cash);
        let whole = assemble(7, DAY, &[curve], &[]);
        assert_eq!(run(&curve, &quote), (refused(Ground::RateRange), whole));
    }
}

#[test]
fn earlier_coupons_stand_on_the_old_nodes() {
    // 10,000,000 in one year and in two: 8,000,000 and 6,400,000; behind them
    // 110,000,000 in three: 56,320,000 at 25%, 56,320,135 at 24.9999%
    gives(
        &flat(250_000),
        bond(365, 3, 100_000, 100_000_000),
        &[
            (70_720_135, 249_999),
            (70_720_134, 250_000),
            (70_720_000, 250_000),
            (14_400_000 + 110_000_000, 0),
            (14_400_000 + 13_750_000, 1_000_000),
        ],
    );
}

#[test]
fn payments_behind_the_last_node_are_on_the_line_to_the_new_one() {
    // half way from 0% to 50%: 25%; half way to 49.9999%: 24.9999%
    let bond = bond(1_095, 2, 1_000_000, 100_000_000_000);
    let curve = flat(0);
    let values = [
        (500_000, 51_200_000_000 + 39_506_172_839),
        (499_999, 51_200_122_880 + 39_506_278_189),
        (499_998, 51_200_122_880 + 39_506_383_539),
        (0, 300_000_000_000),
    ];
    for (rate, value) in values {
        assert_eq!(bond_value(&curve, &quote(bond, 1), rate), value);
    }
    gives(
        &curve,
        bond,
        &[
            (90_706_401_069, 499_999),
            (90_706_401_068, 500_000),
            (90_706_172_839, 500_000),
        ],
    );
}

#[test]
fn a_falling_rate_is_cut_towards_zero() {
    // half way from 250,000 to 249,999 is 250,000 and to 249,998 is 249,999;
    // at 249,998 the later payment is worth 81,920,524,289.8
    let bond = bond(1_095, 2, 1_000_000, 100_000_000_000);
    for (rate, value) in [
        (250_000, 51_200_000_000 + 81_920_000_000),
        (249_999, 51_200_000_000 + 81_920_262_144),
        (249_998, 51_200_122_880 + 81_920_524_290),
    ] {
        assert_eq!(bond_value(&flat(250_000), &quote(bond, 1), rate), value);
    }
}

fn put(bytes: &mut [u8], at: usize, value: &[u8]) {
    bytes[at..at + value.len()].copy_from_slice(value);
}

#[test]
fn the_block_that_is_written() {
    let before = assemble(7, DAY, &[flat(250_000)], &[]);
    let quote = quote(bond(1_095, 1, 0, MOST), 512_000_000_000);
    let mut lent = [&before[..], &[7; BLOCK + 3]].concat();
    assert_eq!(bootstrap(&mut lent, before.len(), DAY, &quote), done());
    let mut expected = before.clone();
    let block = &mut expected[BLOCK..];
    put(block, 6, &[3]);
    put(block, 60, &1_095u16.to_le_bytes());
    put(block, 64, &250_000u32.to_le_bytes());
    put(block, 68, &250_000i32.to_le_bytes());
    put(block, 72, &(-3i32).to_le_bytes());
    let check_before = u32::from_le_bytes(block[508..].try_into().unwrap());
    let added = [1 << 16, 1_095, 250_000, 250_000, -3i32 as u32];
    let sum = added.into_iter().fold(check_before, u32::wrapping_add);
    put(block, 508, &sum.to_le_bytes());
    expected.extend([7; BLOCK + 3]);
    assert_eq!(lent, expected);
    assert_eq!(check(&lent, before.len()), done());
}

#[test]
fn only_the_named_curve_grows_and_the_trades_stay() {
    let mut curves = [flat(250_000); 3];
    for (curve, id) in curves.iter_mut().zip(1..) {
        (curve.id, curve.number) = (id, id.into());
    }
    let trade = Record {
        kind: 1,
        side: 1,
        security_curve: 2,
        cash_curve: 1,
        security: 1,
        first_payment_day: 1_000,
        nominal: 100_000,
        price_or_rate: 700_000,
        ..Record::default()
    };
    let mut bytes = assemble(7, DAY, &curves, &[trade; 10]);
    let used = bytes.len();
    let quote = Quote {
        curve: 2,
        ..quote(bond(1_095, 1, 0, MOST), 125_000_000_000)
    };
    assert_eq!(bootstrap(&mut bytes, used, DAY, &quote), done());
    curves[1].node_count = 3;
    curves[1].places[2] = Node {
        day: 1_095,
        rate: 1_000_000,
        components: COMPONENTS,
    };
    assert_eq!(bytes, assemble(7, DAY, &curves, &[trade; 10]));
}

/// Sets a field of the bond.
fn change(quote: &mut Quote, change: impl Fn(&mut Record)) {
    let mut bond = quote.purchase();
    change(&mut bond);
    quote.bond = bond_of(&bond);
}

#[test]
fn grounds_are_tried_in_the_order_of_their_sentence() {
    let mut wrong = Quote {
        curve: 2,
        bond: bond(0, 1, 1_000_001, MOST),
        cash: MOST + 1,
        components: [0, 0, -1_000_001],
    };
    change(&mut wrong, |bond| bond.term = 1);
    type Repair = fn(&mut Quote);
    let repairs: [(Ground, Repair); 9] = [
        (Ground::Form, |q| q.curve = 1),
        (Ground::Days, |q| change(q, |b| b.first_payment_day = 730)),
        (Ground::Amounts, |q| change(q, |b| b.coupon = 1)),
        (Ground::Amounts, |q| change(q, |b| b.term = 0)),
        (Ground::FlowLimit, |q| {
            change(q, |b| b.nominal = MOST - 1_000_000)
        }),
        (Ground::Node, |q| q.components = COMPONENTS),
        (Ground::Amounts, |q| q.cash = MOST),
        (Ground::CurveEnd, |q| {
            change(q, |b| b.first_payment_day = 731)
        }),
        (Ground::RateRange, |q| q.cash -= 1),
    ];
    let whole = assemble(7, DAY, &[flat(250_000)], &[]);
    for (ground, repair) in repairs {
        let left = run(&flat(250_000), &wrong);
        assert_eq!(left, (refused(ground), whole.clone()), "{wrong:?}");
        repair(&mut wrong);
    }
    // the coupon is 999,999, and with the nominal that is the cash
    assert_eq!(new_node(&flat(250_000), &wrong).rate, 0);
    assert_eq!(run(&flat(250_000), &wrong).0, done());
}

#[test]
fn a_curve_takes_up_to_24_nodes() {
    let mut bytes = assemble(7, DAY, &[flat(250_000)], &[]);
    let used = bytes.len();
    for count in 3..=25 {
        let day = 365 * count;
        let quote = quote(bond(day, 1, 0, MOST), MOST / 10 * 9);
        let answer = bootstrap(&mut bytes, used, DAY, &quote);
        let expected = if count <= 24 {
            done()
        } else {
            refused(Ground::CurveEnd)
        };
        assert_eq!(answer, expected, "{count}");
        assert_eq!(bytes[BLOCK + 6], count.min(24) as u8);
    }
    assert_eq!(check(&bytes, used), done());
}

#[test]
fn the_last_payment_is_after_the_last_node_and_by_the_last_day() {
    let curve = flat(250_000);
    for (first_payment_day, answer) in [
        (0, refused(Ground::Days)),
        (1, refused(Ground::CurveEnd)),
        (365, refused(Ground::CurveEnd)),
        (366, done()),
        (10_585, done()),
        (10_586, refused(Ground::Days)),
    ] {
        // two payments, a year apart; the last one on day 730 at 365
        let bond = bond(first_payment_day, 2, 0, MOST);
        let cash = bond_value(&curve, &quote(bond, 1), 300_000);
        assert_eq!(run(&curve, &quote(bond, cash)).0, answer);
    }
}

#[test]
fn the_answer_to_a_wrong_book_comes_first() {
    let mut bytes = assemble(7, DAY, &[flat(250_000)], &[]);
    let used = bytes.len();
    bytes[BLOCK + 21] ^= 1;
    let before = bytes.clone();
    let answer = bootstrap(&mut bytes, used, DAY, &Quote::default());
    assert_eq!(answer, Err(Ground::Check.in_block(1)).into());
    assert_eq!(
        bootstrap(&mut bytes, used - 1, DAY, &Quote::default()).number,
        1
    );
    assert_eq!(bytes, before);
}
