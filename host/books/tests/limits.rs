//! Every limit that the document names: the last value within is accepted
//! and the first beyond is refused.

use seddolki_books::{assemble, buyer};
use seddolki_model::{accept, check, Book, Curve, Node, Record};

/// A change to a book, and the number that it should answer.
type Limit = (fn(&mut Book), u64);

fn book_of(trade: Record) -> Book {
    let bytes = buyer();
    let mut book = accept(&bytes, bytes.len()).unwrap();
    book.trades = vec![trade];
    book
}

fn single() -> Record {
    let bytes = buyer();
    accept(&bytes, bytes.len()).unwrap().trades[0]
}

fn coupons() -> Record {
    Record {
        security: 2,
        period: 30,
        payments: 4,
        coupon: 20_000,
        ..single()
    }
}

fn indexed() -> Record {
    Record {
        security: 3,
        settlement_index: 11,
        issue_index: 10,
        ..coupons()
    }
}

fn repo_ahead() -> Record {
    Record {
        kind: 3,
        phase: 1,
        value_day_1: 3,
        value_day_2: 10,
        term: 7,
        repo_cash: 500,
        ..single()
    }
}

fn repo_settled() -> Record {
    Record {
        phase: 2,
        value_day_1: 0,
        value_day_2: 7,
        ..repo_ahead()
    }
}

fn pool_agreed() -> Record {
    Record {
        kind: 2,
        security: 0,
        security_curve: 0,
        first_payment_day: 0,
        nominal: 0,
        ..repo_ahead()
    }
}

fn answers(trade: Record, limits: &[Limit]) {
    for (place, (change, number)) in limits.iter().enumerate() {
        let mut book = book_of(trade);
        let whole = assemble(&book);
        assert_eq!(check(&whole, whole.len()).number, 0);
        change(&mut book);
        let bytes = assemble(&book);
        let answer = check(&bytes, bytes.len());
        assert_eq!(answer.number, *number, "limit {place} of {trade:?}");
    }
}

fn curve(book: &mut Book) -> &mut Curve {
    &mut book.curves[0]
}

fn last_node(book: &mut Book) -> &mut Node {
    &mut book.curves[0].places[1]
}

fn trade(book: &mut Book) -> &mut Record {
    &mut book.trades[0]
}

/// As many nodes as asked, a day apart.
fn set_nodes(book: &mut Book, count: u8) {
    let curve = curve(book);
    curve.node_count = count;
    let first = curve.places[0];
    curve.places = Default::default();
    for (place, day) in curve.places.iter_mut().zip(1..=u16::from(count)) {
        *place = Node { day, ..first };
    }
}

/// As many curves as asked, the trade on the last.
fn set_curves(book: &mut Book, count: u8) {
    let first = book.curves[0];
    book.curves = (1..=count)
        .map(|id| Curve {
            number: id.into(),
            id,
            ..first
        })
        .collect();
    trade(book).cash_curve = count;
    trade(book).security_curve = 1;
}

#[test]
fn limits_of_a_curve() {
    answers(
        single(),
        &[
            (|b| set_curves(b, 8), 0),
            (|b| set_curves(b, 9), 4),
            (|b| set_nodes(b, 24), 0),
            (|b| curve(b).node_count = 25, 5),
            (|b| set_nodes(b, 1), 5),
            (|b| curve(b).currency = 3, 0),
            (|b| curve(b).currency = 4, 5),
            (|b| curve(b).currency = 0, 5),
            (|b| curve(b).steps = [3; 3], 0),
            (|b| curve(b).steps[0] = 4, 5),
            (|b| curve(b).steps[1] = 4, 5),
            (|b| curve(b).steps[2] = 4, 5),
            (|b| curve(b).ranges = [10_000; 3], 0),
            (|b| curve(b).ranges[0] = 10_001, 5),
            (|b| curve(b).ranges[1] = 10_001, 5),
            (|b| curve(b).ranges[2] = 10_001, 5),
        ],
    );
}

#[test]
fn limits_of_a_node() {
    answers(
        single(),
        &[
            (|b| last_node(b).day = 10_950, 0),
            (|b| last_node(b).day = 10_951, 6),
            (|b| last_node(b).day = 366, 0),
            (|b| last_node(b).day = 365, 6),
            (|b| last_node(b).rate = 0, 0),
            (|b| last_node(b).rate = 1_000_000, 0),
            (|b| last_node(b).rate = 1_000_001, 6),
            (|b| last_node(b).components = [1_000_000; 3], 0),
            (|b| last_node(b).components = [-1_000_000; 3], 0),
            (|b| last_node(b).components[0] = 1_000_001, 6),
            (|b| last_node(b).components[1] = -1_000_001, 6),
            (|b| last_node(b).components[2] = 1_000_001, 6),
        ],
    );
}

#[test]
fn limits_of_an_outright() {
    answers(
        single(),
        &[
            (|b| trade(b).value_day_1 = 364, 0),
            (|b| trade(b).value_day_1 = 365, 9),
            (|b| trade(b).first_payment_day = 10_950, 0),
            (|b| trade(b).first_payment_day = 10_951, 9),
            (|b| trade(b).nominal = 1_000_000_000_000, 0),
            (|b| trade(b).nominal = 1_000_000_000_001, 10),
            (|b| trade(b).nominal = 1, 0),
            (|b| trade(b).nominal = 0, 10),
            (|b| trade(b).price_or_rate = 4_000_000, 0),
            (|b| trade(b).price_or_rate = 4_000_001, 10),
            (|b| trade(b).price_or_rate = 1, 0),
            (|b| trade(b).price_or_rate = 0, 10),
            (|b| trade(b).accrued = 1_000_000, 0),
            (|b| trade(b).accrued = 1_000_001, 10),
        ],
    );
}

#[test]
fn limits_of_coupons() {
    answers(
        indexed(),
        &[
            (|b| trade(b).period = 366, 0),
            (|b| trade(b).period = 367, 9),
            (|b| trade(b).period = 1, 0),
            (|b| trade(b).period = 0, 9),
            (|b| trade(b).payments = 120, 0),
            (|b| trade(b).payments = 121, 9),
            (|b| trade(b).payments = 1, 0),
            (|b| trade(b).payments = 0, 9),
            (|b| trade(b).first_payment_day = 10_950 - 3 * 30, 0),
            (|b| trade(b).first_payment_day = 10_951 - 3 * 30, 9),
            (|b| trade(b).coupon = 0, 0),
            (|b| trade(b).coupon = 1_000_000, 0),
            (|b| trade(b).coupon = 1_000_001, 10),
            (|b| trade(b).settlement_index = 1, 0),
            (|b| trade(b).settlement_index = 0, 10),
            (|b| trade(b).settlement_index = 10_000_000, 0),
            (|b| trade(b).settlement_index = 10_000_001, 10),
            (|b| trade(b).issue_index = 1, 0),
            (|b| trade(b).issue_index = 0, 10),
            (|b| trade(b).issue_index = 10_000_000, 0),
            (|b| trade(b).issue_index = 10_000_001, 10),
        ],
    );
}

#[test]
fn limits_of_a_repo() {
    answers(
        repo_ahead(),
        &[
            (|b| set_ahead(b, 730), 0),
            (|b| set_ahead(b, 731), 9),
            (|b| set_ahead(b, 1), 0),
            (|b| set_ahead(b, 0), 9),
            (|b| trade(b).first_payment_day = 11, 0),
            (|b| trade(b).first_payment_day = 10, 0),
            (|b| trade(b).first_payment_day = 4, 0),
            (|b| trade(b).first_payment_day = 3, 9),
            (|b| set_last_day(b, 10_950), 0),
            (|b| set_last_day(b, 10_951), 9),
            (|b| trade(b).repo_cash = 1_000_000_000_000, 12),
            (|b| trade(b).repo_cash = 1_000_000_000_001, 10),
            (|b| trade(b).repo_cash = 1, 0),
            (|b| trade(b).repo_cash = 0, 10),
            (|b| trade(b).price_or_rate = 0, 0),
            (|b| trade(b).price_or_rate = 1_000_000, 0),
            (|b| trade(b).price_or_rate = 1_000_001, 10),
        ],
    );
}

/// A first leg on day 3, a second leg the term later.
fn set_ahead(book: &mut Book, term: u16) {
    let trade = trade(book);
    trade.term = term;
    trade.value_day_2 = trade.value_day_1 + term;
    trade.first_payment_day = 1_000;
}

#[test]
fn limits_of_a_settled_repo() {
    answers(
        repo_settled(),
        &[
            (|b| trade(b).value_day_2 = 0, 0),
            (|b| trade(b).value_day_2 = 8, 9),
            (|b| trade(b).value_day_1 = 1, 10),
            (|b| trade(b).value_day_1 = 365, 10),
            (|b| trade(b).first_payment_day = 7, 0),
            (|b| trade(b).first_payment_day = 1, 0),
            (|b| trade(b).first_payment_day = 0, 9),
            (|b| trade(b).term = 730, 0),
            (|b| trade(b).term = 731, 9),
        ],
    );
}

#[test]
fn limits_of_a_repo_without_security() {
    answers(
        pool_agreed(),
        &[
            (|b| set_last_day_alone(b, 10_950), 0),
            (|b| set_last_day_alone(b, 10_951), 9),
            (|b| trade(b).security_curve = 1, 8),
            (|b| trade(b).first_payment_day = 11, 10),
            (|b| trade(b).nominal = 1, 10),
        ],
    );
}

fn set_last_day_alone(book: &mut Book, day: u16) {
    trade(book).value_day_2 = day;
    trade(book).value_day_1 = day - 7;
}

/// The same, the security paying on the day after value day 1.
fn set_last_day(book: &mut Book, day: u16) {
    set_last_day_alone(book, day);
    trade(book).first_payment_day = day - 6;
}

#[test]
fn limit_of_a_flow() {
    answers(single(), &[(|b| set_settlement(b, 1_000_000), 0)]);
    answers(single(), &[(|b| set_settlement(b, 1_000_001), 12)]);
    answers(coupons(), &[(|b| set_last_payment(b, 980_392_156_863), 0)]);
    answers(coupons(), &[(|b| set_last_payment(b, 980_392_156_864), 12)]);
}

/// The largest nominal at a price.
fn set_settlement(book: &mut Book, price: u32) {
    trade(book).nominal = 1_000_000_000_000;
    trade(book).price_or_rate = price;
}

/// 980,392,156,863 with a coupon of 2% pays 10^12 at the end.
fn set_last_payment(book: &mut Book, nominal: u64) {
    trade(book).nominal = nominal;
}

#[test]
fn limit_of_the_blocks() {
    let mut book = book_of(single());
    book.trades = vec![single(); 126 * 9];
    let full = assemble(&book);
    assert_eq!(full.len(), 65_536);
    assert_eq!(check(&full, full.len()).number, 0);
    book.trades.push(single());
    let over = assemble(&book);
    assert_eq!(check(&over, over.len()).number, 1);
}
