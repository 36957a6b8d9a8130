//! Statements alone: every ending of one, pages of books of every kind beside
//! the margin's report, the largest amounts, and both ends of the sizes.

use seddolki::lent;
use seddolki_books::{
    assemble, draw_book, draw_case_of, draw_full_book, draw_near_ties, draw_repo_book, entry,
    form_of, forms, page_length, Call, Draw, Ending, Largest, NearTies, Tally, SHORTEST_PAGE,
};
use seddolki_compare::{assert_alike, books, calls, is_whole, read_page, whole_case, Line, Seeds};
use seddolki_model::{
    currency_name, payments, Answer, Book, Ground, Layout, Record, Report, BLOCK, MAX_AMOUNT,
    MAX_BLOCKS, MAX_CURRENCIES, MAX_DAY, PAGE,
};
use std::collections::{BTreeMap, BTreeSet};
use std::ops::RangeInclusive;

/// Bounds the time of a margin.
const WORK: usize = 300;

/// The same where more scenarios are wanted.
const MORE_WORK: usize = 2_000;

/// What a space for a page is filled with before the call.
const FILL: u8 = 0xaa;

#[test]
fn statements_are_the_same_and_reach_every_ending() {
    let seeds = Seeds::of_this_run();
    let mut reached = Tally::default();
    for number in 0..calls() / 3 {
        let case = draw_case_of(&mut seeds.draw(number), WORK, entry("statement"));
        let outcome = assert_alike(&case, number);
        let ending = Ending::of(&case, &outcome);
        let answered = outcome.answer.number;
        assert_eq!(answered, ending.number(), "case {number}: {ending:?}");
        let is_kept = match answered {
            0 => outcome.after.lent == case.lent,
            _ => outcome.after == case,
        };
        assert!(is_kept, "case {number}: {ending:?}");
        reached.add(ending);
    }
    reached.assert_all(Ending::all(entry("statement")), is_whole().into());
}

/// What both make of a book's statement in so many bytes, and the bytes.
fn statement_of(book: &Book, space: usize, number: u64) -> (Answer, Vec<u8>) {
    let call = Call::Statement {
        page: vec![FILL; space],
    };
    let case = whole_case(assemble(book), call);
    let outcome = assert_alike(&case, number);
    assert!(outcome.after.lent == case.lent, "case {number}");
    let Call::Statement { page } = outcome.after.call else {
        unreachable!("a statement was asked for");
    };
    (outcome.answer, page)
}

/// The lines of a book's page, which leaves so many bytes behind it.
fn lines_of(book: &Book, behind: usize, number: u64) -> Vec<Line> {
    let length = page_length(book);
    let (answer, space) = statement_of(book, length + behind, number);
    assert_eq!(answer, Ok(length as u64).into(), "case {number}");
    let (page, kept) = space.split_at(length);
    assert_eq!(kept, vec![FILL; behind], "case {number}");
    read_page(page, book.trades.len())
}

/// What margin fills.
fn report_of(book: &Book) -> Report {
    let bytes = assemble(book);
    let mut report = [0; BLOCK];
    let answer = lent::margin(&bytes, bytes.len(), book.valuation_day, &mut report);
    assert_eq!(answer.number, 0);
    Report::decode(&report)
}

fn line(words: &[&dyn ToString], amounts: &[i64]) -> Line {
    Line {
        words: words.iter().map(|word| word.to_string()).collect(),
        amounts: amounts.to_vec(),
    }
}

/// What the page is to show, by the book's trades and its report.
fn due_lines(book: &Book, report: &Report) -> Vec<Line> {
    let mut lines = vec![line(&[&"account", &book.account], &[])];
    for (position, trade) in book.trades.iter().enumerate() {
        let payments = payments(trade);
        let last = payments.last().map(|payment| payment.0);
        let day = last.unwrap_or(trade.value_day_2.into());
        let words: [&dyn ToString; 4] = [&position, &trade.kind, &trade.side, &day];
        lines.push(line(&words, &[trade.nominal as i64]));
    }
    for (id, curve) in report.present_curves() {
        let words: [&dyn ToString; 3] = [&id, &curve.scenario, &currency_name(curve.currency)];
        let amounts = [curve.base, curve.worst_loss, curve.tolerance as i64];
        lines.push(line(&words, &amounts));
    }
    for (name, figures) in report.present_currencies() {
        let amounts = [figures.initial, figures.variation, figures.total];
        lines.push(line(&[&name], &amounts));
    }
    lines
}

/// A few kinds of book in turn.
fn draw_some_book(draw: &mut Draw, number: u64) -> Book {
    match number % 3 {
        0 => draw_repo_book(draw, MORE_WORK),
        1 => {
            let ties = draw.pick(&NearTies::ALL);
            draw_near_ties(draw, ties, MORE_WORK)
        }
        _ => draw_book(draw, MORE_WORK),
    }
}

/// What a book is, or not.
fn kinds_of_book(book: &Book) -> [(&'static str, bool); 9] {
    let curves = book.curves.len();
    let currencies: BTreeSet<u8> = book.curves.iter().map(|curve| curve.currency).collect();
    let one_currency = curves > 1 && currencies.len() == 1;
    let full = assemble(book).len() == MAX_BLOCKS * BLOCK;
    let any_trade = |asked: fn(&Record) -> bool| book.trades.iter().any(asked);
    [
        ("no trade", book.trades.is_empty()),
        ("128 blocks", full),
        ("one curve", curves == 1),
        ("8 curves", curves == 8),
        ("one currency of some curves", one_currency),
        ("every currency", currencies.len() == MAX_CURRENCIES),
        ("no TRY", !currencies.contains(&1)),
        ("last day", any_trade(|r| r.last_payment_day() == MAX_DAY)),
        ("largest nominal", any_trade(|r| r.nominal == MAX_AMOUNT)),
    ]
}

/// What a page shows, or not.
fn kinds_of_page(lines: &[Line]) -> [(&'static str, bool); 6] {
    let of_curves = || lines.iter().filter(|line| line.words.len() == 3);
    let scenario = |digits: usize| of_curves().any(|line| line.words[1].len() == digits);
    let amounts = || lines.iter().flat_map(|line| &line.amounts);
    let any = |range: RangeInclusive<i64>| amounts().any(|amount| range.contains(amount));
    [
        ("scenario of one digit", scenario(1)),
        ("scenario of three digits", scenario(3)),
        ("0.00", any(0..=0)),
        ("0.01 to 0.99", any(1..=99)),
        ("-0.99 to -0.01", any(-99..=-1)),
        ("-1.00 and below", any(i64::MIN..=-100)),
    ]
}

#[test]
fn pages_of_books_of_every_kind_show_the_margin_s_report() {
    let seeds = Seeds::of_this_run();
    let (mut reached, mut met) = (BTreeMap::new(), Tally::default());
    for number in 0..books() / 4 {
        let mut draw = seeds.draw(number);
        let book = draw_some_book(&mut draw, number);
        let lines = lines_of(&book, draw.place(BLOCK), number);
        assert_eq!(lines, due_lines(&book, &report_of(&book)), "case {number}");
        let kinds = kinds_of_book(&book).into_iter();
        for (kind, is_met) in kinds.chain(kinds_of_page(&lines)) {
            *reached.entry(kind).or_insert(0) += u64::from(is_met);
        }
        book.trades.iter().for_each(|trade| met.add(form_of(trade)));
    }
    println!("{reached:?}");
    assert!(!is_whole() || reached.values().all(|&count| count > 0));
    met.assert_all(forms().map(|form| form_of(&form)), is_whole().into());
}

#[test]
fn pages_show_the_largest_amounts_and_the_lowest() {
    for (curves, currencies) in [(1, 1), (8, 1), (8, 3)] {
        for (number, largest) in (0..).zip(Largest::all(curves, currencies)) {
            let book = largest.book();
            let lines = lines_of(&book, 1, number);
            assert_eq!(lines, due_lines(&book, &report_of(&book)), "{largest:?}");
        }
    }
}

/// A book of 128 blocks with so many curves, and the same without trades.
/// Three scenarios a curve are enough.
fn full_and_empty(draw: &mut Draw, curves: u64) -> [Book; 2] {
    let mut full = draw_full_book(draw, curves);
    for curve in &mut full.curves {
        curve.steps = [1, 0, 0];
    }
    let empty = Book {
        trades: vec![],
        ..full.clone()
    };
    [full, empty]
}

/// The page of a book fits in as many bytes as it has, and in no fewer.
fn assert_fits(book: &Book) {
    let due = due_lines(book, &report_of(book));
    for behind in [0, 1] {
        assert_eq!(lines_of(book, behind, 0), due);
    }
    for space in [page_length(book) - 1, 0] {
        let refused = Err(Ground::ReportSpace.alone()).into();
        assert_eq!(statement_of(book, space, 0), (refused, vec![FILL; space]));
    }
}

#[test]
fn the_shortest_page_and_the_longest_fit_in_their_bytes_and_not_in_one_fewer() {
    let seeds = Seeds::of_this_run();
    for curves in [1, 8] {
        let [full, empty] = full_and_empty(&mut seeds.draw(curves), curves);
        if curves == 1 {
            let lengths = [&full, &empty].map(page_length);
            assert_eq!(lengths, [PAGE, SHORTEST_PAGE]);
        }
        assert_fits(&full);
        assert_fits(&empty);
    }
}
