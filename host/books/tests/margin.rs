//! The report, and demand 3 on random books.

use seddolki_books::{assemble, assert_near_exact, buyer, draw_book, seller, Draw};
use seddolki_model::{
    accept, check_of, exact_value, list, margin, present_value, valuation_day, Answer,
    CurveFigures, Layout, Report, BLOCK, MAX_AMOUNT, MAX_DAY, MAX_RATE,
};

fn report_of(bytes: &[u8]) -> Report {
    let mut space = vec![0xaa; BLOCK + 9];
    let done = Answer {
        number: 0,
        value: 0,
    };
    let day = valuation_day(bytes);
    assert_eq!(margin(bytes, bytes.len(), day, &mut space), done);
    assert_eq!(space[BLOCK..], [0xaa; 9]);
    let report = Report::decode(&space);
    assert_eq!(report.check, check_of(&space));
    assert_eq!(report.to_bytes::<BLOCK>(), space[..BLOCK]);
    report
}

#[test]
fn the_examples_list_as_the_document_says() {
    assert_eq!(
        list(&buyer()),
        "account 7\n\
         curve 1 TRY base 10000 loss 30000 scenario 2 tolerance 1\n\
         currency TRY initial 30000 variation 10000 total -20000\n"
    );
    assert_eq!(
        list(&seller()),
        "account 7\n\
         curve 1 TRY base -10000 loss 20000 scenario 0 tolerance 1\n\
         currency TRY initial 20000 variation -10000 total -30000\n"
    );
}

#[test]
fn the_report_has_its_head_and_no_absent_figures() {
    for seed in 0..100 {
        let book = draw_book(&mut Draw::new(seed), 1_000);
        let report = report_of(&assemble(&book));
        assert_eq!((report.kind, report.number), (9, 0));
        assert_eq!(report.account, book.account);
        let (shown, absent) = report.curves.split_at(book.curves.len());
        for (figures, curve) in shown.iter().zip(&book.curves) {
            assert_eq!(figures.currency, curve.currency.into());
        }
        assert!(absent.iter().all(|a| *a == CurveFigures::default()));
        for figures in report.currencies {
            assert_eq!(figures.total, figures.variation - figures.initial);
        }
    }
}

#[test]
fn exactness_holds_on_random_books() {
    for seed in 0..300 {
        let bytes = assemble(&draw_book(&mut Draw::new(seed), 10_000));
        println!("seed {seed}");
        let book = accept(&bytes, bytes.len()).unwrap();
        assert_near_exact(&book, &report_of(&bytes));
    }
}

#[test]
fn a_present_value_is_within_its_tolerance() {
    let mut draw = Draw::new(3);
    for _ in 0..50_000 {
        let (rate, day) = (draw.edge(0..=MAX_RATE), draw.edge(0..=MAX_DAY));
        let amount = draw.edge(0..=MAX_AMOUNT);
        let mut tolerance = 0;
        let answer = present_value(amount, rate, day, &mut tolerance);
        assert_eq!(answer.number, 0);
        let gap = answer.value.abs_diff(exact_value(amount, rate, day));
        assert!(gap <= tolerance, "{amount} at {rate} on {day}");
    }
}
