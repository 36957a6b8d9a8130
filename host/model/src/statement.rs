//! The account statement: the page that is filed with a book.

use crate::{currency_name, report, Book, CurrencyFigures, CurveFigures, Record, LINE};
use seddolki_format::text::{decimal_with, MONEY};

/// Columns of an amount.
const AMOUNT: usize = 22;

/// The page of an accepted book: a title, then a line for each trade, each
/// curve and each currency that a curve has.
pub fn page(book: &Book) -> String {
    let report = report(book);
    let mut page = line(format!("account {}", report.account), &[]);
    for (position, trade) in book.trades.iter().enumerate() {
        page += &trade_line(position, trade);
    }
    for (id, curve) in report.present_curves() {
        page += &curve_line(id, curve);
    }
    for (name, figures) in report.present_currencies() {
        page += &currency_line(name, figures);
    }
    page
}

fn trade_line(position: usize, trade: &Record) -> String {
    let day = if trade.has_security() {
        trade.last_payment_day()
    } else {
        trade.value_day_2.into()
    };
    let words = format!("{position} {} {} {day}", trade.kind, trade.side);
    line(words, &[trade.nominal.into()])
}

fn curve_line(id: usize, curve: &CurveFigures) -> String {
    let name = currency_name(curve.currency);
    let amounts = [
        curve.base.into(),
        curve.worst_loss.into(),
        curve.tolerance.into(),
    ];
    line(format!("{id} {} {name}", curve.scenario), &amounts)
}

fn currency_line(name: &str, figures: &CurrencyFigures) -> String {
    let amounts = [figures.initial, figures.variation, figures.total];
    line(name.into(), &amounts.map(i128::from))
}

/// 80 characters and a line feed: words from the left, blanks, and amounts of
/// which the last ends in the last column.
fn line(words: String, amounts: &[i128]) -> String {
    let amounts: String = amounts.iter().map(|&amount| column(amount)).collect();
    let left = LINE - 1 - amounts.len();
    format!("{words:<left$}{amounts}\n")
}

fn column(amount: i128) -> String {
    format!("{:>AMOUNT$}", decimal_with('.', None, amount, MONEY))
}
