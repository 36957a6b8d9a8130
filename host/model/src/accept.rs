//! Accepting a book, grounds 1 to 12 and, on a day, 19, and what it holds.

use crate::rules::blocks as rules;
use crate::{
    cash_flows, keep_rules, require, BookFault, CashFlow, Curve, Date, Fault, Ground, Header,
    Layout, Part, Record, Refusal, TradeBlock, Unit, BLOCK, CURVE, HEADER, TRADES,
};
use std::fmt::Display;

/// What an accepted book holds.
#[derive(Clone, Debug, PartialEq, Eq)]
pub struct Book {
    /// The header's account.
    pub account: u32,
    /// The day that the book is for.
    pub valuation_day: Date,
    /// In the order of their ids.
    pub curves: Vec<Curve>,
    /// In the order of their positions.
    pub trades: Vec<Record>,
}

impl Book {
    /// The flows that stand on a curve, in the order of the trades.
    pub fn flows_on(&self, curve: &Curve) -> Vec<CashFlow> {
        self.trades
            .iter()
            .flat_map(cash_flows)
            .filter(|flow| flow.curve == curve.id)
            .collect()
    }
}

/// What the book holds, or the first ground that refuses it.
pub fn accept(lent: &[u8], used: usize) -> Result<Book, Refusal> {
    take(lent, used).map_err(|fault| fault.refusal())
}

/// The same, on the day that the book is to be for.
pub fn accept_on(lent: &[u8], used: usize, day: Date) -> Result<Book, Refusal> {
    let book = accept(lent, used)?;
    if book.valuation_day != day {
        return Err(Ground::ValuationDay.alone());
    }
    Ok(book)
}

/// Why a book is refused; none if it is accepted.
pub fn book_fault(lent: &[u8], used: usize) -> Option<BookFault> {
    take(lent, used).err().map(|fault| *fault)
}

/// Length first, then block by block, the lowest ground of a block first.
fn take(lent: &[u8], used: usize) -> Result<Book, Box<BookFault>> {
    require(Ground::Length, rules::length(lent.len(), used))
        .map_err(|fault| fault.in_part(0, Part::Length))?;
    let blocks: Vec<&[u8]> = lent[..used].chunks(BLOCK).collect();
    let header = take_header(&blocks).map_err(|fault| fault.in_part(0, Part::Header))?;
    let mut book = Book {
        account: header.account,
        valuation_day: Date::from_days(header.valuation_day),
        curves: vec![],
        trades: vec![],
    };
    let (curves, trades) = blocks[1..].split_at(header.curves.into());
    for (number, block) in (1..).zip(curves) {
        book.curves.push(take_curve(block, number, &header)?);
    }
    for (number, block) in (1 + curves.len()..).zip(trades) {
        let last = number + 1 == blocks.len();
        take_trades(&mut book, block, number, last)?;
    }
    Ok(book)
}

fn in_place(block: &[u8], kind: u8, number: usize, why: impl Display) -> Result<(), Fault> {
    require(Ground::Check, rules::check(block))?;
    require(Ground::Place, rules::place(block, kind, number, why))
}

fn take_header(blocks: &[&[u8]]) -> Result<Header, Fault> {
    in_place(blocks[0], HEADER, 0, "the header is block 0")?;
    require(Ground::Header, rules::header(blocks[0], blocks.len()))?;
    Ok(Header::decode(blocks[0]))
}

fn take_curve(block: &[u8], number: usize, header: &Header) -> Result<Curve, Box<BookFault>> {
    let last = header.curves.into();
    let why = format_args!(
        "by the header, curves are block {}",
        Unit::Whole.range(1, last)
    );
    in_place(block, CURVE, number, why)
        .and_then(|()| require(Ground::Curve, rules::curve(block, number)))
        .map_err(|fault| fault.in_part(number, Part::Curve))?;
    let curve = Curve::decode(block);
    let count = curve.nodes().len();
    for place in 0..count {
        require(Ground::Node, rules::node(curve.nodes(), place))
            .map_err(|fault| fault.in_part(number, Part::Node { place, count }))?;
    }
    Ok(curve)
}

fn take_trades(
    book: &mut Book,
    block: &[u8],
    number: usize,
    last: bool,
) -> Result<(), Box<BookFault>> {
    let first = 1 + book.curves.len();
    let why = format_args!("by the header, trades begin in block {first}");
    in_place(block, TRADES, number, why)
        .and_then(|()| require(Ground::TradeBlock, rules::trade_block(block, last)))
        .map_err(|fault| fault.in_part(number, Part::Trades))?;
    let trades = TradeBlock::decode(block);
    let count = trades.count.into();
    for (place, record) in trades.places[..count].iter().enumerate() {
        let part = Part::Trade {
            position: book.trades.len(),
            place,
            count,
        };
        keep_rules(record, &book.curves).map_err(|fault| fault.in_part(number, part))?;
        book.trades.push(*record);
    }
    Ok(())
}
