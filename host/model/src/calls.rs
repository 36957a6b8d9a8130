//! The calls over lent bytes. Those that change a book, work out its
//! margin or write its statement are given the day that it is to be for.

use crate::{
    accept, accept_on, accept_quote, accept_record, add_node, discount, new_node, page, report,
    rewrite, sealed, Answer, Book, Date, Ground, Layout, Quote, Record, Refusal, BLOCK, FULL_BLOCK,
    MAX_AMOUNT, MAX_BLOCKS, MAX_DAY, MAX_RATE, RECORD,
};

/// Whether the book is accepted.
pub fn check(book: &[u8], used: usize) -> Answer {
    accept(book, used).map(|_| 0).into()
}

/// Fills the report's first block.
pub fn margin(book: &[u8], used: usize, day: Date, report: &mut [u8]) -> Answer {
    let book = accept_on(book, used, day);
    book.and_then(|book| write_report(&book, report)).into()
}

fn write_report(book: &Book, space: &mut [u8]) -> Result<u64, Refusal> {
    write(&sealed(&report(book)), space).map(|_| 0)
}

/// Writes to the first bytes of a space, if all that is to be written fits;
/// gives their number.
fn write(bytes: &[u8], space: &mut [u8]) -> Result<u64, Refusal> {
    let first = space.get_mut(..bytes.len());
    let first = first.ok_or(Ground::ReportSpace.alone())?;
    first.copy_from_slice(bytes);
    Ok(bytes.len() as u64)
}

/// Writes the account statement; the value is the page's length.
pub fn statement(book: &[u8], used: usize, day: Date, space: &mut [u8]) -> Answer {
    let book = accept_on(book, used, day);
    book.and_then(|book| write(page(&book).as_bytes(), space))
        .into()
}

/// Fills the report's first block as it would be after an append. The trade
/// joins what the book holds, and no copy is written and read again: so an
/// append that writes wrongly is found out where the two are compared.
pub fn preview(
    book: &[u8],
    used: usize,
    day: Date,
    record: &[u8; RECORD],
    report: &mut [u8],
) -> Answer {
    let longer = accept_append(book, used, day, record);
    longer.and_then(|book| write_report(&book, report)).into()
}

/// Adds a record behind the last; the value is the new used length.
pub fn append(lent: &mut [u8], used: usize, day: Date, record: &[u8; RECORD]) -> Answer {
    let longer = accept_append(lent, used, day, record);
    longer.map(|book| rewrite(lent, used, &book)).into()
}

/// What the book would hold with a record behind its last trade, or the first
/// ground that refuses the append.
fn accept_append(
    lent: &[u8],
    used: usize,
    day: Date,
    record: &[u8; RECORD],
) -> Result<Book, Refusal> {
    let mut book = accept_on(lent, used, day)?;
    let record = Record::decode(record);
    let needs_block = book.trades.len().is_multiple_of(FULL_BLOCK);
    let end = if needs_block { used + BLOCK } else { used };
    accept_record(&record, &book.curves).map_err(|ground| ground.in_block(end / BLOCK - 1))?;
    if end > MAX_BLOCKS * BLOCK || end > lent.len() {
        return Err(Ground::BookSpace.alone());
    }
    book.trades.push(record);
    Ok(book)
}

/// Removes a record; the value is the new used length.
pub fn strike(lent: &mut [u8], used: usize, day: Date, position: usize) -> Answer {
    let shorter = accept_on(lent, used, day).and_then(|mut book| {
        trade_at(&book, position)?;
        book.trades.remove(position);
        Ok(book)
    });
    shorter.map(|book| rewrite(lent, used, &book)).into()
}

/// Gives the record at a position; 0 bytes if refused.
pub fn read(book: &[u8], used: usize, position: usize, record: &mut [u8; RECORD]) -> Answer {
    let trade = accept(book, used).and_then(|book| trade_at(&book, position));
    *record = trade.unwrap_or_default().to_bytes();
    trade.map(|_| 0).into()
}

fn trade_at(book: &Book, position: usize) -> Result<Record, Refusal> {
    let trade = book.trades.get(position).copied();
    trade.ok_or(Ground::Position.alone())
}

/// Adds a node to a curve, at the rate that a bond's price calls for; the
/// value is 0.
pub fn bootstrap(lent: &mut [u8], used: usize, day: Date, quote: &Quote) -> Answer {
    let quoted = accept_on(lent, used, day).and_then(|book| {
        accept_quote(quote, &book.curves).map_err(Ground::alone)?;
        Ok(book.curves[quote.curve - 1])
    });
    let added = quoted.map(|curve| add_node(lent, &curve, new_node(&curve, quote)));
    added.map(|()| 0).into()
}

/// One present value and its tolerance; tolerance 0 if refused.
pub fn present_value(amount: u64, rate: u64, day: u64, tolerance: &mut u64) -> Answer {
    *tolerance = 0;
    if amount > MAX_AMOUNT || rate > MAX_RATE || day > MAX_DAY {
        return Err(Ground::ValueRange.alone()).into();
    }
    *tolerance = discount::tolerance(amount.into(), day);
    let factor = discount::discount_factor(rate, day);
    Ok(discount::present_value(amount.into(), factor)).into()
}
