//! What a refused book is told, example by example.

mod samples;

use samples::single_payment;
use seddolki_model::{assemble, book_fault, seal, BookFault, Curve, Date, Ground, Node, BLOCK};

/// A curve in TRY of three nodes.
fn curve(id: u8) -> Curve {
    let node = |day| Node {
        day,
        rate: 132_500,
        components: [250_000, 0, 0],
    };
    Curve::new(id, 1, &[30, 365, 730].map(node))
}

/// A book of three curves and 13 trades, in blocks 0 to 5.
fn book() -> Vec<u8> {
    assemble(
        7,
        Date::FIRST,
        &[1, 2, 3].map(curve),
        &[single_payment(); 13],
    )
}

/// What is told of the book with some bytes of a block set.
fn told(block: usize, at: usize, bytes: &[u8]) -> String {
    let mut book = book();
    let block = &mut book[block * BLOCK..][..BLOCK];
    block[at..at + bytes.len()].copy_from_slice(bytes);
    seal(block);
    book_fault(&book, book.len()).unwrap().to_string()
}

const BLOCKS: &str = "a book is blocks of 512 bytes, a header and a curve at least";

fn of_length(lent: usize, used: usize) -> BookFault {
    book_fault(&book().repeat(22)[..lent], used).unwrap()
}

#[test]
fn a_used_length() {
    for (lent, used, found, due) in [
        (0, 0, "0", "1,024 to 65,536"),
        (66_048, 66_048, "66,048", "1,024 to 65,536"),
        (3_000, 3_000, "3,000", "a multiple of 512"),
    ] {
        let fault = of_length(lent, used);
        let told = format!("book, field used: {found} is there, {due} is due: {BLOCKS}");
        assert_eq!(fault.to_string(), told);
        assert_eq!(fault.refusal(), Ground::Length.alone());
    }
    assert_eq!(
        of_length(3_000, 3_072).to_string(),
        "book, field used: 3,072 is there, at most 3,000 is due: no more bytes are lent"
    );
}

#[test]
fn a_header_alone() {
    let fault = of_length(512, 512);
    let told = format!("512 is there, 1,024 to 65,536 is due: {BLOCKS}");
    assert_eq!(
        fault.to_string(),
        format!("header (block 0), field used: {told}")
    );
    assert_eq!(fault.refusal(), Ground::Header.alone());
}

#[test]
fn a_check() {
    let mut bytes = book();
    let stored = u32::from_le_bytes(bytes[2 * BLOCK - 4..2 * BLOCK].try_into().unwrap());
    bytes[BLOCK + 5] += 1;
    let fault = book_fault(&bytes, bytes.len()).unwrap();
    assert_eq!(fault.refusal(), Ground::Check.in_block(1));
    assert_eq!(
        (fault.fault.field, fault.fault.found),
        ("check", stored.into())
    );
    let due: String = fault.fault.allowed.split(',').collect();
    assert_eq!(due, (stored + 256).to_string());
}

#[test]
fn a_place() {
    for (block, at, byte, expected) in [
        (
            0,
            0,
            2,
            "header (block 0), field kind: 2 (curve) is there, \
             1 (header) is due: the header is block 0",
        ),
        (
            2,
            0,
            3,
            "curve 2 (block 2), field kind: 3 (trades) is there, \
             2 (curve) is due: by the header, curves are block 1 to 3",
        ),
        (
            4,
            0,
            9,
            "trades (block 4), field kind: 9 is there, \
             3 (trades) is due: by the header, trades begin in block 4",
        ),
        (
            5,
            2,
            4,
            "trades (block 5), field number: 4 is there, \
             5 is due: blocks are numbered from 0",
        ),
    ] {
        assert_eq!(told(block, at, &[byte]), expected);
    }
}

#[test]
fn a_header() {
    const COUNTS: &str = "with the header, curves and trade blocks are the book's 6 blocks";
    const BYTE: &str = "no field takes byte 16 in a header";
    for (at, byte, found, why) in [
        (8, 9, "curves: 9 is there, 1 to 5 is due", COUNTS),
        (8, 0, "curves: 0 is there, 1 to 5 is due", COUNTS),
        (10, 3, "trade_blocks: 3 is there, 2 is due", COUNTS),
        (16, 5, "unnamed: 5 is there, 0 is due", BYTE),
    ] {
        let expected = format!("header (block 0), field {found}: {why}");
        assert_eq!(told(0, at, &[byte]), expected);
    }
}

#[test]
fn a_curve() {
    const CURRENCIES: &str = "currency: 0 is there, 1 (TRY), 2 (USD) or 3 (EUR) is due";
    for (at, byte, found, why) in [
        (
            4,
            3,
            "id: 3 is there, 2 is due",
            "a curve's id is its block number",
        ),
        (5, 0, CURRENCIES, "the currency of the curve"),
        (
            6,
            1,
            "node_count: 1 is there, 2 to 24 is due",
            "nodes of the curve",
        ),
        (
            8,
            4,
            "steps: 4 is there, 0 to 3 is due",
            "the steps of component 2",
        ),
        (
            17,
            255,
            "ranges: 652.80 is there, 0.00 to 100.00 is due",
            "the range of component 3",
        ),
    ] {
        let expected = format!("curve 2 (block 2), field {found}: {why}");
        assert_eq!(told(2, at, &[byte]), expected);
    }
}

#[test]
fn a_byte_that_no_field_takes() {
    for at in [1, 10, 18, 42, 80, 507] {
        let why = format!("no field takes byte {at} in a curve of 3 nodes");
        let expected = format!("curve 2 (block 2), field unnamed: 1 is there, 0 is due: {why}");
        assert_eq!(told(2, at, &[1]), expected);
    }
}

#[test]
fn a_node_s_day() {
    for (number, day, due, from) in [
        (1, 10_951_u16, "0 to 10,948", ""),
        (2, 30, "31 to 10,949", ", from day 30 of node 1"),
        (3, 10_951, "366 to 10,950", ", from day 365 of node 2"),
    ] {
        let at = 20 * number;
        let found = if day == 30 { "30" } else { "10,951" };
        let expected = format!(
            "curve 2 (block 2), node {number} of 3, field day: {found} is there, \
             {due} is due: days rise strictly{from}, to 10,950 at most"
        );
        assert_eq!(told(2, at, &day.to_le_bytes()), expected);
    }
}

#[test]
fn a_node_s_rate_and_components() {
    assert_eq!(
        told(2, 60 + 4, &1_000_001_u32.to_le_bytes()),
        "curve 2 (block 2), node 3 of 3, field rate: 100.0001% is there, \
         0.0000% to 100.0000% is due: the rate of the node"
    );
    assert_eq!(
        told(2, 20 + 12, &(-1_000_001_i32).to_le_bytes()),
        "curve 2 (block 2), node 1 of 3, field components: -100.0001% is there, \
         -100.0000% to 100.0000% is due: how far component 2 moves the node"
    );
}

#[test]
fn a_block_of_trades() {
    assert_eq!(
        told(4, 1, &[8]),
        "trades (block 4), field count: 8 is there, 9 is due: \
         only the last block of trades may hold fewer"
    );
    assert_eq!(
        told(5, 1, &[10]),
        "trades (block 5), field count: 10 is there, 1 to 9 is due: trades of the block"
    );
    assert_eq!(
        told(5, 4 + 4 * 56, &[1]),
        "trades (block 5), field unnamed: 1 is there, 0 is due: \
         no field takes byte 228 in a block of 4 trades"
    );
}

#[test]
fn a_trade() {
    assert_eq!(
        told(4, 4 + 6, &[1]),
        "trade 0 (block 4, record 1 of its 9), field zero: 1 is there, 0 is due: \
         bytes 6 and 7 of a record are 0"
    );
    assert_eq!(
        told(5, 4 + 3 * 56 + 2, &[1]),
        "trade 12 (block 5, record 4 of its 4), field phase: 1 is there, 0 is due: \
         an outright has no phase"
    );
}

#[test]
fn a_whole_book_has_no_fault() {
    let mut bytes = book();
    let used = bytes.len();
    bytes.extend([7; 100]);
    assert_eq!(book_fault(&bytes, used), None);
}
