//! The blocks of a book.

use crate::layout::layout;
use crate::{Date, Layout, Record, FULL_BLOCK};

pub const BLOCK: usize = 512;

pub const HEADER: u8 = 1;
pub const CURVE: u8 = 2;
pub const TRADES: u8 = 3;

layout! {
    /// What every block has.
    Head of 512 {
        kind: u8 = 0,
        number: u16 = 2,
        check: u32 = 508,
    }
}

layout! {
    Header of 512 {
        kind: u8 = 0,
        number: u16 = 2,
        account: u32 = 4,
        curves: u16 = 8,
        trade_blocks: u16 = 10,
        /// Days since 1 January 2000.
        valuation_day: u32 = 12,
        check: u32 = 508,
    }
}

layout! {
    Node of 20 {
        day: u16 = 0,
        rate: u32 = 4,
        components: [i32; 3] = 8,
    }
}

layout! {
    Curve of 512 {
        kind: u8 = 0,
        number: u16 = 2,
        id: u8 = 4,
        currency: u8 = 5,
        node_count: u8 = 6,
        steps: [u8; 3] = 7,
        ranges: [u16; 3] = 12,
        places: [Node; 24] = 20,
        check: u32 = 508,
    }
}

impl Curve {
    /// A curve without steps, its check still to be written.
    pub fn new(id: u8, currency: u8, nodes: &[Node]) -> Self {
        let mut curve = Curve {
            kind: CURVE,
            number: id.into(),
            id,
            currency,
            node_count: nodes.len() as u8,
            ..Curve::default()
        };
        curve.places[..nodes.len()].copy_from_slice(nodes);
        curve
    }

    /// The nodes in use.
    pub fn nodes(&self) -> &[Node] {
        &self.places[..self.places.len().min(self.node_count.into())]
    }

    /// The last node in use; there is one at least.
    pub fn last_node(&self) -> &Node {
        &self.nodes()[self.nodes().len() - 1]
    }
}

layout! {
    TradeBlock of 512 {
        kind: u8 = 0,
        count: u8 = 1,
        number: u16 = 2,
        places: [Record; 9] = 4,
        check: u32 = 508,
    }
}

impl TradeBlock {
    /// A block of up to 9 trades, its check still to be written.
    pub fn new(trades: &[Record], number: usize) -> Self {
        let mut block = TradeBlock {
            kind: TRADES,
            count: trades.len() as u8,
            number: number as u16,
            ..TradeBlock::default()
        };
        block.places[..trades.len()].copy_from_slice(trades);
        block
    }
}

/// The check that a block's first 127 words call for.
pub fn check_of(block: &[u8]) -> u32 {
    block[..BLOCK - u32::SIZE]
        .chunks(u32::SIZE)
        .fold(1, |sum: u32, word| sum.wrapping_add(u32::decode(word)))
}

/// Writes the check that the block calls for.
pub fn seal(block: &mut [u8]) {
    check_of(block).encode(&mut block[BLOCK - u32::SIZE..]);
}

/// The bytes of a whole block, its check written.
pub fn sealed<T: Layout>(content: &T) -> [u8; BLOCK] {
    let mut block = content.to_bytes();
    seal(&mut block);
    block
}

/// The bytes of a book with these parts, whether or not they keep the rules.
pub fn assemble(account: u32, valuation_day: Date, curves: &[Curve], trades: &[Record]) -> Vec<u8> {
    let header = Header {
        kind: HEADER,
        account,
        curves: curves.len() as u16,
        trade_blocks: trades.len().div_ceil(FULL_BLOCK) as u16,
        valuation_day: valuation_day.days(),
        ..Header::default()
    };
    let mut bytes = sealed(&header).to_vec();
    for curve in curves {
        bytes.extend(sealed(curve));
    }
    let first = 1 + curves.len();
    for (number, trades) in (first..).zip(trades.chunks(FULL_BLOCK)) {
        bytes.extend(sealed(&TradeBlock::new(trades, number)));
    }
    bytes
}

/// The day that a book is for, by the bytes of its header.
pub fn valuation_day(book: &[u8]) -> Date {
    Date::from_days(Header::decode(book).valuation_day)
}

/// The trades of an accepted book's bytes, in order.
pub fn trades(book: &[u8]) -> impl Iterator<Item = Record> + '_ {
    let first = 1 + usize::from(Header::decode(book).curves);
    book.chunks(BLOCK).skip(first).flat_map(|block| {
        let block = TradeBlock::decode(block);
        block.places.into_iter().take(block.count.into())
    })
}
