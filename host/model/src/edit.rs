//! Writing an edited book back.

use crate::{sealed, Book, Curve, Header, Layout, Node, TradeBlock, BLOCK, FULL_BLOCK};

/// Writes the trades of an edited book, with the header's count; a block
/// left empty becomes zeros. Gives the new used length.
pub fn rewrite(lent: &mut [u8], used: usize, book: &Book) -> u64 {
    let mut header = Header::decode(lent);
    header.trade_blocks = book.trades.len().div_ceil(FULL_BLOCK) as u16;
    lent[..BLOCK].copy_from_slice(&sealed(&header));
    let mut end = (1 + book.curves.len()) * BLOCK;
    for trades in book.trades.chunks(FULL_BLOCK) {
        let block = sealed(&TradeBlock::new(trades, end / BLOCK));
        lent[end..end + BLOCK].copy_from_slice(&block);
        end += BLOCK;
    }
    lent[end..used.max(end)].fill(0);
    end as u64
}

/// Writes a curve with one node more, for which it has room.
pub fn add_node(lent: &mut [u8], curve: &Curve, node: Node) {
    let mut longer = *curve;
    longer.places[curve.nodes().len()] = node;
    longer.node_count += 1;
    let start = usize::from(curve.id) * BLOCK;
    lent[start..start + BLOCK].copy_from_slice(&sealed(&longer));
}
