//! The rules of a book's length, its blocks and its nodes, grounds 1 to 7.

use crate::fields::*;
use crate::{
    check_of, Curve, Head, Header, Kept, Layout, Node, Record, Tell, TradeBlock, Unit, BLOCK,
    FULL_BLOCK,
};
use std::fmt::{from_fn, Display};

/// Ground 1; a book of one block is left to ground 4.
pub fn length(lent: usize, used: usize) -> Kept {
    let found = USED.of(&used);
    if used != BLOCK {
        found.within_limits()?;
    }
    let whole_blocks = format_args!("a multiple of {BLOCK}");
    found.require(used.is_multiple_of(BLOCK), whole_blocks, USED.about.meaning)?;
    let most = format_args!("at most {}", Unit::Whole.words(lent as i128));
    found.require(used <= lent, most, "no more bytes are lent")
}

/// Ground 2.
pub fn check(block: &[u8]) -> Kept {
    let head = Head::decode(block);
    CHECK.of(&head).is(check_of(block), CHECK.about.meaning)
}

/// Ground 3; `why` is what makes the place call for the kind.
pub fn place(block: &[u8], kind: u8, number: usize, why: impl Display) -> Kept {
    let head = Head::decode(block);
    BLOCK_KIND.of(&head).is(kind, why)?;
    NUMBER.of(&head).is(number as i128, NUMBER.about.meaning)
}

/// Ground 4, in a book of so many blocks.
pub fn header(block: &[u8], blocks: usize) -> Kept {
    let header = Header::decode(block);
    USED.of(&(blocks * BLOCK)).within_limits()?;
    let behind = blocks as i128 - 1;
    let why =
        format_args!("with the header, curves and trade blocks are the book's {blocks} blocks");
    let most = behind.min(CURVE_COUNT.about.most);
    CURVE_COUNT.of(&header).within(1..=most, why)?;
    let trades = behind - i128::from(header.curves);
    TRADE_BLOCKS.of(&header).is(trades, why)?;
    unnamed_are_zero(block, &header, "a header")
}

/// Ground 5.
pub fn curve(block: &[u8], number: usize) -> Kept {
    let curve = Curve::decode(block);
    ID.of(&curve).is(number as i128, ID.about.meaning)?;
    CURRENCY.of(&curve).within_limits()?;
    NODE_COUNT.of(&curve).within_limits()?;
    for (number, steps) in (1..).zip(&curve.steps) {
        let why = format_args!("the steps of component {number}");
        STEPS.of(steps).within(STEPS.limits(), why)?;
    }
    for (number, range) in (1..).zip(&curve.ranges) {
        let why = format_args!("the range of component {number}");
        RANGES.of(range).within(RANGES.limits(), why)?;
    }
    let count = curve.nodes().len();
    let mut named = curve;
    named.places[count..].fill(Node::default());
    unnamed_are_zero(block, &named, format_args!("a curve of {count} nodes"))
}

/// Ground 6, of the node at a place; those before it have passed. Each node
/// behind it needs a later day.
pub fn node(nodes: &[Node], place: usize) -> Kept {
    let node = &nodes[place];
    let behind = nodes.len() - 1 - place;
    let latest = DAY.about.most - behind as i128;
    let before = place.checked_sub(1).map(|before| nodes[before].day);
    let next = before.map_or(0, |day| i128::from(day) + 1);
    DAY.of(node).within(next..=latest, rising(place, before))?;
    RATE.of(node).within_limits()?;
    components(&node.components)
}

/// Ground 6, of the components of a node.
pub fn components<W: Tell>(components: &[i32; 3]) -> Kept<W> {
    for (number, component) in (1..).zip(components) {
        let why = format_args!("how far component {number} moves the node");
        COMPONENTS.of(component).within(COMPONENTS.limits(), why)?;
    }
    Ok(())
}

/// How the days rise, behind a node with a number and a day if there is one.
fn rising(number: usize, day: Option<u16>) -> impl Display {
    from_fn(move |f| {
        write!(f, "{}", DAY.about.meaning)?;
        if let Some(day) = day {
            write!(f, ", from day {} of node {number}", Unit::Whole.words(day))?;
        }
        write!(f, ", to {} at most", Unit::Whole.words(DAY.about.most))
    })
}

/// Ground 7; only the last block may be short.
pub fn trade_block(block: &[u8], last: bool) -> Kept {
    let mut trades = TradeBlock::decode(block);
    if last {
        COUNT.of(&trades).within_limits()?;
    } else {
        let full = FULL_BLOCK as i128;
        COUNT
            .of(&trades)
            .is(full, "only the last block of trades may hold fewer")?;
    }
    let count = usize::from(trades.count);
    trades.places[count..].fill(Record::default());
    unnamed_are_zero(block, &trades, format_args!("a block of {count} trades"))
}

/// The bytes that the content leaves over are 0.
fn unnamed_are_zero(block: &[u8], content: &impl Layout, of: impl Display) -> Kept {
    let named: [u8; BLOCK] = content.to_bytes();
    match (0..BLOCK).find(|&at| block[at] != named[at]) {
        None => Ok(()),
        Some(at) => UNNAMED
            .of(&block[at])
            .is_zero(format_args!("no field takes byte {at} in {of}")),
    }
}
