//! Books spoiled, for one ground or anywhere.

use crate::{assemble, damage_record, Draw};
use seddolki_model::limits::*;
use seddolki_model::{
    seal, Book, Curve, Ground, Head, Header, Layout, Node, Record, TradeBlock, BLOCK,
};

/// A book's bytes spoiled for a ground of 2 to 12, and the block that the
/// refusal names; none if this book cannot be spoiled so. Only ground 2
/// leaves a wrong check.
pub fn damage_book(draw: &mut Draw, book: &Book, ground: Ground) -> Option<(Vec<u8>, usize)> {
    let mut bytes = assemble(book);
    let block = match ground {
        Ground::Length => return None,
        Ground::Check => spoil_check(draw, &mut bytes),
        Ground::Place => spoil_place(draw, &mut bytes, book),
        Ground::Header => spoil_header(draw, &mut bytes),
        Ground::Curve => spoil_curve(draw, &mut bytes, book),
        Ground::Node => spoil_node(draw, &mut bytes, book),
        Ground::TradeBlock => spoil_trade_block(draw, &mut bytes, book)?,
        _ => return spoil_record(draw, book, ground),
    };
    Some((bytes, block))
}

/// Changes one to three bytes and repairs their checks.
pub fn damage_anywhere(draw: &mut Draw, bytes: &mut [u8]) {
    for _ in 0..draw.within(1..=3) {
        let number = draw.place(bytes.len() / BLOCK);
        let block = block_of(bytes, number);
        let place = draw.edge(0..=BLOCK as u64 - 1) as usize;
        let random = draw.number() as u8;
        let near = [block[place].wrapping_add(1), block[place].wrapping_sub(1)];
        block[place] = draw.pick(&[near[0], near[1], 0, u8::MAX, random]);
        seal(block);
    }
}

/// A used length that ground 1 refuses, for so many lent bytes.
pub fn draw_bad_used(draw: &mut Draw, lent: usize) -> usize {
    let odd = draw.place(MAX_BLOCKS) * BLOCK + draw.within(1..=BLOCK as u64 - 1) as usize;
    draw.pick(&[
        0,
        odd,
        lent + 1,
        (lent / BLOCK + 1) * BLOCK,
        (MAX_BLOCKS + 1) * BLOCK,
        usize::MAX / BLOCK * BLOCK,
        usize::MAX,
    ])
}

fn block_of(bytes: &mut [u8], number: usize) -> &mut [u8] {
    &mut bytes[number * BLOCK..][..BLOCK]
}

/// Changes a block's fields and repairs its check.
fn edit<T: Layout>(bytes: &mut [u8], number: usize, change: impl FnOnce(&mut T)) {
    let block = block_of(bytes, number);
    let mut content = T::decode(block);
    change(&mut content);
    content.encode(block);
    seal(block);
}

/// Sets a byte that the layout does not name.
fn spoil_unnamed<T: Layout>(draw: &mut Draw, bytes: &mut [u8], number: usize) {
    let unnamed = |&place: &usize| {
        let mut block = [0; BLOCK];
        block[place] = 1;
        T::decode(&block).to_bytes::<BLOCK>() != block
    };
    let places: Vec<usize> = (0..BLOCK).filter(unnamed).collect();
    let block = block_of(bytes, number);
    block[draw.pick(&places)] = draw.within(1..=u8::MAX.into()) as u8;
    seal(block);
}

fn spoil_check(draw: &mut Draw, bytes: &mut [u8]) -> usize {
    let place = draw.place(bytes.len());
    bytes[place] ^= 1 << draw.within(0..=7);
    place / BLOCK
}

fn spoil_place(draw: &mut Draw, bytes: &mut [u8], book: &Book) -> usize {
    let curves = book.curves.len();
    let number = draw.place(bytes.len() / BLOCK);
    match draw.within(0..=3) {
        0 if CURVES.contains(&(curves as u16 + 1)) && !book.trades.is_empty() => {
            edit(bytes, 0, |header: &mut Header| {
                header.curves += 1;
                header.trade_blocks -= 1;
            });
            return curves + 1;
        }
        1 if curves > 1 => {
            edit(bytes, 0, |header: &mut Header| {
                header.curves -= 1;
                header.trade_blocks += 1;
            });
            return curves;
        }
        2 => edit(bytes, number, |head: &mut Head| {
            head.number ^= draw.within(1..=u16::MAX.into()) as u16;
        }),
        _ => edit(bytes, number, |head: &mut Head| {
            head.kind ^= draw.edge(1..=u8::MAX.into()) as u8;
        }),
    }
    number
}

fn spoil_header(draw: &mut Draw, bytes: &mut [u8]) -> usize {
    if draw.once_in(3) {
        spoil_unnamed::<Header>(draw, bytes, 0);
        return 0;
    }
    edit(bytes, 0, |header: &mut Header| {
        let (curves, blocks) = (header.curves, header.trade_blocks);
        let both = curves + blocks;
        let most = *CURVES.end();
        (header.curves, header.trade_blocks) = draw.pick(&[
            (0, both),
            (most + 1, both.wrapping_sub(most + 1)),
            (curves + 1, blocks),
            (curves - 1, blocks),
            (curves, blocks + 1),
            (curves, blocks.wrapping_sub(1)),
            (u16::MAX, u16::MAX),
        ]);
    });
    0
}

fn spoil_curve(draw: &mut Draw, bytes: &mut [u8], book: &Book) -> usize {
    let number = 1 + draw.place(book.curves.len());
    if draw.once_in(4) {
        spoil_unnamed::<Curve>(draw, bytes, number);
        return number;
    }
    let above = |limit: u8| [limit + 1, u8::MAX];
    edit(bytes, number, |curve: &mut Curve| {
        let component = draw.place(curve.steps.len());
        match draw.within(0..=6) {
            0 => curve.id = draw.pick(&[0, curve.id + 1, curve.id - 1, u8::MAX]),
            1 => curve.currency = draw.pick(&[0, MAX_CURRENCIES as u8 + 1, u8::MAX]),
            2 => curve.node_count = draw.pick(&[0, NODES.start() - 1, NODES.end() + 1, u8::MAX]),
            3 => curve.node_count -= 1,
            4 => curve.steps[component] = draw.pick(&above(MAX_STEPS)),
            5 if curve.node_count < *NODES.end() => {
                let behind = draw.within(curve.node_count.into()..=u64::from(NODES.end() - 1));
                curve.places[behind as usize].rate = draw.edge(1..=MAX_RATE) as u32;
            }
            _ => curve.ranges[component] = draw.pick(&[MAX_RANGE + 1, u16::MAX]),
        }
    });
    number
}

fn spoil_node(draw: &mut Draw, bytes: &mut [u8], book: &Book) -> usize {
    let number = 1 + draw.place(book.curves.len());
    edit(bytes, number, |curve: &mut Curve| {
        let place = draw.place(curve.nodes().len());
        if draw.once_in(6) && curve.node_count < *NODES.end() {
            curve.node_count += 1;
        } else {
            spoil_one_node(draw, &mut curve.places, place);
        }
    });
    number
}

fn spoil_one_node(draw: &mut Draw, nodes: &mut [Node], place: usize) {
    let component = draw.place(nodes[place].components.len());
    let beyond = MAX_COMPONENT + 1;
    match draw.within(0..=4) {
        0 => nodes[place].day = draw.pick(&[MAX_DAY as u16 + 1, u16::MAX]),
        1 if place > 0 => nodes[place].day = nodes[place - 1].day,
        2 if place > 0 => {
            let day = nodes[place].day;
            nodes[place].day = nodes[place - 1].day;
            nodes[place - 1].day = day;
        }
        3 => {
            let values = [beyond, -beyond, i32::MAX, i32::MIN];
            nodes[place].components[component] = draw.pick(&values);
        }
        _ => nodes[place].rate = draw.pick(&[MAX_RATE as u32 + 1, u32::MAX]),
    }
}

fn spoil_trade_block(draw: &mut Draw, bytes: &mut [u8], book: &Book) -> Option<usize> {
    let first = 1 + book.curves.len();
    let last = bytes.len() / BLOCK - 1;
    if last < first {
        return None;
    }
    let any = draw.within(first as u64..=last as u64) as usize;
    let number = draw.pick(&[last, any]);
    edit(bytes, number, |block: &mut TradeBlock| {
        let count = usize::from(block.count);
        match draw.within(0..=3) {
            0 if number != last => {
                block.count -= 1;
                block.places[count - 1] = Record::default();
            }
            1 if count < FULL_BLOCK => {
                let behind = draw.within(count as u64..=FULL_BLOCK as u64 - 1);
                block.places[behind as usize].zero = 1;
            }
            2 if count > 1 => block.count -= 1,
            _ => block.count = draw.pick(&[0, FULL_BLOCK as u8 + 1, u8::MAX]),
        }
    });
    Some(number)
}

/// Spoils the first record, from one at random on, that can be.
fn spoil_record(draw: &mut Draw, book: &Book, ground: Ground) -> Option<(Vec<u8>, usize)> {
    let count = book.trades.len();
    let start = draw.place(count.max(1));
    for position in (start..count).chain(0..start.min(count)) {
        let record = &book.trades[position];
        if let Some(spoiled) = damage_record(draw, record, &book.curves, ground) {
            let mut book = book.clone();
            book.trades[position] = spoiled;
            let block = 1 + book.curves.len() + position / FULL_BLOCK;
            return Some((assemble(&book), block));
        }
    }
    None
}
