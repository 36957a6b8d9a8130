//! Why a book or a record is refused, in words.

use crate::{Ground, Refusal, Unit};
use std::error::Error;
use std::fmt::{self, Display, Formatter};

/// What is wrong: the field, what stands there, what may stand there. It is
/// told in words, or not where `W` is ().
#[derive(Clone, Debug, PartialEq, Eq)]
pub struct Fault<W = String> {
    /// The ground that answers.
    pub ground: Ground,
    /// The field by its name in the layout; `used` for the used length,
    /// `unnamed` for a byte that no field takes.
    pub field: &'static str,
    /// What the field's numbers count.
    pub unit: Unit,
    /// The number that is there.
    pub found: i128,
    /// What may stand there, in the unit that people write.
    pub allowed: W,
    /// Why nothing else may.
    pub why: W,
}

impl Fault {
    /// What is there, what is due and why, without the field's name.
    pub fn sentence(&self) -> String {
        let found = self.unit.words(self.found);
        format!("{found} is there, {} is due: {}", self.allowed, self.why)
    }

    /// The fault with the place that it was found in.
    pub(crate) fn in_part(self, block: usize, part: Part) -> Box<BookFault> {
        Box::new(BookFault {
            block,
            part,
            fault: self,
        })
    }
}

impl Display for Fault {
    fn fmt(&self, f: &mut Formatter<'_>) -> fmt::Result {
        write!(f, "field {}: {}", self.field, self.sentence())
    }
}

impl Error for Fault {}

/// The part of a book that a fault lies in, by what its block's place calls
/// for.
#[derive(Clone, Copy, Debug, PartialEq, Eq)]
pub enum Part {
    /// The used length.
    Length,
    /// The header's block.
    Header,
    /// A curve's block, none of its nodes by itself.
    Curve,
    /// A node of a curve.
    Node {
        /// In the curve, from 0.
        place: usize,
        /// Nodes of the curve.
        count: usize,
    },
    /// A block of trades, none of them by itself.
    Trades,
    /// A trade.
    Trade {
        /// In the book, from 0.
        position: usize,
        /// In the block, from 0.
        place: usize,
        /// Trades of the block.
        count: usize,
    },
}

/// Where in a book, and why.
#[derive(Clone, Debug, PartialEq, Eq)]
pub struct BookFault {
    /// The block that the refusal names.
    pub block: usize,
    /// What of the book is meant.
    pub part: Part,
    /// What is wrong there.
    pub fault: Fault,
}

impl BookFault {
    /// What a call answers.
    pub fn refusal(&self) -> Refusal {
        self.fault.ground.in_block(self.block)
    }

    /// The position of the trade, from 0, if the fault lies in one.
    pub fn trade(&self) -> Option<usize> {
        match self.part {
            Part::Trade { position, .. } => Some(position),
            _ => None,
        }
    }

    /// The place of the node in its curve, from 0, if the fault lies in one.
    pub fn node(&self) -> Option<usize> {
        match self.part {
            Part::Node { place, .. } => Some(place),
            _ => None,
        }
    }

    /// The part in words; places are counted from 1, a trade's position
    /// from 0.
    pub fn place(&self) -> String {
        let block = self.block;
        match self.part {
            Part::Length => "book".into(),
            Part::Header => format!("header (block {block})"),
            Part::Curve => format!("curve {block} (block {block})"),
            Part::Node { place, count } => {
                let node = place + 1;
                format!("curve {block} (block {block}), node {node} of {count}")
            }
            Part::Trades => format!("trades (block {block})"),
            Part::Trade {
                position,
                place,
                count,
            } => {
                let record = place + 1;
                format!("trade {position} (block {block}, record {record} of its {count})")
            }
        }
    }
}

impl Display for BookFault {
    fn fmt(&self, f: &mut Formatter<'_>) -> fmt::Result {
        write!(f, "{}, {}", self.place(), self.fault)
    }
}

impl Error for BookFault {}
