//! What a call answers, and the grounds of refusal.

use std::error::Error;
use std::fmt::{self, Display, Formatter};

/// Number 0 is done, and the value is the result; any other number is the
/// ground of refusal, and the value is the block.
#[derive(Clone, Copy, Debug, PartialEq, Eq)]
#[repr(C)]
pub struct Answer {
    pub number: u64,
    pub value: u64,
}

macro_rules! grounds {
    ($($ground:ident, $name:literal, $sentence:literal;)*) => {
        /// The grounds, numbered from 1 as in the document.
        #[derive(Clone, Copy, Debug, PartialEq, Eq, PartialOrd, Ord)]
        pub enum Ground {
            $($ground),*
        }

        impl Ground {
            /// In the order of their numbers, from 1.
            pub const ALL: [Ground; [$($name),*].len()] = [$(Ground::$ground),*];

            /// A short name.
            pub fn name(self) -> &'static str {
                [$($name),*][self as usize]
            }

            /// What holds where this ground answers.
            pub fn sentence(self) -> &'static str {
                [$($sentence),*][self as usize]
            }
        }
    };
}

grounds! {
    Length, "length",
        "the used length is 0, no multiple of 512, above 65,536 or above the lent length";
    Check, "check", "the check of the block differs from its bytes";
    Place, "place", "the kind or number of the block is not the one its place calls for";
    Header, "header", "a header count or a header byte due to be 0 is wrong";
    Curve, "curve",
        "a curve's id, currency, node count, steps, range or a byte due to be 0 is wrong";
    Node, "node", "a node's day, order, rate or component is out of limits";
    TradeBlock, "trade block", "a trade count or a byte behind the records is wrong";
    Form, "form",
        "the kind, side, phase, security or a curve id is none of those allowed together";
    Days, "days", "a day, period, payment count or term that the record uses breaks its rule";
    Amounts, "amounts",
        "an amount, price, rate, coupon, accrued or index is wrong, or a field due to be 0 is not";
    Currency, "currency", "the security curve and the cash curve differ in currency";
    FlowLimit, "flow limit", "a cash flow of the trade exceeds 10,000,000,000.00";
    ReportSpace, "report space",
        "the report space is under 512 bytes, or the page does not fit";
    Position, "position", "no trade has that position";
    BookSpace, "book space",
        "a new block is needed, and the book has 128 or the lent bytes end too early";
    ValueRange, "value range",
        "the amount exceeds 10,000,000,000.00, the rate 100% or the day 10,950";
    CurveEnd, "curve end",
        "the curve has 24 nodes, or the bond's last payment is not after the last node";
    RateRange, "rate range",
        "the bond is worth more than the cash even at rate 100%, or less even at rate 0%";
    ValuationDay, "valuation day", "the book is for another day than the day given";
}

impl Ground {
    /// Those that a book is tested for.
    pub const ON_BOOK: &'static [Ground] = Self::ALL.split_at(12).0;

    /// Those of them that a record is tested for.
    pub const ON_RECORD: &'static [Ground] = Self::ON_BOOK.split_at(7).1;

    /// The ground of a number; none for 0 and above the last.
    pub fn from_number(number: u64) -> Option<Ground> {
        let place = usize::try_from(number).ok()?.checked_sub(1)?;
        Ground::ALL.get(place).copied()
    }

    pub fn number(self) -> u64 {
        self as u64 + 1
    }

    pub fn in_block(self, block: usize) -> Refusal {
        Refusal {
            ground: self,
            block,
        }
    }

    /// Found in no block.
    pub fn alone(self) -> Refusal {
        self.in_block(0)
    }
}

/// The first ground that applies, and the block that it was found in; block
/// 0 where it was found in none.
#[derive(Clone, Copy, Debug, PartialEq, Eq)]
pub struct Refusal {
    pub ground: Ground,
    pub block: usize,
}

impl Refusal {
    /// Whether the ground was found in a block. In block 0, the header, that
    /// is so for three grounds alone.
    pub fn names_block(self) -> bool {
        self.block > 0 || (Ground::Check..=Ground::Header).contains(&self.ground)
    }
}

impl Display for Refusal {
    fn fmt(&self, f: &mut Formatter<'_>) -> fmt::Result {
        write!(f, "refused by ground {}", self.ground.number())?;
        if self.names_block() {
            write!(f, " in block {}", self.block)?;
        }
        write!(f, ": {}", self.ground.sentence())
    }
}

impl Error for Refusal {}

impl From<Result<u64, Refusal>> for Answer {
    fn from(result: Result<u64, Refusal>) -> Self {
        match result {
            Ok(value) => Answer { number: 0, value },
            Err(refusal) => Answer {
                number: refusal.ground.number(),
                value: refusal.block as u64,
            },
        }
    }
}

impl From<Answer> for Result<u64, Refusal> {
    /// Panics on a number of no ground, which no call answers.
    fn from(answer: Answer) -> Self {
        if answer.number == 0 {
            return Ok(answer.value);
        }
        let ground =
            Ground::from_number(answer.number).expect("an answer has the number of a ground");
        Err(ground.in_block(answer.value as usize))
    }
}

#[cfg(test)]
mod tests {
    use super::*;

    #[test]
    fn grounds_are_numbered_from_one() {
        for (number, ground) in (1..).zip(Ground::ALL) {
            assert_eq!(ground.number(), number);
            assert_eq!(Ground::from_number(number), Some(ground));
        }
        assert_eq!(Ground::from_number(0), None);
        assert_eq!(Ground::from_number(Ground::ALL.len() as u64 + 1), None);
        assert_eq!(Ground::ON_BOOK.last(), Some(&Ground::FlowLimit));
        assert_eq!(Ground::ON_RECORD.first(), Some(&Ground::Form));
    }

    #[test]
    fn a_refusal_names_the_block_that_the_ground_was_found_in() {
        for (refusal, named) in [
            (Ground::Length.alone(), false),
            (Ground::Check.in_block(0), true),
            (Ground::Header.in_block(0), true),
            (Ground::Form.in_block(4), true),
            (Ground::Form.alone(), false),
            (Ground::Node.alone(), false),
            (Ground::RateRange.alone(), false),
            (Ground::ValuationDay.alone(), false),
        ] {
            assert_eq!(refusal.names_block(), named, "{refusal:?}");
            assert_eq!(refusal.to_string().contains(" in block "), named);
        }
    }
}
