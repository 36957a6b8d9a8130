//! The size of an account statement's page.

use crate::{FULL_BLOCK, MAX_BLOCKS};

/// Bytes of a line: 80 characters and a line feed.
pub const LINE: usize = 81;

/// Bytes of the longest page. Its book has one curve, as another would take the
/// block of nine trades: behind the title there is a line for each trade that
/// all other blocks hold, one for the curve and one for its currency.
pub const PAGE: usize = LINE * (1 + FULL_BLOCK * (MAX_BLOCKS - 2) + 1 + 1);

#[cfg(test)]
mod tests {
    use super::*;
    use crate::limits::{CURVES, MAX_CURRENCIES};

    #[test]
    fn no_book_has_a_longer_page() {
        let longest = CURVES.map(usize::from).map(|curves| {
            let trades = FULL_BLOCK * (MAX_BLOCKS - 1 - curves);
            LINE * (1 + trades + curves + curves.min(MAX_CURRENCIES))
        });
        assert_eq!(longest.max(), Some(PAGE));
        assert_eq!(PAGE, 92_097);
    }
}
