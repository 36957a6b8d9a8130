//! The functions of the archive, each behind a safe one.

use seddolki_format::{Answer, Date, Quote, BOND, RECORD};

/// The version of the archive that this crate is written for.
pub const VERSION: u64 = 7;

/// Asks the archive for its version: one of another links all the same.
///
/// # Panics
/// Where it is of another than [`VERSION`].
fn ask_version() {
    unsafe extern "C" {
        safe fn seddolki_version() -> u64;
    }
    let version = seddolki_version();
    assert_eq!(version, VERSION, "the archive is of another version");
}

/// Declares functions of the archive that are lent a book, and a safe one for
/// each: a slice is lent as a pointer and a length, all else as it is. What
/// stands behind the semicolon is a space that the call writes to.
macro_rules! lend {
    ($(
        $(#[$about:meta])*
        $visibility:vis fn $name:ident = $symbol:ident(
            $book:ident: $bytes:ty as $pointer:ident $(, $given:ident: $type:ty)* $(; $space:ident)?
        );
    )*) => {$(
        $(#[$about])*
        $visibility fn $name(
            $book: $bytes, used: usize $(, $given: $type)* $(, $space: &mut [u8])?
        ) -> Answer {
            unsafe extern "C" {
                unsafe fn $symbol(
                    book: *const u8, length: usize, used: usize $(, $given: $type)*
                    $(, $space: *mut u8, space_length: usize)?
                ) -> Answer;
            }
            ask_version();
            // SAFETY: a pointer and a length come from one slice, which is
            // borrowed mutably where the call writes; the call keeps no
            // pointer, and takes any number
            unsafe {
                $symbol(
                    $book.$pointer(), $book.len(), used $(, $given)*
                    $(, $space.as_mut_ptr(), $space.len())?
                )
            }
        }
    )*};
}

lend! {
    /// Whether every rule of a book is kept, grounds 1 to 12.
    pub fn check = seddolki_check(book: &[u8] as as_ptr);
    /// Fills the first 512 bytes of the report.
    pub fn margin = seddolki_margin(book: &[u8] as as_ptr, day: Date; report);
    /// Adds a record behind the last; the value is the new used length.
    pub fn append = seddolki_append(
        book: &mut [u8] as as_mut_ptr, day: Date, record: &[u8; RECORD]
    );
    /// Fills the first 512 bytes of the report as a margin would after an
    /// append of the record.
    pub fn preview = seddolki_preview(
        book: &[u8] as as_ptr, day: Date, record: &[u8; RECORD]; report
    );
    /// Removes a record; the value is the new used length.
    pub fn strike = seddolki_strike(book: &mut [u8] as as_mut_ptr, day: Date, position: usize);
    /// Gives the record at a position; 0 bytes if refused.
    pub fn read = seddolki_read(
        book: &[u8] as as_ptr, position: usize, record: &mut [u8; RECORD]
    );
    /// Writes the account statement to the first bytes of the page; the value
    /// is their number.
    pub fn statement = seddolki_statement(book: &[u8] as as_ptr, day: Date; page);
    fn bootstrap_by = seddolki_bootstrap(
        book: &mut [u8] as as_mut_ptr, day: Date, curve: usize, bond: &[u8; BOND], cash: u64,
        first: i32, second: i32, third: i32
    );
}

/// Adds a node to a curve, at the rate that a bond's cash today calls for.
pub fn bootstrap(book: &mut [u8], used: usize, day: Date, quote: &Quote) -> Answer {
    let [first, second, third] = quote.components;
    let (curve, bond, cash) = (quote.curve, &quote.bond, quote.cash);
    bootstrap_by(book, used, day, curve, bond, cash, first, second, third)
}

/// One present value, and its tolerance; tolerance 0 if refused.
pub fn present_value(amount: u64, rate: u64, day: u64, tolerance: &mut u64) -> Answer {
    unsafe extern "C" {
        safe fn seddolki_present_value(
            amount: u64,
            rate: u64,
            day: u64,
            tolerance: &mut u64,
        ) -> Answer;
    }
    ask_version();
    seddolki_present_value(amount, rate, day, tolerance)
}
