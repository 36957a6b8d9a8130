//! A book that owns its bytes.

use crate::ffi;
use seddolki_format::{
    trades, valuation_day, Answer, Date, Layout, Quote, Record, Refusal, Report, BLOCK, PAGE,
    RECORD,
};

/// The bytes of a book, and how many of them it uses.
///
/// Any bytes can be held. Each call looks at all of them first and is
/// refused, nothing changed, where a rule is broken; a call that is given the
/// current day is then refused where the book is for another. An append, a
/// strike or a bootstrap leaves an accepted book accepted, and its valuation
/// day as it is.
///
/// ```
/// use seddolki::{Book, Date, Ground, Record};
/// # let bytes = include_bytes!("../../../examples/repo.book");
///
/// let mut book = Book::from_bytes(bytes.to_vec());
/// book.check()?;
///
/// let today: Date = "2026-11-16".parse()?;
/// let trade = book.read(0)?;
/// let position = book.append(today, &Record { side: 2, ..trade })?;
/// assert_eq!(position, 1);
/// assert_eq!(book.records()?.count(), 2);
///
/// let tomorrow: Date = "2026-11-17".parse()?;
/// let refusal = book.strike(tomorrow, position).unwrap_err();
/// assert_eq!(refusal.ground, Ground::ValuationDay);
///
/// book.strike(today, position)?;
/// assert_eq!(book.as_bytes(), bytes);
/// # Ok::<(), Box<dyn std::error::Error>>(())
/// ```
#[derive(Clone, Debug)]
pub struct Book {
    bytes: Vec<u8>,
    used: usize,
}

impl Book {
    /// Holds the bytes, all of them used.
    pub fn from_bytes(bytes: impl Into<Vec<u8>>) -> Self {
        let bytes = bytes.into();
        let used = bytes.len();
        let mut book = Book { bytes, used };
        book.make_room();
        book
    }

    /// Holds a block more than the book uses: an append, or its preview, may
    /// need one.
    fn make_room(&mut self) {
        let room = self.used + BLOCK;
        if self.bytes.len() < room {
            self.bytes.resize(room, 0);
        }
    }

    /// The bytes that the book uses.
    pub fn as_bytes(&self) -> &[u8] {
        &self.bytes[..self.used]
    }

    /// Whether every rule of a book is kept.
    ///
    /// # Errors
    /// Grounds 1 to 12, as for every call of a book.
    pub fn check(&self) -> Result<(), Refusal> {
        done(ffi::check(&self.bytes, self.used))
    }

    /// The day that the book is for, day 0 of its curves and trades.
    ///
    /// ```
    /// # use seddolki::Book;
    /// # let bytes = include_bytes!("../../../examples/repo.book");
    /// let day = Book::from_bytes(bytes.to_vec()).valuation_day()?;
    /// assert_eq!(day.to_string(), "2026-11-16");
    /// # Ok::<(), seddolki::Refusal>(())
    /// ```
    ///
    /// # Errors
    /// Grounds 1 to 12.
    pub fn valuation_day(&self) -> Result<Date, Refusal> {
        self.check()?;
        Ok(valuation_day(self.as_bytes()))
    }

    /// The margin of the book.
    ///
    /// ```
    /// # use seddolki::Book;
    /// # let bytes = include_bytes!("../../../examples/buyer.book");
    /// let book = Book::from_bytes(bytes.to_vec());
    /// let report = book.margin(book.valuation_day()?)?;
    /// assert_eq!(report.account, 7);
    ///
    /// let (id, curve) = report.present_curves().next().unwrap();
    /// assert_eq!((id, curve.base, curve.worst_loss), (1, 10_000, 30_000));
    ///
    /// let (name, currency) = report.present_currencies().next().unwrap();
    /// assert_eq!((name, currency.total), ("TRY", -20_000));
    /// # Ok::<(), seddolki::Refusal>(())
    /// ```
    ///
    /// # Errors
    /// Grounds 1 to 12; 19 where the book is for another day.
    pub fn margin(&self, day: Date) -> Result<Report, Refusal> {
        reported(|report| ffi::margin(&self.bytes, self.used, day, report))
    }

    /// The margin of the book as it would be with one more trade. The book
    /// stays as it is.
    ///
    /// ```
    /// use seddolki::{Book, Record};
    /// # let bytes = include_bytes!("../../../examples/buyer.book");
    ///
    /// let mut book = Book::from_bytes(bytes.to_vec());
    /// let day = book.valuation_day()?;
    /// let sale = Record { side: 2, ..book.read(0)? };
    /// let shown = book.preview(day, &sale)?;
    /// assert_eq!(book.as_bytes(), bytes);
    ///
    /// book.append(day, &sale)?;
    /// assert_eq!(book.margin(day)?, shown);
    /// # Ok::<(), seddolki::Refusal>(())
    /// ```
    ///
    /// # Errors
    /// As an append: ground 19 where the book is for another day; 8 to 12 for
    /// the record, with the block that it would take; 15 where the book is
    /// full.
    pub fn preview(&self, day: Date, record: &Record) -> Result<Report, Refusal> {
        reported(|report| ffi::preview(&self.bytes, self.used, day, &record.to_bytes(), report))
    }

    /// The account statement: a title with the account, a line for each trade,
    /// each curve and each currency that a curve has, all of them 80 characters
    /// and a line feed.
    ///
    /// ```
    /// # use seddolki::Book;
    /// # let bytes = include_bytes!("../../../examples/buyer.book");
    /// let book = Book::from_bytes(bytes.to_vec());
    /// let page = book.statement(book.valuation_day()?)?;
    /// let lines = [
    ///     "account 7                                                                       ",
    ///     "0 1 1 365                                                                1000.00",
    ///     "1 2 TRY                       100.00                300.00                  0.01",
    ///     "TRY                           300.00                100.00               -200.00",
    /// ];
    /// assert_eq!(page, lines.join("\n") + "\n");
    /// # Ok::<(), seddolki::Refusal>(())
    /// ```
    ///
    /// A trade has its position, kind, side, last payment day (value day 2
    /// where it has none) and nominal; a curve its id, scenario, currency, base
    /// value, worst loss and tolerance; a currency its initial, variation and
    /// total.
    ///
    /// # Errors
    /// Grounds 1 to 12; 19 where the book is for another day.
    pub fn statement(&self, day: Date) -> Result<String, Refusal> {
        let mut page = vec![0; PAGE];
        let answer = ffi::statement(&self.bytes, self.used, day, &mut page);
        page.truncate(length_of(answer)?);
        Ok(String::from_utf8(page).expect("a page is ASCII"))
    }

    /// Adds a trade behind the last and gives its position.
    ///
    /// # Errors
    /// Ground 19 where the book is for another day; 8 to 12 for the record,
    /// with the block that it would take; 15 where the book is full.
    pub fn append(&mut self, day: Date, record: &Record) -> Result<usize, Refusal> {
        let answer = ffi::append(&mut self.bytes, self.used, day, &record.to_bytes());
        self.used = length_of(answer)?;
        self.make_room();
        Ok(trades(self.as_bytes()).count() - 1)
    }

    /// Removes the trade at a position; those behind it move up.
    ///
    /// # Errors
    /// Ground 19 where the book is for another day; 14 where no trade has that
    /// position.
    pub fn strike(&mut self, day: Date, position: usize) -> Result<(), Refusal> {
        let answer = ffi::strike(&mut self.bytes, self.used, day, position);
        self.used = length_of(answer)?;
        Ok(())
    }

    /// Lengthens a curve by a coupon bond's price: adds a node on the bond's
    /// last payment day, at the smallest rate at which the bond is worth at
    /// most its cash today.
    ///
    /// ```
    /// use seddolki::{bond_of, Book, Ground, Quote, Record};
    /// # let bytes = include_bytes!("../../../examples/buyer.book");
    ///
    /// // a curve at 25% up to day 730, and a bond that pays as much each year
    /// let mut book = Book::from_bytes(bytes.to_vec());
    /// let day = book.valuation_day()?;
    /// let bond = Record {
    ///     first_payment_day: 365,
    ///     period: 365,
    ///     payments: 3,
    ///     coupon: 250_000,
    ///     nominal: 100_000_000,
    ///     ..Record::default()
    /// };
    /// let quote = Quote {
    ///     curve: 1,
    ///     bond: bond_of(&bond),
    ///     cash: 100_000_000,
    ///     components: [250_000, 0, 0],
    /// };
    /// book.bootstrap(day, &quote)?;
    /// book.check()?;
    ///
    /// // the third node of block 1: its day, and its rate in millionths
    /// let node = &book.as_bytes()[512 + 20 + 2 * 20..];
    /// assert_eq!(node[..2], 1_095_u16.to_le_bytes());
    /// assert_eq!(node[4..8], 250_000_u32.to_le_bytes());
    ///
    /// // now the bond's last payment is not after the last node
    /// let refusal = book.bootstrap(day, &quote).unwrap_err();
    /// assert_eq!(refusal.ground, Ground::CurveEnd);
    /// # Ok::<(), seddolki::Refusal>(())
    /// ```
    ///
    /// # Errors
    /// Without a block: ground 19 where the book is for another day, 8 where
    /// it has no such curve, 9, 10 and 12 for the bond, 6 for the components,
    /// 10 for the cash, 17 where the curve takes no node there, 18 where no
    /// rate fits.
    pub fn bootstrap(&mut self, day: Date, quote: &Quote) -> Result<(), Refusal> {
        done(ffi::bootstrap(&mut self.bytes, self.used, day, quote))
    }

    /// The trade at a position, counted from 0.
    ///
    /// # Errors
    /// Ground 14 where no trade has that position.
    pub fn read(&self, position: usize) -> Result<Record, Refusal> {
        let mut record = [0; RECORD];
        let answer = ffi::read(&self.bytes, self.used, position, &mut record);
        done(answer).map(|()| Record::decode(&record))
    }

    /// All trades in the order of their positions. The book is looked at
    /// once, and not again for each trade.
    ///
    /// # Errors
    /// Grounds 1 to 12.
    pub fn records(&self) -> Result<impl Iterator<Item = Record> + '_, Refusal> {
        self.check()?;
        Ok(trades(self.as_bytes()))
    }
}

/// What a call writes that is lent the space of a report.
fn reported(call: impl FnOnce(&mut [u8]) -> Answer) -> Result<Report, Refusal> {
    let mut space = [0; BLOCK];
    done(call(&mut space))?;
    Ok(Report::decode(&space))
}

fn done(answer: Answer) -> Result<(), Refusal> {
    Result::from(answer).map(|_| ())
}

fn length_of(answer: Answer) -> Result<usize, Refusal> {
    Result::from(answer).map(|length| length as usize)
}
