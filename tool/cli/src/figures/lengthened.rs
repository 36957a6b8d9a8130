//! A curve that a bond's price has lengthened. The new node is the engine's;
//! the second implementation values the bond, and a node that its values do
//! not bear out is never shown.

use crate::ended::Ended;
use crate::figures::{chart_nodes, node_table};
use crate::printed::{Table, Value};
use crate::trades::{quote_refused, words};
use seddolki::{Book, Date, Quote};
use seddolki_chart::{self as chart, DayFlows};
use seddolki_format::block::{Curve, Node, BLOCK};
use seddolki_format::layout::Layout;
use seddolki_format::report::currency_name;
use seddolki_model::accept;
use seddolki_model::bootstrap::bond_value;
use seddolki_model::flows::payments;
use seddolki_text::decimal::{format as decimal, format_signed, MONEY, PERCENT};
use std::slice;

/// A curve before and after, and what it was lengthened by.
pub struct Lengthened {
    account: u32,
    day: Date,
    quote: Quote,
    before: Curve,
    after: Curve,
}

impl Lengthened {
    /// Lengthens a curve of a book that has a name and these parts, on a day.
    pub fn by(
        quote: &Quote,
        day: Date,
        name: &str,
        book: &mut Book,
        parts: &accept::Book,
    ) -> Result<Self, Ended> {
        book.bootstrap(day, quote).map_err(|refusal| {
            let reason = quote_refused(quote, &parts.curves, refusal);
            Ended::refused(format!("{name}: {reason}"))
        })?;
        let lengthened = Lengthened {
            account: parts.account,
            day,
            quote: *quote,
            before: parts.curves[quote.curve - 1],
            after: Curve::decode(&book.as_bytes()[quote.curve * BLOCK..]),
        };
        if !lengthened.is_borne_out() {
            let reason = "the second implementation has another rate than the engine";
            let id = quote.curve;
            return Err(Ended::Failed(format!("{name}: curve {id}: {reason}")));
        }
        Ok(lengthened)
    }

    /// The new node.
    fn node(&self) -> &Node {
        self.after.last_node()
    }

    /// The new node's rate and the next below it, where there is one, each
    /// with what the bond is worth there.
    fn values(&self) -> Vec<(u32, u64)> {
        let rate = self.node().rate;
        let rates = [Some(rate), rate.checked_sub(1)].into_iter().flatten();
        let value = |rate: u32| bond_value(&self.before, &self.quote, rate.into());
        rates.map(|rate| (rate, value(rate))).collect()
    }

    /// Whether the rate is the smallest at which the bond is worth at most
    /// its cash.
    fn is_borne_out(&self) -> bool {
        let affordable = |(_, value): &(u32, u64)| *value <= self.quote.cash;
        let fits: Vec<bool> = self.values().iter().map(affordable).collect();
        fits == [true] || fits == [true, false]
    }

    /// The new node, and what the bond is worth at its rate and at the next
    /// below it.
    pub fn tables(&self) -> [Table; 2] {
        let mut values = Table::new("values", "rate value cash difference");
        let cash = i128::from(self.quote.cash);
        for (rate, value) in self.values() {
            values.push([
                Value::percent(rate),
                Value::money(value),
                Value::money(cash),
                Value::Signed(i128::from(value) - cash, MONEY),
            ]);
        }
        let node = slice::from_ref(self.node());
        [node_table([(&self.before, node)]), values]
    }

    /// Which curve, to which day and by which bond, in words.
    pub fn in_words(&self, verb: &str) -> String {
        let (id, day, bond) = (self.before.id, decimal(self.node().day, 0), self.bond());
        format!("curve {id} {verb} lengthened to day {day} by {bond}")
    }

    fn bond(&self) -> String {
        let cash = decimal(self.quote.cash, MONEY);
        let bond = words::security(&self.quote.purchase());
        format!("{bond}, for {cash} on {}", self.day.in_words())
    }

    /// The curve before and after, above what the bond costs and pays.
    pub fn picture(&self) -> String {
        let Node {
            day,
            rate,
            components,
        } = *self.node();
        let (day, rate) = (decimal(day, 0), decimal(rate, PERCENT));
        let components = components
            .map(|c| format_signed(c, PERCENT) + "%")
            .join(" ");
        let node = format!("new node: day {day}, rate {rate}%, components {components}");
        let picture = chart::Lengthened {
            heading: chart::Heading {
                curve: format!("{} of account {}", self.before.id, self.account),
                currency: currency_name(self.before.currency.into()),
                lines: [self.bond(), node],
            },
            before: &chart_nodes(self.before.nodes()),
            after: &chart_nodes(self.after.nodes()),
            flows: &self.flows(),
        };
        picture.draw()
    }

    /// The cash out on day 0, and the payments in.
    fn flows(&self) -> Vec<DayFlows> {
        let flows = |(day, incoming, outgoing)| DayFlows {
            day,
            incoming,
            outgoing,
        };
        let payments = payments(&self.quote.purchase()).into_iter();
        let payments = payments.map(|(day, amount)| (day as u32, amount as u64, 0));
        let cash = [(0, 0, self.quote.cash)].into_iter();
        cash.chain(payments).map(flows).collect()
    }
}
