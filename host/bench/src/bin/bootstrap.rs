//! Times of a bootstrap beside one valuation of the same bond: with more and
//! more payments behind the curve's last node, and with some before it.
//!
//! One valuation is the engine's present value of each payment at the rates of
//! the lengthened curve, which are worked out beforehand. A bootstrap looks at
//! the book first, as a check does, and values what is paid up to the last
//! node once. What is paid behind it has a value at 22 rates at most, the two
//! ends and 20 by halving; two payments at a time, it takes less than singly.
//! The last column is how many valuations a bootstrap takes, its check left
//! out.

use seddolki::{bond_of, lent, present_value, Quote, Record, Refusal};
use seddolki_bench::{best_turn, ratio, shown};
use seddolki_books::{assemble, mixed_book};
use seddolki_model::{bond_value, new_node, payments, rate_on, Book};
use std::time::Duration;

/// The rate whose value is the cash, in millionths.
const RATE: u64 = 132_500;

/// First payment day, period and payments. The curve ends on day 7,300.
const BONDS: [(u16, u16, u16); 4] = [
    (7_665, 365, 1),
    (7_400, 91, 20),
    (7_330, 30, 120),
    (90, 90, 120),
];

fn main() -> Result<(), Refusal> {
    let book = mixed_book(1, 0, [3; 3]);
    println!("payments  behind       check  one valuation   bootstrap  valuations");
    for (first_payment_day, period, payments) in BONDS {
        time(&book, &quote(&book, first_payment_day, period, payments))?;
    }
    Ok(())
}

fn quote(book: &Book, first_payment_day: u16, period: u16, payments: u16) -> Quote {
    let bond = Record {
        first_payment_day,
        period,
        payments,
        coupon: 30_000,
        nominal: 1_000_000_000,
        ..Record::default()
    };
    let mut quote = Quote {
        curve: 1,
        bond: bond_of(&bond),
        cash: 0,
        components: [20_000, 0, 0],
    };
    quote.cash = bond_value(&book.curves[0], &quote, RATE);
    quote
}

/// One line of the table.
fn time(book: &Book, quote: &Quote) -> Result<(), Refusal> {
    let flows = payments(&quote.purchase());
    let bytes = assemble(book);
    let day = book.valuation_day;
    let mut lengthened = bytes.clone();
    Result::from(lent::bootstrap(&mut lengthened, bytes.len(), day, quote))?;
    let check = best_turn(|| lent::check(&bytes, bytes.len()));
    let bootstrap = best_turn(|| {
        // a kilobyte copied is nothing beside the call
        lengthened.copy_from_slice(&bytes);
        lent::bootstrap(&mut lengthened, bytes.len(), day, quote)
    });
    let valuation = time_valuation(book, quote, &flows);
    let end = u64::from(book.curves[0].last_node().day);
    let behind = flows.iter().filter(|(day, _)| *day > end);
    println!(
        "{:>8}  {:>6}  {:>10}  {:>13}  {:>10}  {:>10.1}",
        flows.len(),
        behind.count(),
        shown(check),
        shown(valuation),
        shown(bootstrap),
        ratio(bootstrap.saturating_sub(check), valuation),
    );
    Ok(())
}

fn time_valuation(book: &Book, quote: &Quote, flows: &[(u64, u128)]) -> Duration {
    let curve = &book.curves[0];
    let nodes = [curve.nodes(), &[new_node(curve, quote)]].concat();
    let with_rate = |(day, amount): &(u64, u128)| (*amount as u64, rate_on(&nodes, *day), *day);
    let flows: Vec<(u64, u64, u64)> = flows.iter().map(with_rate).collect();
    best_turn(|| {
        let values = flows
            .iter()
            .map(|(amount, rate, day)| present_value(*amount, *rate, *day));
        values
            .map(|value| value.map_or(0, |value| value.value))
            .sum::<u64>()
    })
}
