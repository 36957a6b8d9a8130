//! Books whose scenarios are hard to tell apart by their losses.

use crate::listed_enum::listed_enum;
use crate::{
    bring_within_limit, draw_book, draw_half_payment, hold_to_work, Draw, HALVING_RATES, MOST_SMALL,
};
use seddolki_model::{Book, Curve, Node, Record, FIRST_SIDE, MAX_RATE, MAX_STEPS, SECOND_SIDE};

listed_enum! {
    /// How a book's losses come near each other.
    pub enum NearTies {
        /// Amounts so small that rates move their values by a few kuruş.
        SmallAmounts,
        /// Beside each trade its opposite: every loss is 0, or nearly so.
        Opposites,
        /// One component, or each, is 0 at every node.
        ZeroComponents,
        /// Two components are alike, or each other's opposite.
        AlikeComponents,
        /// Components of a few millionths.
        SmallComponents,
        /// Components are 0 at every node but the last.
        LastNode,
        /// Rates at an end of their range, where stresses stop.
        EndRates,
        /// Payments of whole kuruş and a half, of which the least rise of a rate
        /// takes a kuruş each.
        Halves,
    }
}

impl NearTies {
    /// Those by which a curve alone changes.
    pub(crate) fn of_curves() -> &'static [NearTies] {
        &Self::ALL[2..7]
    }
}

/// So few that each can have its opposite.
const MOST_TRADES: u64 = 12;

/// An accepted book of few trades and, as far as `work` allows, all
/// scenarios, its losses near each other. `work` is as in `draw_book`.
pub fn draw_near_ties(draw: &mut Draw, ties: NearTies, work: usize) -> Book {
    let mut book = draw_book(draw, work);
    book.trades.truncate(draw.within(1..=MOST_TRADES) as usize);
    match ties {
        NearTies::SmallAmounts => make_amounts_small(draw, &mut book.trades),
        NearTies::Opposites => add_opposites(draw, &mut book),
        _ => {}
    }
    for curve in &mut book.curves {
        curve.steps = [MAX_STEPS; 3];
        match ties {
            NearTies::Halves => bring_to_halves(draw, curve),
            _ => bring_near(draw, ties, curve),
        }
    }
    if ties == NearTies::Halves {
        pay_halves(draw, &mut book);
    }
    hold_to_work(&mut book, work);
    book
}

fn make_amounts_small(draw: &mut Draw, trades: &mut [Record]) {
    for trade in trades {
        for amount in [&mut trade.nominal, &mut trade.repo_cash] {
            *amount = (*amount).min(draw.within(1..=MOST_SMALL));
        }
    }
}

/// Now and then an amount is a kuruş lower.
fn add_opposites(draw: &mut Draw, book: &mut Book) {
    for trade in book.trades.clone() {
        let lower = u64::from(draw.once_in(4) && trade.nominal > 1);
        let mut opposite = Record {
            side: FIRST_SIDE + SECOND_SIDE - trade.side,
            nominal: trade.nominal - lower,
            ..trade
        };
        // a settled pool repo has flows on one side alone
        bring_within_limit(&mut opposite, &book.curves);
        book.trades.push(opposite);
    }
}

fn pay_halves(draw: &mut Draw, book: &mut Book) {
    for trade in &mut book.trades {
        let curve = draw.pick(&book.curves);
        *trade = draw_half_payment(draw, &curve);
    }
}

pub(crate) fn bring_near(draw: &mut Draw, ties: NearTies, curve: &mut Curve) {
    let whole = draw.once_in(3);
    let (one, other) = (draw.place(3), draw.place(3));
    let sign = draw.pick(&[1, -1]);
    let end = draw.pick(&[0, MAX_RATE as u32]);
    let last = curve.nodes().len() - 1;
    for (place, node) in curve.places[..=last].iter_mut().enumerate() {
        match ties {
            NearTies::SmallAmounts | NearTies::Opposites | NearTies::Halves => {}
            NearTies::ZeroComponents if whole => node.components = [0; 3],
            NearTies::ZeroComponents => node.components[one] = 0,
            NearTies::AlikeComponents => node.components[one] = sign * node.components[other],
            NearTies::SmallComponents => make_components_small(draw, node),
            NearTies::LastNode if place < last => node.components = [0; 3],
            NearTies::LastNode => {}
            NearTies::EndRates => node.rate = end.abs_diff(draw.within(0..=500) as u32),
        }
    }
    if ties == NearTies::AlikeComponents {
        curve.ranges[one] = curve.ranges[other];
    }
}

/// Every node has one rate at which there are halves. Components are small, or
/// the first alone moves it to another such rate.
fn bring_to_halves(draw: &mut Draw, curve: &mut Curve) {
    let mut rates = HALVING_RATES;
    rates.rotate_left(draw.place(HALVING_RATES.len()));
    let [rate, others @ ..] = rates;
    let (other, moves_far) = (draw.pick(&others), draw.once_in(2));
    curve.ranges = [100; 3];
    let count = curve.nodes().len();
    for node in &mut curve.places[..count] {
        node.rate = rate as u32;
        make_components_small(draw, node);
        if moves_far {
            node.components = [other - rate, 0, 0];
        }
    }
}

fn make_components_small(draw: &mut Draw, node: &mut Node) {
    node.components = [(); 3].map(|()| draw.within(0..=20) as i32 - 10);
}
