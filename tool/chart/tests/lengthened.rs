use seddolki_chart::{DayFlows, Heading, Lengthened, Node};

mod given;
mod svg;

use given::{flows, nodes};
use svg::{Element, Picture, BLACK, BLUE, ORANGE, VERMILLION};

const BOND: &str = "1,000,000.00 nominal with 2 coupons of 5.0000% each 180 days from day 170, \
                    990,000.00 today";
const NODE: &str = "new node: day 350, 11.9513%, components +1.0000% 0.0000% -1.0000%";

/// A sound picture.
fn drawn(before: &[Node], after: &[Node], flows: &[DayFlows]) -> Picture {
    let picture = Lengthened {
        heading: Heading {
            curve: "1 of account 4".into(),
            currency: "TRY",
            lines: [BOND, NODE].map(String::from),
        },
        before,
        after,
        flows,
    };
    Picture::sound(&picture.draw())
}

fn corners(picture: &Picture, colour: &str) -> Vec<(f64, f64)> {
    let lines = picture.all("polyline", "stroke", colour);
    assert_eq!(lines.len(), 1);
    lines[0].points()
}

#[test]
fn the_curve_before_is_carried_on_and_the_one_after_bends_to_its_node() {
    let before = nodes(&[(100, 100_000), (200, 200_000)]);
    let after = nodes(&[(100, 100_000), (200, 200_000), (400, 300_000)]);
    let picture = drawn(&before, &after, &[]);
    let place = |(day, rate): (&str, &str)| {
        let (day, rate) = (picture.label("middle", day), picture.label("end", rate));
        (day.number("x"), rate.number("y"))
    };
    let flat = [("0", "10"), ("100", "10"), ("200", "20"), ("400", "20")];
    assert_eq!(corners(&picture, BLACK), flat.map(place));
    let bent = [("0", "10"), ("100", "10"), ("200", "20"), ("400", "30")];
    assert_eq!(corners(&picture, VERMILLION)[..4], bent.map(place));
}

/// A sign for each node and one in the legend.
#[test]
fn nodes_have_signs_of_two_shapes() {
    let before = nodes(&[(100, 100_000), (200, 200_000)]);
    let after = nodes(&[(100, 100_000), (200, 200_000), (400, 300_000)]);
    let picture = drawn(&before, &after, &[]);
    assert_eq!(picture.all("circle", "fill", BLACK).len(), 3);
    assert_eq!(picture.all("polygon", "fill", VERMILLION).len(), 4);
}

#[test]
fn the_cash_hangs_on_today_and_payments_stand_on_their_days() {
    let before = nodes(&[(1, 100_000), (4, 200_000)]);
    let after = nodes(&[(1, 100_000), (4, 200_000), (8, 200_000)]);
    let payments = [
        flows(0, 0, 400_000),
        flows(5, 100_000, 0),
        flows(8, 400_000, 0),
    ];
    let picture = drawn(&before, &after, &payments);
    let middles = |colour| {
        let bars = picture.all("rect", "fill", colour).split_off(1);
        let middle = |bar: &Element| bar.number("x") + bar.number("width") / 2.0;
        bars.into_iter().map(middle).collect::<Vec<_>>()
    };
    let day = |day| picture.label("middle", day).number("x");
    let near = |found: Vec<f64>, due: &[f64]| {
        let apart = found.iter().zip(due).map(|(a, b)| (a - b).abs());
        assert!(found.len() == due.len() && apart.fold(0.0, f64::max) <= 1.0);
    };
    near(middles(ORANGE), &[day("0")]);
    near(middles(BLUE), &[day("5"), day("8")]);
}

#[test]
fn titles_tell_the_bond_and_the_node() {
    let before = nodes(&[(1, 100_000), (4, 200_000)]);
    let picture = drawn(&before, &before, &[]);
    for text in [
        "Curve 1 of account 4, TRY: lengthened by a bond's price",
        BOND,
        NODE,
        "the curve before",
        "the curve after",
        "rate, percent",
        "days from the valuation day",
        "cash flows, TRY",
        "in, upwards",
        "out, downwards",
    ] {
        assert!(picture.says(text), "{text}");
    }
}

#[test]
fn extremes_are_drawn() {
    let most = 1_000_000_000_000;
    for rate in [0, 1_000_000] {
        for last in [0, 1_000_000] {
            let before = nodes(&[(0, rate), (1, rate)]);
            let after = nodes(&[(0, rate), (1, rate), (10_950, last)]);
            let payments: Vec<DayFlows> = (0..120).map(|i| flows(1 + 92 * i, most, 0)).collect();
            drawn(&before, &after, &payments);
            drawn(&before, &after, &[flows(0, 0, 1), flows(10_950, 1, 0)]);
        }
    }
}
