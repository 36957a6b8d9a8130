use seddolki_chart::{DayFlows, Heading, Node, Rates};

mod given;
mod svg;

use given::{flows, nodes};
use svg::{Picture, BLACK, BLUE, GREY, ORANGE, VERMILLION};

const LINES: [&str; 2] = [
    "base -1,000,000,000,000.00, worst loss 1,000,000,000,000.00",
    "worst of 343 scenarios: scenario 342, coefficients -100.00 -100.00 -100.00",
];

fn heading() -> Heading {
    Heading {
        curve: "8".into(),
        currency: "TRY",
        lines: LINES.map(String::from),
    }
}

/// The nodes moved up, step by step.
fn stressed(nodes: &[Node], count: u32) -> Vec<Vec<Node>> {
    let moved = |up: u32| {
        let rate = |node: &Node| (node.rate + 100 * up).min(1_000_000);
        let node = |node: &Node| Node {
            day: node.day,
            rate: rate(node),
        };
        nodes.iter().map(node).collect()
    };
    (0..count).map(moved).collect()
}

/// A sound picture, of which the last stressed curve is the worst.
fn drawn(base: &[Node], stressed: &[Vec<Node>], flows: &[DayFlows]) -> Picture {
    let rates = Rates {
        heading: heading(),
        base,
        stressed,
        worst: stressed.last().map_or(&[], Vec::as_slice),
        flows,
    };
    Picture::sound(&rates.draw())
}

#[test]
fn every_curve_is_a_line() {
    let base = nodes(&[(30, 250_000), (365, 260_000), (1_000, 240_000)]);
    for count in [1, 7, 343] {
        let picture = drawn(&base, &stressed(&base, count), &[]);
        let lines = |colour| picture.all("polyline", "stroke", colour);
        assert_eq!(lines(GREY).len(), count as usize);
        assert_eq!(lines(BLACK).len(), 1);
        assert_eq!(lines(VERMILLION).len(), 1);
        let plural = if count == 1 { "" } else { "s" };
        assert!(picture.says(&format!("{count} stressed curve{plural}")));
    }
}

#[test]
fn the_worst_lies_on_the_curve_and_the_curve_on_the_others() {
    let base = nodes(&[(30, 250_000), (365, 260_000)]);
    let picture = drawn(&base, &stressed(&base, 343), &[]);
    let last = |colour| {
        let line =
            |element: &svg::Element| element.name == "polyline" && element.is("stroke", colour);
        picture.elements.iter().rposition(line).unwrap()
    };
    assert!(last(GREY) < last(BLACK) && last(BLACK) < last(VERMILLION));
    let width = |colour| picture.elements[last(colour)].number("stroke-width");
    assert!(width(GREY) < width(VERMILLION) && width(VERMILLION) < width(BLACK));
}

/// A sign for each node and one in the legend.
#[test]
fn nodes_have_signs_of_two_shapes() {
    let base = nodes(&[(30, 250_000), (365, 260_000), (1_000, 240_000)]);
    let picture = drawn(&base, &stressed(&base, 7), &[]);
    assert_eq!(picture.all("circle", "fill", BLACK).len(), 4);
    assert_eq!(picture.all("polygon", "fill", VERMILLION).len(), 4);
}

#[test]
fn the_end_rates_are_carried_on_from_today_to_the_last_flow() {
    let base = nodes(&[(100, 100_000), (200, 200_000)]);
    let picture = drawn(&base, &stressed(&base, 1), &[flows(400, 1, 0)]);
    let line = picture.all("polyline", "stroke", BLACK)[0].points();
    let day = |day| picture.label("middle", day).number("x");
    let rate = |rate| picture.label("end", rate).number("y");
    let corners = [("0", "10"), ("100", "10"), ("200", "20"), ("400", "20")];
    assert_eq!(line, corners.map(|corner| (day(corner.0), rate(corner.1))));
}

#[test]
fn sums_in_stand_on_zero_and_sums_out_hang_from_it() {
    let base = nodes(&[(1, 100_000), (4, 200_000)]);
    let ladder = [
        flows(1, 400_000, 0),
        flows(2, 200_000, 100_000),
        flows(3, 0, 0),
    ];
    let picture = drawn(&base, &stressed(&base, 1), &ladder);
    let bars = |colour| {
        let bars = picture.all("rect", "fill", colour).split_off(1);
        let ends = |bar: &svg::Element| (bar.number("y"), bar.number("y") + bar.number("height"));
        bars.into_iter().map(ends).collect::<Vec<_>>()
    };
    // the rates' axis has no such label
    let sum = |sum| picture.label("end", sum).number("y");
    let zero = picture
        .all("polyline", "stroke", "#404040")
        .pop()
        .unwrap()
        .points()[0]
        .1;
    assert_eq!(bars(BLUE), [(sum("4,000"), zero), (sum("2,000"), zero)]);
    assert_eq!(bars(ORANGE), [(zero, sum("-1,000"))]);
}

#[test]
fn a_small_sum_is_seen_beside_the_largest() {
    let base = nodes(&[(1, 100_000), (4, 200_000)]);
    let picture = drawn(
        &base,
        &stressed(&base, 1),
        &[flows(2, 100_000_000_000_000, 1)],
    );
    let bar = picture.all("rect", "fill", ORANGE)[1];
    assert!(bar.number("height") >= 2.0 && bar.number("width") >= 2.0);
}

#[test]
fn titles_tell_figures_and_units() {
    let base = nodes(&[(1, 100_000), (4, 200_000)]);
    let picture = drawn(&base, &stressed(&base, 7), &[flows(2, 100, 0)]);
    for text in [
        "Curve 8, TRY: rates and cash flows by day",
        "base -1,000,000,000,000.00, worst loss 1,000,000,000,000.00",
        LINES[1],
        "rate, percent",
        "days from the valuation day",
        "cash flows, TRY",
        "the curve",
        "stressed curve with the worst loss",
        "in, upwards",
        "out, downwards",
    ] {
        assert!(picture.says(text), "{text}");
    }
}

#[test]
fn extremes_are_drawn() {
    let curves = [
        nodes(&[(0, 0), (1, 0)]),
        nodes(&[(0, 1_000_000), (1, 1_000_000)]),
        nodes(&[(10_949, 1_000_000), (10_950, 0)]),
        nodes(&[(1, 250_000), (10_950, 250_000)]),
        nodes(&[(10_950, 1), (10_950, 1)]),
        nodes(&[(1, 1)]),
        vec![],
    ];
    let most = u64::MAX;
    let ladders = [
        vec![],
        vec![flows(0, 0, 0)],
        vec![flows(0, 1, 0), flows(10_950, 0, 1)],
        vec![flows(1, 100_000_000_000_000, 100_000_000_000_000)],
        vec![flows(10_950, most, most)],
    ];
    for base in &curves {
        for ladder in &ladders {
            for count in [0, 1, 2] {
                drawn(base, &stressed(base, count), ladder);
            }
        }
    }
    let daily: Vec<DayFlows> = (0..=10_950)
        .map(|day| flows(day, u64::from(day), 99))
        .collect();
    drawn(&curves[2], &stressed(&curves[2], 1), &daily);
}

#[test]
fn text_is_escaped_and_fits() {
    let long = "<worst> & \"so\" 'on'\u{1b}\n".repeat(20);
    let heading = Heading {
        curve: "<1>".into(),
        currency: "A&B",
        lines: ["base \"1\", worst loss '2'".into(), long],
    };
    let base = nodes(&[(1, 100_000), (4, 200_000)]);
    let rates = Rates {
        heading,
        base: &base,
        stressed: &[],
        worst: &base,
        flows: &[],
    };
    let picture = Picture::sound(&rates.draw());
    assert!(picture.says("Curve <1>, A&B: rates and cash flows by day"));
    assert!(picture.says("base \"1\", worst loss '2'"));
    assert!(picture.says(&"<worst> & \"so\" 'on'".repeat(20)));
    assert!(picture.says("cash flows, A&B"));
}
