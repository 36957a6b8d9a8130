use seddolki_chart::{Heading, Losses};

mod svg;
use svg::{Element, Picture, BLUE, VERMILLION};

fn drawn(losses: &[i64]) -> Picture {
    let heading = Heading {
        curve: "1".into(),
        currency: "TRY",
        lines: [
            "base 10,000.00, worst loss 300.00".into(),
            "worst of 7 scenarios: scenario 6, coefficients 3.00 0.00 0.00".into(),
        ],
    };
    Picture::sound(&Losses { heading, losses }.draw())
}

#[test]
fn every_scenario_has_a_point_at_its_number_and_loss() {
    let picture = drawn(&[-30_000, -20_000, -10_000, 0, 10_000, 20_000, 30_000]);
    let point = |point: &Element| (point.number("cx"), point.number("cy"));
    let points: Vec<_> = picture
        .all("circle", "fill", BLUE)
        .into_iter()
        .map(point)
        .collect();
    let place = |scenario: usize, loss| {
        let scenario = picture.label("middle", &scenario.to_string());
        (scenario.number("x"), picture.label("end", loss).number("y"))
    };
    let losses = ["-300", "-200", "-100", "0", "100", "200", "300"];
    let places: Vec<_> = losses
        .into_iter()
        .enumerate()
        .map(|(i, loss)| place(i, loss))
        .collect();
    assert_eq!(points, places);
}

#[test]
fn the_first_worst_is_marked() {
    for (losses, text) in [
        (&[500, 900, 900, -900][..], "worst: scenario 1, 9.00 TRY"),
        (&[0], "worst: scenario 0, 0.00 TRY"),
        (&[-7, -5, -5], "worst: scenario 1, -0.05 TRY"),
        (
            &[1, 2, 100_000_000_000_000],
            "worst: scenario 2, 1,000,000,000,000.00 TRY",
        ),
    ] {
        let picture = drawn(losses);
        assert!(picture.says(text), "{text}");
        let signs = picture.all("polygon", "fill", VERMILLION);
        assert_eq!(signs.len(), 1);
        let tip = signs[0].points()[0].0;
        let worst = picture.all("polyline", "stroke", VERMILLION)[0].points()[1].0;
        assert!((tip - worst).abs() <= 1.0, "{tip} {worst}");
        let stems = picture.all("polyline", "stroke", BLUE);
        let ends = stems.iter().flat_map(|stem| stem.points());
        let highest = ends.map(|(_, y)| y).fold(f64::MAX, f64::min);
        let label = picture.texts().into_iter().find(|label| label.text == text);
        assert!(label.unwrap().number("y") < highest - 10.0);
    }
}

#[test]
fn titles_tell_figures_and_units() {
    let picture = drawn(&[1, 2, 3]);
    for text in [
        "Curve 1, TRY: losses by scenario",
        "base 10,000.00, worst loss 300.00",
        "worst of 7 scenarios: scenario 6, coefficients 3.00 0.00 0.00",
        "scenario",
        "loss, TRY",
    ] {
        assert!(picture.says(text), "{text}");
    }
}

#[test]
fn any_number_of_scenarios_is_drawn() {
    for count in [0, 1, 2, 7, 49, 343] {
        for step in [0, 1, 100_000_000_000_000, i64::MAX / 343] {
            for middle in [0, count / 2, count] {
                let losses: Vec<i64> = (0..count).map(|i| (middle - i) * step).collect();
                let picture = drawn(&losses);
                assert_eq!(picture.all("circle", "fill", BLUE).len(), losses.len());
                assert_eq!(picture.all("polyline", "stroke", BLUE).len(), losses.len());
                let back: Vec<i64> = losses.into_iter().rev().collect();
                drawn(&back);
            }
        }
    }
    drawn(&[i64::MIN, i64::MAX]);
}

/// The labels of the upward axis as numbers, from the least.
fn ticks(picture: &Picture) -> Vec<f64> {
    let labels = picture.all("text", "text-anchor", "end");
    let labels = labels.into_iter().filter(|label| !label.text.contains(' '));
    let number = |label: &Element| {
        let number: f64 = label.text.replace(',', "").parse().unwrap();
        assert!(number != 0.0 || !label.text.starts_with('-'));
        number
    };
    labels.map(number).collect()
}

#[test]
fn ticks_are_round_and_reach_over_the_losses() {
    for size in (1..2_000)
        .step_by(17)
        .chain([99_999, 123_456_789, 99_999_999_999_999])
    {
        for losses in [[0, size], [-size, size], [-size, 3 * size]] {
            let ticks = ticks(&drawn(&losses));
            assert!((3..=12).contains(&ticks.len()), "{losses:?}: {ticks:?}");
            let step = ticks[1] - ticks[0];
            let leading = step / 10_f64.powf(step.log10().floor());
            let round = [1.0, 2.0, 5.0, 10.0]
                .iter()
                .any(|round| (leading - round).abs() < 1e-6);
            assert!(round, "{losses:?}: {ticks:?}");
            let even = ticks
                .windows(2)
                .all(|pair| (pair[1] - pair[0] - step).abs() < step / 1e6);
            assert!(even, "{losses:?}: {ticks:?}");
            let (low, high) = (losses[0] as f64 / 100.0, losses[1] as f64 / 100.0);
            assert!(
                ticks[0] <= low && high <= ticks[ticks.len() - 1],
                "{losses:?}: {ticks:?}"
            );
        }
    }
}
