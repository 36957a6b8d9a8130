//! The grounds explained.

use seddolki_model::{rule, Ground};

#[test]
fn a_rule_begins_with_the_ground_and_ends_with_advice() {
    for ground in Ground::ALL {
        let (number, name, sentence) = (ground.number(), ground.name(), ground.sentence());
        let rule = rule(ground);
        assert!(rule.starts_with(&format!("ground {number}, {name}: {sentence}\n")));
        let advice = rule.lines().last().unwrap();
        assert!(rule.ends_with('\n') && rule.lines().count() >= 2, "{rule}");
        assert!(!advice.starts_with(' ') && advice.len() > 20, "{advice}");
    }
}

#[test]
fn a_rule_has_the_limits_of_its_fields() {
    for (ground, line) in [
        (Ground::Length, "used: 1,024 to 65,536, a book"),
        (Ground::Header, "curves: 1 to 8, curves"),
        (Ground::Curve, "ranges: 0.00 to 100.00, range"),
        (Ground::Node, "components: -100.0000% to 100.0000%, how far"),
        (Ground::TradeBlock, "count: 1 to 9, trades"),
        (Ground::Form, "kind 3 (specified repo): phase 1 or 2\n"),
        (Ground::Days, "term: 1 to 730, days of a repo\n"),
        (Ground::Amounts, "nominal: 0.01 to 10,000,000,000.00, the"),
        (Ground::Amounts, "price_or_rate: 0.0001% to 400.0000%, the"),
        (Ground::Amounts, "price_or_rate: 0.0000% to 100.0000%, the"),
        (Ground::Amounts, "a repo has no accrued\n"),
        (Ground::Form, "curve: 1 to 8, the curve that the bond"),
        (Ground::Days, "a quoted bond's payments fall after day 0\n"),
        (Ground::Days, "a repo's payments fall after value day 1\n"),
        (
            Ground::Days,
            "where the first leg has settled, payments fall after day 0\n",
        ),
        (
            Ground::FlowLimit,
            "where both legs are ahead, payments are flows only after value day 1 and up to value day 2\n",
        ),
        (
            Ground::FlowLimit,
            "where the first leg has settled, payments are flows only after value day 2\n",
        ),
        (Ground::Amounts, "a quoted bond has no term\n"),
        (Ground::CurveEnd, "node_count: 2 to 24, nodes of"),
        (Ground::RateRange, "cash: 0.01 to 10,000,000,000.00, what"),
        (Ground::RateRange, "rate: 0.0000% to 100.0000%, the rate"),
        (
            Ground::ValuationDay,
            "days of curves and trades are counted from the day of the book\n",
        ),
    ] {
        let rule = rule(ground);
        assert!(rule.contains(&format!("\n  {line}")), "{rule}");
    }
}
