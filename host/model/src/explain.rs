//! The grounds of refusal explained.

use crate::fields::*;
use crate::{rule_texts, About, Ground, Unit, MAX_DAY, TABLE};
use std::collections::BTreeSet;

/// What a ground says, the limits of its fields, and what to do about it.
pub fn rule(ground: Ground) -> String {
    let (number, name, sentence) = (ground.number(), ground.name(), ground.sentence());
    let mut text = format!("ground {number}, {name}: {sentence}\n");
    text.extend(fields_of(ground).iter().map(|about| line(about)));
    text.extend(more_on(ground).iter().map(|more| format!("  {more}\n")));
    text + advice(ground) + "\n"
}

fn line(about: &About) -> String {
    let limits = about.unit.range(about.least, about.most);
    format!("  {}: {limits}, {}\n", about.name, about.meaning)
}

/// The fields that a ground tests.
fn fields_of(ground: Ground) -> &'static [&'static About] {
    macro_rules! tested {
        ($($ground:ident: $($field:ident)*;)*) => {
            match ground {
                $(Ground::$ground => &[$($field.about),*],)*
                _ => &[],
            }
        };
    }
    tested! {
        Length: USED;
        Place: BLOCK_KIND NUMBER;
        Header: USED CURVE_COUNT TRADE_BLOCKS UNNAMED;
        Curve: ID CURRENCY NODE_COUNT STEPS RANGES UNNAMED;
        Node: DAY RATE COMPONENTS;
        TradeBlock: COUNT UNNAMED;
        Form: KIND SIDE PHASE SECURITY CASH_CURVE SECURITY_CURVE QUOTED_CURVE;
        Days: VALUE_DAY_1 VALUE_DAY_2 FIRST_PAYMENT_DAY PERIOD PAYMENT_COUNT TERM;
        Amounts: COUPON NOMINAL REPO_CASH CLEAN_PRICE REPO_RATE ACCRUED SETTLEMENT_INDEX
            ISSUE_INDEX ZERO CASH;
        Currency: SECURITY_CURVE CASH_CURVE;
        FlowLimit: NOMINAL REPO_CASH;
        CurveEnd: NODE_COUNT FIRST_PAYMENT_DAY PERIOD PAYMENT_COUNT;
        RateRange: CASH RATE;
    }
}

/// What the fields' limits leave out.
fn more_on(ground: Ground) -> Vec<String> {
    let said = |reasons: &[&str]| reasons.iter().map(|reason| (*reason).into()).collect();
    match ground {
        Ground::Check => vec![format!("the check is {}", CHECK.about.meaning)],
        Ground::Form => {
            let mut more = phases();
            more.extend([rule_texts::SECURITY, rule_texts::NO_SECURITY_CURVE].map(String::from));
            more
        }
        Ground::Days => vec![
            format!("{}, and the term is {}", rule_texts::LEGS, rule_texts::TERM),
            rule_texts::SETTLED.into(),
            rule_texts::OUTRIGHT_PAYMENTS.into(),
            rule_texts::REPO_PAYMENTS.into(),
            rule_texts::SETTLED_PAYMENTS.into(),
            rule_texts::BOND_PAYMENTS.into(),
            format!("no payment falls after day {}", Unit::Whole.words(MAX_DAY)),
        ],
        Ground::Amounts => said(&[
            rule_texts::NO_SECOND_LEG,
            rule_texts::NO_TERM,
            rule_texts::NO_ACCRUED,
            rule_texts::NO_FIRST_LEG,
            rule_texts::NO_SECURITY,
            rule_texts::NO_COUPONS,
            rule_texts::NO_INDICES,
        ]),
        Ground::FlowLimit => said(&[rule_texts::COUNTED_AHEAD, rule_texts::COUNTED_SETTLED]),
        Ground::ValuationDay => said(&[rule_texts::VALUATION_DAY]),
        _ => vec![],
    }
}

/// The phases of each kind.
fn phases() -> Vec<String> {
    let kinds: BTreeSet<u8> = TABLE.iter().map(|line| line.0).collect();
    let phases = |kind: u8| {
        let lines = TABLE.iter().filter(move |line| line.0 == kind);
        PHASE.about.unit.one_of(lines.map(|line| line.1.into()))
    };
    let name = |kind: u8| KIND.about.unit.words(kind);
    let line = |kind: u8| format!("kind {}: phase {}", name(kind), phases(kind));
    kinds.into_iter().map(line).collect()
}

/// What a user does about it.
fn advice(ground: Ground) -> &'static str {
    match ground {
        Ground::Length | Ground::Check | Ground::Place | Ground::Header | Ground::TradeBlock => {
            "the file was cut short, changed by another program, or is no book: \
             take it from its backup"
        }
        Ground::Curve | Ground::Node => "correct the curve and put the curves in again",
        Ground::Form | Ground::Days | Ground::Amounts => {
            "correct the field that is named, and enter the trade or the bond again"
        }
        Ground::Currency => "choose a security curve in the currency of the cash curve",
        Ground::FlowLimit => {
            "correct the amount, price, rate, coupon or indices, or enter the trade in parts"
        }
        Ground::ReportSpace => {
            "lend the bytes of a block for the report, or those of all its lines for the page"
        }
        Ground::Position => "positions are counted from 0, in the order of the trades",
        Ground::BookSpace => {
            "strike trades or begin another book; a caller in C may lend more bytes"
        }
        Ground::ValueRange => "ask within these limits",
        Ground::CurveEnd => {
            "take a bond with a later last payment, or take a node from the curve first"
        }
        Ground::RateRange => "correct the bond or the cash: no rate makes the one worth the other",
        Ground::ValuationDay => "take the book of the day given, or give the day of this book",
    }
}
