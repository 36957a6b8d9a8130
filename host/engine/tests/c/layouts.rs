//! The layouts that the C header is to declare: those of the Rust format,
//! whose fields are found by the bytes that they change.

use crate::declared::Field;
use seddolki_format::{
    bond_of, CurrencyFigures, Curve, CurveFigures, Head, Header, Layout, Node, Record, Report,
    TradeBlock, BLOCK, BOND, RECORD,
};
use std::collections::BTreeMap;

/// A layout by its fields, each with its bytes.
pub struct Form {
    /// The layout's name in Rust.
    pub name: &'static str,
    pub size: usize,
    pub fields: Vec<(Field, usize)>,
}

/// A type of fields, by its name in C.
trait Typed: Layout {
    const NAME: &'static str;
    const COUNT: usize = 1;
}

macro_rules! typed {
    ($($type:ident = $name:literal,)*) => {$(
        impl Typed for $type {
            const NAME: &'static str = $name;
        }
    )*};
}

typed! {
    u8 = "uint8_t",
    u16 = "seddolki_u16",
    u32 = "seddolki_u32",
    u64 = "seddolki_u64",
    i32 = "seddolki_i32",
    i64 = "seddolki_i64",
    Node = "seddolki_node",
    Record = "seddolki_record",
    CurveFigures = "seddolki_curve_figures",
    CurrencyFigures = "seddolki_currency_figures",
}

impl<T: Typed, const N: usize> Typed for [T; N] {
    const NAME: &'static str = T::NAME;
    const COUNT: usize = N;
}

/// A field that holds no 0 byte, from a layout that has it alone.
fn field<T: Typed, L: Layout>(name: &str, _: T, alone: L) -> (Field, usize) {
    let bytes: [u8; BLOCK] = alone.to_bytes();
    let changed = |byte: &u8| *byte != 0;
    let offset = bytes.iter().position(changed).unwrap();
    let end = 1 + bytes.iter().rposition(changed).unwrap();
    let field = Field {
        name: name.to_string(),
        type_name: T::NAME.to_string(),
        count: T::COUNT,
        offset,
    };
    (field, end - offset)
}

/// Forms by the names of C. A field that is not listed does not compile.
macro_rules! forms {
    ($($layout:ident = $name:literal { $($field:ident),* })*) => {
        BTreeMap::from([$(($name.to_string(), {
            let $layout { $($field),* } = $layout::decode(&[0xff; BLOCK]);
            let alone = $layout::default();
            let fields = vec![$(
                field(stringify!($field), $field, $layout { $field, ..alone })
            ),*];
            let name = stringify!($layout);
            Form { name, size: $layout::SIZE, fields }
        })),*])
    };
}

pub fn layouts() -> BTreeMap<String, Form> {
    let mut all = forms! {
        Head = "head" { kind, number, check }
        Header = "header" { kind, number, account, curves, trade_blocks, valuation_day, check }
        Node = "node" { day, rate, components }
        Curve = "curve" {
            kind, number, id, currency, node_count, steps, ranges, places, check
        }
        TradeBlock = "trade_block" { kind, count, number, places, check }
        Record = "record" {
            kind, side, phase, security_curve, cash_curve, security, zero, value_day_1,
            value_day_2, first_payment_day, period, payments, term, coupon, nominal, repo_cash,
            price_or_rate, accrued, settlement_index, issue_index
        }
        CurveFigures = "curve_figures" { base, worst_loss, scenario, currency, tolerance }
        CurrencyFigures = "currency_figures" { initial, variation, total }
        Report = "report" { kind, number, account, curves, currencies, check }
    };
    let bond = bond(&all["record"]);
    all.insert("bond".to_string(), bond);
    all
}

/// A bond, by the fields of a record that it takes.
fn bond(record: &Form) -> Form {
    let taken = |(field, size): &(Field, usize)| {
        let mut bytes = [0; RECORD];
        bytes[field.offset..][..*size].fill(0xff);
        let bond = bond_of(&Record::decode(&bytes));
        let offset = bond.iter().position(|byte| *byte != 0)?;
        let field = Field {
            offset,
            ..field.clone()
        };
        Some((field, *size))
    };
    Form {
        name: record.name,
        size: BOND,
        fields: record.fields.iter().filter_map(taken).collect(),
    }
}
