//! Faults of spoiled books: they agree with what accept answers, lie where
//! the damage was done, and what they allow is allowed.

use seddolki_books::{
    assemble, damage_anywhere, damage_book, damage_record, draw_bad_used, draw_book, draw_curves,
    draw_record, Draw,
};
use seddolki_model::{
    accept, book_fault, record_fault, rule, Book, BookFault, Curve, Fault, Ground, Header, Layout,
    Part, Record, BLOCK, FULL_BLOCK, MAX_DAY,
};
use std::collections::{BTreeMap, BTreeSet};

const WORK: usize = 200;

/// A field of a record by its name.
struct Field {
    name: &'static str,
    get: fn(&Record) -> u64,
    /// None if the number is too large for the field.
    set: fn(&mut Record, u64) -> Option<()>,
}

macro_rules! fields {
    ($($field:ident),*) => {
        [$(Field {
            name: stringify!($field),
            get: |record| record.$field.into(),
            set: |record, number| {
                record.$field = number.try_into().ok()?;
                Some(())
            },
        }),*]
    };
}

const FIELDS: [Field; 20] = fields![
    kind,
    side,
    phase,
    security_curve,
    cash_curve,
    security,
    zero,
    value_day_1,
    value_day_2,
    first_payment_day,
    period,
    payments,
    term,
    coupon,
    nominal,
    repo_cash,
    price_or_rate,
    accrued,
    settlement_index,
    issue_index
];

fn field(name: &str) -> &'static Field {
    FIELDS.iter().find(|field| field.name == name).unwrap()
}

/// The names of the fields in which two records differ.
fn changed(whole: &Record, spoiled: &Record) -> Vec<&'static str> {
    let differ = |field: &&Field| (field.get)(whole) != (field.get)(spoiled);
    FIELDS.iter().filter(differ).map(|f| f.name).collect()
}

/// The fault, once it has been found to be what accept answers.
fn agreed_fault(lent: &[u8], used: usize) -> Option<BookFault> {
    let (fault, accepted) = (book_fault(lent, used), accept(lent, used));
    let refusal = fault.as_ref().map(BookFault::refusal);
    assert_eq!(refusal, accepted.err(), "{fault:?}");
    fault
}

#[test]
fn faults_are_what_accept_answers() {
    let mut reached = BTreeMap::new();
    for seed in 0..600 {
        let mut draw = Draw::new(seed);
        let book = draw_book(&mut draw, WORK);
        let whole = assemble(&book);
        let mut lent = vec![whole.clone()];
        let grounds = Ground::ON_BOOK[1..].iter();
        lent.extend(grounds.filter_map(|&ground| Some(damage_book(&mut draw, &book, ground)?.0)));
        for _ in 0..10 {
            let mut bytes = whole.clone();
            damage_anywhere(&mut draw, &mut bytes);
            lent.push(bytes);
        }
        let used = draw_bad_used(&mut draw, whole.len());
        let mut faults: Vec<_> = lent.iter().map(|b| agreed_fault(b, b.len())).collect();
        faults.push(agreed_fault(&whole, used));
        for fault in faults {
            let ground = fault.map_or(0, |fault| fault.fault.ground.number());
            *reached.entry(ground).or_insert(0) += 1;
        }
    }
    println!("{reached:?}");
    for number in 0..=12 {
        assert!(reached[&number] >= 50, "{number}: {reached:?}");
    }
}

/// The places of the nodes that differ in a curve.
fn nodes_changed(book: &Book, bytes: &[u8], number: usize) -> Vec<usize> {
    let (whole, spoiled) = (
        &book.curves[number - 1],
        Curve::decode(&bytes[number * BLOCK..]),
    );
    let places = 0..whole.places.len();
    places
        .filter(|&place| whole.places[place] != spoiled.places[place])
        .collect()
}

#[test]
fn a_fault_lies_in_the_node_that_was_spoiled() {
    let mut added = 0;
    for seed in 0..1_000 {
        let mut draw = Draw::new(seed);
        let book = draw_book(&mut draw, WORK);
        let (bytes, number) = damage_book(&mut draw, &book, Ground::Node).unwrap();
        let fault = book_fault(&bytes, bytes.len()).unwrap();
        let node = fault.node().unwrap();
        let places = nodes_changed(&book, &bytes, number);
        if places.is_empty() {
            // the node added, or the last before it if that leaves no later day
            let nodes = book.curves[number - 1].nodes();
            let full = u64::from(nodes[nodes.len() - 1].day) == MAX_DAY;
            assert_eq!(node, nodes.len() - usize::from(full), "{fault}");
            added += 1;
        } else {
            let near = |&place: &usize| node == place || node == place + 1;
            assert!(places.iter().any(near), "{places:?} {fault}");
        }
    }
    assert!(added >= 50, "{added}");
}

#[test]
fn a_fault_lies_in_the_trade_that_was_spoiled() {
    let mut found = 0;
    for seed in 0..400 {
        let mut draw = Draw::new(seed);
        let book = draw_book(&mut draw, WORK);
        for &ground in Ground::ON_RECORD {
            let Some((bytes, block)) = damage_book(&mut draw, &book, ground) else {
                continue;
            };
            let fault = book_fault(&bytes, bytes.len()).unwrap();
            let curves = usize::from(Header::decode(&bytes).curves);
            let trades = seddolki_model::block::trades(&bytes);
            let mut trades = trades.zip(&book.trades);
            let position = trades.position(|(a, b)| a != *b).unwrap();
            let count = (book.trades.len() - position / FULL_BLOCK * FULL_BLOCK).min(FULL_BLOCK);
            let place = position % FULL_BLOCK;
            let part = Part::Trade {
                position,
                place,
                count,
            };
            assert_eq!((fault.block, fault.part), (block, part), "{fault}");
            assert_eq!(block, 1 + curves + position / FULL_BLOCK);
            found += 1;
        }
    }
    assert!(found >= 1_000, "{found}");
}

/// What a record spoiled in one field is blamed for: that field, but for two
/// cases where another is as much to blame: a phase that another kind would
/// have, and a value day 2 that does not fall after value day 1.
fn blame(spoiled: &Record, changed: &'static str) -> &'static str {
    match changed {
        "kind" if (1..=3).contains(&spoiled.kind) => "phase",
        "value_day_1" if spoiled.is_repo() && u64::from(spoiled.value_day_1) < MAX_DAY => {
            let unused = spoiled.first_leg_settled();
            if unused {
                "value_day_1"
            } else {
                "value_day_2"
            }
        }
        _ => changed,
    }
}

#[test]
fn the_field_that_was_spoiled_is_blamed() {
    let mut blamed: BTreeMap<_, u64> = BTreeMap::new();
    for seed in 0..20_000 {
        let mut draw = Draw::new(seed);
        let curves = draw_curves(&mut draw);
        let whole = draw_record(&mut draw, &curves, 120);
        let ground = draw.pick(Ground::ON_RECORD);
        let Some(spoiled) = damage_record(&mut draw, &whole, &curves, ground) else {
            continue;
        };
        let fault = record_fault(&spoiled, &curves).unwrap();
        assert_eq!(fault.ground, ground);
        let found = (field(fault.field).get)(&spoiled);
        assert_eq!(fault.found, i128::from(found), "{fault}");
        match changed(&whole, &spoiled)[..] {
            _ if ground == Ground::FlowLimit => {
                assert!(["nominal", "repo_cash"].contains(&fault.field), "{fault}");
            }
            [one] => assert_eq!(fault.field, blame(&spoiled, one), "{fault}"),
            ref several => assert!(several.contains(&fault.field), "{several:?} {fault}"),
        }
        *blamed.entry(fault.field).or_default() += 1;
    }
    println!("{blamed:?}");
    let names: BTreeSet<_> = FIELDS.iter().map(|field| field.name).collect();
    assert_eq!(blamed.keys().copied().collect::<BTreeSet<_>>(), names);
}

/// The numbers that a fault's words allow: an only one, some, or both ends.
fn allowed(fault: &Fault) -> Vec<u64> {
    let outside = fault.allowed.split('(').map(|part| part.rsplit(')').next());
    let words: String = outside.map(Option::unwrap).collect();
    let number = |item: &str| {
        let digits: String = item.chars().filter(char::is_ascii_digit).collect();
        digits.parse().unwrap()
    };
    let words = words.replace(" or ", ", ").replace(" to ", ", ");
    words.split(", ").map(number).collect()
}

fn with(record: &Record, name: &str, number: u64) -> Option<Record> {
    let mut changed = *record;
    (field(name).set)(&mut changed, number)?;
    Some(changed)
}

/// Whether a record is past a fault: it has none, one of a later ground, or
/// one of another field.
fn past(fault: &Fault, record: &Record, curves: &[Curve]) -> bool {
    record_fault(record, curves)
        .is_none_or(|next| next.ground > fault.ground || next.field != fault.field)
}

#[test]
fn what_a_fault_allows_is_allowed_and_what_is_beyond_is_not() {
    let (mut inside, mut beyond) = (0, 0);
    for seed in 0..20_000 {
        let mut draw = Draw::new(seed);
        let curves = draw_curves(&mut draw);
        let whole = draw_record(&mut draw, &curves, 120);
        let ground = draw.pick(&Ground::ON_RECORD[..4]);
        let Some(spoiled) = damage_record(&mut draw, &whole, &curves, ground) else {
            continue;
        };
        let fault = record_fault(&spoiled, &curves).unwrap();
        let numbers = allowed(&fault);
        for &number in &numbers {
            let mended = with(&spoiled, fault.field, number).unwrap();
            assert!(past(&fault, &mended, &curves), "{number}: {fault}");
            inside += 1;
        }
        let (least, most) = (numbers[0], numbers[numbers.len() - 1]);
        for number in [least.checked_sub(1), most.checked_add(1)] {
            let wrong = number.and_then(|number| with(&spoiled, fault.field, number));
            if let Some(wrong) = wrong {
                assert!(!past(&fault, &wrong, &curves), "{number:?}: {fault}");
                beyond += 1;
            }
        }
    }
    assert!(inside > 20_000 && beyond > 20_000, "{inside} {beyond}");
}

#[test]
fn the_rule_of_a_ground_names_the_field() {
    for seed in 0..300 {
        let mut draw = Draw::new(seed);
        let book = draw_book(&mut draw, WORK);
        for &ground in &Ground::ON_BOOK[1..] {
            let Some((bytes, _)) = damage_book(&mut draw, &book, ground) else {
                continue;
            };
            let fault = book_fault(&bytes, bytes.len()).unwrap().fault;
            let name = fault.field.replace('_', " ");
            let rule = rule(ground).replace('_', " ");
            assert!(rule.contains(&name), "{fault}: {rule}");
        }
    }
}
