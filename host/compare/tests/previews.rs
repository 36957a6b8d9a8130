//! Previews alone: every ending of one, the append and the margin that it
//! equals, its edges, and figures worked out by hand.

use seddolki_books::{
    assemble, draw_half_payment, draw_near_ties, draw_preview_case, entry, undiscounted_book, Call,
    Case, Ending, Engine, HalfCase, NearTies, Outcome, Tally,
};
use seddolki_compare::{assert_alike, calls, is_whole, report_of, whole_case, Seeds};
use seddolki_model::{
    cash_flows, Answer, Book, Ground, Layout, Record, Refusal, Report, BLOCK, FULL_BLOCK,
    MAX_BLOCKS, SECOND_SIDE,
};

/// Bounds the time of a margin.
const WORK: usize = 300;

#[test]
fn previews_are_the_same_and_reach_every_ending() {
    let seeds = Seeds::of_this_run();
    let mut reached = Tally::default();
    for number in 0..calls() / 2 {
        let case = draw_preview_case(&mut seeds.draw(number), WORK);
        let outcome = assert_alike(&case, number);
        let ending = Ending::of(&case, &outcome);
        let answered = outcome.answer.number;
        assert_eq!(answered, ending.number(), "case {number}: {ending:?}");
        let is_kept = match answered {
            0 => outcome.after.lent == case.lent,
            _ => outcome.after == case,
        };
        assert!(is_kept, "case {number}: {ending:?}");
        reached.add(ending);
    }
    reached.assert_all(Ending::all(entry("preview")), is_whole().into());
}

/// What a preview is to come to, by the words of the request: the append to a
/// copy, in as many lent bytes, and then the margin of that copy.
fn append_then_margin(case: &Case, engine: Engine) -> Outcome {
    let Call::Preview { record, report } = case.call.clone() else {
        panic!("{} is no preview", case.call.name());
    };
    let append = Case {
        call: Call::Append { record },
        ..case.clone()
    };
    let appended = append.run(engine);
    let mut after = case.clone();
    if appended.answer.number != 0 {
        let answer = appended.answer;
        return Outcome { answer, after };
    }
    let margin = Case {
        used: appended.answer.value as usize,
        call: Call::Margin { report },
        ..appended.after
    };
    let outcome = margin.run(engine);
    if let Call::Margin { report } = outcome.after.call {
        after.call = Call::Preview { record, report };
    }
    let answer = outcome.answer;
    Outcome { answer, after }
}

#[test]
fn a_preview_is_the_margin_of_a_copy_after_append() {
    let seeds = Seeds::of_this_run();
    let mut done = 0;
    for number in 0..calls() / 4 {
        let case = draw_preview_case(&mut seeds.draw(number), WORK);
        let proved = case.run(Engine::Proved);
        assert!(
            proved == append_then_margin(&case, Engine::Proved),
            "case {number}, the engine"
        );
        assert!(
            case.run(Engine::Model) == append_then_margin(&case, Engine::Model),
            "case {number}, the model"
        );
        done += u64::from(proved.answer.number == 0);
    }
    println!("{done} done");
    assert!(done >= calls() / 200);
}

/// The undiscounted book, its trade in it so often.
fn book_of(trades: usize) -> Book {
    let mut book = undiscounted_book();
    book.trades = vec![book.trades[0]; trades];
    book
}

/// The most trades that such a book takes.
const MOST: usize = (MAX_BLOCKS - 2) * FULL_BLOCK;

/// What both make of a preview on a book, with so many lent bytes behind it
/// and so much space for the report.
fn preview(book: &Book, record: &Record, behind: usize, space: usize) -> Outcome {
    let mut lent = assemble(book);
    let used = lent.len();
    lent.resize(used + behind, 7);
    let call = Call::Preview {
        record: record.to_bytes(),
        report: vec![0xaa; space],
    };
    let case = Case {
        lent,
        used,
        day: book.valuation_day,
        call,
    };
    let outcome = assert_alike(&case, 0);
    assert!(outcome.after.lent == case.lent);
    outcome
}

/// The answer to one more of the book's trades.
fn answer(trades: usize, behind: usize, space: usize) -> Answer {
    preview(&book_of(trades), &book_of(1).trades[0], behind, space).answer
}

fn done() -> Answer {
    Ok(0).into()
}

fn refused(refusal: Refusal) -> Answer {
    Err(refusal).into()
}

#[test]
fn a_full_book_has_no_room_however_much_is_lent() {
    let no_room = refused(Ground::BookSpace.alone());
    for behind in [0, 1, BLOCK, 2 * BLOCK] {
        assert_eq!(answer(MOST, behind, BLOCK), no_room);
        assert_eq!(answer(MOST, behind, 0), no_room);
        assert_eq!(answer(MOST - 1, behind, BLOCK), done());
    }
    assert_eq!(answer(MOST - FULL_BLOCK, BLOCK, BLOCK), done());
}

#[test]
fn a_new_block_needs_lent_bytes_though_nothing_is_written() {
    let no_room = refused(Ground::BookSpace.alone());
    for trades in [0, 9, 18] {
        for behind in [0, 1, BLOCK - 1] {
            assert_eq!(answer(trades, behind, BLOCK), no_room);
            assert_eq!(answer(trades, behind, 0), no_room);
            assert_eq!(answer(trades + 1, behind, BLOCK), done());
        }
        assert_eq!(answer(trades, BLOCK, BLOCK), done());
    }
}

/// The bytes of the space that a preview leaves.
fn space_of(outcome: &Outcome) -> &[u8] {
    let Call::Preview { report, .. } = &outcome.after.call else {
        unreachable!("a preview was asked for");
    };
    report
}

#[test]
fn bytes_lent_beyond_the_longest_book_change_nothing() {
    for trades in [0, 4, 9] {
        let (book, trade) = (book_of(trades), book_of(1).trades[0]);
        let to_longest = MAX_BLOCKS * BLOCK - assemble(&book).len();
        let longest = preview(&book, &trade, to_longest, BLOCK + 9);
        assert_eq!(longest.answer, done());
        for more in [1, BLOCK, 10 * BLOCK] {
            let longer = preview(&book, &trade, to_longest + more, BLOCK + 9);
            assert_eq!(longer.answer, done());
            assert_eq!(space_of(&longer), space_of(&longest));
        }
    }
}

#[test]
fn a_short_space_answers_last() {
    let book = book_of(4);
    let whole = book.trades[0];
    type Damage = fn(&mut Record);
    let damages: [(Ground, Damage); 4] = [
        (Ground::Form, |r| r.kind = 0),
        (Ground::Days, |r| r.first_payment_day = 0),
        (Ground::Amounts, |r| r.nominal = 0),
        (Ground::FlowLimit, |r| {
            r.nominal = 1_000_000_000_000;
            r.price_or_rate = 1_000_001;
        }),
    ];
    for (ground, damage) in damages {
        let mut record = whole;
        damage(&mut record);
        for space in [0, BLOCK - 1, BLOCK] {
            let outcome = preview(&book, &record, 0, space);
            assert_eq!(outcome.answer, refused(ground.in_block(2)));
            assert_eq!(space_of(&outcome), vec![0xaa; space]);
        }
    }
    for space in [0, BLOCK - 1] {
        let outcome = preview(&book, &whole, 0, space);
        assert_eq!(outcome.answer, refused(Ground::ReportSpace.alone()));
        assert_eq!(space_of(&outcome), vec![0xaa; space]);
    }
    assert_eq!(preview(&book, &whole, 0, BLOCK).answer, done());
}

/// Base, worst loss, scenario and tolerance of the curve; initial, variation
/// and total of its currency.
fn figures(report: &[u8]) -> [i64; 7] {
    let report = Report::decode(report);
    let (curve, currency) = (report.curves[0], report.currencies[0]);
    [
        curve.base,
        curve.worst_loss,
        curve.scenario.into(),
        curve.tolerance as i64,
        currency.initial,
        currency.variation,
        currency.total,
    ]
}

#[test]
fn the_report_has_the_trade_that_the_book_lacks() {
    let book = undiscounted_book();
    let case = whole_case(
        assemble(&book),
        Call::Margin {
            report: vec![0; BLOCK],
        },
    );
    let Call::Margin { report } = assert_alike(&case, 0).after.call else {
        unreachable!("a margin was asked for");
    };
    // 70,000 out today, 100,000 in a year, of which scenario 2 leaves half
    let without = [30_000, 50_000, 2, 1, 50_000, 30_000, -20_000];
    assert_eq!(figures(&report), without);
    let again = book.trades[0];
    let opposite = Record {
        side: SECOND_SIDE,
        ..again
    };
    let later = Record {
        first_payment_day: 730,
        ..again
    };
    for (record, with) in [
        (again, [60_000, 100_000, 2, 2, 100_000, 60_000, -40_000]),
        (opposite, [0, 0, 0, 2, 0, 0, 0]),
        (later, [60_000, 125_000, 2, 2, 125_000, 60_000, -65_000]),
    ] {
        let outcome = preview(&book, &record, 0, BLOCK);
        assert_eq!(outcome.answer, done());
        assert_eq!(figures(space_of(&outcome)), with, "{record:?}");
    }
}

#[test]
fn halves_that_the_book_lacks_are_previewed_alike_received_and_paid() {
    let seeds = Seeds::of_this_run();
    let mut reached = Tally::default();
    for number in 0..calls() / 100 {
        let mut draw = seeds.draw(number);
        let book = draw_near_ties(&mut draw, NearTies::Halves, WORK / 3);
        let curve = draw.pick(&book.curves);
        let record = draw_half_payment(&mut draw, &curve);
        let outcome = preview(&book, &record, BLOCK, BLOCK);
        let shown = report_of(&outcome).curves[usize::from(curve.id) - 1];
        let cases = HalfCase::of(&curve, &shown, &cash_flows(&record));
        cases.into_iter().for_each(|case| reached.add(case));
    }
    let all = HalfCase::all().filter(HalfCase::is_of_one_sign);
    reached.assert_all(all, is_whole().into());
}
