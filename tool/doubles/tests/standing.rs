//! A file that is imported again is found, whatever else the book holds.

mod pairs;

use pairs::draw_different;
use seddolki_books::curve::draw_curves;
use seddolki_books::Draw;
use seddolki_doubles::{stands_already, Standing};
use seddolki_format::Record;

const FILES: u64 = 200;

/// A file of trades, now and then with one of them twice, and other trades.
fn draw_file(draw: &mut Draw) -> (Vec<Record>, Vec<Record>) {
    let curves = draw_curves(draw);
    let (count, others) = (1 + draw.place(12), draw.place(12));
    let mut file = draw_different(draw, &curves, count + others);
    let others = file.split_off(count);
    if draw.once_in(2) {
        let twice = draw.pick(&file);
        file.push(twice);
    }
    (file, others)
}

fn shuffle(draw: &mut Draw, trades: &mut [Record]) {
    for place in 1..trades.len() {
        trades.swap(place, draw.place(place + 1));
    }
}

#[test]
fn a_run_is_found_with_trades_before_and_behind() {
    for seed in 0..FILES {
        let mut draw = Draw::new(seed);
        let (file, mut book) = draw_file(&mut draw);
        let first = draw.place(book.len() + 1);
        book.splice(first..first, file.iter().copied());
        let last = first + file.len() - 1;
        let again = stands_already(&book, &file);
        assert_eq!(again, Some(Standing::Run(first..=last)), "seed {seed}");
    }
}

#[test]
fn trades_that_stand_apart_are_found_each_at_its_own_position() {
    let mut apart = 0;
    for seed in 0..FILES {
        let mut draw = Draw::new(seed);
        let (file, others) = draw_file(&mut draw);
        let mut book = [file.clone(), others].concat();
        shuffle(&mut draw, &mut book);
        let Some(Standing::Apart(mut positions)) = stands_already(&book, &file) else {
            assert!(book.windows(file.len()).any(|trades| trades == file));
            continue;
        };
        let standing: Vec<Record> = positions.iter().map(|&position| book[position]).collect();
        assert_eq!(standing, file);
        positions.sort();
        positions.dedup();
        assert_eq!(positions.len(), file.len());
        apart += 1;
    }
    assert!(apart >= 100, "{apart}");
}

#[test]
fn a_file_with_a_trade_that_the_book_lacks_is_new() {
    for seed in 0..FILES {
        let mut draw = Draw::new(seed);
        let (file, others) = draw_file(&mut draw);
        let mut book = [others, file.clone()].concat();
        let struck = book.len() - file.len() + draw.place(file.len());
        book.remove(struck);
        assert_eq!(stands_already(&book, &file), None, "seed {seed}");
    }
}

#[test]
fn no_trades_stand_nowhere() {
    let trade = Record::default();
    assert_eq!(stands_already(&[], &[]), None);
    assert_eq!(stands_already(&[trade], &[]), None);
    assert_eq!(stands_already(&[], &[trade]), None);
}

#[test]
fn positions_are_told() {
    let told = |standing: Standing| standing.to_string();
    assert_eq!(told(Standing::Run(4..=4)), "at position 4");
    assert_eq!(told(Standing::Run(4..=15)), "at positions 4 to 15");
    assert_eq!(told(Standing::Apart(vec![7, 1])), "at positions 7, 1");
}
