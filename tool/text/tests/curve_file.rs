//! Files of curves, read and written.

use seddolki::{Book, Date};
use seddolki_books::curve::draw_curves;
use seddolki_books::Draw;
use seddolki_format::assemble;
use seddolki_format::block::{Curve, Node, CURVE};
use seddolki_text::curve_file::{read, write, CurveFile, CurveLines};
use seddolki_text::Fault;

const FILE: &str = "\
# one curve
account 7
curve TRY   # lira
steps 1 0 3
ranges 3 0.5 1.25

node 365 25 25 -0.5 0
node 730 1.0001 -100 0 +1.5
";

fn refused(file: impl AsRef<[u8]>) -> Vec<String> {
    let faults = read(file.as_ref()).unwrap_err();
    faults.iter().map(ToString::to_string).collect()
}

fn curve() -> Curve {
    let mut curve = Curve {
        kind: CURVE,
        number: 1,
        id: 1,
        currency: 1,
        node_count: 2,
        steps: [1, 0, 3],
        ranges: [300, 50, 125],
        ..Curve::default()
    };
    curve.places[0] = Node {
        day: 365,
        rate: 250_000,
        components: [250_000, -5_000, 0],
    };
    curve.places[1] = Node {
        day: 730,
        rate: 10_001,
        components: [-1_000_000, 0, 15_000],
    };
    curve
}

/// Those of the one curve, so many lines further down.
fn curve_lines(down: u64) -> CurveLines {
    CurveLines {
        curve: down + 3,
        steps: down + 4,
        ranges: down + 5,
        nodes: vec![down + 7, down + 8],
    }
}

#[test]
fn lines_make_curves() {
    let due = CurveFile {
        account: 7,
        curves: vec![curve()],
        lines: vec![curve_lines(0)],
    };
    assert_eq!(read(FILE.as_bytes()), Ok(due.clone()));
    for file in [
        format!("\u{feff}{FILE}"),
        FILE.replace('\n', "\r\n"),
        FILE.replace('\n', "\r"),
        FILE.trim_end().replace(' ', "\t"),
        FILE.replace("TRY", "try"),
        FILE.replace("TRY", "Try"),
    ] {
        assert_eq!(read(file.as_bytes()), Ok(due.clone()), "{file:?}");
    }
}

#[test]
fn curves_are_numbered_as_they_stand() {
    let (_, lines) = FILE.split_once("account 7\n").unwrap();
    let file = read(format!("{}\n{lines}", FILE.replace("TRY", "EUR")).as_bytes()).unwrap();
    let second = Curve {
        id: 2,
        number: 2,
        ..curve()
    };
    let first = Curve {
        currency: 3,
        ..curve()
    };
    assert_eq!(file.curves, [first, second]);
    assert_eq!(file.lines, [curve_lines(0), curve_lines(7)]);
}

#[test]
fn a_part_has_its_own_line() {
    let file = "node 1 1 0 0 0\ncurve usd\n\nnode 9 1 0 0 0\nranges 0 0 0\n\
                # a remark\nnode 8 1 0 0 0\nsteps 0 0 0\n";
    let file = format!("account 1\n{FILE}{file}").replace("account 7", "");
    assert_eq!(refused(file.replace("curve usd", "curve gbp")).len(), 1);
    let last = CurveLines {
        curve: 11,
        steps: 17,
        ranges: 14,
        nodes: vec![13, 16],
    };
    let first = CurveLines {
        nodes: vec![8, 9, 10],
        ..curve_lines(1)
    };
    assert_eq!(read(file.as_bytes()).unwrap().lines, [first, last]);
}

#[test]
fn nothing_is_taken_for_granted() {
    assert_eq!(
        refused(""),
        ["there is no account line", "there is no curve line"]
    );
    assert_eq!(
        refused(FILE.replace("account", "#")),
        ["there is no account line"]
    );
    assert_eq!(
        refused(FILE.replace("steps", "#")),
        ["line 3: curve 1 has no steps line"]
    );
    assert_eq!(
        refused(FILE.replace("ranges", "#")),
        ["line 3: curve 1 has no ranges line"]
    );
    assert_eq!(
        refused(FILE.replace("node 730", "#")),
        ["line 3: curve 1 has 1 of at least 2 node lines"]
    );
    assert_eq!(
        refused(format!("{FILE}curve USD\n")),
        [
            "line 9: curve 2 has no steps line",
            "line 9: curve 2 has no ranges line",
            "line 9: curve 2 has 0 of at least 2 node lines",
        ]
    );
}

#[test]
fn a_line_is_given_once() {
    assert_eq!(
        refused(format!("{FILE}account 7\nsteps 1 0 3\nranges 3 0.5 1.25\n")),
        [
            "line 9: account is given twice, on lines 2 and 9",
            "line 10: steps is given twice, on lines 4 and 10",
            "line 11: ranges is given twice, on lines 5 and 11",
        ]
    );
    let other = FILE.lines().filter(|line| !line.starts_with("account"));
    let other: Vec<&str> = other.collect();
    assert!(read(format!("{FILE}{}", other.join("\n")).as_bytes()).is_ok());
}

#[test]
fn all_wrong_lines_are_told_at_once() {
    let file = b"steps 1 1 1\n\
        account -1\n\
        curve GBP\n\
        step 1 1 1\n\
        steps 1 1\n\
        ranges 1,250 x 1.001\n\
        node 1 10 0 0\n\
        node 65536 -1 0 9999999 1,5\n\
        n\xf6de 1 1 1 1 1\n\
        curve\n\
        steps 0 0 256\n\
        ranges 0 0 0\n\
        node\n\
        node 1 1 1 1 1\n";
    assert_eq!(
        refused(file),
        [
            "line 1: a curve line has to come first",
            "line 2: -1 is too small: 0 to 4,294,967,295",
            "line 3: GBP is none of TRY, USD or EUR",
            "line 4: step is none of account, curve, steps, ranges or node",
            "line 5: 3 numbers due, 2 found",
            "line 6: 1,250 is too large: 0.00 to 100.00",
            "line 6: x is not a number: 0.00 to 100.00",
            "line 6: 1.001 has more than 2 decimals: 0.00 to 100.00",
            "line 7: 5 numbers due, 4 found: a day, a rate and 3 components",
            "line 8: 65536 is too large: 0 to 10,950 days from the valuation day",
            "line 8: -1 is too small: 0.0000 to 100.0000",
            "line 8: 9999999 is too large: -100.0000 to 100.0000",
            "line 8: 1,5 is not a number with a decimal point: write 1.5000",
            "line 9: it is not written in UTF-8",
            "line 10: 1 currency due, 0 found: TRY, USD or EUR",
            "line 11: 256 is too large: 0 to 3",
            "line 13: 5 numbers due, 0 found: a day, a rate and 3 components",
        ]
    );
}

#[test]
fn what_has_no_place_is_told() {
    let node = "node 1 1 1 1 1\n";
    assert_eq!(
        refused(format!("{FILE}{}", node.repeat(24))),
        [
            "line 31: a curve has at most 24 nodes",
            "line 32: a curve has at most 24 nodes",
        ]
    );
    let (_, curve) = FILE.split_once("account 7\n").unwrap();
    let file = format!("{FILE}{}", curve.repeat(255));
    assert_eq!(refused(file), ["line 1533: a book has at most 8 curves"]);
}

#[test]
fn what_is_written_is_read_as_the_same_curves() {
    let mut draw = Draw::new(5);
    for _ in 0..500 {
        let curves = draw_curves(&mut draw);
        let account = draw.edge(0..=u32::MAX.into()) as u32;
        let file = write(account, &curves);
        let again = read(file.as_bytes()).unwrap();
        assert_eq!((again.account, &again.curves), (account, &curves), "{file}");
        let places = |lines: &CurveLines| lines.nodes.len();
        let nodes = again.curves.iter().map(|curve| curve.nodes().len());
        assert!(again.lines.iter().map(places).eq(nodes));
        assert_eq!(again.lines[0].curve, 3);
        let book = assemble(again.account, Date::FIRST, &again.curves, &[]);
        assert_eq!(Book::from_bytes(book).check(), Ok(()));
    }
}

#[test]
fn a_written_file_looks_so() {
    assert_eq!(
        write(7, &[curve()]),
        "account 7\n\
         \n\
         curve TRY\n\
         steps  1 0 3\n\
         ranges 3.00 0.50 1.25\n\
         #    day        rate  components\n\
         node 365     25.0000   25.0000   -0.5000    0.0000\n\
         node 730      1.0001 -100.0000    0.0000    1.5000\n"
    );
}

/// What is still read is written and read as the same; all else is told.
#[test]
fn spoiled_files_are_told_by_line() {
    let mut draw = Draw::new(6);
    let mut taken = 0;
    for _ in 0..2_000 {
        let mut bytes = FILE.as_bytes().to_vec();
        let place = draw.place(bytes.len());
        bytes[place] = draw.pick(b"\n\r# 0-.,\xffx");
        match read(&bytes) {
            Ok(file) => {
                taken += 1;
                let again = read(write(file.account, &file.curves).as_bytes()).unwrap();
                assert_eq!((again.account, again.curves), (file.account, file.curves));
            }
            Err(faults) => {
                let told = |fault: &Fault| match fault.line {
                    Some(line) => (1..=9).contains(&line),
                    None => fault.message.starts_with("there is no "),
                };
                assert!(faults.iter().all(told), "{faults:?}");
            }
        }
    }
    assert!((200..1_800).contains(&taken), "{taken}");
}
