use seddolki_chart::Growth;
use std::fs;
use std::process::{Command, Output};

mod svg;
use svg::{Picture, BLUE};

const TABLE: &str = concat!(env!("CARGO_MANIFEST_DIR"), "/../../docs/growth.csv");
const PICTURE: &str = concat!(env!("CARGO_MANIFEST_DIR"), "/../../docs/growth.svg");
const HEADER: &str = "grows,curves,trades,scenarios,flows,valuations,milliseconds\n";

/// A line each of what grows, with a time.
fn table(time: &str) -> String {
    let line = |what| format!("{what},3,200,343,700,193452,{time}\n");
    let lines: String = ["trades", "scenarios a curve", "curves"].map(line).concat();
    HEADER.to_string() + &lines
}

#[test]
fn each_growth_has_a_panel() {
    let picture = Growth::read(&fs::read_to_string(TABLE).unwrap())
        .unwrap()
        .draw();
    let picture = Picture::sound(&picture);
    let lines = picture.all("polyline", "stroke", BLUE);
    let points: Vec<usize> = lines.iter().map(|line| line.points().len()).collect();
    assert_eq!(points, [5, 5, 5]);
    assert_eq!(picture.all("circle", "fill", BLUE).len(), 15);
    for text in [
        "Processor time of a margin as a book grows",
        "processor time, ms",
        "trades",
        "curves: 3, scenarios a curve: 343",
        "scenarios a curve",
        "curves: 3, trades: 200",
        "curves",
        "scenarios a curve: 343, trades a curve: 60",
    ] {
        assert!(picture.says(text), "{text}");
    }
}

#[test]
fn points_stand_at_their_size_and_time() {
    let more = "trades,3,400,343,700,193452,4\n";
    let picture = Growth::read(&(table("2") + more)).unwrap().draw();
    let picture = Picture::sound(&picture);
    let line = picture.all("polyline", "stroke", BLUE)[0].points();
    let place = |size, time| {
        let size = picture.label("middle", size).number("x");
        (size, picture.label("end", time).number("y"))
    };
    assert_eq!(line, [place("200", "2"), place("400", "4")]);
}

#[test]
fn only_what_is_held_is_said_to_be() {
    let more = "trades,4,400,343,700,193452,4\n";
    let picture = Growth::read(&(table("2") + more)).unwrap().draw();
    let picture = Picture::sound(&picture);
    assert!(picture.says("scenarios a curve: 343"));
    assert!(!picture.says("curves: 3, scenarios a curve: 343"));
}

#[test]
fn any_times_are_drawn() {
    for time in ["0", "0.0001", "1e-320", "0.801", "1234.5", "999999999"] {
        let picture = Growth::read(&table(time)).unwrap().draw();
        Picture::sound(&picture);
    }
}

#[test]
fn a_wrong_table_is_refused() {
    let line = |line: &str| table("1") + line;
    for (table, refusal) in [
        (String::new(), "the header is not grows,curves"),
        ("a,b\n".into(), "the header is not grows,curves"),
        (HEADER.into(), "no line where trades grow"),
        (table("NaN"), "line 2: milliseconds is no time: \"NaN\""),
        (table("inf"), "line 2: milliseconds is no time: \"inf\""),
        (table("-1"), "line 2: milliseconds is no time: \"-1\""),
        (
            line("trades,0,1,1,1,1,1\n"),
            "line 5: curves is no count: \"0\"",
        ),
        (
            line("trades,1,x,1,1,1,1\n"),
            "line 5: trades is no count: \"x\"",
        ),
        (
            line("trades,1,1,-1,1,1,1\n"),
            "line 5: scenarios is no count: \"-1\"",
        ),
        (line("books,1,1,1,1,1,1\n"), "line 5: grows is none of "),
        (line("trades,1\n"), "line 5: 2 cells in place of 7"),
        (
            line("trades,1,1,1,1,1,1,1\n"),
            "line 5: 8 cells in place of 7",
        ),
    ] {
        let told = Growth::read(&table).unwrap_err();
        assert!(told.starts_with(refusal), "{told}");
    }
}

fn growth(operands: &[&str]) -> Output {
    let mut program = Command::new(env!("CARGO_BIN_EXE_growth"));
    program.args(operands).output().unwrap()
}

#[test]
fn the_program_draws_the_picture_of_the_documents() {
    let run = growth(&[TABLE]);
    assert!(run.status.success(), "{run:?}");
    let printed = String::from_utf8(run.stdout).unwrap();
    assert_eq!(printed, fs::read_to_string(PICTURE).unwrap());
}

#[test]
fn the_program_says_what_failed_and_prints_nothing() {
    let folder = tempfile::tempdir().unwrap();
    let path = |name| folder.path().join(name).to_str().unwrap().to_string();
    let (wrong, none) = (path("wrong.csv"), path("none.csv"));
    fs::write(&wrong, "a,b\n").unwrap();
    for (operands, status, told) in [
        (vec![], 2, "usage: growth CSV".into()),
        (vec![TABLE, &none], 2, "usage: growth CSV".into()),
        (vec![&wrong], 1, format!("{wrong}: the header is not")),
        (vec![&none], 3, format!("{none}: ")),
    ] {
        let run = growth(&operands);
        assert_eq!(run.status.code(), Some(status), "{run:?}");
        let message = String::from_utf8(run.stderr).unwrap();
        assert!(message.starts_with(&told), "{message}");
        assert!(run.stdout.is_empty());
    }
}
