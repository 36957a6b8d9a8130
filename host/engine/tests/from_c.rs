//! The engine called from C and C++.

mod c;
mod pages;

use c::{compilers, Compiler, ROOT};
use pages::{full_page, page, EXAMPLES};
use seddolki::Date;
use seddolki_format::{check_of, BLOCK};
use std::fs::{create_dir, read, read_to_string, remove_dir_all, write, File};
use std::path::{Path, PathBuf};
use std::process::{Command, Output, Stdio};
use std::sync::atomic::{AtomicUsize, Ordering};

/// A program, built in a folder that goes with it.
struct Program {
    folder: PathBuf,
}

impl Program {
    fn build(compiler: Compiler, source: &str) -> Self {
        Program::build_from(compiler, source, "")
    }

    /// From a file, or from a text where that is "-".
    fn build_from(compiler: Compiler, source: &str, text: &str) -> Self {
        static BUILT: AtomicUsize = AtomicUsize::new(0);
        let number = BUILT.fetch_add(1, Ordering::Relaxed);
        let name = format!("from_c-{}-{number}", std::process::id());
        let folder = Path::new(env!("CARGO_TARGET_TMPDIR")).join(name);
        create_dir(&folder).unwrap();
        let program = Program { folder };
        let archive = "target/staticlib/libseddolki.a";
        let path = program.path();
        let arguments = [source, "-x", "none", archive, "-o", path.to_str().unwrap()];
        compiler.compile(&arguments, text);
        program
    }

    fn path(&self) -> PathBuf {
        self.folder.join("program")
    }

    fn command(&self, arguments: &[&str]) -> Command {
        let mut command = Command::new(self.path());
        command.current_dir(Path::new(ROOT)).args(arguments);
        command
    }

    /// What it prints; panics unless it ends well.
    fn prints(&self, arguments: &[&str]) -> String {
        let output = self.command(arguments).output().unwrap();
        assert!(output.status.success(), "{output:?}");
        assert_eq!(output.stderr, b"");
        String::from_utf8(output.stdout).unwrap()
    }
}

impl Drop for Program {
    fn drop(&mut self) {
        remove_dir_all(&self.folder).unwrap();
    }
}

#[test]
fn document_01_example_is_built_by_the_names_of_the_header() {
    let absent = |id| format!("curve {id} currency 0 base 0 loss 0 scenario 0 tolerance 0\n");
    let expected = [
        "report 0 account 7\n\
         curve 1 currency 1 base 10000 loss 30000 scenario 2 tolerance 1\n",
        &(2..=8).map(absent).collect::<String>(),
        "currency 1 initial 30000 variation 10000 total -20000\n\
         currency 2 initial 0 variation 0 total 0\n\
         currency 3 initial 0 variation 0 total 0\n",
    ]
    .concat();
    for compiler in compilers() {
        let program = Program::build(compiler, "host/engine/tests/c/example_book.c");
        assert_eq!(program.prints(&["examples/buyer.book"]), expected);
        let other = program.command(&["examples/seller.book"]).output().unwrap();
        assert_eq!(other.status.code(), Some(1));
        assert_eq!(
            other.stderr,
            b"does not hold: the book is that of the file\n"
        );
    }
}

/// That a program of the folder `c`, by each compiler, prints this for a book.
fn assert_prints(program: &str, book: &str, expected: &str) {
    let source = format!("host/engine/tests/c/{program}");
    for compiler in compilers() {
        let program = Program::build(compiler, &source);
        assert_eq!(program.prints(&[book]), expected);
    }
}

#[test]
fn a_trade_is_previewed_by_the_names_of_the_header() {
    let expected = "a wrong check: refused by 2 in block 1\n\
                    a day too late: refused by 9 in block 2\n\
                    no space for a report: refused by 13 in block 0\n\
                    a second trade: initial 60000 variation 20000 total -40000\n\
                    a wrong check: refused by 2 in block 1\n\
                    a day too late: refused by 9 in block 3\n\
                    no room for a block: refused by 15 in block 0\n\
                    no space for a report: refused by 13 in block 0\n\
                    a tenth trade: initial 300000 variation 100000 total -200000\n";
    assert_prints("preview.c", "examples/buyer.book", expected);
}

#[test]
fn a_curve_is_lengthened_by_the_names_of_the_header() {
    let expected = "a curve that the book lacks: refused by 8 in block 0\n\
                    no payments: refused by 9 in block 0\n\
                    a term: refused by 10 in block 0\n\
                    a payment too large: refused by 12 in block 0\n\
                    a component too large: refused by 6 in block 0\n\
                    no cash: refused by 10 in block 0\n\
                    an end within the curve: refused by 17 in block 0\n\
                    too little cash: refused by 18 in block 0\n\
                    3 nodes, the last on day 1095 at 250000, moved by 250000 -1 2\n";
    assert_prints("bootstrap.c", "examples/buyer.book", expected);
}

/// A curve's figures as the program of a repo prints them.
const NOTHING: &str = "base 0 loss 0 scenario 0 tolerance 0";
const PAID_OUT: &str = "base -288000 loss 112000 scenario 0 tolerance 2";
const TAKEN_IN: &str = "base 288000 loss 138000 scenario 2 tolerance 2";
const LAST_IN: &str = "base 614400 loss 464400 scenario 2 tolerance 1";
const LAST_OUT: &str = "base -614400 loss 585600 scenario 0 tolerance 1";
const ALL_OUT: &str = "base -928000 loss 472000 scenario 0 tolerance 2";
const ALL_IN: &str = "base 928000 loss 528000 scenario 2 tolerance 2";
const BORROWED: &str = "base 88000 loss 513000 scenario 0 tolerance 1";
const LENT: &str = "base -88000 loss 555750 scenario 2 tolerance 1";
const OWED: &str = "base -912000 loss 513000 scenario 0 tolerance 1";
const DUE: &str = "base 912000 loss 555750 scenario 2 tolerance 1";

/// The trade, the payments' curve, the cash curve, and the total of both.
const REPOS: [(&str, &str, &str, i64); 12] = [
    ("kind 3 phase 1 side 1", PAID_OUT, BORROWED, -825_000),
    ("kind 3 phase 1 side 2", TAKEN_IN, LENT, -493_750),
    ("kind 3 phase 2 side 1", LAST_IN, OWED, -1_275_000),
    ("kind 3 phase 2 side 2", LAST_OUT, DUE, -843_750),
    ("kind 2 phase 2 side 1", PAID_OUT, BORROWED, -825_000),
    ("kind 2 phase 2 side 2", TAKEN_IN, LENT, -493_750),
    ("kind 2 phase 3 side 1", LAST_IN, OWED, -1_275_000),
    ("kind 2 phase 3 side 2", NOTHING, NOTHING, 0),
    // the bond that pays its last on value day 2
    ("kind 3 phase 1 side 1", ALL_OUT, BORROWED, -1_825_000),
    ("kind 3 phase 1 side 2", ALL_IN, LENT, -243_750),
    ("kind 3 phase 2 side 1", NOTHING, OWED, -1_425_000),
    ("kind 3 phase 2 side 2", NOTHING, DUE, 356_250),
];

/// The head of the program works the figures out.
#[test]
fn payments_in_the_term_of_a_repo_are_margined_by_the_names_of_the_header() {
    let line =
        |(trade, payments, cash, total)| format!("{trade}: {payments}; {cash}; total {total}\n");
    let margins: String = REPOS.into_iter().map(line).collect();
    let answers = "on value day 1: refused by 9 in block 3\n\
                   after value day 1: accepted\n\
                   settled, on day 0: refused by 9 in block 3\n\
                   settled, after day 0: accepted\n\
                   too large after value day 2: accepted\n\
                   settled, too large after value day 2: refused by 12 in block 3\n\
                   settled, too large on value day 2: accepted\n\
                   too large on value day 2: refused by 12 in block 3\n";
    let expected = margins + answers;
    assert_prints("coupons_in_term.c", "examples/repo.book", &expected);
}

/// Nine wrong calls, and the same without what is wrong, on six other days.
#[test]
fn a_book_for_another_day_is_refused_by_the_names_of_the_header() {
    let line = |day| format!("day {day}: {} calls refused by 19\n", 9 * 2 * 6);
    let expected = [0, 9_816, 0x0102_0304, u32::MAX].map(line).concat();
    assert_prints("valuation_day.c", "examples/repo.book", &expected);
}

#[test]
fn account_statements_are_written_by_the_names_of_the_header() {
    let books = EXAMPLES.map(|(name, _)| format!("examples/{name}.book"));
    let books = books.each_ref().map(String::as_str);
    let pages: String = EXAMPLES.iter().map(|(_, lines)| page(lines)).collect();
    let expected = pages + &full_page();
    for compiler in compilers() {
        let program = Program::build(compiler, "host/engine/tests/c/statement.c");
        assert_eq!(program.prints(&books), expected);
    }
}

/// A line for each date of a year, as the program prints it.
fn dates_of(year: u32) -> String {
    let line = |month, day_of_month| {
        let date = Date::from_calendar(year, month, day_of_month)?;
        Some(format!("{year} {month} {day_of_month}: {}\n", date.days()))
    };
    let months = 1..=12;
    months
        .flat_map(|month| (1..=31).filter_map(move |day| line(month, day)))
        .collect()
}

#[test]
fn days_to_a_date_are_counted_as_in_rust() {
    let last = Date::LAST.calendar().0;
    let near_the_last = last - 1..=last + 1;
    let years = (1_998..=2_105).chain(2_399..=2_401).chain(near_the_last);
    let years: Vec<u32> = years.chain([1, u32::MAX]).collect();
    let expected: String = years.iter().map(|year| dates_of(*year)).collect();
    let asked: Vec<String> = years.iter().map(u32::to_string).collect();
    let asked: Vec<&str> = asked.iter().map(String::as_str).collect();
    for compiler in compilers() {
        let program = Program::build(compiler, "host/engine/tests/c/dates.c");
        assert_eq!(program.prints(&asked), expected);
    }
}

/// A line of a type's name, a number, and its bytes.
fn line(name: &str, number: i128, bytes: &[u8]) -> String {
    let bytes: String = bytes.iter().map(|byte| format!(" {byte:02x}")).collect();
    format!("{name} {number}{bytes}\n")
}

macro_rules! lines {
    ($($type:ident: $($number:expr),*;)*) => {
        [$($({
            let number: $type = $number;
            line(stringify!($type), number.into(), &number.to_le_bytes())
        }),*),*].concat()
    };
}

#[test]
fn fields_are_set_and_got_as_in_rust() {
    let fields = lines! {
        u16: 0, 0x0102, u16::MAX;
        u32: 0, 0x0102_0304, u32::MAX;
        u64: 0, 0x0102_0304_0506_0708, u64::MAX;
        i32: i32::MIN, -2, 0x0102_0304, i32::MAX;
        i64: i64::MIN, -2, 0x0102_0304_0506_0708, i64::MAX;
    };
    let check = |filling| {
        let check = check_of(&[filling; BLOCK]);
        line("check", check.into(), &check.to_le_bytes())
    };
    let expected = fields + &check(0) + &check(0xff);
    for compiler in compilers() {
        let program = Program::build(compiler, "host/engine/tests/c/fields.c");
        assert_eq!(program.prints(&[]), expected);
    }
}

/// The example, built by each compiler of C.
fn totals() -> impl Iterator<Item = Program> {
    let of_c = compilers().into_iter().filter(|c| c.language == "c");
    of_c.map(|compiler| Program::build(compiler, "examples/totals.c"))
}

fn assert_fails(output: Output, message: &str) {
    assert_eq!(String::from_utf8(output.stderr).unwrap(), message);
    assert_eq!(output.status.code(), Some(1));
    assert_eq!(output.stdout, b"");
}

/// The example as it would be with the header of another version.
#[test]
fn the_example_in_c_asks_the_archive_for_its_version() {
    let other = "#endif\n#undef SEDDOLKI_VERSION\n#define SEDDOLKI_VERSION 0\n";
    let example = read_to_string(format!("{ROOT}/examples/totals.c")).unwrap();
    let changed = example.replace("#endif\n", other);
    for compiler in compilers().into_iter().filter(|c| c.language == "c") {
        let program = Program::build_from(compiler, "-", &changed);
        let output = program
            .command(&["examples/buyer.book", "2000-01-01"])
            .output();
        assert_fails(
            output.unwrap(),
            "the archive is of another version than seddolki.h\n",
        );
    }
}

#[test]
fn the_example_in_c_prints_the_totals() {
    for program in totals() {
        for (book, date, figures) in [
            (
                "buyer",
                "2000-01-01",
                "initial 30000 variation 10000 total -20000",
            ),
            (
                "repo",
                "2026-11-16",
                "initial 625000 variation -200000 total -825000",
            ),
        ] {
            assert_eq!(
                program.prints(&[&format!("examples/{book}.book"), date]),
                format!(
                    "TRY {figures}\n\
                     USD initial 0 variation 0 total 0\n\
                     EUR initial 0 variation 0 total 0\n"
                )
            );
        }
    }
}

#[test]
fn the_example_in_c_says_why_it_has_no_totals() {
    let failures = [
        (
            "examples/buyer.csv",
            "examples/buyer.csv: refused by ground 1 in block 0\n",
        ),
        ("/dev/zero", "/dev/zero: refused by ground 1 in block 0\n"),
        (
            "examples/repo.book",
            "examples/repo.book: refused by ground 19 in block 0\n",
        ),
        ("examples", "examples: Is a directory\n"),
        (
            "examples/absent.book",
            "examples/absent.book: No such file or directory\n",
        ),
    ];
    for program in totals() {
        for (book, message) in failures {
            let output = program.command(&[book, "2026-11-17"]).output().unwrap();
            assert_fails(output, message);
        }
    }
}

#[test]
fn the_example_in_c_asks_for_a_book_and_a_date() {
    let wrong_dates = [
        "",
        "today",
        "9816",
        "2026-11",
        "2026-02-29",
        "2026-13-01",
        "1999-12-31",
        "2026--1-01",
        "2026-11-16T00",
    ];
    for program in totals() {
        for arguments in [&[][..], &["examples/repo.book"]] {
            let output = program.command(arguments).output().unwrap();
            assert_fails(output, "usage: totals BOOK DATE\n");
        }
        for date in wrong_dates {
            let output = program.command(&["examples/repo.book", date]).output();
            let message = format!("{date}: not a date as 2026-11-16\n");
            assert_fails(output.unwrap(), &message);
        }
    }
}

#[test]
fn the_example_in_c_says_where_a_book_is_wrong() {
    let mut bytes = read(format!("{ROOT}/examples/buyer.book")).unwrap();
    bytes[BLOCK + 20] += 1;
    for program in totals() {
        let book = program.folder.join("wrong.book");
        write(&book, &bytes).unwrap();
        let book = book.to_str().unwrap();
        let message = format!("{book}: refused by ground 2 in block 1\n");
        let output = program.command(&[book, "2000-01-01"]).output().unwrap();
        assert_fails(output, &message);
    }
}

#[test]
fn the_example_in_c_says_that_its_output_is_lost() {
    for program in totals() {
        let mut full = program.command(&["examples/buyer.book", "2000-01-01"]);
        full.stdout(File::options().write(true).open("/dev/full").unwrap());
        let message = "standard output: No space left on device\n";
        assert_fails(full.stderr(Stdio::piped()).output().unwrap(), message);
    }
}
