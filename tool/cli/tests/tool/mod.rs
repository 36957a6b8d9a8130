//! The tool, run in a directory of its own.

#![allow(dead_code)] // no test uses all of it

pub mod term_repo;
pub mod today;

use seddolki::Date;
use seddolki_format::block::{sealed, Header, BLOCK};
use seddolki_format::layout::Layout;
use serde_json::Value;
use std::ffi::OsString;
use std::fs::{self, File};
use std::io::{Seek, Write};
use std::os::unix::process::ExitStatusExt;
use std::path::{Path, PathBuf};
use std::process::{Command, Output, Stdio};
use tempfile::TempDir;

pub const DONE: i32 = 0;
pub const REFUSED: i32 = 1;
pub const MISUSED: i32 = 2;
pub const FAILED: i32 = 3;

/// The day of every book, and of every run that works on a day, where a test
/// says no other.
pub const DAY: &str = "2026-11-16";
pub const DAY_IN_WORDS: &str = "16 November 2026";

/// The commands that work on a day.
pub const ON_DAY: [&str; 11] = [
    "new",
    "append",
    "import",
    "preview",
    "amend",
    "strike",
    "curves",
    "bootstrap",
    "margin",
    "statement",
    "losses",
];

/// A directory that goes with its test.
pub struct Desk {
    directory: TempDir,
}

/// A folder's lock. A run that another test is just starting may have the
/// folder open too, so that closing it would not end the lock.
pub struct Locked(File);

impl Drop for Locked {
    fn drop(&mut self) {
        self.0.unlock().unwrap();
    }
}

/// What a run printed, and its exit status.
#[derive(Debug)]
pub struct Run {
    pub status: i32,
    pub out: String,
    pub err: String,
}

pub fn example(name: &str) -> String {
    format!("{}/../../examples/{name}", env!("CARGO_MANIFEST_DIR"))
}

/// A book's bytes, for another day.
pub fn for_day(book: &[u8], day: &str) -> Vec<u8> {
    let date: Date = day.parse().unwrap();
    let header = Header {
        valuation_day: date.days(),
        ..Header::decode(book)
    };
    [&sealed(&header), &book[BLOCK..]].concat()
}

/// The arguments with the day said behind the command, where one is due and
/// none is said.
pub fn on_day<S: AsRef<std::ffi::OsStr>>(arguments: &[S]) -> Vec<OsString> {
    let words = arguments.iter().map(|word| word.as_ref().to_owned());
    let mut words: Vec<OsString> = words.collect();
    let command = words.first().and_then(|word| word.to_str());
    let due = command.is_some_and(|command| ON_DAY.contains(&command));
    if due && !words.iter().any(|word| word == "--day") {
        words.splice(1..1, ["--day", DAY].map(OsString::from));
    }
    words
}

/// A buyer's trade that fits the curve of buyer.book, of a nominal of one's own.
pub fn outright(nominal: u32) -> Vec<String> {
    let nominal = format!("nominal={nominal}");
    let words = [
        "kind=outright",
        "side=buyer",
        "cash_curve=1",
        "security=single payment",
        "security_curve=1",
        &nominal,
        "value_day_1=0",
        "first_payment_day=9",
        "clean_price=99",
        "accrued=0",
    ];
    words.map(str::to_owned).to_vec()
}

/// The values of a trade with some columns otherwise.
pub fn changed(values: &[impl AsRef<str>], changed: &[&str]) -> Vec<String> {
    let name = |value: &str| value.split('=').next().unwrap().to_owned();
    let values = values.iter().map(AsRef::as_ref);
    let kept = values.filter(|value| changed.iter().all(|other| name(other) != name(value)));
    kept.chain(changed.iter().copied())
        .map(str::to_owned)
        .collect()
}

/// A file of so many trades that fit the curve of buyer.book, each of another
/// nominal.
pub fn outrights(count: u32) -> String {
    let head = "kind,side,cash_curve,security,security_curve,nominal,value_day_1,\
                first_payment_day,clean_price,accrued\n";
    let line = |nominal: u32| format!("outright,buyer,1,single payment,1,{nominal},0,9,99,0\n");
    head.to_owned() + &(1..=count).map(line).collect::<String>()
}

/// The commands of a help text, each of which may go over several lines.
pub fn commands(help: &str) -> Vec<String> {
    let joined = help.replace("\\\n", " ");
    let lines = joined.lines().map(str::trim);
    let commands = lines.filter_map(|line| line.strip_prefix("seddolki "));
    commands.map(str::to_owned).collect()
}

/// Lengthens the first curve of desk.book by a bond's price.
pub const LENGTHEN: [&str; 15] = [
    "bootstrap",
    "desk.book",
    "--curve",
    "1",
    "--cash",
    "1040000",
    "--components",
    "2",
    "-1.6",
    "0",
    "nominal=1000000",
    "first_payment_day=120",
    "period=182",
    "payments=21",
    "coupon=6",
];

impl Desk {
    pub fn new() -> Self {
        let directory = tempfile::tempdir().unwrap();
        Desk { directory }
    }

    /// With the book of an example.
    pub fn with(name: &str) -> Self {
        let desk = Desk::new();
        desk.copy(name, name);
        desk
    }

    /// With desk.book, of the files to start from.
    pub fn started() -> Self {
        let desk = Desk::new();
        for command in [
            "template curves curves.txt",
            "template trades trades.csv",
            "new desk.book curves.txt",
            "import desk.book trades.csv",
        ] {
            desk.done(&command.split_whitespace().collect::<Vec<_>>());
        }
        desk
    }

    /// Copies the book of an example.
    pub fn copy(&self, name: &str, to: impl AsRef<Path>) {
        let book = fs::read(example(name)).unwrap();
        self.write(to, for_day(&book, DAY));
    }

    pub fn path(&self, name: impl AsRef<Path>) -> PathBuf {
        self.directory.path().join(name)
    }

    pub fn write(&self, name: impl AsRef<Path>, content: impl AsRef<[u8]>) {
        fs::write(self.path(name), content).unwrap();
    }

    pub fn read(&self, name: impl AsRef<Path>) -> Vec<u8> {
        fs::read(self.path(name)).unwrap()
    }

    /// The lock of the folder as another command has it, until it is dropped.
    pub fn lock(&self) -> Locked {
        let folder = File::open(self.directory.path()).unwrap();
        folder.lock().unwrap();
        Locked(folder)
    }

    /// Names of all files, sorted.
    pub fn files(&self) -> Vec<String> {
        let entries = fs::read_dir(self.directory.path()).unwrap();
        let name = |entry: fs::DirEntry| entry.file_name().to_string_lossy().into_owned();
        let mut names: Vec<String> = entries.map(|entry| name(entry.unwrap())).collect();
        names.sort();
        names
    }

    /// The tool with these arguments and no others, still to be run.
    pub fn typed<S: AsRef<std::ffi::OsStr>>(&self, arguments: &[S]) -> Command {
        let mut command = Command::new(tool());
        command.args(arguments).current_dir(self.directory.path());
        command.stdin(Stdio::null());
        command
    }

    /// The same, with the day said where one is due.
    pub fn tool<S: AsRef<std::ffi::OsStr>>(&self, arguments: &[S]) -> Command {
        self.typed(&on_day(arguments))
    }

    pub fn run<S: AsRef<std::ffi::OsStr>>(&self, arguments: &[S]) -> Run {
        finish(&mut self.tool(arguments))
    }

    /// Runs with this on standard input.
    pub fn run_with<S: AsRef<std::ffi::OsStr>>(&self, input: &str, arguments: &[S]) -> Run {
        let mut file = tempfile::tempfile().unwrap();
        file.write_all(input.as_bytes()).unwrap();
        file.rewind().unwrap();
        finish(self.tool(arguments).stdin(file))
    }

    /// Runs, and expects it done with no word on standard error.
    pub fn done<S: AsRef<std::ffi::OsStr> + std::fmt::Debug>(&self, arguments: &[S]) -> String {
        let run = self.run(arguments);
        assert_eq!((run.status, run.err.as_str()), (DONE, ""), "{arguments:?}");
        run.out
    }

    /// Runs, and expects that exit status, nothing printed, and one line of
    /// reason, which is given.
    pub fn ended<S: AsRef<std::ffi::OsStr> + std::fmt::Debug>(
        &self,
        status: i32,
        arguments: &[S],
    ) -> String {
        let run = self.run(arguments);
        assert_eq!(
            (run.status, run.out.as_str()),
            (status, ""),
            "{arguments:?}: {run:?}"
        );
        let line = run.err.strip_suffix('\n').unwrap();
        assert!(!line.contains('\n'), "{line}");
        line.strip_prefix("seddolki: ").unwrap().to_owned()
    }

    pub fn refused<S: AsRef<std::ffi::OsStr> + std::fmt::Debug>(&self, arguments: &[S]) -> String {
        self.ended(REFUSED, arguments)
    }

    /// The tables that a command prints, as JSON.
    pub fn tables(&self, arguments: &[&str]) -> Value {
        let text = self.done(&[arguments, &["--json"]].concat());
        serde_json::from_str(&text).unwrap()
    }

    /// Appends a trade that the desk's book takes.
    pub fn append(&self, book: &str, values: &[String]) -> Run {
        let mut arguments = vec!["append".to_owned(), book.to_owned()];
        arguments.extend_from_slice(values);
        self.run(&arguments)
    }

    /// How many trades a book has.
    pub fn trades(&self, book: &str) -> usize {
        let book = seddolki::Book::from_bytes(self.read(book));
        book.records().unwrap().count()
    }

    /// Runs a line of shell in the directory, `$0` being the tool and `$DAY`
    /// the day.
    pub fn shell(&self, line: &str) -> Run {
        let mut shell = Command::new("bash");
        shell.args(["-c", line]).arg(tool()).env("DAY", DAY);
        finish(
            shell
                .current_dir(self.directory.path())
                .stdin(Stdio::null()),
        )
    }
}

pub fn tool() -> &'static Path {
    Path::new(env!("CARGO_BIN_EXE_seddolki"))
}

/// Runs to the end.
pub fn finish(command: &mut Command) -> Run {
    ended(command.output().unwrap())
}

/// A run that has ended. A panic ends with 101, which no test expects.
pub fn ended(output: Output) -> Run {
    let Output {
        status,
        stdout,
        stderr,
    } = output;
    let code = status.code().or(status.signal().map(|signal| 128 + signal));
    Run {
        status: code.unwrap(),
        out: String::from_utf8(stdout).unwrap(),
        err: String::from_utf8(stderr).unwrap(),
    }
}
