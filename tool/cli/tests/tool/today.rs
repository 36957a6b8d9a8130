//! Runs on the date of the day.

use super::{finish, Desk, Run};
use seddolki::Date;
use std::process::Command;
use std::sync::LazyLock;
use std::time::{SystemTime, UNIX_EPOCH};

/// A time zone in which it is noon by now, so that no test runs over midnight.
pub static NOON: LazyLock<String> = LazyLock::new(|| {
    let now = SystemTime::now().duration_since(UNIX_EPOCH).unwrap();
    let hour = (now.as_secs() / 3_600 % 24) as i64;
    // hours west of Greenwich
    format!("NOON{:+}", hour - 12)
});

/// The date that the system has in a time zone.
pub fn date_in(zone: &str) -> Date {
    let date = finish(Command::new("date").arg("+%F").env("TZ", zone));
    date.out.trim_end().parse().unwrap()
}

impl Desk {
    /// Runs with these arguments and no others in a time zone.
    pub fn run_in<S: AsRef<std::ffi::OsStr>>(&self, zone: &str, arguments: &[S]) -> Run {
        finish(self.typed(arguments).env("TZ", zone))
    }
}
