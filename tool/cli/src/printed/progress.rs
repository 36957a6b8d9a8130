//! Work on several books at once, on all cores.

use crate::ended::{Ended, DONE};
use crate::parallel::on_all_cores;
use indicatif::{ProgressBar, ProgressStyle};
use seddolki_store::shown;
use std::collections::BTreeSet;
use std::fs;
use std::os::unix::fs::MetadataExt;
use std::path::{Path, PathBuf};

/// What was made of each book, and the exit status of the worst. A bar shows
/// how far it is, on a terminal alone. A book that cannot be taken is told,
/// and does not stop the others.
pub fn over_books<T: Send>(
    paths: &[PathBuf],
    work: impl Fn(&Path) -> Result<T, Ended> + Sync,
) -> Result<(Vec<T>, u8), Ended> {
    named_once(paths)?;
    let bar = bar(paths.len());
    let ended = on_all_cores(paths, |path| {
        let ended = work(path);
        bar.inc(1);
        ended
    });
    bar.finish_and_clear();
    let (mut made, mut worst) = (vec![], DONE);
    for ended in ended {
        match ended {
            Ok(one) => made.push(one),
            Err(ended) => worst = worst.max(ended.told()),
        }
    }
    Ok((made, worst))
}

/// A book that is named twice would count twice.
fn named_once(paths: &[PathBuf]) -> Result<(), Ended> {
    let mut seen = BTreeSet::new();
    for path in paths {
        // one that cannot be looked at is told where it is read
        let Ok(file) = fs::metadata(path) else {
            continue;
        };
        if !seen.insert((file.dev(), file.ino())) {
            return Err(Ended::Misused(format!("{} is named twice", shown(path))));
        }
    }
    Ok(())
}

/// It draws on standard error, and only where that is a terminal.
fn bar(books: usize) -> ProgressBar {
    if books == 1 {
        return ProgressBar::hidden();
    }
    let style = ProgressStyle::with_template("{bar:40} {pos} of {len} books, {eta} left");
    ProgressBar::new(books as u64).with_style(style.expect("the template is well formed"))
}
