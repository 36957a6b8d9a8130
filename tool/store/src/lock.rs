//! The lock of a folder, and waiting for it.

use crate::failure::words;
use crate::{shown, Failure};
use std::fs::{self, File, TryLockError};
use std::os::unix::fs::MetadataExt;
use std::path::Path;
use std::thread::sleep;
use std::time::{Duration, Instant};

/// How long a command waits for another one's lock, and where it says what
/// stops nothing.
pub struct Patience<'a> {
    /// After this time it gives up.
    pub wait: Duration,
    /// Called with one line, once, if there is something to wait for, and with
    /// what went wrong after a file had its new bytes.
    pub say: &'a dyn Fn(&str),
}

/// How often the lock is tried for.
const PAUSE: Duration = Duration::from_millis(20);

impl Patience<'_> {
    /// Locks a folder for what writes the file at `path`.
    pub(crate) fn lock(&self, path: &Path, folder: &Path, opened: &File) -> Result<(), Failure> {
        let start = Instant::now();
        let mut told = false;
        loop {
            let left = self.wait.saturating_sub(start.elapsed());
            match opened.try_lock() {
                Ok(()) => return Ok(()),
                Err(TryLockError::Error(error)) => {
                    let reason = format!("{} can't be locked: {}", shown(folder), words(&error));
                    return Err(Failure::new(path, reason));
                }
                Err(TryLockError::WouldBlock) if left.is_zero() => {
                    let reason = format!("waited {}", self.waiting(folder, opened));
                    return Err(Failure::new(path, reason));
                }
                Err(TryLockError::WouldBlock) => {}
            }
            if !told {
                let waiting = self.waiting(folder, opened);
                (self.say)(&format!("{}: waiting up to {waiting}", shown(path)));
                told = true;
            }
            sleep(left.min(PAUSE));
        }
    }

    /// How long, for whom, where.
    fn waiting(&self, folder: &Path, opened: &File) -> String {
        let seconds = self.wait.as_secs_f64();
        let process = holder(opened).map(|process| format!(" (process {process})"));
        format!(
            "{seconds} s for another command that is writing in {}{}",
            shown(folder),
            process.unwrap_or_default()
        )
    }
}

/// The process that has a folder's lock, if the system tells.
fn holder(folder: &File) -> Option<u32> {
    let metadata = folder.metadata().ok()?;
    let (major, minor) = device_numbers(metadata.dev());
    let locked = format!("{major:02x}:{minor:02x}:{}", metadata.ino());
    // while other processes change their locks one may be passed over
    (0..3).find_map(|_| listed_holder(&locked))
}

fn listed_holder(locked: &str) -> Option<u32> {
    let locks = fs::read_to_string("/proc/locks").ok()?;
    locks.lines().find_map(|line| {
        let fields: Vec<&str> = line.split_whitespace().collect();
        match fields[..] {
            [_, "FLOCK", _, _, process, file, ..] if file == locked => process.parse().ok(),
            _ => None,
        }
    })
}

/// The two numbers that Linux packs into one.
fn device_numbers(device: u64) -> (u64, u64) {
    let major = (device >> 8) & 0xfff | (device >> 32) & !0xfff;
    let minor = device & 0xff | (device >> 12) & 0xffff_ff00;
    (major, minor)
}

#[cfg(test)]
mod tests {
    use super::device_numbers;

    #[test]
    fn device_numbers_are_unpacked() {
        assert_eq!(device_numbers(0xfe00), (0xfe, 0));
        assert_eq!(device_numbers(0x811), (8, 0x11));
        assert_eq!(device_numbers(0x1230_00cd), (0, 0x1_23cd));
        assert_eq!(device_numbers(0xabcd_e000_000f_ff01), (0xabcd_efff, 1));
    }
}
