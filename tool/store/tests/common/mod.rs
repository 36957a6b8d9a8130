//! What the tests share: folders, what stands in them, and the test itself run
//! again as another process.

// each test file uses a part of it
#![allow(dead_code)]

use seddolki_store::{edit, Failure, Patience};
use std::fs;
use std::os::unix::fs::{MetadataExt, PermissionsExt};
use std::os::unix::process::{CommandExt, ExitStatusExt};
use std::path::{Path, PathBuf};
use std::process::{Command, Output};
use std::time::Duration;
use tempfile::TempDir;

/// The largest file that the tests read.
pub const MOST: usize = 1 << 20;

/// No test that uses it has anything to wait for.
pub const AT_ONCE: Patience = Patience {
    wait: Duration::ZERO,
    say: &|line| panic!("{line}"),
};

/// A new folder, that everybody may write in.
pub fn open_folder() -> TempDir {
    let folder = tempfile::tempdir().unwrap();
    set_mode(folder.path(), 0o777);
    folder
}

/// A new folder with one file in it.
pub fn folder_with(name: &str, bytes: &[u8]) -> (TempDir, PathBuf) {
    let folder = open_folder();
    let path = folder.path().join(name);
    fs::write(&path, bytes).unwrap();
    (folder, path)
}

pub fn set_mode(path: &Path, mode: u32) {
    fs::set_permissions(path, fs::Permissions::from_mode(mode)).unwrap();
}

pub fn mode(path: &Path) -> u32 {
    fs::symlink_metadata(path).unwrap().mode() & 0o7777
}

/// All names in a folder, in order.
pub fn names(folder: &Path) -> Vec<String> {
    let entries = fs::read_dir(folder).unwrap();
    let name = |entry: std::io::Result<fs::DirEntry>| entry.unwrap().file_name();
    let mut names: Vec<String> = entries
        .map(|entry| name(entry).to_string_lossy().into_owned())
        .collect();
    names.sort();
    names
}

/// The names of temporary files in a folder.
pub fn leftovers(folder: &Path) -> Vec<String> {
    let mut names = names(folder);
    names.retain(|name| name.starts_with(".seddolki-"));
    names
}

/// All that can be seen of a file: it must not change where it is refused.
pub fn state(path: &Path) -> (u64, u32, u32, u64, i64, Vec<u8>) {
    let found = fs::symlink_metadata(path).unwrap();
    let bytes = if found.is_file() {
        fs::read(path).unwrap()
    } else {
        Vec::new()
    };
    (
        found.ino(),
        found.mode(),
        found.uid(),
        found.nlink(),
        found.ctime_nsec(),
        bytes,
    )
}

/// Gives a file new bytes by an edit.
pub fn edit_to(path: &Path, bytes: &[u8]) -> Result<(), Failure> {
    edit(path, MOST, &AT_ONCE, |_| Ok((bytes.to_vec(), ())))
}

pub fn reason<T>(result: Result<T, Failure>) -> String {
    match result {
        Ok(_) => panic!("it was not refused"),
        Err(failure) => failure.to_string(),
    }
}

pub fn make_fifo(path: &Path) {
    run(Command::new("mkfifo").arg(path));
}

/// Runs a command that has to succeed.
pub fn run(command: &mut Command) -> Output {
    let output = command.output().unwrap();
    let text = String::from_utf8_lossy(&output.stdout);
    let errors = String::from_utf8_lossy(&output.stderr);
    assert!(output.status.success(), "{command:?}:\n{text}{errors}");
    output
}

const GIVEN: &str = "STORE_TEST_PATH";

/// A test run again, as another process, with a path.
pub fn again<Test: Fn()>(_: Test, path: &Path) -> Command {
    let name = std::any::type_name::<Test>();
    let (_, name) = name.split_once("::").unwrap();
    // by this name whoever runs it needs no way through the build's folders
    let mut command = Command::new("/proc/self/exe");
    command
        .args(["--exact", name, "--nocapture"])
        .env(GIVEN, path);
    command
}

/// The path that a test has when it is run again.
pub fn given() -> Option<PathBuf> {
    std::env::var_os(GIVEN).map(PathBuf::from)
}

pub fn is_root() -> bool {
    fs::metadata("/proc/self").unwrap().uid() == 0
}

/// The user and the group nobody.
pub const NOBODY: u32 = 65534;

/// The same test by a user without privileges.
pub fn again_unprivileged(test: impl Fn(), path: &Path) -> Command {
    let mut command = again(test, path);
    if is_root() {
        command.uid(NOBODY).gid(NOBODY);
    }
    command
}

/// A library that makes calls of the C library fail.
pub struct Faults {
    folder: TempDir,
}

impl Faults {
    pub fn build() -> Faults {
        let folder = tempfile::tempdir().unwrap();
        let source = concat!(env!("CARGO_MANIFEST_DIR"), "/tests/common/faults.c");
        let mut compiler = Command::new("cc");
        compiler.args(["-shared", "-fPIC", source, "-ldl", "-o"]);
        run(compiler.arg(folder.path().join("faults.so")));
        Faults { folder }
    }

    /// A test run again, where a call gives an error by its number.
    pub fn again(&self, test: impl Fn(), path: &Path, call: &str, error: &str) -> Command {
        let mut command = again(test, path);
        command
            .env("LD_PRELOAD", self.folder.path().join("faults.so"))
            .env("FAULT", call)
            .env("FAULT_ERROR", error);
        command
    }

    /// The same, killed at the call.
    pub fn kill(&self, test: impl Fn(), path: &Path, call: &str) {
        let output = self.again(test, path, call, "kill").output().unwrap();
        assert_eq!(output.status.signal(), Some(KILLED), "{output:?}");
    }
}

const KILLED: i32 = 9;

/// A command after a line of shell that changes what the process may do.
pub fn through_shell(line: &str, command: Command) -> Command {
    let mut shell = Command::new("sh");
    let script = format!("{line}; exec \"$0\" \"$@\"");
    let program = fs::canonicalize(command.get_program()).unwrap();
    shell.arg("-c").arg(script).arg(program);
    shell.args(command.get_args());
    for (name, value) in command.get_envs() {
        shell.env(name, value.unwrap());
    }
    shell
}
