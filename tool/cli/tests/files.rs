//! What an edit does to files: the book changes whole or not at all, and
//! nothing else changes.

mod tool;

use std::fs::{self, Permissions};
use std::os::unix::fs::{chown, symlink, MetadataExt, PermissionsExt};
use std::os::unix::process::CommandExt;
use std::process::Command;
use tool::{example, finish, on_day, outright, Desk, Run, DONE, FAILED, LENGTHEN};

const NOBODY: u32 = 65534;

/// Lets no file grow, so that writes fail.
const NO_ROOM: &str = "ulimit -f 0; trap '' XFSZ;";

fn set_mode(desk: &Desk, name: &str, mode: u32) {
    fs::set_permissions(desk.path(name), Permissions::from_mode(mode)).unwrap();
}

/// Runs as a user who is not root. The tests run as root in the gate; where
/// they do not, as who they are.
fn run_unprivileged(desk: &Desk, arguments: &[&str]) -> Run {
    if !is_root(desk) {
        return desk.run(arguments);
    }
    // the tool itself may stand where others may not go
    let reachable = tempfile::tempdir().unwrap();
    fs::set_permissions(reachable.path(), Permissions::from_mode(0o755)).unwrap();
    let copy = reachable.path().join("seddolki");
    // by another process: what this one writes may still be open in what another
    // test starts at that moment, and a program that is open to be written does not run
    let copied = finish(Command::new("cp").arg(tool::tool()).arg(&copy));
    assert_eq!(copied.status, DONE, "{}", copied.err);
    let mut command = Command::new(copy);
    command.args(on_day(arguments)).current_dir(desk.path("."));
    finish(command.uid(NOBODY).gid(NOBODY))
}

fn is_root(desk: &Desk) -> bool {
    fs::metadata(desk.path(".")).unwrap().uid() == 0
}

#[test]
fn a_failed_write_leaves_the_book_and_nothing_else() {
    let desk = Desk::with("desk.book");
    let before = desk.read("desk.book");
    let trades = example("seller.csv");
    for command in [
        format!("import --day $DAY desk.book '{trades}'"),
        "strike --day $DAY desk.book 0".to_owned(),
        "amend --day $DAY desk.book 0 nominal=7".to_owned(),
        format!(
            "curves --day $DAY desk.book '{}'",
            example("desk-curves.txt")
        ),
        "plot desk.book 1 curve.svg".to_owned(),
        "statement --day $DAY desk.book --to page.txt".to_owned(),
        format!("{} --day $DAY", LENGTHEN.join(" ")),
        format!(
            "{} --day $DAY --dry-run --plot curve.svg",
            LENGTHEN.join(" ")
        ),
        format!("new --day $DAY new.book '{}'", example("desk-curves.txt")),
    ] {
        let run = desk.shell(&format!("{NO_ROOM} \"$0\" {command}"));
        assert_eq!(
            (run.status, run.out.as_str()),
            (FAILED, ""),
            "{command}: {}",
            run.err
        );
        assert_eq!(run.err.lines().count(), 1);
        assert_eq!(desk.read("desk.book"), before);
        assert_eq!(desk.files(), ["desk.book"], "{command}");
    }
}

#[test]
fn a_planted_link_is_not_followed() {
    let desk = Desk::with("buyer.book");
    desk.write("precious", "precious");
    // under the name that the temporary file of this very process once had
    let run = desk.shell(
        "ln -s precious .buyer.book.$BASHPID.new; exec \"$0\" strike --day $DAY buyer.book 0",
    );
    assert_eq!(run.status, DONE, "{}", run.err);
    assert_eq!(desk.read("precious"), b"precious");
    assert!(!desk.path("buyer.book").is_symlink());
    assert_eq!(desk.trades("buyer.book"), 0);
}

#[test]
fn a_book_that_its_user_may_not_write_is_refused() {
    let desk = Desk::with("buyer.book");
    let before = desk.read("buyer.book");
    set_mode(&desk, ".", 0o777);
    for mode in [0o444, 0o400] {
        set_mode(&desk, "buyer.book", mode);
        let reason = desk.ended(FAILED, &["strike", "buyer.book", "0"]);
        assert!(reason.starts_with("buyer.book: "), "{reason}");
    }
    set_mode(&desk, "buyer.book", 0o644);
    if is_root(&desk) {
        let run = run_unprivileged(&desk, &["strike", "buyer.book", "0"]);
        assert_eq!(run.status, FAILED);
    }
    assert_eq!(desk.read("buyer.book"), before);
    assert_eq!(desk.files(), ["buyer.book"]);
}

#[test]
fn mode_and_owner_stay() {
    let desk = Desk::with("buyer.book");
    set_mode(&desk, ".", 0o777);
    set_mode(&desk, "buyer.book", 0o646);
    if is_root(&desk) {
        chown(desk.path("buyer.book"), Some(12345), Some(54321)).unwrap();
    }
    let owner = || {
        let held = fs::metadata(desk.path("buyer.book")).unwrap();
        (held.uid(), held.gid(), held.mode() & 0o7777)
    };
    let before = owner();
    assert_eq!(desk.append("buyer.book", &outright(5)).status, DONE);
    assert_eq!(owner(), before);
    if is_root(&desk) {
        // nobody may write the book, and may not give a file away
        let bytes = desk.read("buyer.book");
        let run = run_unprivileged(&desk, &["strike", "buyer.book", "1"]);
        assert_eq!(run.status, FAILED, "{}", run.err);
        assert_eq!((owner(), desk.read("buyer.book")), (before, bytes));
        assert_eq!(desk.files(), ["buyer.book"]);
    }
}

#[test]
fn a_book_with_several_hard_links_is_refused_with_the_reason() {
    let desk = Desk::with("buyer.book");
    fs::hard_link(desk.path("buyer.book"), desk.path("other.book")).unwrap();
    let before = desk.read("buyer.book");
    let reason = desk.ended(FAILED, &["strike", "buyer.book", "0"]);
    assert!(reason.contains("2 hard links"), "{reason}");
    assert_eq!(
        [desk.read("buyer.book"), desk.read("other.book")],
        [before.clone(), before]
    );
    fs::remove_file(desk.path("other.book")).unwrap();
    desk.done(&["strike", "buyer.book", "0"]);
}

#[test]
fn a_link_to_a_book_stays_a_link() {
    let desk = Desk::with("buyer.book");
    symlink(desk.path("buyer.book"), desk.path("link.book")).unwrap();
    desk.done(&["strike", "link.book", "0"]);
    assert!(desk.path("link.book").is_symlink());
    assert_eq!(desk.trades("buyer.book"), 0);
}

#[test]
fn a_new_book_never_replaces_a_file() {
    let desk = Desk::with("buyer.book");
    let before = desk.read("buyer.book");
    symlink("nothing", desk.path("link.book")).unwrap();
    for name in ["buyer.book", "link.book"] {
        let reason = desk.ended(FAILED, &["new", name, &example("curve.txt")]);
        assert!(reason.starts_with(&format!("{name}: ")), "{reason}");
    }
    assert_eq!(desk.read("buyer.book"), before);
    assert_eq!(desk.files(), ["buyer.book", "link.book"]);
}

#[test]
fn at_most_one_byte_more_than_the_largest_book_is_read() {
    let desk = Desk::new();
    let endless = desk.shell("ulimit -v 400000; timeout 20 \"$0\" check /dev/zero");
    assert_eq!(endless.status, 1, "{}", endless.err);
    assert!(
        endless.err.contains("refused by ground 1"),
        "{}",
        endless.err
    );
    let long = desk
        .shell("truncate -s 400M long.book; ulimit -v 400000; timeout 20 \"$0\" check long.book");
    assert!(
        long.status == 1 && long.err.contains("refused by ground 1"),
        "{}",
        long.err
    );
    let text = desk.shell("ulimit -v 400000; timeout 20 \"$0\" new --day $DAY new.book /dev/zero");
    assert_eq!(text.status, 1, "{}", text.err);
    assert_eq!(desk.files(), ["long.book"]);
}
