//! No command writes over what it was not asked to write.

mod tool;

use std::fs;
use std::os::unix::fs::symlink;
use tool::{example, Desk, DONE, FAILED, LENGTHEN};

/// Each command that reads a book and writes a file, with the file's name to
/// come behind.
fn readers() -> Vec<Vec<&'static str>> {
    vec![
        vec!["plot", "desk.book", "1"],
        vec!["export", "desk.book"],
        vec!["export", "--curves", "desk.book"],
        vec!["statement", "desk.book", "--to"],
        [&LENGTHEN[..], &["--dry-run", "--plot"]].concat(),
    ]
}

/// The same of every command that writes a file.
fn writers() -> Vec<Vec<&'static str>> {
    [readers(), vec![vec!["template", "curves"]]].concat()
}

fn with_name<'a>(writer: &[&'a str], name: &'a str) -> Vec<&'a str> {
    [writer, &[name]].concat()
}

#[test]
fn a_file_that_is_there_is_kept_unless_force_is_said() {
    for writer in &writers() {
        let desk = Desk::with("desk.book");
        desk.write("out", "my notes");
        let reason = desk.ended(FAILED, &with_name(writer, "out"));
        assert!(
            reason.starts_with("out: ") && reason.contains("--force"),
            "{reason}"
        );
        assert_eq!(desk.read("out"), b"my notes");
        let forced = with_name(writer, "out").into_iter().chain(["--force"]);
        desk.run(&forced.collect::<Vec<_>>());
        assert_ne!(desk.read("out"), b"my notes");
        assert_eq!(desk.files(), ["desk.book", "out"]);
    }
}

#[test]
fn an_input_is_never_written_over_by_any_name() {
    for writer in &readers() {
        for force in [&[][..], &["--force"]] {
            let desk = Desk::with("desk.book");
            let before = desk.read("desk.book");
            symlink("desk.book", desk.path("link")).unwrap();
            fs::hard_link(desk.path("desk.book"), desk.path("hard")).unwrap();
            fs::create_dir(desk.path("folder")).unwrap();
            for name in [
                "desk.book",
                "./desk.book",
                "folder/../desk.book",
                "link",
                "hard",
            ] {
                let arguments = [&with_name(writer, name)[..], force].concat();
                desk.ended(FAILED, &arguments);
                assert_eq!(desk.read("desk.book"), before, "{arguments:?}");
                assert!(desk.path("link").is_symlink());
            }
        }
    }
}

#[test]
fn what_is_no_file_is_written_through() {
    for command in [
        "plot desk.book 1",
        "export desk.book",
        "statement --day $DAY desk.book --to",
    ] {
        let desk = Desk::with("desk.book");
        let run = desk.shell(&format!(
            "mkfifo pipe; timeout 20 cat pipe > got & \
             until test -p pipe; do sleep 0.01; done; \"$0\" {command} pipe; test -p pipe || exit 9; wait"
        ));
        assert_eq!((run.status, run.err.as_str()), (DONE, ""), "{command}");
        let printed = desk.shell(&format!("\"$0\" {command} -"));
        assert_eq!(desk.read("got"), printed.out.as_bytes(), "{command}");
        let null = desk.shell(&format!("\"$0\" {command} /dev/null"));
        assert_eq!(null.status, DONE);
        assert!(!fs::metadata("/dev/null").unwrap().is_file());
        let full = desk.shell(&format!("\"$0\" {command} /dev/full"));
        assert_eq!(full.status, FAILED);
        assert!(
            full.err.starts_with("seddolki: /dev/full: "),
            "{}",
            full.err
        );
    }
}

#[test]
fn a_folder_and_a_link_to_nothing_are_refused() {
    let desk = Desk::with("desk.book");
    symlink("nothing", desk.path("link")).unwrap();
    for name in [".", "link", "nowhere/out"] {
        for force in [&[][..], &["--force"]] {
            desk.ended(FAILED, &[&["export", "desk.book", name], force].concat());
        }
    }
    assert_eq!(desk.files(), ["desk.book", "link"]);
}

#[test]
fn what_is_printed_does_not_go_into_a_book_that_is_read() {
    let desk = Desk::with("desk.book");
    let before = desk.read("desk.book");
    symlink("desk.book", desk.path("link")).unwrap();
    let trades = example("seller.csv");
    for (command, output) in [
        (
            &*format!("preview --day $DAY desk.book --trades '{trades}'"),
            "link",
        ),
        (
            &format!("import --day $DAY --preview desk.book '{trades}'"),
            "link",
        ),
        ("check desk.book", "link"),
        ("margin --day $DAY link", "desk.book"),
        ("export desk.book", "desk.book"),
        ("statement --day $DAY desk.book", "desk.book"),
        ("strike --day $DAY desk.book 0", "desk.book"),
        (&format!("{} --day $DAY", LENGTHEN.join(" ")), "desk.book"),
    ] {
        let run = desk.shell(&format!("\"$0\" {command} >> {output}"));
        assert_eq!(run.status, FAILED, "{command}");
        let reason = "is the file that standard output goes to";
        assert!(run.err.contains(reason), "{}", run.err);
        assert_eq!(desk.read("desk.book"), before);
    }
}
