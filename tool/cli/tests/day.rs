//! A back office's day, as the tool's README and the help show it, and the rest of
//! the help.

mod tool;

use tool::today::{date_in, NOON};
use tool::{example, Desk, Run, DAY_IN_WORDS, DONE, MISUSED, REFUSED};

const README: &str = include_str!("../../README.md");

/// The commands of the first list of five in a text, a line each.
fn commands(text: &str) -> Vec<&str> {
    let lines = text
        .lines()
        .map(|line| line.trim().trim_start_matches("$ "));
    let all: Vec<&str> = lines.collect();
    let runs = all.windows(5);
    let day = runs
        .into_iter()
        .find(|run| run.iter().all(|line| line.starts_with("seddolki ")));
    day.expect("five commands").to_vec()
}

/// Runs a command as it is written, its first word being the tool. What it
/// prints of today is said of the day on which the texts were written.
fn run(desk: &Desk, command: &str) -> Run {
    let words: Vec<&str> = command.split_whitespace().skip(1).collect();
    let run = desk.run_in(&NOON, &words);
    let today = date_in(&NOON).in_words();
    let [out, err] = [run.out, run.err].map(|text| text.replace(&today, DAY_IN_WORDS));
    Run { out, err, ..run }
}

fn done(desk: &Desk, command: &str) -> String {
    let run = run(desk, command);
    assert_eq!((run.status, run.err.as_str()), (DONE, ""), "{command}");
    run.out
}

fn margin_of_the_day(desk: &Desk, commands: &[&str]) -> String {
    let mut last = String::new();
    for command in commands {
        last = done(desk, command);
    }
    last
}

/// The first command of the README that starts so.
fn in_readme(start: &str) -> String {
    let joined = README.replace("\\\n", " ");
    let line = joined.lines().find(|line| line.starts_with(start));
    line.expect("the README has it").to_owned()
}

fn run_readme(desk: &Desk, start: &str) -> String {
    done(desk, &in_readme(start))
}

fn assert_readme_shows(printed: &str) {
    let block = format!("```text\n{printed}```");
    assert!(README.contains(&block), "{printed}");
}

#[test]
fn the_help_shows_a_day_that_runs_as_written() {
    let help = Desk::new().done(&["help"]);
    assert!(
        help.contains("\n  seddolki template curves curves.txt\n"),
        "{help}"
    );
    assert!(help.contains("\n  0  done\n"), "{help}");
    let margin = margin_of_the_day(&Desk::new(), &commands(&help));
    assert!(
        margin.starts_with("account ") && margin.contains("\ncurrency"),
        "{margin}"
    );
    assert_eq!(commands(&help), commands(README));
}

#[test]
fn the_readme_shows_the_margin_that_the_day_ends_with() {
    assert_readme_shows(&margin_of_the_day(&Desk::new(), &commands(README)));
}

#[test]
fn the_readme_shows_the_margin_with_its_trade() {
    let desk = Desk::new();
    margin_of_the_day(&desk, &commands(README));
    assert_readme_shows(&run_readme(&desk, "seddolki preview desk.book"));
}

#[test]
fn the_readme_shows_the_page_of_its_book() {
    let desk = Desk::new();
    margin_of_the_day(&desk, &commands(README));
    assert_readme_shows(&run_readme(&desk, "seddolki statement desk.book"));
}

#[test]
fn the_readme_shows_the_flows_of_a_curve_one_by_one() {
    let desk = Desk::new();
    margin_of_the_day(&desk, &commands(README));
    assert_readme_shows(&run_readme(&desk, "seddolki flows --values desk.book"));
}

/// A folder with an example where the README looks for it.
fn desk_with_example(name: &str) -> Desk {
    let desk = Desk::new();
    let examples = desk.path("examples");
    std::fs::create_dir(&examples).unwrap();
    std::fs::copy(example(name), examples.join(name)).unwrap();
    desk
}

#[test]
fn the_readme_shows_the_flows_of_a_repo_that_pays_inside_its_term() {
    let desk = desk_with_example("repo.book");
    assert_readme_shows(&run_readme(&desk, "seddolki flows examples/repo.book"));
}

#[test]
fn the_readme_shows_the_node_that_its_bond_adds() {
    let desk = desk_with_example("handbook-curve.txt");
    run_readme(&desk, "seddolki new handbook.book");
    assert_readme_shows(&run_readme(&desk, "seddolki bootstrap handbook.book"));
}

#[test]
fn the_readme_shows_a_book_of_another_day_refused_and_taken() {
    let desk = desk_with_example("buyer.book");
    let refused = run(&desk, &in_readme("seddolki margin examples/buyer.book"));
    assert_eq!((refused.status, refused.out.as_str()), (REFUSED, ""));
    assert_readme_shows(&refused.err);
    assert_readme_shows(&run_readme(&desk, "seddolki margin --day "));
}

#[test]
fn the_examples_do_what_their_readme_shows() {
    let readme = std::fs::read_to_string(example("README.md")).unwrap();
    let (_, shown) = readme.split_once("```text\n").unwrap();
    let (shown, _) = shown.split_once("```").unwrap();
    let desk = Desk::new();
    for name in [
        "curve.txt",
        "buyer.csv",
        "wrong-trades.csv",
        "handbook-curve.txt",
    ] {
        std::fs::copy(example(name), desk.path(name)).unwrap();
    }
    for step in shown.split("$ seddolki ").skip(1) {
        let (command, printed) = step.split_once('\n').unwrap();
        let run = run(&desk, &format!("seddolki {command}"));
        assert_eq!(run.out + &run.err, printed, "{command}");
    }
}

#[test]
fn every_command_has_help_a_place_in_the_manual_and_completions() {
    let desk = Desk::new();
    let help = desk.done(&["--help"]);
    let manual = desk.done(&["man"]);
    let completions = desk.done(&["completions", "bash"]);
    let names: Vec<&str> = help
        .lines()
        .skip_while(|line| *line != "Commands:")
        .skip(1)
        .take_while(|line| !line.is_empty())
        .filter_map(|line| line.split_whitespace().next())
        .collect();
    assert_eq!(names.len(), 22, "{names:?}");
    for name in names.iter().filter(|name| **name != "help") {
        assert!(desk
            .done(&[name, "--help"])
            .contains(&format!("Usage: seddolki {name}")));
        assert!(manual.contains(&format!("\n.SS {name}\n")), "{name}");
        assert!(completions.contains(&format!("seddolki__{name}")), "{name}");
    }
    assert!(desk.done(&["--version"]).starts_with("seddolki "));
    assert_eq!(desk.run(&["help", "sell"]).status, MISUSED);
}

#[test]
fn the_completions_are_taken_by_bash() {
    let desk = Desk::new();
    let run = desk.shell("source <(\"$0\" completions bash) && complete -p seddolki");
    assert_eq!(run.status, 0, "{}", run.err);
    assert!(run.out.contains("seddolki"), "{}", run.out);
}

#[test]
fn files_are_completed_where_books_are_due_and_options_behind_dashes() {
    let desk = Desk::new();
    let completed = |words: &str| {
        let run = desk.shell(&format!(
            "source <(\"$0\" completions bash); COMP_WORDS=({words}); \
             COMP_CWORD=$(( ${{#COMP_WORDS[@]}} - 1 )); _seddolki seddolki; echo \"${{COMPREPLY[*]}}\""
        ));
        assert_eq!((run.status, run.err.as_str()), (0, ""));
        run.out
    };
    // bash offers files where nothing else is
    assert_eq!(completed("seddolki check ''"), "\n");
    assert_eq!(completed("seddolki append desk.book ''"), "\n");
    assert_eq!(completed("seddolki preview desk.book ''"), "\n");
    assert_eq!(completed("seddolki preview desk.book --tr"), "--trades\n");
    assert_eq!(completed("seddolki check --d"), "--doubles\n");
    assert_eq!(completed("seddolki margin --d"), "--day\n");
    assert_eq!(completed("seddolki template c"), "curves\n");
    assert_eq!(completed("seddolki mar"), "margin\n");
}

#[test]
fn the_manual_has_the_day_and_the_statuses() {
    let manual = Desk::new().done(&["man"]);
    assert!(manual.starts_with(".TH SEDDOLKI 1"));
    for line in [
        "seddolki margin desk.book",
        "nothing has changed",
        ".SH VALUATION DAY\nA book is for one day",
    ] {
        assert!(manual.contains(line), "{line}");
    }
    // a line of text that starts with a point would be a request of roff
    let requests = [".TH", ".SH", ".SS", ".TP", ".PP", ".nf", ".fi", ".B", ".I"];
    for line in manual.lines().filter(|line| line.starts_with(['.', '\''])) {
        let word = line.split(' ').next().unwrap();
        assert!(requests.contains(&word), "{line}");
    }
}
