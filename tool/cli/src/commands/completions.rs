//! Completions for shells.

use crate::arguments::{Arguments, Completions};
use crate::ended::Ended;
use crate::printed::print;
use clap::CommandFactory;
use clap_complete::Shell;

pub fn run(arguments: &Completions) -> Result<(), Ended> {
    let mut script = vec![];
    let mut command = Arguments::command();
    clap_complete::generate(arguments.shell, &mut command, "seddolki", &mut script);
    let script = String::from_utf8_lossy(&script);
    match arguments.shell {
        Shell::Bash => print::result(&with_files(&script)),
        _ => print::result(&script),
    }
}

/// For bash the library offers the names of operands as words; where a
/// command takes nothing but options and files, files are offered.
fn with_files(script: &str) -> String {
    let (mut text, mut files) = (String::new(), false);
    for line in script.lines() {
        let mut line = line.to_owned();
        if let Some((start, words)) = line.split_once("opts=\"") {
            let words: Vec<&str> = words.trim_end_matches('"').split(' ').collect();
            let named = |word: &&&str| word.starts_with(['<', '[']);
            let plain: Vec<&str> = words.iter().filter(|word| !named(word)).copied().collect();
            files = words.len() > plain.len() && plain.iter().all(|word| word.starts_with('-'));
            line = format!("{start}opts=\"{}\"", plain.join(" "));
        } else if files {
            line = line.replace(" || ${COMP_CWORD} -eq 2", "");
            if line == LAST_WORDS {
                line = "            COMPREPLY=()".to_owned();
            }
        }
        text += &line;
        text.push('\n');
    }
    text
}

/// What a command's part of the script ends with; it stands deeper elsewhere.
const LAST_WORDS: &str = "            COMPREPLY=( $(compgen -W \"${opts}\" -- \"${cur}\") )";
