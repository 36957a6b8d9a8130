//! The C and C++ compilers of the machine, with every warning an error.

use std::io::Write;
use std::path::Path;
use std::process::{Command, Output, Stdio};

pub const ROOT: &str = concat!(env!("CARGO_MANIFEST_DIR"), "/../..");

const WARNINGS: [&str; 5] = ["-Wall", "-Wextra", "-Wpedantic", "-Wconversion", "-Werror"];

/// A compiler, asked for one standard of its language.
#[derive(Clone, Copy, Debug)]
pub struct Compiler {
    program: &'static str,
    pub language: &'static str,
    standard: &'static str,
}

const COMPILERS: [(&str, &str, [&str; 2]); 4] = [
    ("gcc", "c", ["-std=c99", "-std=c11"]),
    ("g++", "c++", ["-std=c++11", "-std=c++17"]),
    ("clang", "c", ["-std=c99", "-std=c11"]),
    ("clang++", "c++", ["-std=c++11", "-std=c++17"]),
];

/// gcc and g++ in any case, the others where the machine has them.
pub fn compilers() -> Vec<Compiler> {
    let asked = |program| ["gcc", "g++"].contains(&program) || is_installed(program);
    let each = COMPILERS.iter().filter(|compiler| asked(compiler.0));
    each.flat_map(|&(program, language, standards)| {
        standards.map(|standard| Compiler {
            program,
            language,
            standard,
        })
    })
    .collect()
}

fn is_installed(program: &str) -> bool {
    Command::new(program).arg("--version").output().is_ok()
}

impl Compiler {
    /// Compiles at the root of the repository. `-` among the arguments is
    /// the source. Panics unless it ends well and has nothing to say.
    pub fn compile(self, arguments: &[&str], source: &str) {
        let output = self.run(arguments, source);
        let said = String::from_utf8_lossy(&output.stderr);
        assert!(output.status.success(), "{self:?}: {said}");
        assert_eq!(said, "", "{self:?}");
    }

    /// The same, whatever becomes of it.
    pub fn run(self, arguments: &[&str], source: &str) -> Output {
        let mut command = Command::new(self.program);
        command.current_dir(Path::new(ROOT)).args(WARNINGS);
        command.args([self.standard, "-Iinclude", "-x", self.language]);
        command.args(arguments).stdin(Stdio::piped());
        command.stdout(Stdio::piped()).stderr(Stdio::piped());
        let mut running = command.spawn().expect("gcc and g++ are installed");
        let mut input = running.stdin.take().unwrap();
        input.write_all(source.as_bytes()).unwrap();
        drop(input);
        running.wait_with_output().unwrap()
    }
}
