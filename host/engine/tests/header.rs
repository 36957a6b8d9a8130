//! The C header declares what the engine has and the format says.

mod c;
#[path = "c/constants.rs"]
mod constants;
#[path = "c/declared.rs"]
mod declared;
#[path = "c/layouts.rs"]
mod layouts;

use c::{compilers, ROOT};
use constants::{add_numbered, add_sizes, limits, values};
use declared::{Field, Header};
use layouts::layouts;
use std::collections::BTreeSet;

// The nine calls, and the version that the archive tells.
#[test]
fn the_nine_functions_are_declared() {
    let functions = [
        "version",
        "check",
        "margin",
        "append",
        "preview",
        "strike",
        "read",
        "present_value",
        "bootstrap",
        "statement",
    ];
    assert_eq!(Header::read().functions(), functions);
}

/// The words that stand between a start and an end in lines of the format's files.
fn named(files: &[&str], start: &str, end: &str) -> BTreeSet<String> {
    let read = |file| std::fs::read_to_string(format!("{ROOT}/host/format/src/{file}.rs"));
    let text: String = files.iter().map(|file| read(file).unwrap()).collect();
    let between = |line: &str| {
        let (name, _) = line.strip_prefix(start)?.split_once(end)?;
        (!name.contains(' ')).then(|| name.to_string())
    };
    text.lines().filter_map(between).collect()
}

#[test]
fn values_and_grounds_are_those_of_the_format() {
    let mut all = values();
    assert_eq!(
        all.names,
        named(&["block", "record", "report"], "pub const ", ": u8 =")
    );
    add_numbered(&mut all);
    assert_eq!(Header::read().enumerators(), all.numbers);
}

#[test]
fn limits_and_sizes_are_those_of_the_format() {
    let mut all = limits();
    assert_eq!(all.names, named(&["limits"], "pub const ", ": "));
    add_sizes(&mut all);
    assert_eq!(Header::read().macros(), all.numbers);
}

/// Whether a field of C is of bytes that the layout does not name.
fn is_unnamed(layout: &str, field: &Field) -> bool {
    let of_a_head = layout == "head" && ["count", "content"].contains(&field.name.as_str());
    of_a_head || field.name.starts_with("zero_after_")
}

#[test]
fn layouts_have_the_fields_of_the_format() {
    let mut declared = Header::read().layouts();
    let mut names = BTreeSet::new();
    for (name, form) in layouts() {
        let mut fields = declared.remove(&name).expect(&name);
        fields.retain(|field| !is_unnamed(&name, field));
        let of_format: Vec<Field> = form.fields.into_iter().map(|(field, _)| field).collect();
        assert_eq!(fields, of_format, "{name}");
        names.insert(form.name.to_string());
    }
    assert!(declared.is_empty(), "{declared:?}");
    let of_format = named(&["block", "record", "report"], "    ", " of ");
    assert_eq!(names, of_format);
}

#[test]
fn bytes_due_to_be_0_are_named_for_the_field_before() {
    for (name, fields) in Header::read().layouts() {
        for pair in fields.windows(2) {
            if let Some(before) = pair[1].name.strip_prefix("zero_after_") {
                assert_eq!(before, pair[0].name, "{name}");
                assert_eq!(pair[1].type_name, "uint8_t", "{name}");
            }
        }
    }
}

/// A declaration that compiles where the condition holds.
fn holds(condition: String) -> String {
    format!("extern char holds[{condition} ? 1 : -1];\n")
}

/// That every field is at the byte of its comment.
fn offsets() -> String {
    let of_layout = |(name, fields): (String, Vec<Field>)| -> String {
        let offset = |field: Field| {
            let (field, offset) = (field.name, field.offset);
            holds(format!("offsetof(seddolki_{name}, {field}) == {offset}"))
        };
        fields.into_iter().map(offset).collect()
    };
    Header::read()
        .layouts()
        .into_iter()
        .map(of_layout)
        .collect()
}

/// That every layout, and every field of it, has the bytes of the format's.
fn sizes() -> String {
    let mut text = String::new();
    for (name, form) in layouts() {
        text += &holds(format!("sizeof(seddolki_{name}) == {}", form.size));
        for (field, size) in form.fields {
            let field = format!("((seddolki_{name} *)0)->{}", field.name);
            text += &holds(format!("sizeof({field}) == {size}"));
        }
    }
    text
}

#[test]
fn compilers_place_the_fields_as_the_format_does() {
    let block = "typedef struct { char first; seddolki_block block; } odd;\n".to_string()
        + &holds("sizeof(odd) == 1 + SEDDOLKI_BLOCK".into());
    let source = "#include \"seddolki.h\"\n".to_string() + &offsets() + &sizes() + &block;
    for compiler in compilers() {
        compiler.compile(&["-fsyntax-only", "-"], &source);
    }
}

#[test]
fn a_program_for_another_version_does_not_compile() {
    let program = std::fs::read_to_string(format!("{ROOT}/examples/totals.c")).unwrap();
    let header = "#include \"seddolki.h\"\n";
    let reason = format!("written for version {}", Header::read().macros()["VERSION"]);
    let other = format!("{header}#undef SEDDOLKI_VERSION\n#define SEDDOLKI_VERSION 0\n");
    assert!(program.contains(header));
    for compiler in compilers().into_iter().filter(|c| c.language == "c") {
        compiler.compile(&["-fsyntax-only", "-"], &program);
        let changed = program.replace(header, &other);
        let output = compiler.run(&["-fsyntax-only", "-"], &changed);
        let said = String::from_utf8_lossy(&output.stderr);
        assert!(!output.status.success(), "{compiler:?}");
        assert!(said.contains(&reason), "{said}");
    }
}

#[test]
fn the_header_alone_gives_no_warning() {
    let common = "-fsyntax-only -Wshadow -Wundef -Wcast-qual -Wcast-align -Wpadded \
                  -Wsign-conversion -Wredundant-decls -Wwrite-strings -Wswitch-default";
    let of_c = "-Wc++-compat -Wstrict-prototypes -Wmissing-prototypes -Wbad-function-cast";
    let of_cpp = "-Wold-style-cast -Wnon-virtual-dtor -Woverloaded-virtual";
    for compiler in compilers() {
        let is_c = compiler.language == "c";
        let own = if is_c { of_c } else { of_cpp };
        let flags = common.split(' ').chain(own.split(' '));
        let arguments: Vec<&str> = flags.chain(["include/seddolki.h"]).collect();
        compiler.compile(&arguments, "");
    }
}
