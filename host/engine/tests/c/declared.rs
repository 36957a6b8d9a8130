//! What the C header declares, read from its text.

use crate::c::ROOT;
use std::collections::BTreeMap;

/// Numbers by their names, without SEDDOLKI_.
pub type Numbers = BTreeMap<String, i128>;

/// A field of a struct.
#[derive(Clone, Debug, PartialEq)]
pub struct Field {
    pub name: String,
    /// The type of it, or of each of its items.
    pub type_name: String,
    pub count: usize,
    /// The number with which its comment starts.
    pub offset: usize,
}

pub struct Header {
    lines: Vec<String>,
}

impl Header {
    pub fn read() -> Self {
        let text = std::fs::read_to_string(format!("{ROOT}/include/seddolki.h")).unwrap();
        let lines = text.lines().map(String::from).collect();
        Header { lines }
    }

    /// The names of the engine's functions, in order.
    pub fn functions<'a>(&'a self) -> Vec<&'a str> {
        let after = |line: &'a str| {
            let (before, rest) = line.split_once(" seddolki_")?;
            let declared = ["seddolki_answer", "uint64_t"].contains(&before);
            declared.then(|| rest.split('(').next().unwrap())
        };
        self.lines.iter().filter_map(|line| after(line)).collect()
    }

    /// The values of all enums.
    pub fn enumerators(&self) -> Numbers {
        numbers(self.lines.iter().filter_map(|line| {
            let declared = line.trim().trim_end_matches(',');
            declared.strip_prefix("SEDDOLKI_")?.split_once(" = ")
        }))
    }

    /// The macros that are numbers.
    pub fn macros(&self) -> Numbers {
        let defined = |line| str::strip_prefix(line, "#define SEDDOLKI_")?.split_once(' ');
        let all = self.lines.iter().filter_map(|line| defined(line));
        numbers(all.filter(|(name, _)| *name != "INLINE"))
    }

    /// The structs whose fields have places, by their names without seddolki_.
    pub fn layouts(&self) -> BTreeMap<String, Vec<Field>> {
        let macros = self.macros();
        let mut layouts = BTreeMap::new();
        let mut fields = Vec::new();
        for line in &self.lines {
            if let Some(end) = line.strip_prefix("} seddolki_") {
                let fields = std::mem::take(&mut fields);
                layouts.insert(end.trim_end_matches(';').to_string(), fields);
            }
            fields.extend(field(line, &macros));
        }
        layouts.retain(|_, fields| !fields.is_empty());
        layouts
    }
}

/// Each name may be declared once.
fn numbers<'a>(declared: impl Iterator<Item = (&'a str, &'a str)>) -> Numbers {
    let mut numbers = Numbers::new();
    for (name, number) in declared {
        let before = numbers.insert(name.to_string(), number.parse().unwrap());
        assert_eq!(before, None, "{name} is declared twice");
    }
    numbers
}

/// `    type name[count]; /* offset ...`
fn field(line: &str, macros: &Numbers) -> Option<Field> {
    let (declared, comment) = line.strip_prefix("    ")?.split_once("; ")?;
    let offset = comment.trim_start().strip_prefix("/* ")?;
    let offset = offset.split([':', ' ']).next()?.parse().ok()?;
    let (type_name, name) = declared.split_once(' ')?;
    let (name, count) = name.split_once('[').unwrap_or((name, "1]"));
    Some(Field {
        name: name.to_string(),
        type_name: type_name.to_string(),
        count: count_of(count.trim_end_matches(']'), macros),
        offset,
    })
}

/// A number, or the macro that is one.
fn count_of(written: &str, macros: &Numbers) -> usize {
    match written.strip_prefix("SEDDOLKI_") {
        Some(name) => macros[name].try_into().unwrap(),
        None => written.parse().unwrap(),
    }
}
