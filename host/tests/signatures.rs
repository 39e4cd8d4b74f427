//! The C functions' signatures stand in the header, in src/c/raw.rs and in the library itself
//! (crates/cobalnis_c). The header is the list: the declarations of the others, written as C, are
//! compiled below it, and C refuses two declarations of a name that differ. compare/ holds its own
//! functions to those of src/c/raw.rs in its tests.

mod in_c;

use std::collections::BTreeSet;

use in_c::{compiler, folder, here};

const RAW: &str = include_str!("../src/c/raw.rs");
const LIBRARY: &str = include_str!("../../crates/cobalnis_c/src/lib.rt");

/// The functions of a text of Rust or Rattle: name, arguments' types, answer's type.
fn functions(text: &str) -> Vec<(String, Vec<String>, String)> {
    let mut found = vec![];
    for piece in text.split("fn cobalnis_").skip(1) {
        let (name, rest) = piece.split_once('(').expect("arguments");
        let (arguments, rest) = rest.split_once(") -> ").expect("an answer");
        let end = rest.find([';', '\n']).expect("the answer's end");
        let types = arguments.split(',').filter_map(|argument| {
            let (_, kind) = argument.split_once(':')?;
            Some(kind.trim().to_owned())
        });
        found.push((
            format!("cobalnis_{name}"),
            types.collect(),
            rest[..end].to_owned(),
        ));
    }
    found
}

/// A type as C has it: a slice is a pointer and a length.
fn in_c_words(kind: &str) -> String {
    match kind {
        "u32" => "uint32_t",
        "u64" => "uint64_t",
        "usize" => "size_t",
        "f64" => "double",
        "bool" => "bool",
        "*mut usize" | "&mut usize" => "size_t *",
        "*const f64" => "const double *",
        "*mut f64" => "double *",
        "*const u8" => "const uint8_t *",
        "*mut u8" => "uint8_t *",
        "&[f64]" => "const double *, size_t",
        "&mut [f64]" => "double *, size_t",
        "&[u8]" => "const uint8_t *, size_t",
        "&mut [u8]" => "uint8_t *, size_t",
        "&mut [u64]" => "uint64_t *, size_t",
        "*mut u64" | "&mut u64" => "uint64_t *",
        "*mut [u64; 2]" | "&mut [u64; 2]" => "uint64_t[2]",
        "*mut [u64; 3]" | "&mut [u64; 3]" => "uint64_t[3]",
        "*mut [u64; 4]" | "&mut [u64; 4]" => "uint64_t[4]",
        "*mut SheetWords" | "&mut [u64; SHEET_WORDS]" => "uint64_t[COBALNIS_SHEET_WORDS]",
        "*mut PartWords" | "&mut [u64; PART_WORDS]" => "uint64_t[COBALNIS_PART_WORDS]",
        "*const PartWords" | "&[u64; PART_WORDS]" => "const uint64_t[COBALNIS_PART_WORDS]",
        _ => panic!("no C type for {kind}"),
    }
    .to_owned()
}

/// The declarations of a text, as C.
fn declarations(text: &str) -> String {
    let lines = functions(text).into_iter().map(|(name, types, answer)| {
        let types: Vec<String> = types.iter().map(|kind| in_c_words(kind)).collect();
        let types = if types.is_empty() {
            "void".to_owned()
        } else {
            types.join(", ")
        };
        format!("{} {name}({types});\n", in_c_words(&answer))
    });
    lines.collect()
}

/// The names that the header declares for the archive.
fn names_in_header() -> BTreeSet<String> {
    let raw = include_str!("../include/cobalnis/raw.h");
    let lines = raw
        .lines()
        .filter(|line| line.starts_with("uint32_t ") || line.starts_with("size_t "));
    let names = lines.map(|line| line.split([' ', '(']).nth(1).expect("a name").to_owned());
    names.collect()
}

fn compiles(name: &str, text: &str) -> bool {
    let source = folder(name).join("declared.c");
    let text = format!("#include \"cobalnis.h\"\n{text}int main(void) {{ return 0; }}\n");
    std::fs::write(&source, text).expect("a file");
    let mut compiler = compiler("c11", &here().join("include"));
    let compiler = compiler.arg("-fsyntax-only").arg(&source);
    compiler.output().expect("cc").status.success()
}

#[test]
fn copies_are_the_header_s() {
    let names = names_in_header();
    assert_eq!(names.len(), 20);
    for (file, text) in [("raw.rs", RAW), ("lib.rt", LIBRARY)] {
        let here: BTreeSet<String> = functions(text).into_iter().map(|f| f.0).collect();
        assert_eq!(here, names, "{file}");
        assert!(
            compiles(file, &declarations(text)),
            "{file}\n{}",
            declarations(text)
        );
    }
}

/// What is compiled tells a difference: each declaration with one argument less, or another answer,
/// is refused.
#[test]
fn differences_are_refused() {
    let all = declarations(RAW);
    for (at, line) in all.lines().enumerate() {
        let less = match line.rsplit_once(',') {
            Some((first, _)) => format!("{first});\n"),
            None => line
                .replace("(void)", "(int)")
                .replace("(uint64_t)", "(void)"),
        };
        let other = format!("double{}\n", &line[line.find(' ').expect("a name")..]);
        for (kind, text) in [("less", less), ("other", other)] {
            assert!(!compiles(&format!("{kind}{at}"), &text), "{text}");
        }
    }
}
