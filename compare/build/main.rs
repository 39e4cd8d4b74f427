//! Builds the original from its own source text. Nothing of that text is kept here: the items that
//! docs/REFERENCE.md names, with the private helpers under them, are cut out of it into three modules
//! in cargo's own output folder.
//!
//! - `original_plain`: the items as they stand.
//! - `original_fixed`: the same, with calls of `ln`, `powf` and `sin` replaced by the
//!   fixed steps (docs/REFERENCE.md, Fixed steps). `sqrt` stays, the hardware's root being the
//!   nearest one.
//! - `original_watched`: the same again, and `StoneyNose::value_and_slope` first tells src/watch.rs
//!   its nose and Mach number.
//!
//! An item's text is kept to the letter but for three things: attributes and doc comments go
//! (serde and thiserror are not at hand), every item, method and field is made `pub` so that
//! private helpers can be reached, and `AeroError` is reduced to its cases `Domain` and
//! `Unsupported`, the only ones that these items give.
//!
//! The source is looked for in the folder that HPR_SOURCE names, else in ../../shared/docs/src
//! beside the repository.

mod code;
mod items;
mod source;

use std::path::PathBuf;
use std::{env, fs};

use code::{code_mask, find_code};
use items::{
    DRAG_ITEMS, ERROR_CASES, ERROR_ITEMS, NOSE_DRAG_ITEMS, SHAPES_CONSTANTS, SHAPES_ITEMS,
    UNKNOWN_CALLS,
};
use source::Source;

fn main() {
    println!("cargo::rerun-if-changed=build");
    println!("cargo::rerun-if-env-changed=HPR_SOURCE");
    let root = source_root();
    let aero = root.join("crates/hpr-aero/src");
    let design = root.join("crates/hpr-design/src");
    let error = Source::read(&aero.join("error.rs"));
    let drag = Source::read(&aero.join("drag.rs"));
    let nose_drag = Source::read(&aero.join("nose_drag.rs"));
    let shapes = Source::read(&design.join("shapes.rs"));

    let mut plain = String::from("// Cut out of the original's source text by build/main.rs.\n\n");
    plain.push_str(&error.cases("enum AeroError", ERROR_CASES));
    plain.push_str(&error.items(ERROR_ITEMS));
    plain.push_str(&shapes.items(SHAPES_ITEMS));
    plain.push_str(&shapes.constants("impl NoseShape", SHAPES_CONSTANTS));
    plain.push_str(&drag.items(DRAG_ITEMS));
    plain.push_str(&nose_drag.items(NOSE_DRAG_ITEMS));
    let code = code_mask(&plain);
    for call in UNKNOWN_CALLS {
        if find_code(&plain, &code, call, 0).is_some() {
            panic!("the original's text now calls `{call}..)`, for which there is no fixed step");
        }
    }

    let mut fixed = String::from("#[allow(unused_imports)]\nuse crate::fixed::Fixed as _;\n\n");
    fixed.push_str(&replace_calls(&plain));
    let out = PathBuf::from(env::var_os("OUT_DIR").expect("cargo sets OUT_DIR"));
    for (name, text) in [
        ("original_plain.rs", &plain),
        ("original_watched.rs", &watch_lookups(&fixed)),
        ("original_fixed.rs", &fixed),
    ] {
        fs::write(out.join(name), text).expect("writing into OUT_DIR");
    }
}

/// The folder of the original's source, as HPR_SOURCE says or beside the repository.
fn source_root() -> PathBuf {
    let (root, how) = match env::var_os("HPR_SOURCE") {
        Some(path) => (PathBuf::from(path), "which HPR_SOURCE names"),
        None => {
            let here = PathBuf::from(env::var_os("CARGO_MANIFEST_DIR").expect("cargo sets it"));
            (
                here.join("../../shared/docs/src"),
                "the default, HPR_SOURCE not being set",
            )
        }
    };
    if !root.join("crates/hpr-aero/src/drag.rs").is_file() {
        panic!(
            "the original's source is not in {} ({how}): set HPR_SOURCE to the folder that holds \
             crates/hpr-aero/src/drag.rs",
            root.display()
        );
    }
    root
}

/// `.ln()`, `.powf(` and `.sin()` become the methods of the fixed steps.
fn replace_calls(text: &str) -> String {
    let mut text = text.to_string();
    for (call, fixed) in [
        (".ln()", ".fixed_ln()"),
        (".powf(", ".fixed_powf("),
        (".sin()", ".fixed_sin()"),
    ] {
        let mut from = 0;
        let mut count = 0;
        loop {
            let code = code_mask(&text);
            let Some(at) = find_code(&text, &code, call, from) else {
                break;
            };
            text.replace_range(at..at + call.len(), fixed);
            from = at + fixed.len();
            count += 1;
        }
        if count == 0 {
            panic!(
                "the original's text calls no `{call}`: it is not what this file was written for"
            );
        }
    }
    text
}

/// A table's lookup begins by telling its nose and its Mach number.
fn watch_lookups(text: &str) -> String {
    const TABLES: &str = "impl StoneyNose {";
    const LOOKUP: &str = "fn value_and_slope(self, mach: f64) -> (f64, f64) {";
    let code = code_mask(text);
    let tables = find_code(text, &code, TABLES, 0);
    let lookup = tables.and_then(|from| find_code(text, &code, LOOKUP, from));
    let Some(at) = lookup else {
        panic!("the original has no `{LOOKUP}` in its `{TABLES}`");
    };
    let mut text = text.to_string();
    text.insert_str(
        at + LOOKUP.len(),
        "\n        crate::watch::note(self, mach);",
    );
    text
}
