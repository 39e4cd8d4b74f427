//! The formulas and the classes stand in the header in the order in which they stand in Rust.

use cobalnis::{FloatClass, Formula};

/// The names of the header's enum whose first line is `first`, without their prefix; only that line
/// may have a number of its own.
fn enum_of(first: &'static str, prefix: &str) -> Vec<&'static str> {
    let header = include_str!("../include/cobalnis/numbers.h");
    let at = header.find(first).expect("the enum");
    let names = header[at..].split_once('}').expect("its end").0.split(',');
    let bare = |name: &'static str| {
        let name = name.trim().trim_end_matches(" = 0");
        name.strip_prefix(prefix).expect("a name and no number")
    };
    names.map(bare).collect()
}

#[test]
fn classes_as_in_the_header() {
    let in_header = enum_of("COBALNIS_CLASS_ZERO,", "COBALNIS_CLASS_");
    let here = FloatClass::ALL.map(|class| format!("{class:?}").to_uppercase());
    assert_eq!(in_header, here);
    for (number, class) in (0..).zip(FloatClass::ALL) {
        assert_eq!(class as u32, number);
    }
}

#[test]
fn formulas_as_in_the_header() {
    let in_header = enum_of("COBALNIS_FORMULA_SQRT = 0,", "COBALNIS_FORMULA_");
    let here: Vec<String> = Formula::ALL
        .iter()
        .map(|f| f.name().to_uppercase())
        .collect();
    assert_eq!(in_header, here);
    for (number, formula) in (0..).zip(Formula::ALL) {
        assert_eq!(formula.number(), number);
        assert_eq!(Formula::of(number), Some(*formula));
    }
    assert_eq!(Formula::of(Formula::ALL.len() as u32), None);
}
