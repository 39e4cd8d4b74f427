//! The refusals' numbers and words are those of the header and of the table in README.md.

use cobalnis::{Quantity, Refusal};

const ALL: [Refusal; 13] = [
    Refusal::Domain {
        quantity: Quantity::JointAngle,
        value: f64::NAN,
    },
    Refusal::OgiveRatio,
    Refusal::HaackAbove,
    Refusal::Ended,
    Refusal::Reserved,
    Refusal::Field,
    Refusal::ManyColumns,
    Refusal::NoPlace,
    Refusal::ManyParts,
    Refusal::FewCells,
    Refusal::HouseInterval,
    Refusal::FallingMach,
    Refusal::FinishCount,
];

/// A refusal's words; of refusal 1 those before what was refused.
fn words(refusal: &Refusal) -> String {
    let text = refusal.to_string();
    match refusal {
        Refusal::Domain { .. } => text.split(':').next().expect("a first piece").to_owned(),
        _ => text,
    }
}

#[test]
fn in_the_table() {
    let readme = include_str!("../../README.md");
    let table = readme.split("## What a refusal means at the table").nth(1);
    let table = table.expect("the table").replace(" (not from `sheet`)", "");
    let rows: Vec<(u8, &str)> = table
        .lines()
        .filter_map(|line| {
            let cells: Vec<&str> = line.split('|').map(str::trim).collect();
            Some((cells.get(1)?.parse().ok()?, *cells.get(2)?))
        })
        .collect();
    assert_eq!(rows.len(), ALL.len());
    for ((number, text), refusal) in rows.into_iter().zip(ALL) {
        assert_eq!(number, refusal.number());
        match refusal {
            Refusal::Domain { .. } => assert!(text.starts_with(&format!("{}: ", words(&refusal)))),
            _ => assert_eq!(text, words(&refusal)),
        }
    }
}

/// The header's name of a refusal: OgiveRatio is COBALNIS_OGIVE_RATIO.
fn header_name(refusal: &Refusal) -> String {
    let debug = format!("{refusal:?}");
    let mut name = "COBALNIS".to_owned();
    for letter in debug.chars().take_while(|c| c.is_alphabetic()) {
        if letter.is_uppercase() {
            name.push('_');
        }
        name.push(letter.to_ascii_uppercase());
    }
    name
}

#[test]
fn in_the_header() {
    let numbers = include_str!("../include/cobalnis/numbers.h");
    let cases = include_str!("../include/cobalnis/status.h").replace('\n', " ");
    let cases = cases.split_whitespace().collect::<Vec<_>>().join(" ");
    let cases = cases.replace("\" \"", "");
    for refusal in ALL {
        let name = header_name(&refusal);
        let number = format!("{name} = {}", refusal.number());
        assert!(numbers.contains(&number), "{number}");
        let case = format!("case {name}: return \"{}\";", words(&refusal));
        assert!(cases.contains(&case), "{case}");
    }
}

#[test]
fn codes_and_values() {
    for refusal in ALL {
        let [code, value] = match refusal {
            Refusal::Domain { .. } => [3, f64::NAN.to_bits()],
            _ => [0, 0],
        };
        assert_eq!(u64::from(refusal.code()), code);
        assert_eq!(refusal.value().to_bits(), value);
    }
    let refused = ALL[0].to_string();
    assert_eq!(refused, "a number that no formula takes: joint angle NaN");
}

/// No two quantities have the same words.
#[test]
fn quantities_in_words() {
    let mut texts = Quantity::ALL.map(|what| what.to_string());
    texts.sort();
    assert!(texts.windows(2).all(|pair| pair[0] != pair[1]));
}

/// A refusal goes where errors of any kind are expected.
#[test]
fn as_an_error() {
    let boxed: Box<dyn std::error::Error + Send + Sync> = Refusal::HaackAbove.into();
    assert_eq!(boxed.to_string(), "a Haack parameter is above 1/3");
}
