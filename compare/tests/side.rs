//! A short run of the port against the original: nothing disagrees, what is asked meets every
//! refusal that a function can give, at least half of the parts have a roughness of their own, at
//! least a third of the edits leave a burning sheet, at least half of the sheets have more than one
//! finish, and at least a tenth of the answers that can have a mark have one. The long run is the program `side_by_side`.

use compare::inputs::Random;
use compare::side::tally::Row;
use compare::side::{cards, curves, formulas, sheets, walks};

const COUNT: u64 = 4000;

/// No disagreement, and these refusals were met, 0 being accepted.
fn agrees(row: &Row, met: &[usize]) {
    assert_eq!(row.disagreements, 0, "{}", row.name());
    for &number in met {
        assert!(row.seen(number) > 0, "{} never met {number}", row.name());
    }
}

#[test]
fn all_formulas() {
    let random = &mut Random::new(1);
    for row in formulas::formulas(COUNT, random) {
        let met: &[usize] = match row.name() {
            "sqrt" | "ln" | "exp" | "powf" | "sin" | "stagnation_ratio" => &[0],
            _ => &[0, 1],
        };
        assert!(row.inputs() >= COUNT);
        agrees(&row, met);
    }
    agrees(&formulas::unknown_formulas(random), &[]);
    agrees(&formulas::check_dimension(COUNT, random), &[0, 1]);
    agrees(&formulas::takes_cone_formula(COUNT, random), &[0]);
    agrees(&formulas::shape_constants(), &[0]);
    agrees(&formulas::classify(COUNT, random), &[0]);
}

/// At least half of a row's parts had a roughness of their own, and not all.
fn mostly_own(row: &Row) {
    let (parts, own) = row.parts();
    assert!(parts > 1000, "{} had {parts} parts", row.name());
    assert!(parts <= 2 * own && own < parts, "{}: {own}", row.name());
}

/// At least a third of a row's accepted calls leave a nozzle, now below the last d, now at it and now
/// above it.
fn often_burning(row: &Row) {
    let burning = row.burning();
    let all: u64 = burning.iter().sum();
    assert!(row.seen(0) <= 3 * all, "{}: {all}", row.name());
    assert!(burning.iter().all(|&n| n > 100), "{}", row.name());
}

/// At least half of a row's accepted calls leave a sheet of more than one finish, and each number of
/// finishes comes up.
fn often_several(row: &Row) {
    let finishes = row.finishes();
    assert_eq!(finishes.iter().sum::<u64>(), row.seen(0), "{}", row.name());
    assert!(2 * finishes[0] <= row.seen(0), "{}", row.name());
    assert!(finishes.iter().all(|&n| n > 100), "{}", row.name());
}

/// At least a tenth of a row's accepted answers have a mark, and not all; or none has, where none can.
fn marked(row: &Row, can: bool) {
    let [marked, unmarked] = row.marks();
    assert_eq!(marked + unmarked, row.seen(0), "{}", row.name());
    if can {
        assert!(unmarked <= 9 * marked, "{}: {marked}", row.name());
        assert!(unmarked > 100, "{}: {unmarked}", row.name());
    } else {
        assert_eq!(marked, 0, "{}", row.name());
    }
}

#[test]
fn all_noses() {
    let random = &mut Random::new(2);
    agrees(&formulas::nose_point(COUNT, random), &[0, 8]);
    for row in formulas::nose_lookup(COUNT, random) {
        agrees(&row, &[0]);
        if row.name().ends_with("mark") {
            marked(&row, true);
        }
    }
}

#[test]
fn all_walks() {
    agrees(&walks::walks(COUNT, &mut Random::new(6)), &[0, 1, 10, 16]);
}

#[test]
fn all_curves() {
    for row in curves::curves(COUNT, &mut Random::new(3)) {
        let own: &[usize] = match row.name() {
            name if name.contains("ogive") => &[0, 1, 2],
            name if name.contains("Haack") => &[0, 1, 3],
            name if name.contains("shorter") => &[0, 1, 2, 3, 10],
            _ => &[0, 1],
        };
        agrees(&row, own);
        if !row.name().contains("::new") {
            let none = ["conical", "ogive", "step"];
            marked(&row, !none.iter().any(|shape| row.name().contains(shape)));
        }
    }
}

#[test]
fn all_calls() {
    for row in sheets::sheets(10 * COUNT, 4) {
        let met: &[usize] = match row.name() {
            "sheet: open" => &[0, 1, 7, 10, 11, 19],
            "sheet: insert" | "sheet: replace" => &[0, 1, 2, 3, 5, 7, 8, 9, 10, 11, 19],
            "sheet: ignite" | "sheet: burnout" => &[0, 1, 5, 7, 9, 10, 11, 19],
            _ => &[0, 1, 5, 7, 8, 9, 10, 11, 19],
        };
        agrees(&row, met);
        often_several(&row);
        marked(&row, row.name() != "sheet: open");
        if let "sheet: insert" | "sheet: replace" = row.name() {
            mostly_own(&row);
        }
        match row.name() {
            "sheet: open" | "sheet: burnout" => assert_eq!(row.burning(), [0; 3]),
            _ => often_burning(&row),
        }
    }
}

#[test]
fn all_cards() {
    for row in cards::cards(10 * COUNT, 5) {
        let met: &[usize] = match row.name() {
            "cards: print" => &[0, 1, 2, 3, 4, 5, 6, 7, 9, 11, 19],
            "cards: read_settings" => &[0, 4, 5, 6, 7, 19],
            _ => &[0, 4, 5, 6],
        };
        agrees(&row, met);
        match row.name() {
            "cards: print" => marked(&row, true),
            "cards: read_part" => mostly_own(&row),
            _ => {}
        }
    }
}

/// A row tells what disagrees.
#[test]
fn a_disagreement_is_counted() {
    let mut row = Row::new("a function");
    row.note(0, true, || unreachable!("nothing to tell"));
    row.note(257, false, || "an input".to_string());
    assert_eq!((row.inputs(), row.disagreements, row.seen(1)), (2, 1, 1));
}
