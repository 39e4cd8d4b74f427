//! A sheet's rows by their names: each against its cells and marks, and what isn't there.

use cobalnis::{rows, Column, Part, RowName, Settings, Shape, Sheet, CELLS, PLACES};

const NOSE: Part = Part {
    shape: Shape::VON_KARMAN,
    length: 0.5,
    aft_diameter: 0.1,
    joint_angle: 0.0,
    wetted_ratio: 8.0,
    roughness: None,
};

fn settings(finishes: usize) -> Settings {
    Settings {
        reference_diameter: 0.1,
        roughnesses: (0..finishes).map(|j| 1e-5 * (1 + j) as f64).collect(),
        body_fineness: 12.0,
        columns: [0.5, 1.5, 2.5]
            .map(|mach| Column {
                mach,
                reynolds: 1e7,
            })
            .to_vec(),
    }
}

/// Each row stands where docs/REFERENCE.md, Sheet, says, whatever the number of finishes.
#[test]
fn by_name() {
    for finishes in 1..=4 {
        let (mut cells, mut marks) = ([7.0; CELLS], [7; CELLS]);
        let mut sheet = Sheet::open(&settings(finishes), &mut cells, &mut marks).unwrap();
        sheet.push(&NOSE).unwrap();
        sheet
            .push(&Part {
                aft_diameter: 0.05,
                ..NOSE
            })
            .unwrap();
        let at = |number: usize| number * 3..(number + 1) * 3;
        let mut expected = vec![
            ("part 0".to_owned(), RowName::Part(0), 0),
            ("part 1".to_owned(), RowName::Part(1), 1),
        ];
        let name = |word: &str, finish: usize| match finishes {
            1 => word.to_owned(),
            _ => format!("{word} {finish}"),
        };
        expected
            .extend((0..finishes).map(|j| (name("friction", j), RowName::Friction(j), PLACES + j)));
        expected.push(("base".to_owned(), RowName::Base, PLACES + finishes));
        expected.extend((0..finishes).map(|j| {
            (
                name("total", j),
                RowName::Total(j),
                PLACES + finishes + 1 + j,
            )
        }));
        let found: Vec<_> = sheet.rows().collect();
        assert_eq!(found.len(), expected.len());
        for (row, (text, name, number)) in found.iter().zip(expected) {
            assert_eq!((row.to_string(), row.name()), (text, name));
            assert_eq!(row.values(), &sheet.cells()[at(number)]);
            assert_eq!(row.marks(), &sheet.marks()[at(number)]);
            assert_eq!(sheet.row(name), Some(*row));
            assert_eq!(row.iter().len(), 3);
            for ((cell, value), mark) in row.iter().zip(row.values()).zip(row.marks()) {
                assert_eq!((cell.value, cell.beyond), (*value, *mark != 0));
            }
        }
        let beyond: Vec<bool> = found[0].iter().map(|cell| cell.beyond).collect();
        assert_eq!(beyond, [false, false, true]);
        assert!(sheet
            .rows()
            .all(|row| row.iter().all(|cell| cell.value >= 0.0)));
    }
}

/// The rows by name are what `print` shows: its names, in its order.
#[test]
fn as_printed() {
    let bytes = include_bytes!("../../examples/club_rocket.card");
    let printed = cobalnis::print(bytes);
    let (settings, mut at) = Settings::read(bytes, 0).unwrap();
    let mut cells = vec![0.0; settings.cell_count()];
    let mut marks = vec![0; settings.cell_count()];
    let mut sheet = Sheet::open(&settings, &mut cells, &mut marks).unwrap();
    while at < bytes.len() {
        let (part, next) = Part::read(bytes, at).unwrap();
        sheet.push(&part).unwrap();
        at = next;
    }
    let mut shown = String::new();
    for row in sheet.rows() {
        shown += &row.to_string();
        for cell in row {
            shown += &format!(" {:016x}", cell.value.to_bits());
            shown += if cell.beyond { "+" } else { "" };
        }
        shown += "\n";
    }
    assert_eq!(printed.split_once('\n').unwrap().1, shown);
}

#[test]
fn absent() {
    let (mut cells, mut marks) = ([0.0; CELLS], [0; CELLS]);
    let mut sheet = Sheet::open(&settings(2), &mut cells, &mut marks).unwrap();
    sheet.push(&NOSE).unwrap();
    for number in [2, 16, usize::MAX] {
        for name in [RowName::Part, RowName::Friction, RowName::Total] {
            assert_eq!(sheet.row(name(number)), None);
        }
        assert_eq!(
            (sheet.part_row(number), sheet.part_marks(number)),
            (None, None)
        );
        assert_eq!((sheet.friction(number), sheet.total(number)), (None, None));
        assert_eq!(sheet.total_marks(number), None);
    }
    assert_eq!(sheet.row(RowName::Part(1)), None);
    assert_eq!(sheet.row(RowName::Base).unwrap().values(), sheet.base());
    assert_eq!(CELLS, rows(4) * 32);
}
