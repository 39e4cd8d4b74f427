//! The model of the sheet (docs/REFERENCE.md, Sheet) with one finish: the example of
//! docs/REFERENCE.md, friction and a burning base by hand, the refusals of its table, and that a list
//! of calls leaves the rows that a build from nothing gives. The marks are in marks.rs.

use compare::answer_bits;
use compare::fixed::{ln, powf};
use compare::inputs::Random;
use compare::model::*;
use compare::original_fixed::NoseShape;

/// The rows of one finish.
const BASE: usize = base_row(1);
const TOTAL: usize = total_row(1);
const ROWS: usize = rows(1);

fn settings(columns: &[Column]) -> Settings {
    let mut held = [REST; COLUMNS];
    held[..columns.len()].copy_from_slice(columns);
    Settings {
        reference_diameter: 1.0,
        finishes: 1,
        roughnesses: [0.0; FINISHES],
        body_fineness: 1.0,
        count: columns.len(),
        columns: held,
    }
}

fn part(aft_diameter: f64) -> Part {
    Part {
        aft_diameter,
        ..NO_PART
    }
}

const REST: Column = Column {
    mach: 0.0,
    reynolds: 0.0,
};

fn bits(cells: &[f64]) -> Vec<u64> {
    cells.iter().map(|&x| answer_bits(x)).collect()
}

#[test]
fn the_papers_sheet() {
    let mut held = Buffers::of(ROWS + 2, f64::NAN, 7);
    let (answer, sheet) = open(&settings(&[REST]), held.lend());
    assert_eq!(answer.refusal, 0);
    let (answer, sheet) = insert(&sheet, 0, &part(1.0), held.lend());
    assert_eq!((answer.refusal, sheet.design.count), (0, 1));
    let mut text = format!("mach {:016x}\n", sheet.settings.columns[0].mach.to_bits());
    for place in 0..sheet.design.count {
        text += &format!("part {place} {:016x}\n", held.cells[place].to_bits());
    }
    for (name, row) in [("friction", FRICTION), ("base", BASE), ("total", TOTAL)] {
        text += &format!("{name} {:016x}\n", held.cells[row].to_bits());
    }
    assert_eq!(
        text,
        "mach 0000000000000000\npart 0 3feb333333333333\nfriction 0000000000000000\n\
         base 3fbeb851eb851eb8\ntotal 3fef0a3d70a3d70a\n"
    );
    assert!(held.cells[ROWS..].iter().all(|x| x.is_nan()));
}

/// A part of this w and roughness.
fn finished(wetted_ratio: f64, roughness: Option<f64>) -> Part {
    Part {
        wetted_ratio,
        roughness,
        ..part(0.1)
    }
}

/// The friction cells of these parts in a sheet whose roughness is 0.01 and whose B is 12.
fn friction_cells(columns: &[Column], parts: &[Part]) -> Vec<u64> {
    let settings = Settings {
        roughnesses: [0.01; FINISHES],
        body_fineness: 12.0,
        ..settings(columns)
    };
    let mut held = Buffers::of(ROWS * columns.len(), f64::NAN, 7);
    let (_, mut sheet) = open(&settings, held.lend());
    for (place, part) in parts.iter().enumerate() {
        let (answer, after) = insert(&sheet, place, part, held.lend());
        assert_eq!(answer.refusal, 0);
        sheet = after;
    }
    bits(&held.cells[FRICTION * columns.len()..BASE * columns.len()])
}

/// A polished nose on a rough tube, by the formulas written out: below R = 10000 no roughness
/// counts; above, the nose's doesn't limit the friction and the tube's does.
#[test]
fn polished_nose_on_a_rough_tube() {
    let columns = [9000.0, 1e6].map(|reynolds| Column {
        mach: 0.5,
        reynolds,
    });
    let parts = [finished(8.0, Some(1e-6)), finished(40.0, Some(1e-3))];
    let form = 1.0 + 0.5 / 12.0;
    let slow: f64 = 0.0148 * (1.0 - 0.1 * (0.5 * 0.5));
    let below = ((0.0 + (slow * form) * 8.0) + (slow * form) * 40.0).to_bits();
    let a = 1.5 * ln(1e6) - 5.6;
    let polished = (1.0 / (a * a)) * (1.0 - 0.1 * (0.5 * 0.5));
    let rough = (0.032 * powf(1e-3, 0.2)) * (1.0 - 0.1 * (0.5 * 0.5));
    let above = ((0.0 + (polished * form) * 8.0) + (rough * form) * 40.0).to_bits();
    assert!(rough > polished);
    assert!(1e6 < 51.0 * powf(1e-6, -1.039) && 51.0 * powf(1e-3, -1.039) < 1e6);
    assert_eq!(friction_cells(&columns, &parts), [below, above]);
}

/// Absent it is the settings' roughness, which limits, and not 0, which wouldn't.
#[test]
fn absent_is_the_settings_roughness() {
    let columns = [Column {
        mach: 0.5,
        reynolds: 1e6,
    }];
    let rough = (0.032 * powf(0.01, 0.2)) * (1.0 - 0.1 * (0.5 * 0.5));
    let cell = ((rough * (1.0 + 0.5 / 12.0)) * 8.0).to_bits();
    let friction = |roughness| friction_cells(&columns, &[finished(8.0, roughness)]);
    assert_eq!(friction(None), [cell]);
    assert_eq!(friction(Some(0.01)), [cell]);
    assert_ne!(friction(Some(0.0)), [cell]);
    assert_eq!(friction(Some(-0.0)), friction(Some(0.0)));
}

/// Each part's share is rounded for itself, and the shares are added by place: the cell isn't the
/// product with the sum of w, and not the sum from the other end.
#[test]
fn friction_is_a_sum_by_place() {
    let columns = [REST];
    let w = [8.0, 40.0, 1.93];
    let product = 0.0148 * (1.0 + 0.5 / 12.0);
    let [a, b, c] = w.map(|w| product * w);
    let cell = friction_cells(&columns, &w.map(|w| finished(w, None)));
    assert_eq!(cell, [((a + b) + c).to_bits()]);
    assert_ne!(cell, [(product * ((w[0] + w[1]) + w[2])).to_bits()]);
    assert_ne!(cell, [((c + b) + a).to_bits()]);
    assert_eq!(friction_cells(&columns, &[]), [0]);
}

/// Without parts friction is +0, even where the form factor overflows; a part with nothing wetted
/// makes it a NaN then, and -0 wetted adds nothing.
#[test]
fn friction_without_parts() {
    let mut held = Buffers::of(ROWS, f64::NAN, 7);
    let short = Settings {
        body_fineness: 1e-320,
        ..settings(&[REST])
    };
    let (_, sheet) = open(&short, held.lend());
    assert_eq!(held.cells[FRICTION].to_bits(), 0);
    insert(&sheet, 0, &part(1.0), held.lend());
    assert!(held.cells[FRICTION].is_nan() && held.cells[TOTAL].is_nan());
    assert_eq!(friction_cells(&[REST], &[finished(-0.0, None)]), [0]);
}

/// 11 for a roughness of a part's own outside [0, 1], in the part given and in a part held, at any
/// place; nothing is changed.
#[test]
fn roughness_refused() {
    let mut held = Buffers::new(ROWS);
    let (_, mut sheet) = open(&settings(&[REST]), held.lend());
    for place in 0..3 {
        sheet = insert(&sheet, place, &finished(1.0, Some(1.0)), held.lend()).1;
    }
    let before = bits(&held.cells);
    for own in [1.5, -1.0, f64::NAN, 1.0f64.next_up(), -f64::from_bits(1)] {
        let bad = finished(1.0, Some(own));
        assert_eq!(insert(&sheet, 3, &bad, held.lend()).0.refusal, 11);
        assert_eq!(replace(&sheet, 1, &bad, held.lend()).0.refusal, 11);
        for place in 0..3 {
            let mut rough = sheet;
            rough.design.parts[place] = bad;
            let smooth = part(0.1);
            assert_eq!(insert(&rough, 0, &smooth, held.lend()).0.refusal, 11);
            assert_eq!(replace(&rough, place, &smooth, held.lend()).0.refusal, 11);
            assert_eq!(remove(&rough, place, held.lend()).0.refusal, 11);
            assert_eq!(set_column(&rough, 0, REST, held.lend()).0.refusal, 11);
        }
        assert_eq!(bits(&held.cells), before);
    }
    // Past the count it is nobody's.
    sheet.design.parts[3] = finished(1.0, Some(1.5));
    assert_eq!(remove(&sheet, 0, held.lend()).0.refusal, 0);
}

/// A flat face of diameter 0.5 at rest, in a sheet of D = 1.
fn half_a_face(held: &mut Buffers) -> Sheet {
    let (_, none) = open(&settings(&[REST]), held.lend());
    let (answer, sheet) = insert(&none, 0, &part(0.5), held.lend());
    assert_eq!(answer.refusal, 0);
    sheet
}

/// Base and total by hand: the area is 0.25 - n×n, and +0 where the nozzle is as wide as the base or
/// wider. Zero of either sign is coasting, and so is burnout.
#[test]
fn a_nozzle_in_the_base() {
    let mut held = Buffers::of(ROWS, f64::NAN, 7);
    let mut sheet = half_a_face(&mut held);
    let coasting = bits(&held.cells);
    assert_eq!(sheet.nozzle_diameter.to_bits(), 0);
    for (n, area) in [
        (0.25, 0.1875),
        (0.375, 0.109375),
        (0.5, 0.0),
        (0.5f64.next_up(), 0.0),
        (100.0, 0.0),
        (-0.0, 0.25),
        (0.0, 0.25),
    ] {
        let (answer, after) = ignite(&sheet, n, held.lend());
        assert_eq!((answer.refusal, answer.bits), (0, 0));
        assert_eq!(after.nozzle_diameter.to_bits(), n.to_bits());
        let base: f64 = 0.12 * area;
        assert_eq!(held.cells[BASE].to_bits(), base.to_bits());
        assert_eq!(held.cells[TOTAL].to_bits(), (0.2125 + base).to_bits());
        assert_eq!(bits(&held.cells[..BASE]), coasting[..BASE]);
        let (answer, back) = burnout(&after, held.lend());
        assert_eq!((answer.refusal, back.nozzle_diameter.to_bits()), (0, 0));
        assert_eq!(bits(&held.cells), coasting);
        sheet = after;
    }
}

/// Both products are rounded before they are subtracted, and their difference before it is divided.
#[test]
fn the_area_step_by_step() {
    let mut held = Buffers::new(ROWS);
    let given = Settings {
        reference_diameter: 0.6,
        ..settings(&[REST])
    };
    let (_, sheet) = open(&given, held.lend());
    let (_, sheet) = insert(&sheet, 0, &part(0.5), held.lend());
    ignite(&sheet, 0.3, held.lend());
    let base = held.cells[BASE];
    assert_eq!(base, 0.12 * ((0.5 * 0.5 - 0.3 * 0.3) / (0.6 * 0.6)));
    assert_ne!(base, (0.12 * (0.5 * 0.5 - 0.3 * 0.3)) / (0.6 * 0.6));
    assert_ne!(base, 0.12 * ((0.5 - 0.3) * (0.5 + 0.3) / (0.6 * 0.6)));
    let apart = (0.5 * 0.5) / (0.6 * 0.6) - (0.3 * 0.3) / (0.6 * 0.6);
    assert_ne!(base, 0.12 * apart);
}

/// Base and total are written and no other cell; the total adds the cells that are there.
#[test]
fn foreign_cells_stay_while_burning() {
    let mut held = Buffers::new(ROWS + 1);
    let sheet = half_a_face(&mut held);
    for (at, cell) in held.cells.iter_mut().enumerate() {
        *cell = at as f64;
    }
    let (_, burning) = ignite(&sheet, 0.25, held.lend());
    let whole = |at: usize| at as f64;
    assert!((0..BASE).all(|at| held.cells[at] == whole(at)));
    assert_eq!(held.cells[BASE], 0.12 * 0.1875);
    assert_eq!(held.cells[TOTAL], 136.0 + 0.12 * 0.1875);
    assert_eq!(held.cells[ROWS], whole(ROWS));
    burnout(&burning, held.lend());
    assert!((0..BASE).all(|at| held.cells[at] == whole(at)));
    assert_eq!((held.cells[BASE], held.cells[TOTAL]), (0.03, 136.0 + 0.03));
}

/// What each call but open answers on a sheet, with arguments that are refused as well.
fn refusals_on(sheet: &Sheet, held: &mut Buffers) -> [u8; 6] {
    let before = bits(&held.cells);
    let answers = [
        replace(sheet, 99, &part(101.0), held.lend()),
        insert(sheet, 99, &part(101.0), held.lend()),
        remove(sheet, 99, held.lend()),
        set_column(sheet, 99, REST, held.lend()),
        ignite(sheet, f64::NAN, held.lend()),
        burnout(sheet, held.lend()),
    ];
    for (_, back) in &answers {
        assert_eq!(
            back.nozzle_diameter.to_bits(),
            sheet.nozzle_diameter.to_bits()
        );
    }
    assert_eq!(bits(&held.cells), before);
    answers.map(|(answer, _)| answer.refusal)
}

/// 11 for a nozzle outside [0, 100]: a held one right after 10, ignite's own last.
#[test]
fn nozzles_refused() {
    let mut held = Buffers::new(ROWS);
    let (_, mut sheet) = ignite(&half_a_face(&mut held), 0.25, held.lend());
    let before = bits(&held.cells);
    sheet.design.count = 17;
    assert_eq!(refusals_on(&sheet, &mut held), [9; 6]);
    sheet.design.count = 1;
    let tiny = f64::from_bits(1);
    for bad in [f64::NAN, -1.0, -tiny, 101.0, 100.0f64.next_up()] {
        let (answer, back) = ignite(&sheet, bad, held.lend());
        assert_eq!((answer.refusal, back.nozzle_diameter), (11, 0.25));
        let mut given = sheet;
        given.nozzle_diameter = bad;
        assert_eq!(refusals_on(&given, &mut held), [11; 6]);
        given.design.count = 17;
        assert_eq!(refusals_on(&given, &mut held), [11; 6]);
        assert_eq!(refusals_on(&given, &mut Buffers::new(ROWS - 1)), [10; 6]);
        let (answer, opened) = open(&given.settings, Buffers::new(ROWS).lend());
        assert_eq!((answer.refusal, opened.nozzle_diameter.to_bits()), (0, 0));
    }
    assert_eq!(bits(&held.cells), before);
}

#[test]
fn refusals_of_the_table() {
    let number = |columns: usize, cell_count: usize| {
        let mut given = settings(&[REST; COLUMNS]);
        given.count = columns;
        open(&given, Buffers::new(cell_count).lend()).0.refusal
    };
    assert_eq!(number(33, 1000), 7);
    assert_eq!(number(1, 18), 10);
    assert_eq!(number(1, 19), 0);
    let mut held = Buffers::new(ROWS);
    let (_, none) = open(&settings(&[REST]), held.lend());
    assert_eq!(remove(&none, 0, held.lend()).0.refusal, 8);
    assert_eq!(insert(&none, 1, &part(1.0), held.lend()).0.refusal, 8);
    let long = Part {
        length: 101.0,
        ..part(1.0)
    };
    assert_eq!(insert(&none, 0, &long, held.lend()).0.refusal, 11);
    let angle = Part {
        joint_angle: f64::NAN,
        ..part(1.0)
    };
    let refused = insert(&none, 0, &angle, held.lend()).0;
    assert_eq!((refused.refusal, refused.code), (1, 3));
    let mut full = none;
    for _ in 0..PLACES {
        full = insert(&full, 0, &part(1.0), held.lend()).1;
    }
    assert_eq!(insert(&full, 16, &part(1.0), held.lend()).0.refusal, 9);
    assert_eq!(insert(&full, 17, &part(1.0), held.lend()).0.refusal, 8);
}

/// An ogive, good or bad, with a roughness of its own every other time.
fn an_ogive(random: &mut Random) -> Part {
    let own = random.scaled(1e-6, 1e-2);
    Part {
        shape: NoseShape::Ogive {
            radius_ratio: random.between(0.9, 3.0),
        },
        length: random.between(0.0, 3.0),
        aft_diameter: random.pick(&[0.0, 0.5, 1.0, 1.5]),
        joint_angle: random.between(0.0, 1.6),
        wetted_ratio: random.between(0.0, 20.0),
        roughness: (random.bits() % 2 == 0).then_some(own),
    }
}

/// After each of many calls on a sheet that was opened, the cells are those of a build from nothing.
#[test]
fn edits_leave_the_build() {
    let mut random = Random::new(5);
    let (mut accepted, mut burning) = (0, 0);
    for columns in 0..6 {
        let mut held = Buffers::of(ROWS * columns, f64::NAN, 7);
        let given = Settings {
            roughnesses: [1e-4; FINISHES],
            ..settings(&vec![REST; columns])
        };
        let (_, mut sheet) = open(&given, held.lend());
        for _ in 0..400 {
            let place = (random.bits() % 17) as usize;
            let new = an_ogive(&mut random);
            let column = Column {
                mach: random.between(0.0, 3.0),
                reynolds: random.scaled(1e3, 1e9),
            };
            let n = random.pick(&[0.25, 0.5, 1.0, 1.5, 0.75, 2.0, -0.0, 101.0]);
            let (answer, after) = match random.bits() % 10 {
                0..=2 => insert(&sheet, place, &new, held.lend()),
                3..=4 => replace(&sheet, place, &new, held.lend()),
                5 => remove(&sheet, place, held.lend()),
                6 => set_column(&sheet, place, column, held.lend()),
                7..=8 => ignite(&sheet, n, held.lend()),
                _ => burnout(&sheet, held.lend()),
            };
            accepted += usize::from(answer.refusal == 0);
            sheet = after;
            burning += usize::from(sheet.nozzle_diameter > 0.0);
            let built = build(&sheet).expect("an accepted sheet");
            assert_eq!(bits(&held.cells), bits(&built.cells));
        }
    }
    assert!(accepted > 500 && burning > 500);
}
