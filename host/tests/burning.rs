//! The wrapper's `ignite` and `burnout`, accepted and refused: which rows they write, and that edits
//! keep the nozzle.

use cobalnis::formulas::base_drag_coefficient;
use cobalnis::words::{self, SheetWords, NOZZLE_AT, PARTS_AT};
use cobalnis::{rows, Column, Part, Refusal, Settings, Shape, Sheet};

const MACHS: [f64; 3] = [0.0, 0.7, 1.5];
const ROWS: usize = rows(1);
const CELLS: usize = ROWS * MACHS.len();
const D: f64 = 0.1;

/// Numbers that are no nozzle diameter, and what is said of them.
const BAD: [f64; 6] = [
    f64::NAN,
    -1.0,
    -f64::from_bits(1),
    100.0000001,
    100.0f64.next_up(),
    f64::INFINITY,
];
const OUTSIDE: Refusal = Refusal::HouseInterval;

fn settings() -> Settings {
    let column = |mach| Column {
        mach,
        reynolds: 1e6,
    };
    Settings {
        reference_diameter: D,
        roughnesses: vec![1e-4],
        body_fineness: 12.0,
        columns: MACHS.map(column).into(),
    }
}

fn part(shape: Shape, aft_diameter: f64) -> Part {
    Part {
        shape,
        length: 0.3,
        aft_diameter,
        joint_angle: 0.1,
        wetted_ratio: 9.0,
        roughness: None,
    }
}

/// A nose, a tube and a boattail that ends at 0.07.
fn rocket<'lent>(cells: &'lent mut [f64], marks: &'lent mut [u8]) -> Sheet<'lent> {
    let mut sheet = Sheet::open(&settings(), cells, marks).unwrap();
    let ogive = Shape::Ogive { radius_ratio: 1.0 };
    for (shape, d) in [(ogive, 0.1), (Shape::Conical, 0.1), (Shape::Conical, 0.07)] {
        sheet.push(&part(shape, d)).unwrap();
    }
    sheet
}

fn bits(cells: &[f64]) -> Vec<u64> {
    cells.iter().map(|x| x.to_bits()).collect()
}

/// The rows before the base.
fn above(sheet: &Sheet) -> Vec<u64> {
    bits(&sheet.cells()[..(ROWS - 2) * MACHS.len()])
}

/// The base is that of a last diameter and a nozzle, and the total adds the rows above it.
fn has_base(sheet: &Sheet, d: f64, n: f64) {
    let area = if n > d {
        0.0
    } else {
        (d * d - n * n) / (D * D)
    };
    let base = MACHS.map(|mach| base_drag_coefficient(mach).unwrap() * area);
    assert_eq!(bits(sheet.base()), bits(&base), "{n} in {d}");
    for at in 0..MACHS.len() {
        let column = sheet.cells()[at..].iter().step_by(MACHS.len());
        let total = column.take(ROWS - 1).fold(0.0, |sum, x| sum + x);
        assert_eq!(sheet.total(0).unwrap()[at].to_bits(), total.to_bits());
    }
}

/// Below the last diameter, at it, above it, with its neighbours: base and total alone are written,
/// and burnout brings the coasting rows back.
#[test]
fn ignited_and_burnt_out() {
    let (mut cells, mut marks) = ([-3.0; CELLS + 1], [0; CELLS + 1]);
    let mut sheet = rocket(&mut cells, &mut marks);
    assert_eq!(sheet.nozzle_diameter().to_bits(), 0);
    has_base(&sheet, 0.07, 0.0);
    let (coasting, rows) = (bits(sheet.cells()), above(&sheet));
    let d: f64 = 0.07;
    for n in [0.03, d.next_down(), d, d.next_up(), 0.1, 100.0] {
        sheet.ignite(n).unwrap();
        assert_eq!(sheet.nozzle_diameter(), n);
        assert_eq!(above(&sheet), rows);
        has_base(&sheet, d, n);
        let burning = bits(sheet.cells());
        assert!((rows.len()..CELLS).all(|at| burning[at] != coasting[at]));
        assert_eq!(burning[CELLS], coasting[CELLS]);
        sheet.burnout().unwrap();
        assert_eq!(sheet.nozzle_diameter().to_bits(), 0);
        assert_eq!(bits(sheet.cells()), coasting);
    }
    assert_eq!((sheet.settings(), sheet.part_count()), (settings(), 3));
}

/// Zero of either sign passes and is kept as it is.
#[test]
fn zero_nozzles() {
    let (mut cells, mut marks) = ([0.0; CELLS], [0; CELLS]);
    let mut sheet = rocket(&mut cells, &mut marks);
    let coasting = bits(sheet.cells());
    for n in [0.0, -0.0] {
        sheet.ignite(n).unwrap();
        assert_eq!(sheet.nozzle_diameter().to_bits(), n.to_bits());
        assert_eq!(bits(sheet.cells()), coasting);
    }
}

/// Every edit keeps the nozzle and writes its base with it.
#[test]
fn edits_while_burning() {
    let (mut cells, mut marks) = ([0.0; CELLS], [0; CELLS]);
    let mut sheet = rocket(&mut cells, &mut marks);
    sheet.ignite(0.05).unwrap();
    sheet.push(&part(Shape::Conical, 0.06)).unwrap();
    has_base(&sheet, 0.06, 0.05);
    sheet.replace(3, &part(Shape::Conical, 0.04)).unwrap();
    has_base(&sheet, 0.04, 0.05);
    sheet.set_column(0, settings().columns[0]).unwrap();
    has_base(&sheet, 0.04, 0.05);
    for d in [0.07, 0.1, 0.1, 0.0] {
        sheet.remove(sheet.part_count() - 1).unwrap();
        has_base(&sheet, d, 0.05);
        assert_eq!(sheet.nozzle_diameter(), 0.05);
    }
    sheet.burnout().unwrap();
    sheet.ignite(0.02).unwrap();
    sheet.push(&part(Shape::Conical, 0.1)).unwrap();
    has_base(&sheet, 0.1, 0.02);
}

/// Outside [0, 100] it is refused, coasting or burning, and nothing is changed.
#[test]
fn ignite_refused() {
    let (mut cells, mut marks) = ([0.0; CELLS], [0; CELLS]);
    let mut sheet = rocket(&mut cells, &mut marks);
    for held in [0.0, 0.05, 100.0] {
        sheet.ignite(held).unwrap();
        let (words, before) = (*sheet.words(), bits(sheet.cells()));
        for bad in BAD {
            assert_eq!(sheet.ignite(bad), Err(OUTSIDE), "{bad}");
            assert_eq!(
                (sheet.words(), bits(sheet.cells())),
                (&words, before.clone())
            );
        }
    }
}

/// Each call that is given a sheet, by words, all refused with the same number; words, cells and marks
/// are left.
fn all_refused(given: &SheetWords, cells: &[f64], number: u32) {
    let nose = [0; words::PART_WORDS];
    type Call<'a> = &'a dyn Fn(&mut SheetWords, &mut [f64], &mut [u8]) -> (u32, u64);
    let calls: [Call; 6] = [
        &|sheet, cells, marks| words::insert(sheet, 99, &nose, cells, marks),
        &|sheet, cells, marks| words::replace(sheet, 99, &nose, cells, marks),
        &|sheet, cells, marks| words::remove(sheet, 99, cells, marks),
        &|sheet, cells, marks| words::set_column(sheet, 99, 0.0, 0.0, cells, marks),
        &|sheet, cells, marks| words::ignite(sheet, f64::NAN, cells, marks),
        &|sheet, cells, marks| words::burnout(sheet, cells, marks),
    ];
    for (at, call) in calls.iter().enumerate() {
        let (mut sheet, mut lent, mut marks) = (*given, cells.to_vec(), vec![7; cells.len()]);
        let answer = call(&mut sheet, &mut lent, &mut marks);
        assert_eq!(answer, (number, 0), "call {at}");
        assert_eq!((&sheet, bits(&lent)), (given, bits(cells)), "call {at}");
        assert!(marks.iter().all(|&mark| mark == 7), "call {at}");
    }
}

/// A held nozzle is tested right after the cells and before the number of parts; open doesn't look
/// at it, and a shape that is none comes before all.
#[test]
fn held_nozzles() {
    let (mut cells, mut marks) = ([0.0; CELLS], [0; CELLS]);
    let mut sheet = rocket(&mut cells, &mut marks);
    sheet.ignite(0.05).unwrap();
    let (mut given, cells) = (*sheet.words(), sheet.cells().to_vec());
    given[PARTS_AT] = 17;
    all_refused(&given, &cells, 9);
    for bad in BAD {
        given[NOZZLE_AT] = bad.to_bits();
        all_refused(&given, &cells, 11);
        all_refused(&given, &cells[1..], 10);
        let (mut opened, mut lent, mut marks) = (given, cells.clone(), [0; CELLS]);
        let answer = words::open(&mut opened, &mut lent, &mut marks);
        assert_eq!(answer, (0, 0));
        assert_eq!((opened[NOZZLE_AT], opened[PARTS_AT]), (0, 0));
        let mut refused = given;
        assert_eq!(words::open(&mut refused, &mut [], &mut []), (10, 0));
        assert_eq!(refused, given);
    }
    given[words::FIRST_PART] = 6;
    all_refused(&given, &[], 5);
}
