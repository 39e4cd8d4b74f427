//! The wrapper's marks: lookups and curves below, at and above the end of a table, marks beside the
//! cells of a sheet, too few of them, and those that somebody else wrote.

mod common;

use cobalnis::words::{self, PartWords, SheetWords, PART_WORDS};
use cobalnis::{print, rows, Column, Curve, Drag, Nose, Part, Refusal, Settings, Shape};
use cobalnis::{Sheet, COLUMNS, FINISHES, PLACES};

use common::{domain, stream, INFINITY, NAN};

/// Where the tables of power 1/4 and power 1/2 end.
const QUARTER: f64 = 3.587;
const HALF: f64 = 1.941;

/// The rows of a sheet of one finish.
const BASE: usize = PLACES + 1;
const TOTAL: usize = PLACES + 2;
const ROWS: usize = rows(1);

fn last_mach(nose: Nose) -> f64 {
    nose.points().last().expect("a table has points").0
}

#[test]
fn lookups() {
    for nose in Nose::ALL {
        let last = last_mach(nose);
        let drag = nose.value_and_slope(last).0;
        for (mach, beyond) in [
            (0.0, false),
            (last.next_down(), false),
            (last, false),
            (last.next_up(), true),
            (25.0, true),
            (INFINITY, true),
            (-INFINITY, false),
            (NAN, false),
        ] {
            let reading = nose.reading(mach);
            assert_eq!(reading.beyond, beyond, "{nose:?} at {mach}");
            assert_eq!((reading.value, reading.slope), nose.value_and_slope(mach));
            assert!(!beyond || (reading.value, reading.slope) == (drag, 0.0));
        }
    }
    assert_eq!(last_mach(Nose::PowerQuarter), QUARTER);
    assert_eq!(last_mach(Nose::PowerHalf), HALF);
}

/// Whether a curve of fineness 3 is marked at a Mach number.
fn beyond(shape: Shape, mach: f64) -> bool {
    let curve = Curve::new(shape, 3.0, 0.0).unwrap();
    curve.drag(mach).unwrap().beyond
}

/// Both tables of an interpolated shape are read, the one of weight 0 too; cones read none.
#[test]
fn curves() {
    let power = |exponent| Shape::PowerSeries { exponent };
    for (shape, last) in [
        (power(0.0), QUARTER),
        (power(0.1), QUARTER),
        (power(0.25), HALF),
        (power(0.4), HALF),
        (power(0.5), HALF),
        (power(0.75), last_mach(Nose::PowerThreeQuarters)),
        (power(1.0), last_mach(Nose::PowerThreeQuarters)),
        (
            Shape::ParabolicSeries { parameter: 0.0 },
            last_mach(Nose::ParabolaHalf),
        ),
        (
            Shape::ParabolicSeries { parameter: 1.0 },
            last_mach(Nose::ParabolaThreeQuarters),
        ),
        (Shape::VON_KARMAN, last_mach(Nose::LvHaack)),
        (Shape::LV_HAACK, last_mach(Nose::LvHaack)),
        (Shape::Elliptical, last_mach(Nose::Ellipsoid)),
    ] {
        for mach in [0.0, 0.8, 1.0, 1.2, last.next_down(), last] {
            assert!(!beyond(shape, mach), "{shape:?} at {mach}");
        }
        for mach in [last.next_up(), 5.0, f64::MAX] {
            assert!(beyond(shape, mach), "{shape:?} at {mach}");
        }
    }
    for mach in [0.5, HALF, 5.0, f64::MAX] {
        assert!(!beyond(Shape::Conical, mach));
        assert!(!beyond(Shape::Ogive { radius_ratio: 2.0 }, mach));
        assert!(!Curve::step().drag(mach).unwrap().beyond);
    }
}

#[test]
fn lists_of_machs() {
    let curve = Curve::new(Shape::VON_KARMAN, 3.0, 0.0).unwrap();
    let machs = [5.0, 0.5, 1.977, 1.98, 0.0];
    let drags = curve.drags(&machs).unwrap();
    let marks: Vec<bool> = drags.iter().map(|drag| drag.beyond).collect();
    assert_eq!(marks, [true, false, false, true, false]);
    let values: Vec<f64> = drags.iter().map(|drag| drag.value).collect();
    assert_eq!(curve.coefficients(&machs), Ok(values));
    let one = Drag {
        value: curve.coefficient(5.0).unwrap(),
        beyond: true,
    };
    assert_eq!(curve.drag(5.0), Ok(one));
    let refused = domain(cobalnis::Quantity::Mach, INFINITY);
    assert_eq!(curve.drag(INFINITY), Err(refused));
    assert_eq!(curve.drags(&[5.0, INFINITY, NAN]), Err(refused));
}

fn column(mach: f64) -> Column {
    Column {
        mach,
        reynolds: 1e7,
    }
}

fn settings(machs: &[f64], finishes: usize) -> Settings {
    Settings {
        reference_diameter: 0.1,
        roughnesses: vec![1e-5; finishes],
        body_fineness: 12.0,
        columns: machs.iter().copied().map(column).collect(),
    }
}

fn nose(shape: Shape) -> Part {
    Part {
        shape,
        length: 0.3,
        aft_diameter: 0.1,
        joint_angle: 0.0,
        wetted_ratio: 8.0,
        roughness: None,
    }
}

/// Between power 1/4 and power 1/2: marked above `HALF`.
const POWER: Shape = Shape::PowerSeries { exponent: 0.3 };

/// The first part's marks and every total's are these, and no other row has any.
fn has_marks(sheet: &Sheet, wanted: &[u8]) {
    assert!(wanted.iter().all(|&mark| mark <= 1));
    if sheet.part_count() > 0 {
        assert_eq!(sheet.part_marks(0), Some(wanted));
    }
    for finish in 0..sheet.finish_count() {
        assert_eq!(sheet.total_marks(finish), Some(wanted));
    }
    let between = wanted.len()..(PLACES + sheet.finish_count() + 1) * wanted.len();
    assert!(sheet.marks()[between].iter().all(|&mark| mark == 0));
}

/// Each call writes the marks of the rows that it writes, with one to four finishes; those past the
/// need stay.
#[test]
fn every_call() {
    for finishes in 1..=FINISHES {
        let given = settings(&[1.0, HALF, HALF.next_up()], finishes);
        let count = given.cell_count();
        let (mut cells, mut marks) = (vec![7.0; count], vec![7; count + 2]);
        let mut sheet = Sheet::open(&given, &mut cells, &mut marks).unwrap();
        has_marks(&sheet, &[0, 0, 0]);
        sheet.push(&nose(POWER)).unwrap();
        sheet.push(&nose(Shape::Conical)).unwrap();
        has_marks(&sheet, &[0, 0, 1]);
        sheet.ignite(0.02).unwrap();
        sheet.set_column(0, column(5.0)).unwrap();
        has_marks(&sheet, &[1, 0, 1]);
        sheet.set_column(2, column(0.3)).unwrap();
        sheet.burnout().unwrap();
        has_marks(&sheet, &[1, 0, 0]);
        sheet.replace(0, &nose(Shape::Conical)).unwrap();
        has_marks(&sheet, &[0, 0, 0]);
        sheet.replace(0, &nose(Shape::Elliptical)).unwrap();
        has_marks(&sheet, &[1, 0, 0]);
        // Behind a part as wide it doesn't widen, and its table isn't read.
        sheet.insert(0, &nose(Shape::Conical)).unwrap();
        has_marks(&sheet, &[0, 0, 0]);
        sheet.remove(0).unwrap();
        has_marks(&sheet, &[1, 0, 0]);
        sheet.remove(0).unwrap();
        has_marks(&sheet, &[0, 0, 0]);
        assert_eq!(sheet.part_marks(1), None);
        assert_eq!(sheet.total_marks(finishes), None);
        assert_eq!(sheet.marks()[count..], [7, 7]);
    }
}

/// Too few marks are 10, however many cells there are.
#[test]
fn short_marks() {
    let given = settings(&[1.0, 5.0], 2);
    let count = given.cell_count();
    for (cells, marks) in [(count, count - 1), (count + 9, 0), (count - 1, count + 9)] {
        let (mut cells, mut marks) = (vec![0.0; cells], vec![0; marks]);
        let opened = Sheet::open(&given, &mut cells, &mut marks);
        assert_eq!(opened.map(|_| ()), Err(Refusal::FewCells));
    }
    let (mut cells, mut marks) = (vec![0.0; count], vec![0; count]);
    assert!(Sheet::open(&given, &mut cells, &mut marks).is_ok());
    assert!(Refusal::FewCells.to_string().contains("marks"));
}

/// A refused call leaves all marks as they were.
#[test]
fn refused() {
    let given = settings(&[1.0, 5.0], 1);
    let (mut cells, mut marks) = ([0.0; 2 * ROWS], [0; 2 * ROWS]);
    let mut sheet = Sheet::open(&given, &mut cells, &mut marks).unwrap();
    sheet.push(&nose(POWER)).unwrap();
    let before = sheet.marks().to_vec();
    let bad = nose(Shape::PowerSeries { exponent: 1.5 });
    let answers: [Result<(), Refusal>; 6] = [
        sheet.push(&Part {
            aft_diameter: 0.2,
            ..bad
        }),
        sheet.replace(0, &bad),
        sheet.insert(2, &bad),
        sheet.remove(1),
        sheet.set_column(0, column(INFINITY)),
        sheet.ignite(NAN),
    ];
    assert!(answers.iter().all(|answer| answer.is_err()));
    assert_eq!(sheet.marks(), before);
    has_marks(&sheet, &[0, 1]);
}

/// A sheet by its words, with all cells and these marks, as C has it.
struct Lent {
    words: SheetWords,
    cells: Vec<f64>,
    marks: Vec<u8>,
}

const CONE: PartWords = {
    let mut words = [0; PART_WORDS];
    words[2] = 0.3f64.to_bits();
    words[3] = 0.1f64.to_bits();
    words
};

/// A cone alone, in two columns; every mark is 0.
fn cone() -> Lent {
    let given = settings(&[1.0, 5.0], 1);
    let (mut cells, mut marks) = (vec![0.0; 2 * ROWS + 1], vec![9; 2 * ROWS + 1]);
    let mut sheet = Sheet::open(&given, &mut cells, &mut marks).unwrap();
    sheet.push(&nose(Shape::Conical)).unwrap();
    has_marks(&sheet, &[0, 0]);
    let words = *sheet.words();
    Lent {
        words,
        cells,
        marks,
    }
}

/// A part's mark that somebody else wrote counts in a total if it isn't 0, and stays where its cell
/// isn't written; in a friction, a base or another total it counts for nothing.
#[test]
fn foreign_marks() {
    let mut lent = cone();
    for (at, mark) in [(2 * 7, 2), (2 * PLACES + 1, 255), (2 * TOTAL + 1, 255)] {
        lent.marks[at] = mark;
    }
    let Lent {
        words,
        cells,
        marks,
    } = &mut lent;
    assert_eq!(words::ignite(words, 0.05, cells, marks), (0, 0));
    assert_eq!((marks[2 * 7], marks[2 * PLACES + 1]), (2, 255));
    assert_eq!(marks[2 * TOTAL..], [1, 0, 9]);
    (marks[2 * BASE], marks[2 * 15 + 1]) = (128, 255);
    assert_eq!(words::burnout(words, cells, marks), (0, 0));
    assert_eq!((marks[2 * BASE], marks[2 * 15 + 1]), (0, 255));
    assert_eq!(marks[2 * TOTAL..], [1, 1, 9]);
    assert_eq!(words::replace(words, 0, &CONE, cells, marks), (0, 0));
    assert_eq!((marks[2 * 7], marks[2 * 15 + 1]), (2, 255));
    assert_eq!(
        (marks[2 * PLACES + 1], &marks[2 * TOTAL..]),
        (0, &[1, 1, 9][..])
    );
    assert_eq!(words::set_column(words, 0, 0.5, 1e7, cells, marks), (0, 0));
    assert_eq!((marks[2 * 7], marks[2 * 15 + 1]), (0, 255));
    assert_eq!(marks[2 * TOTAL..], [0, 1, 9]);
    assert_eq!(words::insert(words, 1, &CONE, cells, marks), (0, 0));
    assert!(marks[..2 * ROWS].iter().all(|&mark| mark == 0));
    assert_eq!(marks[2 * ROWS], 9);
}

/// By words: 10 for short marks at its place in the order, and marks left as they are.
#[test]
fn short_marks_by_words() {
    let Lent { words, cells, .. } = cone();
    type Call<'a> = &'a dyn Fn(&mut SheetWords, &mut [f64], &mut [u8]) -> (u32, u64);
    let calls: [Call; 7] = [
        &|sheet, cells, marks| words::open(sheet, cells, marks),
        &|sheet, cells, marks| words::insert(sheet, 99, &CONE, cells, marks),
        &|sheet, cells, marks| words::replace(sheet, 99, &CONE, cells, marks),
        &|sheet, cells, marks| words::remove(sheet, 99, cells, marks),
        &|sheet, cells, marks| words::set_column(sheet, 99, 0.0, 0.0, cells, marks),
        &|sheet, cells, marks| words::ignite(sheet, NAN, cells, marks),
        &|sheet, cells, marks| words::burnout(sheet, cells, marks),
    ];
    let refused = |call: Call, given: SheetWords, count: usize| {
        let (mut sheet, mut lent, mut marks) = (given, cells.clone(), vec![3; count]);
        let (status, _) = call(&mut sheet, &mut lent, &mut marks);
        assert_eq!((sheet, marks), (given, vec![3; count]));
        status
    };
    for call in calls {
        let mut given = words;
        assert_eq!(refused(call, given, 2 * ROWS - 1), 10);
        assert_eq!(refused(call, given, 0), 10);
        given[words::NOZZLE_AT] = NAN.to_bits();
        assert_eq!(refused(call, given, 2 * ROWS - 1), 10);
        given[words::FINENESS_AT] = 0;
        assert_eq!(refused(call, given, 0), 1 + 256 * 19);
    }
}

/// A settings card of D and B of 1, these Machs at rest, and so many finishes.
fn settings_card(machs: &[f64], finishes: u8) -> Vec<u8> {
    let one = 1.0f64.to_le_bytes();
    let mut bytes = [&[0x1d], &one[..], &one[..], &[machs.len() as u8]].concat();
    for mach in machs {
        bytes.extend(mach.to_le_bytes());
        bytes.extend([0; 8]);
    }
    bytes.push(finishes);
    bytes.extend([0].repeat(8 * usize::from(finishes)));
    bytes
}

/// An ellipsoid as long as wide at its end.
fn part_card(aft_diameter: f64) -> Vec<u8> {
    let d = aft_diameter.to_le_bytes();
    [&[0x0d, 2], &d[..], &d[..]].concat()
}

/// The sign stands after a marked cell's digits and nowhere else.
#[test]
fn printed() {
    let bytes = [
        settings_card(&[0.5, 5.0], 2),
        part_card(1.0),
        part_card(1.0),
    ]
    .concat();
    let text = print(&bytes);
    let signs: Vec<_> = text
        .lines()
        .map(|line| {
            let words: Vec<&str> = line.split(' ').rev().take(2).collect();
            assert!(words
                .iter()
                .all(|word| word.trim_end_matches('+').len() == 16));
            (words[1].ends_with('+'), words[0].ends_with('+'))
        })
        .collect();
    assert!(!print(&stream()).contains('+'));
    let (none, second) = ((false, false), (false, true));
    assert_eq!(
        signs,
        [none, second, none, none, none, none, second, second]
    );
}

/// The longest text: 16 parts that all widen beyond their table, 32 columns, four finishes.
#[test]
fn longest_print() {
    let mut bytes = settings_card(&[5.0; COLUMNS], FINISHES as u8);
    for place in 1..=PLACES {
        bytes.extend(part_card(place as f64));
    }
    let text = print(&bytes);
    assert_eq!(text.matches('+').count(), (PLACES + FINISHES) * COLUMNS);
    assert_eq!((text.lines().count(), text.len()), (26, 14988));
    assert!(text.len() <= words::LONGEST_TEXT);
}
