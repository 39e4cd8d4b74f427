//! The marks of the model of the sheet (docs/REFERENCE.md, Rows): of each shape and of every call by
//! hand, below, at and above the last Mach numbers of the tables, those that somebody else wrote, and
//! refused calls.

use compare::arguments::Arguments;
use compare::cards::{printed, shape_of};
use compare::model::*;
use compare::refusals::Answer;

/// Where the tables of power 1/2 and of the ellipsoid end.
const HALF: f64 = 1.941;
const END: f64 = 3.587;

fn settings(finishes: usize, machs: &[f64]) -> Settings {
    let mut columns = [at(0.0); COLUMNS];
    for (column, &mach) in columns.iter_mut().zip(machs) {
        column.mach = mach;
    }
    Settings {
        reference_diameter: 1.0,
        finishes,
        roughnesses: [1e-5; FINISHES],
        body_fineness: 12.0,
        count: machs.len(),
        columns,
    }
}

fn at(mach: f64) -> Column {
    Column {
        mach,
        reynolds: 1e6,
    }
}

/// A part of length 1.
fn part((number, parameter): (u64, f64), aft_diameter: f64) -> Part {
    Part {
        shape: shape_of(number, parameter),
        length: 1.0,
        aft_diameter,
        wetted_ratio: 4.0,
        ..NO_PART
    }
}

const CONE: (u64, f64) = (0, 0.0);
/// Marked above `HALF`.
const POWER: (u64, f64) = (3, 0.4);
/// Marked above `END`.
const ELLIPSOID: (u64, f64) = (2, 0.0);

/// Accepted; the sheet handed back.
fn accepted((answer, sheet): (Answer, Sheet)) -> Sheet {
    assert_eq!(answer.refusal, 0);
    sheet
}

/// The marks of a row.
fn marks<'a>(sheet: &Sheet, row: usize, held: &'a Buffers) -> &'a [u8] {
    let count = sheet.settings.count;
    &held.marks[row * count..(row + 1) * count]
}

/// The marks by hand: of the part rows that are told, of the totals, and of no other row.
fn has_marks(sheet: &Sheet, held: &Buffers, parts: &[(usize, &[u8])], total: &[u8]) {
    let finishes = sheet.settings.finishes;
    for row in 0..rows(finishes) {
        let none = vec![0; sheet.settings.count];
        let told = parts.iter().find(|(place, _)| *place == row);
        let wanted = match told {
            Some((_, marks)) => marks,
            None if row >= total_row(finishes) => total,
            None => &none,
        };
        assert_eq!(marks(sheet, row, held), wanted, "row {row} of {finishes}");
    }
}

/// Each shape's marks below, at and above the least last Mach number of the tables that it reads.
#[test]
fn each_shape_by_hand() {
    for (shape, end) in [
        ((2, 0.0), END),
        ((3, 0.0), END),
        ((3, 0.1), END),
        ((3, 0.25), HALF),
        ((3, 0.5), HALF),
        ((3, 0.6), HALF),
        ((3, 0.75), 1.967),
        ((3, 1.0), 1.967),
        ((4, 0.0), 1.968),
        ((4, 0.6), 1.968),
        ((4, 1.0), 1.968),
        ((5, 0.0), 1.977),
        ((5, 1.0 / 3.0), 1.977),
    ] {
        let machs = [0.0, 0.5, 1.0, end.next_down(), end, end.next_up(), 1e200];
        assert_eq!(marks_of(shape, &machs), [0, 0, 0, 0, 0, 1, 1], "{shape:?}");
    }
    for shape in [CONE, (1, 1.0), (1, 3.0)] {
        assert_eq!(marks_of(shape, &[0.5, END, 5.0, 1e200]), [0; 4]);
    }
}

/// The marks of a nose of this shape alone, which are the total's too.
fn marks_of(shape: (u64, f64), machs: &[f64]) -> Vec<u8> {
    let mut held = Buffers::of(rows(1) * machs.len(), 7.0, 7);
    let sheet = accepted(open(&settings(1, machs), held.lend()));
    let sheet = accepted(insert(&sheet, 0, &part(shape, 0.5), held.lend()));
    let nose = marks(&sheet, 0, &held).to_vec();
    has_marks(&sheet, &held, &[(0, &nose)], &nose);
    nose
}

/// Every call, with one to four finishes: parts that widen have their curve's marks, all others none,
/// and each total those of all parts together.
#[test]
fn every_call_by_hand() {
    for finishes in 1..=FINISHES {
        let given = settings(finishes, &[HALF, HALF.next_up(), END, END.next_up()]);
        let mut held = Buffers::of(rows(finishes) * 4 + 1, f64::NAN, 9);
        let sheet = accepted(open(&given, held.lend()));
        has_marks(&sheet, &held, &[], &[0; 4]);
        let sheet = accepted(insert(&sheet, 0, &part(POWER, 0.5), held.lend()));
        has_marks(&sheet, &held, &[(0, &[0, 1, 1, 1])], &[0, 1, 1, 1]);
        // A tube, whose shape's table isn't read, and a shoulder.
        let sheet = accepted(insert(&sheet, 1, &part(ELLIPSOID, 0.5), held.lend()));
        let sheet = accepted(insert(&sheet, 2, &part(ELLIPSOID, 0.7), held.lend()));
        let shoulder: (usize, &[u8]) = (2, &[0, 0, 0, 1]);
        has_marks(
            &sheet,
            &held,
            &[(0, &[0, 1, 1, 1]), shoulder],
            &[0, 1, 1, 1],
        );
        let sheet = accepted(replace(&sheet, 0, &part(CONE, 0.5), held.lend()));
        has_marks(&sheet, &held, &[shoulder], &[0, 0, 0, 1]);
        let sheet = accepted(set_column(&sheet, 0, at(5.0), held.lend()));
        let sheet = accepted(set_column(&sheet, 3, at(1.0), held.lend()));
        has_marks(&sheet, &held, &[(2, &[1, 0, 0, 0])], &[1, 0, 0, 0]);
        let sheet = accepted(ignite(&sheet, 0.1, held.lend()));
        let sheet = accepted(burnout(&sheet, held.lend()));
        has_marks(&sheet, &held, &[(2, &[1, 0, 0, 0])], &[1, 0, 0, 0]);
        // Behind a wider part the shoulder is a boattail, and reads no table.
        let sheet = accepted(replace(&sheet, 1, &part(POWER, 0.9), held.lend()));
        has_marks(&sheet, &held, &[(1, &[1, 1, 1, 0])], &[1, 1, 1, 0]);
        let sheet = accepted(remove(&sheet, 1, held.lend()));
        has_marks(&sheet, &held, &[(1, &[1, 0, 0, 0])], &[1, 0, 0, 0]);
        assert_eq!(held.marks[rows(finishes) * 4], 9);
    }
}

/// A cell stays marked where its area makes it 0; of length 0 the part is the step, which reads no
/// table.
#[test]
fn marked_where_the_cell_is_zero() {
    let mut held = Buffers::new(rows(1));
    let sheet = accepted(open(&settings(1, &[5.0]), held.lend()));
    for (length, mark) in [(1e-200, 1), (0.0, 0)] {
        let narrow = Part {
            length,
            ..part(POWER, 1e-200)
        };
        accepted(insert(&sheet, 0, &narrow, held.lend()));
        assert_eq!((held.cells[0].to_bits(), held.marks[0]), (0, mark));
    }
}

/// A part's mark that somebody else wrote counts in every total if it isn't 0, and stays where its
/// cell isn't written. In other rows it counts for nothing.
#[test]
fn foreign_marks() {
    for finishes in 1..=FINISHES {
        let mut held = Buffers::new(rows(finishes) * 2 + 1);
        let sheet = accepted(open(&settings(finishes, &[0.5, 0.6]), held.lend()));
        let sheet = accepted(insert(&sheet, 0, &part(CONE, 0.5), held.lend()));
        held.marks.fill(0);
        for row in FRICTION..rows(finishes) {
            held.marks[2 * row] = 255;
        }
        held.marks[2 * 15 + 1] = 2;
        let sheet = accepted(ignite(&sheet, 0.1, held.lend()));
        for row in FRICTION..base_row(finishes) {
            assert_eq!(marks(&sheet, row, &held), [255, 0]);
        }
        assert_eq!(marks(&sheet, base_row(finishes), &held), [0, 0]);
        for finish in 0..finishes {
            let row = total_row(finishes) + finish;
            assert_eq!(marks(&sheet, row, &held), [0, 1]);
        }
        held.marks[2 * 7] = 255;
        let sheet = accepted(replace(&sheet, 0, &part(CONE, 0.6), held.lend()));
        has_marks(&sheet, &held, &[(7, &[255, 0]), (15, &[0, 2])], &[1, 1]);
        let sheet = accepted(set_column(&sheet, 1, at(0.7), held.lend()));
        has_marks(&sheet, &held, &[(7, &[255, 0])], &[1, 0]);
        let sheet = accepted(burnout(&sheet, held.lend()));
        has_marks(&sheet, &held, &[(7, &[255, 0])], &[1, 0]);
        let sheet = accepted(remove(&sheet, 0, held.lend()));
        has_marks(&sheet, &held, &[], &[0, 0]);
    }
}

/// Every call, refused: 10 for short marks at its place in the order, and no mark or cell changed.
#[test]
fn refused_calls() {
    let mut held = Buffers::of(2 * rows(2), 1.5, 3);
    let given = settings(2, &[1.0, 5.0]);
    let sheet = accepted(open(&given, held.lend()));
    let sheet = accepted(insert(&sheet, 0, &part(POWER, 0.5), held.lend()));
    for (at, mark) in held.marks.iter_mut().enumerate() {
        *mark = at as u8;
    }
    let before = held.clone();
    let all = held.marks.len();
    let bad = part((3, 1.5), 0.5);
    let mut each = |sheet: &Sheet, cells: usize, marks: usize| {
        let answers = [
            open(&sheet.settings, held.lend_first(cells, marks)),
            insert(sheet, 0, &bad, held.lend_first(cells, marks)),
            replace(sheet, 0, &bad, held.lend_first(cells, marks)),
            remove(sheet, 1, held.lend_first(cells, marks)),
            set_column(sheet, 0, at(f64::INFINITY), held.lend_first(cells, marks)),
            ignite(sheet, 101.0, held.lend_first(cells, marks)),
            burnout(sheet, held.lend_first(cells, marks)),
        ];
        assert_eq!(held, before);
        answers.map(|(answer, _)| answer.refusal)
    };
    assert_eq!(each(&sheet, all, all - 1), [10; 7]);
    assert_eq!(each(&sheet, all - 1, all), [10; 7]);
    assert_eq!(each(&sheet, all, 0), [10; 7]);
    let mut burning = sheet;
    burning.nozzle_diameter = -1.0;
    assert_eq!(each(&burning, all, all - 1), [10; 7]);
    let mut short = burning;
    short.settings.body_fineness = 0.0;
    assert_eq!(each(&short, all, 0), [1; 7]);
    assert_eq!(each(&short, all, all), [1; 7]);
}

/// After each of many calls on a sheet that was opened, marks and cells are those of a build from
/// nothing, of which a refused one changes none.
#[test]
fn edits_leave_the_builds_marks() {
    let mut args = Arguments::new(0x5eed_0014);
    let (mut accepted, mut marked) = (0, 0);
    for finishes in 1..=FINISHES {
        let mut held = Buffers::of(rows(finishes) * 3, f64::NAN, 200);
        let (_, mut sheet) = open(&settings(finishes, &[0.5, 1.5, 2.5]), held.lend());
        for _ in 0..400 {
            let (place, new) = (args.a_place(sheet.design.count), args.a_part(30, 30));
            let before = held.clone();
            let (answer, after) = match args.below(8) {
                0..=2 => insert(&sheet, place, &new, held.lend()),
                3 => replace(&sheet, place, &new, held.lend()),
                4 => remove(&sheet, place, held.lend()),
                5 => set_column(&sheet, args.below(4), args.a_column(9), held.lend()),
                6 => ignite(&sheet, args.a_nozzle(0.5, 9), held.lend()),
                _ => burnout(&sheet, held.lend()),
            };
            sheet = after;
            if answer.refusal == 0 {
                accepted += 1;
                marked += usize::from(held.marks.contains(&1));
                let built = build(&sheet).expect("an accepted sheet");
                assert_eq!(held.marks, built.marks);
            } else {
                assert_eq!(held.marks, before.marks);
            }
        }
    }
    assert!(accepted > 500 && marked > 300, "{accepted}, {marked}");
}

/// The sign is printed right after a marked cell's digits, and never after a Mach number.
#[test]
fn printed_signs() {
    let one = 1.0f64.to_le_bytes();
    let mut bytes = [&[0x0d], &one[..], &one[..], &[2]].concat();
    for mach in [0.5f64, 5.0] {
        bytes.extend([mach.to_le_bytes(), [0; 8]].concat());
    }
    bytes.extend([&[0x0d, 2], &one[..], &one[..]].concat());
    let (text, _) = printed(&bytes);
    let ends: Vec<&str> = text.lines().flat_map(|line| line.split(' ')).collect();
    let signs = ends.iter().map(|word| word.ends_with('+'));
    let (on, off) = (true, false);
    // mach, part 0, friction, base, total: names and two columns each.
    let wanted: [&[bool]; 5] = [
        &[off, off, off],
        &[off, off, off, on],
        &[off, off, off],
        &[off, off, off],
        &[off, off, on],
    ];
    assert!(signs.eq(wanted.concat()), "{text}");
}
