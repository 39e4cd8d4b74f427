//! The model of the sheet (docs/REFERENCE.md, Sheet) with two to four finishes: rows by hand, each
//! finish against a sheet of it alone, and the refusals in their order.

use compare::answer_bits;
use compare::fixed::{ln, powf};
use compare::inputs::Random;
use compare::model::*;
use compare::refusals::Answer;

const COLUMN: Column = Column {
    mach: 0.5,
    reynolds: 1e6,
};

/// Polished, and three that limit the friction at `COLUMN`.
const ROUGHNESSES: [f64; FINISHES] = [1e-6, 1e-3, 0.01, 0.05];

fn settings(finishes: usize, count: usize) -> Settings {
    Settings {
        reference_diameter: 1.0,
        finishes,
        roughnesses: ROUGHNESSES,
        body_fineness: 12.0,
        count,
        columns: [COLUMN; COLUMNS],
    }
}

/// A part of this d and w.
fn part(aft_diameter: f64, wetted_ratio: f64, roughness: Option<f64>) -> Part {
    Part {
        aft_diameter,
        wetted_ratio,
        roughness,
        ..NO_PART
    }
}

fn bits(cells: &[f64]) -> Vec<u64> {
    cells.iter().map(|&x| answer_bits(x)).collect()
}

/// Skin friction × form factor at `COLUMN`, by the formulas written out.
fn share(roughness: f64) -> f64 {
    let a = 1.5 * ln(1e6) - 5.6;
    let incompressible = if 51.0 * powf(roughness, -1.039) <= 1e6 {
        0.032 * powf(roughness, 0.2)
    } else {
        1.0 / (a * a)
    };
    (incompressible * (1.0 - 0.1 * (0.5 * 0.5))) * (1.0 + 0.5 / 12.0)
}

/// A flat face, a tube of its own roughness and a narrowing tail, in columns that are all `COLUMN`.
fn rocket(finishes: usize, count: usize, held: &mut Buffers) -> Sheet {
    let (answer, mut sheet) = open(&settings(finishes, count), held.lend());
    assert_eq!(answer.refusal, 0);
    let parts = [
        part(1.0, 8.0, None),
        part(1.0, 40.0, Some(0.002)),
        part(0.5, 2.0, None),
    ];
    for (place, part) in parts.iter().enumerate() {
        let (answer, after) = insert(&sheet, place, part, held.lend());
        assert_eq!(answer.refusal, 0);
        sheet = after;
    }
    sheet
}

/// All rows by hand, for each number of finishes: 16 part rows, the frictions, base, the totals.
#[test]
fn rows_by_hand() {
    for finishes in 1..=FINISHES {
        let count = 2;
        let mut held = Buffers::of(rows(finishes) * count + 1, f64::NAN, 7);
        let sheet = rocket(finishes, count, &mut held);
        assert_eq!(sheet.settings.cells(), (17 + 2 * finishes) * count);
        let (_, sheet) = ignite(&sheet, 0.25, held.lend());
        let base_drag = 0.12 + 0.13 * 0.5 * 0.5;
        let base = base_drag * (0.5 * 0.5 - 0.25 * 0.25);
        let tail = base_drag * (1.0 * 1.0 - 0.5 * 0.5);
        let face = held.cells[0];
        let mut wanted = vec![0.0; PLACES];
        (wanted[0], wanted[2]) = (face, tail);
        let frictions: Vec<f64> = ROUGHNESSES[..finishes]
            .iter()
            .map(|&k| ((0.0 + share(k) * 8.0) + share(0.002) * 40.0) + share(k) * 2.0)
            .collect();
        wanted.extend(&frictions);
        wanted.push(base);
        wanted.extend(
            frictions
                .iter()
                .map(|friction| ((face + tail) + friction) + base),
        );
        for column in 0..count {
            let row = |row: usize| held.cells[row * count + column].to_bits();
            for (at, cell) in wanted.iter().enumerate() {
                assert_eq!(row(at), cell.to_bits(), "row {at} of {finishes}");
            }
        }
        assert_eq!(wanted.len(), rows(finishes));
        assert!(held.cells[rows(finishes) * count].is_nan());
        assert_eq!(sheet.settings.finishes, finishes);
    }
}

/// Each of the roughnesses differs in its friction, so no row stands for another.
#[test]
fn frictions_differ() {
    let shares = ROUGHNESSES.map(share);
    assert!(shares.windows(2).all(|pair| pair[0] < pair[1]));
}

/// One of many calls, the same on any sheet.
fn any_call(random: &mut Random) -> impl Fn(&Sheet, Lent) -> (Answer, Sheet) {
    let place = (random.bits() % 6) as usize;
    let own = random.scaled(1e-6, 1e-2);
    let new = Part {
        length: random.between(0.0, 3.0),
        joint_angle: random.between(0.0, 1.6),
        ..part(
            random.pick(&[0.0, 0.5, 1.0, 1.5]),
            random.between(0.0, 20.0),
            (random.bits() % 2 == 0).then_some(own),
        )
    };
    let column = Column {
        mach: random.between(0.0, 3.0),
        reynolds: random.scaled(1e3, 1e9),
    };
    let n = random.pick(&[0.25, 0.5, 1.0, -0.0, 101.0]);
    let kind = random.bits() % 10;
    move |sheet, lent| match kind {
        0..=2 => insert(sheet, place, &new, lent),
        3..=4 => replace(sheet, place, &new, lent),
        5 => remove(sheet, place, lent),
        6..=7 => set_column(sheet, place, column, lent),
        8 => ignite(sheet, n, lent),
        _ => burnout(sheet, lent),
    }
}

/// After each of many calls every finish has the rows of a sheet of it alone, and all rows are the
/// build from nothing.
#[test]
fn each_finish_as_alone() {
    let mut random = Random::new(12);
    for finishes in 1..=FINISHES {
        let count = 3;
        let mut held = Buffers::of(rows(finishes) * count, f64::NAN, 7);
        let (_, mut sheet) = open(&settings(finishes, count), held.lend());
        let mut alone = Vec::new();
        for &roughness in &ROUGHNESSES[..finishes] {
            let mut one = settings(1, count);
            one.roughnesses[0] = roughness;
            let mut lent = Buffers::of(rows(1) * count, f64::NAN, 7);
            alone.push((open(&one, lent.lend()).1, lent));
        }
        let mut accepted = 0;
        for _ in 0..300 {
            let call = any_call(&mut random);
            let (answer, after) = call(&sheet, held.lend());
            (sheet, accepted) = (after, accepted + usize::from(answer.refusal == 0));
            let built = build(&sheet).expect("an accepted sheet");
            assert_eq!(bits(&held.cells), bits(&built.cells));
            for (finish, (one, lent)) in alone.iter_mut().enumerate() {
                let (other, after) = call(one, lent.lend());
                assert_eq!(other, answer);
                *one = after;
                let row = |held: &Buffers, row: usize| bits(&held.cells[row * count..][..count]);
                assert_eq!(row(&held, FRICTION + finish), row(lent, FRICTION));
                let total = total_row(finishes) + finish;
                assert_eq!(row(&held, total), row(lent, total_row(1)));
                assert_eq!(row(&held, base_row(finishes)), row(lent, base_row(1)));
                assert_eq!(
                    bits(&held.cells[..PLACES * count]),
                    bits(&lent.cells[..PLACES * count])
                );
            }
        }
        assert!(accepted > 100, "{accepted}");
    }
}

/// A replace leaves cells that somebody else wrote, and each total adds them.
#[test]
fn foreign_cells() {
    let mut held = Buffers::new(rows(3));
    let sheet = rocket(3, 1, &mut held);
    let before = held.cells.clone();
    held.cells[7] = 32.0;
    replace(&sheet, 0, &sheet.design.parts[0], held.lend());
    let cells = &held.cells;
    for finish in 0..3 {
        let at = total_row(3) + finish;
        let parts = (before[0] + before[2]) + 32.0;
        assert_eq!(
            cells[at],
            (parts + cells[FRICTION + finish]) + cells[base_row(3)]
        );
    }
    // Ignite writes base and totals alone: a friction that somebody wrote is summed in its finish.
    held.cells[FRICTION + 1] = 64.0;
    let kept = held.cells.clone();
    ignite(&sheet, 0.25, held.lend());
    let cells = &held.cells;
    assert_eq!(bits(&cells[..base_row(3)]), bits(&kept[..base_row(3)]));
    let total = |finish: usize| cells[total_row(3) + finish];
    assert!(total(1) > 64.0 && total(0) < 64.0 && total(2) < 64.0);
}

/// What open and each other call answers with these settings in the sheet, arguments refused too.
fn answers(settings: &Settings, cell_count: usize) -> [u8; 7] {
    let mut sheet = rocket(1, 1, &mut Buffers::new(rows(1)));
    sheet.settings = *settings;
    sheet.nozzle_diameter = -1.0;
    sheet.design.count = 17;
    let mut held = Buffers::of(cell_count, 1.0, 2);
    let long = Part {
        length: 101.0,
        ..NO_PART
    };
    let answers = [
        open(settings, held.lend()).0,
        replace(&sheet, 99, &long, held.lend()).0,
        insert(&sheet, 99, &long, held.lend()).0,
        remove(&sheet, 99, held.lend()).0,
        set_column(&sheet, 99, COLUMN, held.lend()).0,
        ignite(&sheet, f64::NAN, held.lend()).0,
        burnout(&sheet, held.lend()).0,
    ];
    assert_eq!(held, Buffers::of(cell_count, 1.0, 2));
    answers.map(|answer| answer.refusal)
}

/// 7, then 11 for D, 19, 11 for each roughness that counts, 1 for B, 10.
#[test]
fn the_order_of_refusals() {
    for finishes in [0, 5, 1 << 32, usize::MAX] {
        let mut given = settings(finishes, COLUMNS + 1);
        given.reference_diameter = 0.0;
        given.roughnesses = [f64::NAN; FINISHES];
        given.body_fineness = 0.0;
        assert_eq!(answers(&given, 0), [7; 7]);
        given.count = 1;
        assert_eq!(answers(&given, 0), [11; 7]);
        given.reference_diameter = 1.0;
        assert_eq!(answers(&given, 0), [19; 7]);
        for finishes in 1..=FINISHES {
            given.finishes = finishes;
            assert_eq!(answers(&given, 0), [11; 7]);
        }
        given.roughnesses = ROUGHNESSES;
        assert_eq!(answers(&given, 0), [1; 7]);
        given.body_fineness = 12.0;
        assert_eq!(answers(&given, rows(FINISHES) - 1), [10; 7]);
        given.finishes = finishes;
        assert_eq!(answers(&given, 0), [19; 7]);
    }
}

/// 11 for each roughness that counts; those past the finishes may be anything.
#[test]
fn each_roughness() {
    for finishes in 1..=FINISHES {
        for at in 0..FINISHES {
            for bad in [1.5, -1.0, f64::NAN, 1.0f64.next_up(), -f64::from_bits(1)] {
                let mut given = settings(finishes, 0);
                given.roughnesses[at] = bad;
                let answer = open(&given, Buffers::new(0).lend()).0.refusal;
                assert_eq!(answer, if at < finishes { 11 } else { 0 });
            }
            for good in [0.0, -0.0, 1.0] {
                let mut given = settings(finishes, 0);
                given.roughnesses[at] = good;
                assert_eq!(open(&given, Buffers::new(0).lend()).0.refusal, 0);
            }
        }
    }
}

/// (17 + 2 × F) × C cells and as many marks are enough, and one fewer of either are not.
#[test]
fn cells_needed() {
    for finishes in 1..=FINISHES {
        for count in [0, 1, 32] {
            let enough = (17 + 2 * finishes) * count;
            let mut held = Buffers::new(enough);
            let given = settings(finishes, count);
            assert_eq!(open(&given, held.lend()).0.refusal, 0);
            if count > 0 {
                let mut few = |cells, marks| open(&given, held.lend_first(cells, marks)).0.refusal;
                assert_eq!([few(enough - 1, enough), few(enough, enough - 1)], [10; 2]);
            }
        }
    }
}
