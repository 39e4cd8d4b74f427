//! What the watched build of the original tells: which tables it reads for each shape and at which
//! Mach number, and that it answers as the build that is measured does.

use compare::arguments::Arguments;
use compare::builds::{watched as build, STEP};
use compare::cards::of_shape;
use compare::mirror::{self, measured};
use compare::original_watched::StoneyNose::{self, *};
use compare::watch::{last_mach, watched, with_mark, Lookup};

/// Where the tables of power 1/4 and of power 1/2 end.
const QUARTER: f64 = 3.587;
const HALF: f64 = 1.941;

/// The lookups for a coefficient at a Mach number, of a curve of fineness 3.
fn lookups((number, parameter): (u64, f64), mach: f64) -> Vec<Lookup> {
    let curve = build::curve(number, [parameter, 3.0, 0.1]).expect("a curve");
    let (coefficient, seen) = watched(|| curve.coefficient(mach), |seen| seen.to_vec());
    coefficient.expect("a Mach number");
    seen
}

#[test]
fn last_machs() {
    let lasts: Vec<f64> = StoneyNose::ALL
        .iter()
        .map(|&nose| last_mach(nose))
        .collect();
    assert_eq!(
        lasts,
        [3.587, 1.941, 1.967, 1.968, 1.968, 1.975, 3.587, 1.977, 1.994]
    );
}

/// Each shape reads these tables from Mach 0.8 on, whatever the weights, and none below.
#[test]
fn tables_of_each_shape() {
    let shapes: [(u64, f64, &[StoneyNose]); 20] = [
        (0, 0.0, &[]),
        (1, 2.0, &[]),
        (STEP, 0.0, &[]),
        (3, 0.0, &[PowerQuarter]),
        (3, 0.1, &[PowerQuarter]),
        (3, 0.25, &[PowerQuarter, PowerHalf]),
        (3, 0.4, &[PowerQuarter, PowerHalf]),
        (3, 0.5, &[PowerHalf, PowerThreeQuarters]),
        (3, 0.6, &[PowerHalf, PowerThreeQuarters]),
        (3, 0.75, &[PowerThreeQuarters]),
        (3, 1.0, &[PowerThreeQuarters]),
        (4, 0.0, &[ParabolaHalf]),
        (4, 0.4, &[ParabolaHalf]),
        (4, 0.5, &[ParabolaHalf, ParabolaThreeQuarters]),
        (4, 0.7, &[ParabolaHalf, ParabolaThreeQuarters]),
        (4, 0.75, &[ParabolaThreeQuarters, Parabola]),
        (4, 1.0, &[ParabolaThreeQuarters, Parabola]),
        (5, 0.0, &[VonKarman, LvHaack]),
        (5, 0.2, &[VonKarman, LvHaack]),
        (5, 1.0 / 3.0, &[VonKarman, LvHaack]),
    ];
    for (number, parameter, tables) in shapes {
        for mach in [0.8, 1.0, 1.9, HALF, 2.0, QUARTER, 5.0, 1e300] {
            let wanted: Vec<Lookup> = tables.iter().map(|&nose| (nose, mach)).collect();
            assert_eq!(lookups((number, parameter), mach), wanted, "{number}");
        }
        for mach in [0.0, 0.5, 0.8f64.next_down()] {
            assert_eq!(lookups((number, parameter), mach), [], "{number}");
        }
    }
}

/// An ellipsoid reads its table at 1.2 between Mach 0.8 and that, twice as it is both references.
#[test]
fn tables_of_an_ellipsoid() {
    let ellipsoid = (2, 0.0);
    for mach in [0.0, 0.5, 0.8f64.next_down()] {
        assert_eq!(lookups(ellipsoid, mach), []);
    }
    for mach in [0.8, 1.0, 1.2f64.next_down(), 1.2] {
        assert_eq!(lookups(ellipsoid, mach), [(Ellipsoid, 1.2); 2]);
    }
    for mach in [1.3, QUARTER, 5.0] {
        assert_eq!(lookups(ellipsoid, mach), [(Ellipsoid, mach); 2]);
    }
}

/// What `new` reads is no coefficient's, and a curve of fineness 0 is the step.
#[test]
fn nothing_read_by_new() {
    let seen_by_new = |seen: &[Lookup]| assert_eq!(seen, [(VonKarman, 0.8), (LvHaack, 0.8)]);
    let (curve, ()) = watched(|| build::curve(5, [0.0, 3.0, 0.1]), seen_by_new);
    let curve = curve.expect("a curve");
    assert!(!with_mark(|| curve.coefficient(0.5)).1);
    assert!(with_mark(|| curve.coefficient(5.0)).1);
    let flat = build::curve(3, [f64::NAN, -0.0, 0.1]).expect("the step");
    assert!(!with_mark(|| flat.coefficient(5.0)).1);
}

/// The watched build answers as the one that is measured does, whatever is watched.
#[test]
fn both_builds_are_one() {
    let mut args = Arguments::new(0x5eed_0013);
    let (mut marked, mut all) = (0, 0);
    while all < 20_000 {
        let part = args.a_part(u64::MAX, 20);
        let (number, parameter) = of_shape(part.shape);
        let x = [parameter, args.random.between(0.0, 6.0), part.joint_angle];
        let machs = [(); 3].map(|()| args.a_column(20).mach);
        let (mut out, mut marks, mut measured) = ([0; 3], [0; 3], [0; 3]);
        let answer = mirror::curve(number, x, &machs, &mut out, &mut marks);
        assert_eq!(answer, measured::curve(number, x, &machs, &mut measured));
        assert_eq!(out, measured);
        all += 3;
        marked += marks.iter().filter(|&&mark| mark == 1).count();
    }
    assert!(marked > 3000, "{marked}");
    for nose in 0..10 {
        let (status, [value, slope, first, _]) = mirror::nose_lookup(nose, 2.0);
        let theirs = measured::nose_lookup(nose, 2.0);
        assert_eq!((status, [value, slope, first]), theirs);
    }
}

/// A lookup's mark at a table's last Mach number, its neighbours and far away.
#[test]
fn lookups_at_the_end() {
    for (number, &nose) in StoneyNose::ALL.iter().enumerate() {
        let last = last_mach(nose);
        let mark = |mach: f64| mirror::nose_lookup(number as u32, mach).1[3];
        for mach in [f64::NEG_INFINITY, -5.0, 0.0, 0.8, last.next_down(), last] {
            assert_eq!(mark(mach), 0);
        }
        for mach in [last.next_up(), 5.0, f64::MAX, f64::INFINITY] {
            assert_eq!(mark(mach), 1);
        }
    }
    assert_eq!(mirror::nose_lookup(9, 5.0), (mirror::NO_SUCH, [0; 4]));
}
