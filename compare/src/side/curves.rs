//! Pressure drag curves: built, asked about, and asked at Mach numbers.

use cobalnis::words;

use super::asked::{self, each_input, Argument};
use super::formulas::written;
use super::tally::Row;
use crate::builds::{fixed_steps, plain, SHAPES, STEP};
use crate::inputs::Random;
use crate::mirror;

pub fn curves(count: u64, random: &mut Random) -> Vec<Row> {
    let mut rows = Vec::new();
    for (shape, name) in SHAPES.iter().enumerate() {
        rows.extend(new(shape as u64, name, count, random));
    }
    for (shape, name) in SHAPES.iter().enumerate() {
        rows.push(coefficient(shape as u64, name, count, random));
    }
    rows.push(step(count, random));
    rows.push(lists(false, count, random));
    rows.push(lists(true, count, random));
    rows
}

/// `new` with `rest_coefficient`, and with `transonic_lower_bound`.
fn new(shape: u64, name: &str, count: u64, random: &mut Random) -> [Row; 2] {
    let mut rows = ["rest_coefficient", "transonic_lower_bound"]
        .map(|of| Row::new(format!("PressureDragCurve::new, {name}: {of}")));
    let arguments = [asked::parameter(shape), asked::fineness(), asked::angle()];
    let [a, b, c] = &arguments;
    let mut ask = |_: &mut Random, x: [f64; 3], plausible: bool| {
        let port = words::curve(shape, x, &[], &mut [], &mut []);
        let theirs = mirror::curve(shape, x, &[], &mut [], &mut []);
        let plain = plain::curve(shape, x);
        for (at, row) in rows.iter_mut().enumerate() {
            let agree = port.0 == theirs.0 && port.1[0] == theirs.1[0];
            row.note(
                theirs.0,
                agree && port.1[at + 1] == theirs.1[at + 1],
                || {
                    let (p, o) = (with_status(&port), with_status(&theirs));
                    written(&x.map(f64::to_bits), &p, &o)
                },
            );
            let plain = plain.map(|curve| match at {
                0 => curve.rest_coefficient(),
                _ => curve.transonic_lower_bound(),
            });
            row.measure(plausible, port.0, port.1[at + 1], plain);
        }
    };
    each_input([a, b, c], None, count - count / 4, random, &mut ask);
    for _ in 0..count / 4 {
        let x = meeting(shape, [a, b, c], random);
        ask(random, x, false);
    }
    rows
}

/// A curve whose drag at rest, by its joint angle, is about where a fit or a maximum changes: at
/// the drag of the lower bound, where eq. 3.87's b is 1, at an ellipsoid's measured drag, or at the
/// drag of the cone of fineness 1.
fn meeting(shape: u64, [of, long, _]: [&Argument; 3], random: &mut Random) -> [f64; 3] {
    let (parameter, fineness) = ((of.plausible)(random), (long.plausible)(random));
    let smooth = fixed_steps::curve(shape, [parameter, fineness, 0.0]).expect("plausible");
    let low = smooth.mach_low;
    let (value, slope) = smooth.transonic.value_and_slope(low);
    let mach = random.between(0.0, 0.8);
    let rest = random.pick(&[
        value,
        value - slope * low,
        smooth.transonic.value_and_slope(mach).0,
        0.4472135954999579,
        0.01,
    ]);
    let angle = (rest / 0.8).sqrt().asin();
    let bits = angle.to_bits().wrapping_add(random.bits() % 9);
    [parameter, fineness, f64::from_bits(bits.wrapping_sub(4))]
}

fn with_status(answer: &(u32, [u64; 3])) -> [u64; 4] {
    let [a, b, c] = answer.1;
    [answer.0.into(), a, b, c]
}

/// `new`, then `coefficient` at one Mach number.
fn coefficient(shape: u64, name: &str, count: u64, random: &mut Random) -> Row {
    let mut row = Row::new(format!("coefficient, {name}"));
    let arguments = [asked::parameter(shape), asked::fineness(), asked::angle()];
    let (mach, [a, b, c]) = (asked::mach(), &arguments);
    let mut ask = |_: &mut Random, [p, f, angle, mach]: [f64; 4], plausible: bool| {
        one(&mut row, shape, [p, f, angle], mach, plausible);
    };
    each_input([a, b, c, &mach], None, count / 2, random, &mut ask);
    // A curve that is accepted, and any Mach number; a plausible one, at every edge.
    let plausible = [a, b, c].map(|argument| argument.plausible);
    for i in 0..count - count / 2 {
        let [p, f, angle] = match i % 4 {
            0 => meeting(shape, [a, b, c], random),
            _ => plausible.map(|of| of(random)),
        };
        let x = match mach.edges.get(i as usize % (2 * mach.edges.len())) {
            Some(&edge) => edge,
            None => mach.any(random),
        };
        ask(random, [p, f, angle, x], false);
    }
    row
}

/// What stands in a mark before a call.
const BEFORE: u8 = 7;

fn one(row: &mut Row, shape: u64, arguments: [f64; 3], mach: f64, plausible: bool) {
    let (mut port_out, mut their_out) = ([0], [0]);
    let (mut port_mark, mut their_mark) = ([BEFORE], [BEFORE]);
    let port = words::curve(shape, arguments, &[mach], &mut port_out, &mut port_mark);
    let theirs = mirror::curve(shape, arguments, &[mach], &mut their_out, &mut their_mark);
    let agree = port == theirs && port_out == their_out && port_mark == their_mark;
    row.note(theirs.0, agree, || {
        let [p, f, angle] = arguments.map(f64::to_bits);
        let of = |answer: (u32, [u64; 3]), out: [u64; 1], mark: [u8; 1]| {
            let [refused, rest, _] = answer.1;
            [answer.0.into(), refused, rest, out[0], mark[0].into()]
        };
        written(
            &[shape, p, f, angle, mach.to_bits()],
            &of(port, port_out, port_mark),
            &of(theirs, their_out, their_mark),
        )
    });
    if theirs.0 == 0 {
        row.note_mark(their_mark == [1]);
    }
    let plain = plain::curve(shape, arguments).and_then(|curve| Ok(curve.coefficient(mach)?));
    row.measure(plausible, port.0, port_out[0], plain);
}

/// `step`, which looks at none of the arguments, and its `coefficient`.
fn step(count: u64, random: &mut Random) -> Row {
    let mut row = Row::new("PressureDragCurve::step, coefficient");
    let mach = asked::mach();
    each_input([&mach], None, count, random, |random, [x], plausible| {
        let arguments = [random.any(), random.any(), random.any()];
        one(&mut row, STEP, arguments, x, plausible);
    });
    row
}

/// Many Mach numbers for one curve, refused ones among them, shapes that aren't there, and outputs
/// that are as long or shorter, or else longer.
fn lists(longer: bool, count: u64, random: &mut Random) -> Row {
    let mut row = Row::new(if longer {
        "curve, lists of Machs, outputs longer"
    } else {
        "curve, lists of Machs, outputs as long or shorter"
    });
    let shapes: Vec<_> = (0..8).map(asked::parameter).collect();
    let (fineness, angle, mach) = (asked::fineness(), asked::angle(), asked::mach());
    for _ in 0..count {
        let shape = random.bits() % 8;
        let x = if random.bits() % 4 == 0 {
            [&shapes[shape as usize], &fineness, &angle].map(|argument| argument.any(random))
        } else {
            let parameter = shapes[shape as usize].plausible;
            [parameter, fineness.plausible, angle.plausible].map(|of| of(random))
        };
        let machs: Vec<f64> = (0..random.bits() % 6)
            .map(|_| match random.bits() % 8 {
                0 => mach.any(random),
                _ => (mach.plausible)(random),
            })
            .collect();
        let rooms = [(); 2].map(|()| room(longer, machs.len(), random));
        listed(&mut row, shape, x, &machs, rooms);
    }
    row
}

/// How many words or marks an output has.
fn room(longer: bool, machs: usize, random: &mut Random) -> usize {
    match (longer, random.bits() % 4) {
        (true, more) => machs + 1 + more as usize,
        (false, 0) => machs.saturating_sub(1),
        (false, _) => machs,
    }
}

fn listed(row: &mut Row, shape: u64, x: [f64; 3], machs: &[f64], [room, marks]: [usize; 2]) {
    let (mut port_out, mut their_out) = (vec![7; room], vec![7; room]);
    let (mut port_marks, mut their_marks) = (vec![BEFORE; marks], vec![BEFORE; marks]);
    let port = words::curve(shape, x, machs, &mut port_out, &mut port_marks);
    let theirs = mirror::curve(shape, x, machs, &mut their_out, &mut their_marks);
    let same = if theirs.0 == 0 {
        port_out == their_out && port_marks == their_marks
    } else {
        // A refused call leaves the outputs as they were.
        port_out.iter().all(|&word| word == 7) && port_marks.iter().all(|&mark| mark == BEFORE)
    };
    row.note(theirs.0, port == theirs && same, || {
        let mut arguments = vec![shape];
        arguments.extend(x.iter().chain(machs).map(|x| x.to_bits()));
        let (p, o) = (with_status(&port), with_status(&theirs));
        let input = written(&arguments, &p, &o);
        format!("room {room} and {marks}, marks {port_marks:?} and {their_marks:?}, {input}")
    });
    if theirs.0 == 0 {
        row.note_mark(their_marks.contains(&1));
    }
}
