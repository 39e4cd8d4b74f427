//! The formulas (docs/REFERENCE.md, Friction and base, Nose formulas), the tests of a dimension,
//! the shapes' test and Stoney's tables.

use cobalnis::{words, Formula};

use super::asked::{self, each_input, Argument};
use super::tally::Row;
use crate::builds::{self, plain};
use crate::inputs::{Random, NANS};
use crate::mirror;
use crate::original_fixed::StoneyNose;
use crate::{answer_bits, original_plain};

/// Arguments and both answers in hexadecimal.
pub fn written(arguments: &[u64], port: &[u64], original: &[u64]) -> String {
    let hex = |list: &[u64]| {
        let words: Vec<String> = list.iter().map(|x| format!("{x:016x}")).collect();
        words.join(" ")
    };
    format!(
        "{}: port {}, original {}",
        hex(arguments),
        hex(port),
        hex(original)
    )
}

pub fn formulas(count: u64, random: &mut Random) -> Vec<Row> {
    builds::formulas()
        .map(|which| formula(which, count, random))
        .collect()
}

fn formula(which: Formula, count: u64, random: &mut Random) -> Row {
    let mut row = Row::new(which.name());
    let number = which.number();
    let arguments = asked::formula(which);
    let mut ask = |random: &mut Random, mut x: [f64; 5], plausible: bool| {
        // Arguments that a formula has no use for are anything.
        for unused in &mut x[arguments.len()..] {
            *unused = random.any();
        }
        let port = words::formula(number, x);
        let theirs = mirror::formula(number, x);
        row.note(theirs.0, port == theirs, || {
            let (p, o) = ([port.0.into(), port.1], [theirs.0.into(), theirs.1]);
            written(&x.map(f64::to_bits), &p, &o)
        });
        row.measure(plausible, port.0, port.1, plain::formula(which, x));
    };
    let related = asked::related(which);
    match &arguments[..] {
        [a] => each_wide([a], related, count, random, &mut ask),
        [a, b] => each_wide([a, b], related, count, random, &mut ask),
        [a, b, c] => each_wide([a, b, c], related, count, random, &mut ask),
        [a, b, c, d, e] => each_wide([a, b, c, d, e], related, count, random, &mut ask),
        _ => unreachable!("no formula has so many arguments"),
    }
    row
}

/// `each_input` for a formula of N arguments out of five; where they meet, all five are given.
fn each_wide<const N: usize>(
    arguments: [&Argument; N],
    related: Option<fn(&mut Random) -> [f64; 5]>,
    count: u64,
    random: &mut Random,
    ask: &mut impl FnMut(&mut Random, [f64; 5], bool),
) {
    let among = if related.is_some() { count / 4 } else { 0 };
    each_input(
        arguments,
        None,
        count - among,
        random,
        |random, x, plausible| {
            let mut wide = [0.0; 5];
            wide[..N].copy_from_slice(&x);
            ask(random, wide, plausible);
        },
    );
    if let Some(related) = related {
        for _ in 0..among {
            let x = related(random);
            ask(random, x, false);
        }
    }
}

/// Numbers that name no formula: nothing is written.
pub fn unknown_formulas(random: &mut Random) -> Row {
    let mut row = Row::new("numbers that name no formula");
    for i in 0..1000 {
        let number = if i < 500 {
            Formula::ALL.len() as u32 + i
        } else {
            random.bits() as u32 | 32
        };
        let x = [(); 5].map(|()| random.any());
        let (port, theirs) = (words::formula(number, x), mirror::formula(number, x));
        row.note(theirs.0, port == theirs, || number.to_string());
    }
    row
}

pub fn check_dimension(count: u64, random: &mut Random) -> Row {
    let mut row = Row::new("check_dimension");
    let value = Argument::new(&[0.5, 1.0, 3.0, 1e4], |r| r.between(-5.0, 20.0));
    let mut ask = |what: u32, x: f64, allow_zero: bool, plausible: bool| {
        let port = words::check_dimension(what, x, allow_zero);
        let theirs = mirror::check_dimension(what, x, allow_zero);
        row.note(theirs.0, port == theirs, || {
            let (p, o) = ([port.0.into(), port.1], [theirs.0.into(), theirs.1]);
            written(&[what.into(), x.to_bits(), allow_zero.into()], &p, &o)
        });
        if let 1..=22 = what {
            let text = crate::refusals::CODES[what as usize - 1];
            let plain = original_plain::check_dimension(text, x, allow_zero);
            let plain = plain.map(|()| 0.0).map_err(Into::into);
            row.measure(plausible, port.0, port.1, plain);
        }
    };
    for &x in &value.edges {
        for what in 0..24 {
            ask(what, x, true, false);
            ask(what, x, false, false);
        }
    }
    each_input([&value], None, count, random, |random, [x], plausible| {
        let what = 1 + (random.bits() % 22) as u32;
        ask(what, x, random.bits() % 2 == 0, plausible);
    });
    row
}

/// Every exponent field with the ends of the significand field, and any bits. The answer is no
/// status.
pub fn classify(count: u64, random: &mut Random) -> Row {
    let mut row = Row::new("classify (Rust's own `f64::classify`)");
    let mut ask = |bits: u64| {
        let (port, theirs) = (words::classify(bits), mirror::classify(bits));
        row.note(0, port == theirs, || {
            written(&[bits], &[port.into()], &[theirs.into()])
        });
    };
    for exponent in 0..4096 {
        for significand in [0, 1, (1 << 51) - 1, 1 << 51, (1 << 52) - 2, (1 << 52) - 1] {
            ask(exponent << 52 | significand);
        }
    }
    for _ in 0..count {
        ask(match random.bits() % 4 {
            0 => random.subnormal().to_bits(),
            1 => random.bits() | 0x7ff << 52,
            _ => random.bits(),
        });
    }
    row
}

pub fn takes_cone_formula(count: u64, random: &mut Random) -> Row {
    let mut row = Row::new("takes_cone_formula");
    for shape in 0..8 {
        let parameter = asked::parameter(shape);
        each_input(
            [&parameter],
            None,
            count / 8,
            random,
            |_, [x], plausible| {
                let port = words::takes_cone_formula(shape, x);
                let theirs = mirror::takes_cone_formula(shape, x);
                row.note(theirs.0, port == theirs, || {
                    written(&[shape, x.to_bits()], &[port.1], &[theirs.1])
                });
                if shape < 6 {
                    let plain = original_plain::takes_cone_formula(plain::shape_of(shape, x));
                    let plain = f64::from(u8::from(plain));
                    row.measure(plausible, 0, (port.1 as f64).to_bits(), Ok(plain));
                }
            },
        );
    }
    row
}

/// `points`: every place of every nose, places past the last, noses that aren't there.
pub fn nose_point(count: u64, random: &mut Random) -> Row {
    let mut row = Row::new("StoneyNose::points");
    let mut ask = |nose: u32, place: usize| {
        let (port, theirs) = (
            words::nose_point(nose, place),
            mirror::nose_point(nose, place),
        );
        row.note(theirs.0, port == theirs, || {
            let (p, o) = (port.1, theirs.1);
            written(&[nose.into(), place as u64], &p, &o)
        });
    };
    for nose in 0..12 {
        for place in 0..200 {
            ask(nose, place);
        }
        for place in [usize::MAX, usize::MAX / 2, 1 << 32, (1 << 32) + 1] {
            ask(nose, place);
        }
    }
    for _ in 0..count {
        let nose = (random.bits() % 10) as u32;
        let place = match random.bits() % 8 {
            0 => random.bits() as usize,
            1 => (random.bits() >> 40) as usize,
            _ => (random.bits() % 24) as usize,
        };
        ask(nose, place);
    }
    row
}

/// `value_and_slope`, `first_mach` and the mark. At NaN the original stops with an index out of
/// range; the port's answer there is the last value with slope 0 (docs/DIFFERENCES.md), and no mark.
pub fn nose_lookup(count: u64, random: &mut Random) -> Vec<Row> {
    let mach = asked::mach();
    let noses = StoneyNose::ALL.len();
    let mut rows = vec![
        Row::new("StoneyNose lookup: value, first_mach"),
        Row::new("StoneyNose lookup: slope"),
        Row::new("StoneyNose lookup: mark"),
    ];
    for nose in 0..noses {
        each_input(
            [&mach],
            None,
            count / noses as u64 + 1,
            random,
            |_, [x], plausible| one_lookup(&mut rows, nose, x, plausible),
        );
    }
    for nose in [9, 10, u32::MAX] {
        for x in [1.0, NANS[0]] {
            let (port, theirs) = (words::nose_lookup(nose, x), mirror::nose_lookup(nose, x));
            rows[0].note(theirs.0, port == theirs, || nose.to_string());
        }
    }
    rows
}

fn one_lookup(rows: &mut [Row], nose: usize, x: f64, plausible: bool) {
    let port = words::nose_lookup(nose as u32, x);
    let theirs = expected(nose as u32, x);
    for (row, at) in rows.iter_mut().zip([0, 1, 3]) {
        let agree = port.0 == theirs.0 && port.1[at] == theirs.1[at];
        row.note(theirs.0, agree && port.1[2] == theirs.1[2], || {
            written(&[nose as u64, x.to_bits()], &port.1, &theirs.1)
        });
    }
    rows[2].note_mark(theirs.1[3] == 1);
    if !x.is_nan() {
        let (value, slope) = plain::lookup(nose, x);
        rows[0].measure(plausible, 0, port.1[0], Ok(value));
        rows[1].measure(plausible, 0, port.1[1], Ok(slope));
    }
}

fn expected(nose: u32, mach: f64) -> (u32, [u64; 4]) {
    if !mach.is_nan() {
        return mirror::nose_lookup(nose, mach);
    }
    let points = StoneyNose::ALL[nose as usize].points();
    let last = points[points.len() - 1].1;
    let [value, slope, first] = [last, 0.0, points[0].0].map(answer_bits);
    (0, [value, slope, first, 0])
}

/// The constants of `NoseShape`, by their parameters; the wrapper has them as constants too.
pub fn shape_constants() -> Row {
    let mut row = Row::new("NoseShape::VON_KARMAN, LV_HAACK");
    for (formula, shape) in [
        (Formula::VonKarman, cobalnis::Shape::VON_KARMAN),
        (Formula::LvHaack, cobalnis::Shape::LV_HAACK),
    ] {
        let number = formula.number();
        let (port, theirs) = (
            words::formula(number, [0.0; 5]),
            mirror::formula(number, [0.0; 5]),
        );
        let parameter = f64::from_bits(theirs.1);
        let same = port == theirs && shape == cobalnis::Shape::Haack { parameter };
        row.note(theirs.0, same, || number.to_string());
    }
    row
}
