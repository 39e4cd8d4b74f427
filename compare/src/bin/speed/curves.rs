//! Pressure drag curves: built, and asked below and above Mach 1.

use std::hint::black_box;

use cobalnis::raw;
use compare::builds::{SHAPES, STEP};
use compare::inputs::Random;
use compare::mirror_c as theirs;

use crate::timing::{measure, row};
use crate::INPUTS;

pub fn parameter(shape: u64, r: &mut Random) -> f64 {
    match shape {
        1 => r.between(1.0, 3.0),
        5 => r.between(0.0, 1.0 / 3.0),
        _ => r.between(0.0, 1.0),
    }
}

/// A curve's arguments. One in eight is below fineness 1, where cones take another way.
fn nose(shape: u64, at: usize, r: &mut Random) -> [f64; 3] {
    let fineness = if at % 8 == 0 {
        r.between(0.4, 1.0)
    } else {
        r.between(1.0, 8.0)
    };
    [parameter(shape, r), fineness, r.between(0.0, 0.5)]
}

type Curve = unsafe extern "C" fn(
    u64,
    f64,
    f64,
    f64,
    *const f64,
    usize,
    *mut u64,
    usize,
    *mut u8,
    usize,
    *mut [u64; 3],
) -> u32;

/// What a pass has for answers, as many words as marks.
#[derive(Clone)]
struct Out {
    bits: Vec<u64>,
    marks: Vec<u8>,
}

/// Builds each curve and asks it at all Machs.
fn curve_pass(f: Curve, shape: u64, curves: &[[f64; 3]], machs: &[f64], out: &mut Out) -> u64 {
    let mut sum = 0u64;
    let Out { bits, marks } = out;
    for &[parameter, fineness, angle] in curves {
        let mut about = [0; 3];
        // SAFETY: all slices are passed with their lengths, `about` is our own.
        let status = unsafe {
            f(
                shape,
                parameter,
                fineness,
                angle,
                machs.as_ptr(),
                machs.len(),
                bits.as_mut_ptr(),
                bits.len(),
                marks.as_mut_ptr(),
                marks.len(),
                &mut about,
            )
        };
        assert_eq!(status, 0);
        sum = sum.wrapping_add(about[1]).wrapping_add(about[2]);
        if let Some(last) = bits.last() {
            sum = sum.wrapping_add(*last);
        }
    }
    sum
}

pub fn curves(random: &mut Random) {
    let (port, original) = black_box((raw::cobalnis_curve_raw as Curve, theirs::curve as Curve));
    let time = |shape: u64, curves: &[[f64; 3]], machs: &[f64]| {
        let mut out = Out {
            bits: vec![0; machs.len()],
            marks: vec![0; machs.len()],
        };
        let mut out_too = out.clone();
        measure(
            curves.len() * machs.len().max(1),
            &mut || curve_pass(port, shape, curves, machs, &mut out),
            &mut || curve_pass(original, shape, curves, machs, &mut out_too),
        )
    };
    let below: Vec<f64> = (0..INPUTS).map(|_| random.between(0.05, 1.0)).collect();
    let above: Vec<f64> = (0..INPUTS).map(|_| random.between(1.0, 3.0)).collect();
    for (number, name) in SHAPES.iter().enumerate() {
        let shape = number as u64;
        let many: Vec<_> = (0..INPUTS).map(|at| nose(shape, at, random)).collect();
        row(&format!("`new`, {name}"), time(shape, &many, &[]));
        // A pass builds a curve once for each thousand coefficients.
        let some = &many[..16];
        let times = time(shape, some, &below);
        row(&format!("`coefficient`, {name}, below Mach 1"), times);
        let times = time(shape, some, &above);
        row(&format!("`coefficient`, {name}, above Mach 1"), times);
    }
    let step = [[0.0; 3]; 16];
    row(
        "`coefficient`, step, below Mach 1",
        time(STEP, &step, &below),
    );
    row(
        "`coefficient`, step, above Mach 1",
        time(STEP, &step, &above),
    );
}
