//! Lookups and curves as they are measured: the same answers from the build of the original that is
//! not watched, and no marks, which the original doesn't have.

use super::{at_each, status, NO_SUCH};
use crate::answer_bits;
use crate::builds::{fixed_steps, STEP};
use crate::original_fixed::StoneyNose;

/// Value, slope and first Mach number.
pub fn nose_lookup(nose: u32, mach: f64) -> (u32, [u64; 3]) {
    let Some(nose) = StoneyNose::ALL.get(nose as usize) else {
        return (NO_SUCH, [0; 3]);
    };
    let (value, slope) = nose.value_and_slope(mach);
    let out = [value, slope, nose.first_mach()];
    (0, out.map(answer_bits))
}

/// The curve of a shape's number, and its coefficient at each Mach number.
pub fn curve(shape: u64, arguments: [f64; 3], machs: &[f64], out: &mut [u64]) -> (u32, [u64; 3]) {
    if shape > STEP {
        return (NO_SUCH, [0; 3]);
    }
    let curve = match fixed_steps::curve(shape, arguments) {
        Ok(curve) => curve,
        Err(answer) => return (status(answer), [answer.bits, 0, 0]),
    };
    let known = [curve.rest_coefficient(), curve.transonic_lower_bound()];
    at_each(known, machs, out.len(), out.iter_mut(), |mach, bits| {
        *bits = answer_bits(curve.coefficient(mach)?);
        Ok(())
    })
}
