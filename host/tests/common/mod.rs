//! What the tests of the wrapper share.

use cobalnis::{Quantity, Refusal};

pub const NAN: f64 = f64::NAN;
pub const INFINITY: f64 = f64::INFINITY;

/// Refusal 1 for this quantity and value.
pub fn domain(quantity: Quantity, value: f64) -> Refusal {
    Refusal::Domain { quantity, value }
}

/// The bytes of docs/REFERENCE.md, Example.
pub fn stream() -> Vec<u8> {
    let one = 1.0f64.to_le_bytes();
    let mut bytes = vec![0x0d];
    bytes.extend([one, one].concat());
    bytes.push(1);
    bytes.extend([0; 16]);
    bytes.push(8);
    bytes.extend(one);
    bytes
}
