//! The Rust side of the comparison: the fixed steps (docs/REFERENCE.md, Fixed steps), the original
//! built from its own source text, and what the programs that make lists share.

pub mod arguments;
pub mod builds;
pub mod cards;
pub mod fixed;
pub mod inputs;
pub mod list;
pub mod mirror;
pub mod mirror_c;
pub mod model;
pub mod refusals;
pub mod side;
pub mod streams;
pub mod watch;

/// The original with ln, powf and sin replaced by the fixed steps (docs/REFERENCE.md, Fixed steps).
#[allow(dead_code, unreachable_patterns)]
#[rustfmt::skip]
pub mod original_fixed {
    include!(concat!(env!("OUT_DIR"), "/original_fixed.rs"));
}

/// The same with each lookup in a table noted (`watch`).
#[allow(dead_code, unreachable_patterns)]
#[rustfmt::skip]
pub mod original_watched {
    include!(concat!(env!("OUT_DIR"), "/original_watched.rs"));
}

/// The original as it stands.
#[allow(dead_code, unreachable_patterns)]
#[rustfmt::skip]
pub mod original_plain {
    include!(concat!(env!("OUT_DIR"), "/original_plain.rs"));
}

/// The bits of an answer. Every NaN is handed out as 7ff8000000000000 (docs/REFERENCE.md, Numbers).
///
/// The test is on whole numbers that the optimiser can't see through: with `x.is_nan()` a release
/// build of rustc 1.95 drops the branch after a square root and hands out the hardware's NaN.
#[inline]
pub fn answer_bits(x: f64) -> u64 {
    let bits = unseen(x.to_bits());
    if bits & 0x7fff_ffff_ffff_ffff > 0x7ff0_0000_0000_0000 {
        0x7ff8_0000_0000_0000
    } else {
        bits
    }
}

/// How many floats lie from one number to the other: 1 for neighbours, 0 for the two zeros. Neither
/// is a NaN.
pub fn distance(a: f64, b: f64) -> u64 {
    // Floats as whole numbers in order, so that neighbours differ by one.
    let place = |x: f64| {
        let bits = x.to_bits() as i64;
        if bits < 0 {
            i64::MIN - bits
        } else {
            bits
        }
    };
    place(a).abs_diff(place(b))
}

/// The same word, of which the optimiser knows nothing. It stays in a register, so that the
/// programs that measure don't pay for it.
#[cfg(any(target_arch = "x86_64", target_arch = "aarch64"))]
#[inline]
fn unseen(mut word: u64) -> u64 {
    // SAFETY: no instruction at all, only a comment.
    unsafe {
        std::arch::asm!("/* {0} */", inout(reg) word, options(pure, nomem, nostack, preserves_flags));
    }
    word
}

#[cfg(not(any(target_arch = "x86_64", target_arch = "aarch64")))]
fn unseen(word: u64) -> u64 {
    std::hint::black_box(word)
}
