//! What arguments are asked at: the numbers where a test or a branch changes with their
//! neighbours, the tables' numbers with theirs, odd floats, and plausible ones.

use cobalnis::Formula;

use crate::fixed::{self, LN_2};
use crate::inputs::{around, specials, Random, MACHS};
use crate::original_fixed::{critical_reynolds, StoneyNose};

pub const HALF_PI: f64 = std::f64::consts::FRAC_PI_2;
pub const THIRD: f64 = 1.0 / 3.0;

/// One argument: where something changes, and what is plausible.
pub struct Argument {
    pub edges: Vec<f64>,
    pub plausible: fn(&mut Random) -> f64,
}

impl Argument {
    /// These edges with their neighbours, the odd floats, and their negatives.
    pub fn new(edges: &[f64], plausible: fn(&mut Random) -> f64) -> Self {
        let mut all = specials();
        all.extend(edges.iter().copied().flat_map(around));
        all.extend(edges.iter().map(|x| -x));
        all.sort_by_key(|x| x.to_bits());
        all.dedup_by_key(|x| x.to_bits());
        Self {
            edges: all,
            plausible,
        }
    }

    /// Anything: an edge, a number near one, any bits, a subnormal, a plausible number.
    pub fn any(&self, random: &mut Random) -> f64 {
        match random.bits() % 8 {
            0 | 1 => random.pick(&self.edges),
            2 => {
                let edge = random.pick(&self.edges);
                let step = random.bits() % 64;
                f64::from_bits(edge.to_bits().wrapping_add(step).wrapping_sub(32))
            }
            3 => random.any(),
            4 => random.any_positive(),
            5 if random.bits() % 4 == 0 => random.subnormal(),
            _ => (self.plausible)(random),
        }
    }
}

/// Inputs of several arguments, in this order: edges with edges (all of them or as many as half of
/// the inputs), then by turns plausible ones, ones where arguments meet, and mixes.
pub fn each_input<const N: usize>(
    arguments: [&Argument; N],
    related: Option<fn(&mut Random) -> [f64; N]>,
    count: u64,
    random: &mut Random,
    mut ask: impl FnMut(&mut Random, [f64; N], bool),
) {
    let lengths = arguments.map(|argument| argument.edges.len() as u64);
    let product = lengths.iter().fold(1u64, |p, &n| p.saturating_mul(n));
    let first = product.min(if N == 1 { product } else { count / 2 });
    for i in 0..first {
        let mut x = [0.0; N];
        let mut rest = if product == first { i } else { random.bits() };
        for (place, argument) in arguments.iter().enumerate() {
            x[place] = argument.edges[(rest % lengths[place]) as usize];
            rest /= lengths[place];
        }
        ask(random, x, false);
    }
    for i in 0..count.saturating_sub(first) {
        let (x, plausible) = match (i % 4, related) {
            (0 | 1, _) => (arguments.map(|a| (a.plausible)(random)), true),
            (2, Some(related)) => (related(random), false),
            _ => (arguments.map(|a| a.any(random)), false),
        };
        ask(random, x, plausible);
    }
}

// ---- the arguments by their kind

/// Every Mach number of the nine tables, or every drag.
fn table(of: fn(&(f64, f64)) -> f64) -> Vec<f64> {
    let noses = StoneyNose::ALL.iter();
    noses
        .flat_map(|nose| nose.points().iter().map(of))
        .collect()
}

pub fn mach() -> Argument {
    let mut edges = table(|point| point.0);
    edges.extend(MACHS);
    // Where the square underflows, and two more.
    edges.extend([1e-162, 1e-150, 0.3, 0.5]);
    Argument::new(&edges, |r| match r.bits() % 4 {
        0 => r.between(0.0, 0.8),
        1 => r.between(0.8, 1.3),
        2 => r.between(1.0, 4.0),
        _ => r.between(0.0, 25.0),
    })
}

pub fn reynolds() -> Argument {
    Argument::new(&[9999.0, 1e4, 5e5, 1e7, 1e10, 41.8], |r| {
        if r.bits() % 3 == 0 {
            r.between(0.0, 2e4)
        } else {
            r.scaled(1e4, 1e10)
        }
    })
}

pub fn roughness() -> Argument {
    // The third is where the critical Reynolds number is about 10000.
    Argument::new(&[1e-9, 1e-6, 0.0062175, 1e-3, 0.1, 1e4, 1e296], |r| {
        if r.bits() % 3 == 0 {
            r.between(0.0, 1.0)
        } else {
            r.scaled(1e-9, 1e-2)
        }
    })
}

pub fn fineness() -> Argument {
    let edges = [
        0.5,
        7.0 / 12.0,
        1.0,
        3.0,
        0.25,
        20.0,
        1e16,
        1e300,
        2.8e-309,
        1e-300,
    ];
    Argument::new(&edges, |r| match r.bits() % 4 {
        0 => r.between(0.0, 1.0),
        1 => r.between(0.45, 0.65),
        _ => r.between(0.5, 12.0),
    })
}

pub fn angle() -> Argument {
    let edges = [0.1, 0.5, HALF_PI / 2.0, HALF_PI, 2.0, 1e-162];
    Argument::new(&edges, |r| match r.bits() % 3 {
        0 => r.between(0.0, 0.3),
        _ => r.between(0.0, HALF_PI),
    })
}

/// A shape's parameter, by its number.
pub fn parameter(shape: u64) -> Argument {
    let edges = [
        0.25,
        0.5,
        0.75,
        1.0,
        0.9,
        2.0,
        THIRD,
        0.4,
        1.0 / 6.0,
        0.6,
        1e300,
    ];
    Argument::new(
        &edges,
        match shape {
            1 => |r| r.between(1.0, 4.0),
            5 => |r| r.between(0.0, THIRD),
            _ => |r| r.between(0.0, 1.0),
        },
    )
}

fn drag() -> Argument {
    let mut edges = table(|point| point.1);
    edges.extend([0.85, 0.01, 1.0, 0.8 / 37.0, 1e-300]);
    Argument::new(&edges, |r| r.between(0.0, 1.2))
}

/// A length or a diameter.
fn length() -> Argument {
    Argument::new(&[1.0, 2.0, 3.0, 0.1, 100.0, 1e-300, 1e300], |r| {
        r.between(0.0, 0.5)
    })
}

/// Powers of two with these factors, from the least subnormal to the largest.
fn powers(factors: &[f64]) -> Vec<f64> {
    let power = |e: i32| match e {
        -1074..=-1023 => f64::from_bits(1 << (e + 1074)),
        _ => f64::from_bits(((e + 1023) as u64) << 52),
    };
    let all = (-1074..=1023).flat_map(|e| factors.iter().map(move |f| f * power(e)));
    all.filter(|x| x.is_finite()).collect()
}

/// The arguments of a formula that has any.
pub fn formula(which: Formula) -> Vec<Argument> {
    let exponent = || {
        let edges = [0.2, -1.039, 0.58, 0.5, 2.0, 3.0, 710.0, -746.0];
        Argument::new(&edges, |r| r.between(-2.0, 5.0))
    };
    match which {
        Formula::Sqrt => vec![Argument::new(&powers(&[1.0, 2.25]), |r| {
            r.scaled(1e-9, 1e9)
        })],
        Formula::Ln => {
            let edges = powers(&[1.0, std::f64::consts::SQRT_2]);
            vec![Argument::new(&edges, |r| r.scaled(1e-9, 1e10))]
        }
        Formula::Exp => {
            let mut edges = vec![710.0, -746.0, 709.782712893384, -708.3964185322641, -745.13];
            edges.extend((-2156..=2050).map(|half| f64::from(half) / 2.0 * LN_2));
            vec![Argument::new(&edges, |r| r.between(-60.0, 60.0))]
        }
        Formula::Powf => {
            let x = Argument::new(&[1e-9, 0.85, 1.0, 2.0, 1e300], |r| r.scaled(1e-9, 1e2));
            vec![x, exponent()]
        }
        Formula::Sin => vec![Argument::new(
            &[HALF_PI, 2.0 * HALF_PI, 0.5, 10.0, 1e17, 1e154],
            |r| r.between(0.0, HALF_PI),
        )],
        Formula::CriticalReynolds => vec![roughness()],
        Formula::IncompressibleSkinFriction => vec![reynolds(), roughness()],
        Formula::SkinFrictionCoefficient => vec![reynolds(), roughness(), mach()],
        Formula::BodyFrictionFormFactor => vec![fineness()],
        Formula::JointPressureDragCoefficient => vec![angle()],
        Formula::BoattailFactor => vec![length(), length(), length()],
        Formula::SubsonicPressureDragCoefficient => vec![drag(), drag(), slope(), mach(), mach()],
        Formula::OgivePressureDragFactor => vec![Argument::new(&[0.25, 0.5, 0.75, 1.0], |r| {
            r.between(0.0, 1.0)
        })],
        Formula::FinenessScaledPressureDrag => vec![drag(), drag(), fineness()],
        Formula::EllipsoidSubsonicPressureDrag => vec![fineness(), mach()],
        _ => vec![mach()],
    }
}

fn slope() -> Argument {
    Argument::new(&[0.125, 1.0, 1e300, 4.0 / 2.4], |r| r.between(-0.5, 4.0))
}

/// Inputs where arguments meet: a test between two of them is on its edge.
pub fn related(which: Formula) -> Option<fn(&mut Random) -> [f64; 5]> {
    Some(match which {
        Formula::Sqrt => near_a_square,
        Formula::Powf => near_exps_ends,
        Formula::IncompressibleSkinFriction | Formula::SkinFrictionCoefficient => {
            near_the_critical_reynolds
        }
        Formula::BoattailFactor => near_a_boattails_ends,
        Formula::SubsonicPressureDragCoefficient => near_the_lower_bound,
        Formula::FinenessScaledPressureDrag => |r| {
            let c0 = r.between(0.0, 1.6);
            let c3 = near(r, c0);
            let fineness = r.pick(&[0.0, 3.0, 1.0, 0.5]);
            [c3, c0, near(r, fineness), 0.0, 0.0]
        },
        Formula::EllipsoidSubsonicPressureDrag => |r| {
            let fineness = r.pick(&[0.5, 7.0 / 12.0, 1.0]);
            let mach = r.between(0.0, 0.9);
            [near(r, fineness), mach, 0.0, 0.0, 0.0]
        },
        _ => return None,
    })
}

/// The number or one of its neighbours.
fn near(random: &mut Random, x: f64) -> f64 {
    random.pick(&around(x))
}

/// Squares of numbers with few digits, and of numbers halfway between two floats.
fn near_a_square(random: &mut Random) -> [f64; 5] {
    let keep = !0 << (random.bits() % 40);
    let root = f64::from_bits(random.scaled(1e-150, 1e150).to_bits() & keep);
    [near(random, root * root), 0.0, 0.0, 0.0, 0.0]
}

/// y × LN(x) at the ends of EXP.
fn near_exps_ends(random: &mut Random) -> [f64; 5] {
    let x = random.scaled(1e-300, 1e300);
    let end = random.pick(&[710.0, -746.0, 709.78, -708.4, -745.2, 0.0, 1.0]);
    [x, near(random, end / fixed::ln(x)), 0.0, 0.0, 0.0]
}

fn near_the_critical_reynolds(random: &mut Random) -> [f64; 5] {
    let roughness = random.scaled(1e-9, 1.0);
    let critical = critical_reynolds(roughness).expect("a roughness");
    let mach = random.between(0.0, 3.0);
    let mach = random.pick(&[0.0, 1.0, 1.0f64.next_down(), mach]);
    [near(random, critical), roughness, mach, 0.0, 0.0]
}

/// Length ratios about 1 and 3, and diameters about equal.
fn near_a_boattails_ends(random: &mut Random) -> [f64; 5] {
    let fore = random.scaled(1e-3, 10.0);
    let aft = fore * random.unit();
    let length = random.pick(&[1.0, 3.0, 2.0]) * (fore - aft);
    if random.bits() % 4 == 0 {
        return [length, near(random, fore), near(random, fore), 0.0, 0.0];
    }
    [near(random, length), fore, aft, 0.0, 0.0]
}

/// The Mach number about the bound, and the exponent b about 1, or no rise at all.
fn near_the_lower_bound(random: &mut Random) -> [f64; 5] {
    let low = random.pick(&[0.8, 1.0, 1.2]);
    let rest = random.between(0.0, 0.5);
    let rise = random.between(-0.1, 0.5);
    let c_low = random.pick(&[rest + rise, rest, near_bits(rest)]);
    let slope = (c_low - rest) / low;
    let below = random.between(0.0, low);
    let mach = random.pick(&[below, below, low, low.next_down(), low.next_up(), 0.0]);
    [rest, c_low, near(random, slope), low, mach]
}

fn near_bits(x: f64) -> f64 {
    x.next_up()
}
