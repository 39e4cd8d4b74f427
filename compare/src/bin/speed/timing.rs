//! The two sides' turns, their times, and a row of the table.

use std::hint::black_box;
use std::time::{Duration, Instant};

/// How long a turn is, and how many each side has.
const TURN: Duration = Duration::from_micros(500);
const TURNS: usize = 40;

/// Nanoseconds a call, of each side.
#[derive(Clone, Copy)]
pub struct Times {
    pub port: f64,
    pub original: f64,
}

/// One side of a measurement: goes through the inputs once and answers a sum of what it got.
pub type Side<'a> = &'a mut dyn FnMut() -> u64;

/// The shortest turn of each side, `calls` being those of one pass.
pub fn measure(calls: usize, port: Side, original: Side) -> Times {
    assert_eq!(port(), original(), "the two sides answer otherwise");
    let passes = passes_of_a_turn(port).max(passes_of_a_turn(original));
    let turn = |side: &mut dyn FnMut() -> u64| {
        let start = Instant::now();
        for _ in 0..passes {
            black_box(side());
        }
        start.elapsed().as_nanos() as f64 / (passes * calls) as f64
    };
    let mut times = Times {
        port: f64::INFINITY,
        original: f64::INFINITY,
    };
    for _ in 0..TURNS {
        times.port = times.port.min(turn(port));
        times.original = times.original.min(turn(original));
    }
    times
}

fn passes_of_a_turn(side: &mut dyn FnMut() -> u64) -> usize {
    let start = Instant::now();
    black_box(side());
    (TURN.as_nanos() / start.elapsed().as_nanos().max(1)).max(1) as usize
}

pub fn row(what: &str, times: Times) {
    println!(
        "| {what} | {:.2} | {} | {} |",
        times.port / times.original,
        nanoseconds(times.port),
        nanoseconds(times.original)
    );
}

fn nanoseconds(time: f64) -> String {
    if time < 100.0 {
        format!("({time:.1})")
    } else {
        format!("({time:.0})")
    }
}
