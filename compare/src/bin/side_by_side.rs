//! Port and original side by side, on the same inputs.
//!
//!     cargo run --release --offline --bin side_by_side [-- SCALE]
//!
//! Each function of docs/REFERENCE.md, Ported, is asked at a million inputs or more, SCALE times
//! that if given. The first table counts disagreements with the original with the fixed steps (the
//! sheet and the cards: with their models over it). The second measures the port against the
//! untouched original, whose ln, powf and sin are the machine's own; it fails nothing. Then it is
//! told how many parts had a roughness of their own, how many calls left a burning sheet, how many
//! finishes the sheets had, and how many answers had a mark. The last line says how many
//! disagreements there are in all, and the exit status is 1 if there are any. The inputs are the same
//! on every run.

use std::process::ExitCode;

use compare::inputs::Random;
use compare::side::tally::{
    print_agreement, print_burning, print_finishes, print_marks, print_own, print_plain,
};
use compare::side::{cards, curves, formulas, sheets, walks};

fn main() -> ExitCode {
    let scale = match std::env::args().nth(1).map(|text| text.parse::<f64>()) {
        None => 1.0,
        Some(Ok(scale)) if scale > 0.0 => scale,
        _ => {
            eprintln!("usage: side_by_side [SCALE]");
            return ExitCode::from(2);
        }
    };
    let count = (1_000_000.0 * scale).max(1.0) as u64;
    let random = &mut Random::new(0x5eed_0007);
    let mut rows = formulas::formulas(count, random);
    rows.push(formulas::unknown_formulas(random));
    rows.push(formulas::check_dimension(count, random));
    rows.push(formulas::takes_cone_formula(count, random));
    rows.push(formulas::shape_constants());
    rows.push(formulas::nose_point(count, random));
    rows.extend(formulas::nose_lookup(count, random));
    rows.extend(curves::curves(count, random));
    rows.extend(sheets::sheets(count, 0x5eed_0008));
    rows.extend(cards::cards(count, 0x5eed_0009));
    rows.push(formulas::classify(count, &mut Random::new(0x5eed_000a)));
    rows.push(walks::walks(count, &mut Random::new(0x5eed_000b)));
    println!("Port against the original with the fixed steps:\n");
    print_agreement(&rows);
    println!("\nPort against the untouched original, measured only:\n");
    print_plain(&rows);
    println!();
    print_own(&rows);
    print_burning(&rows);
    print_finishes(&rows);
    print_marks(&rows);
    let disagreements: u64 = rows.iter().map(|row| row.disagreements).sum();
    println!("\n{disagreements} disagreements");
    ExitCode::from(u8::from(disagreements > 0))
}
