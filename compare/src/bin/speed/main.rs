//! Measures the port against the original (fixed steps in both) and prints a markdown table.
//!
//!     cargo run --release --offline --bin speed
//!
//! Either side is an `extern "C"` function of one signature, called through a pointer that the
//! optimiser can't see through, on the same inputs, made before. The two take turns, and the
//! shortest turn of each counts. The figure is the ratio, port over original; the nanoseconds are
//! this machine's. Both sides' answers are added up and must be the same, all accepted.

mod burning;
mod cards;
mod curves;
mod finishes;
mod formulas;
mod growth;
mod passes;
mod sheets;
mod timing;
mod walks;

use compare::inputs::Random;

use burning::ignites_and_burnouts;
use cards::cards;
use curves::curves;
use finishes::four_finishes;
use formulas::formulas;
use growth::growth;
use sheets::{builds, rebuilds, removes, replaces, set_columns};
use timing::{row, Times};
use walks::walks;

/// Inputs of a kind; a turn goes through all of them, again and again.
const INPUTS: usize = 1024;

/// What to know about the rows.
const NOTES: &str = "
- Formulas go through one numbered function on either side, so each pays for finding its formula.
- `coefficient` is asked 1024 times for each curve built.
- The port's lookups, coefficients and sheets come with their marks; the original has none, and is
  measured in the build that notes no lookup.
- The original has no sheet and no cards; there the other side is a model of each
  (model.rs, cards.rs) over the original's functions, which then writes no marks. It builds each
  curve once a call, but it allocates a vector for each row that it tries and writes, and takes the
  boattail factor and the form factor anew at each column. At a column it asks for the skin friction
  at the settings' roughness once, and for each roughness of a part's own once more.
- Parts have no roughness of their own where nothing is said of one. Rows with and without differ
  in those numbers alone.
- Whole build, remove and burnout start from a copied sheet (1616 bytes) on either side.
- Sheets are coasting where nothing is said of a nozzle, and have one finish where nothing is said
  of finishes. Rows of four finishes have the same sheets, with other roughnesses beside the first.
- The original has no walk; there the other side tests as the port does, asks the original's
  lookup for each Mach, and counts by a plain walk.";

fn main() {
    let mut random = Random::new(0x5eed_0006);
    println!("| what | port/original | (port, ns) | (original, ns) |");
    println!("|---|---|---|---|");
    formulas(&mut random);
    curves(&mut random);
    let [mixed, widening] = builds(&mut random);
    let replace = replaces(&mut random, false, mixed);
    replaces(&mut random, true, widening);
    let rebuild = rebuilds(&mut random);
    let (port, original) = (replace.port, rebuild.port);
    row(
        "port's replace / port's open and insert all 16 parts",
        Times { port, original },
    );
    set_columns(&mut random);
    removes(&mut random);
    ignites_and_burnouts();
    cards(&mut random);
    walks(&mut random);
    four_finishes();
    growth();
    println!("{NOTES}");
}
