//! The rows of the model: each cell by its formula and each mark (docs/REFERENCE.md, Rows and Marks), and what
//! a call writes.

use super::{base_row, total_row, FRICTION, PLACES};
use super::{of_error, Column, Design, Lent, Part, Refusal, Settings, Sheet};
use crate::builds::{fixed_steps::of_shape, watched};
use crate::original_fixed::{
    base_drag_coefficient, boattail_factor, body_friction_form_factor, skin_friction_coefficient,
    PressureDragCurve,
};
use crate::refusals::Answer;
use crate::watch::with_mark;

/// A row at some columns: the cells, and the marks of a curve that is asked for them. A row without
/// marks has 0 for each.
#[derive(Default)]
struct Row {
    cells: Vec<f64>,
    marks: Vec<bool>,
}

/// A curve's coefficients at these columns, or the refusal that stops it. With `marks` the watched
/// build answers, and each mark says whether it looked beyond a table.
fn coefficients(part: &Part, fineness: f64, at: &[Column], marks: bool) -> Result<Row, Refusal> {
    let mut row = Row::default();
    if !marks {
        let curve = PressureDragCurve::new(part.shape, fineness, part.joint_angle);
        let curve = curve.map_err(of_error)?;
        for column in at {
            let coefficient = curve.coefficient(column.mach).map_err(of_error)?;
            row.cells.push(coefficient);
        }
        return Ok(row);
    }
    let (number, parameter) = of_shape(part.shape);
    let curve = watched::curve(number, [parameter, fineness, part.joint_angle])?;
    for column in at {
        let (coefficient, beyond) = with_mark(|| curve.coefficient(column.mach));
        row.cells.push(coefficient?);
        row.marks.push(beyond);
    }
    Ok(row)
}

/// A part's row at these columns, or the refusal that stops it.
fn part_row(
    settings: &Settings,
    f: f64,
    part: &Part,
    at: &[Column],
    marks: bool,
) -> Result<Row, Refusal> {
    let big_d = settings.reference_diameter;
    let (l, d) = (part.length, part.aft_diameter);
    let mut row = Row::default();
    if d > f {
        row = coefficients(part, l / (d - f), at, marks)?;
        for cell in &mut row.cells {
            *cell *= (d * d - f * f) / (big_d * big_d);
        }
    } else if d < f {
        for column in at {
            let base = base_drag_coefficient(column.mach).map_err(of_error)?;
            let factor = boattail_factor(l, f, d).map_err(of_error)?;
            row.cells
                .push((base * factor) * ((f * f - d * d) / (big_d * big_d)));
        }
    } else {
        row.cells.resize(at.len(), 0.0);
    }
    Ok(row)
}

/// The row of a place in a design, +0 where it has no part.
fn place_row(sheet: &Sheet, place: usize, at: &[Column], marks: bool) -> Result<Row, Refusal> {
    let Sheet {
        settings, design, ..
    } = sheet;
    if place < design.count {
        part_row(
            settings,
            design.fore(place),
            &design.parts[place],
            at,
            marks,
        )
    } else {
        Ok(Row {
            cells: vec![0.0; at.len()],
            marks: Vec::new(),
        })
    }
}

/// "A sum by place from +0 of (skin friction at that part's roughness × form factor) × w", a part's
/// own roughness holding in every finish. What is to be multiplied with w at the finish's roughness
/// is worked out once.
fn friction(settings: &Settings, design: &Design, finish: usize, column: Column) -> f64 {
    let form = body_friction_form_factor(settings.body_fineness).expect("tested");
    let at = |roughness: f64| {
        let skin = skin_friction_coefficient(column.reynolds, roughness, column.mach);
        skin.expect("tested") * form
    };
    let of_settings = at(settings.roughnesses[finish]);
    let mut sum = 0.0;
    for part in design.parts() {
        sum += part.roughness.map_or(of_settings, at) * part.wetted_ratio;
    }
    sum
}

/// Base drag at M × the base area: "d×d - n×n over D×D, and +0 when n is above d", d being the last
/// part's, 0 without parts.
fn base(sheet: &Sheet, column: Column) -> f64 {
    let big_d = sheet.settings.reference_diameter;
    let d = sheet.design.fore(sheet.design.count);
    let n = sheet.nozzle_diameter;
    let area = if n > d {
        0.0
    } else {
        (d * d - n * n) / (big_d * big_d)
    };
    base_drag_coefficient(column.mach).expect("tested") * area
}

/// Writes base and totals at a column; a total adds the cells that are there, its finish's friction
/// between the part rows and the base. A base has no mark, and "a total has one if a part mark of its
/// column isn't 0", whoever wrote that.
fn finish_column(sheet: &Sheet, column: usize, lent: &mut Lent) {
    let Settings {
        finishes, count, ..
    } = sheet.settings;
    let (base_at, total_row) = (base_row(finishes) * count + column, total_row(finishes));
    lent.cells[base_at] = base(sheet, sheet.settings.columns[column]);
    lent.mark(base_at, false);
    let part_rows = (0..PLACES).map(|row| row * count + column);
    let beyond = lent
        .marks
        .as_ref()
        .is_some_and(|marks| part_rows.clone().any(|at| marks[at] != 0));
    for finish in 0..finishes {
        let mut total = 0.0;
        for at in part_rows.clone() {
            total += lent.cells[at];
        }
        total += lent.cells[(FRICTION + finish) * count + column];
        total += lent.cells[base_at];
        let at = (total_row + finish) * count + column;
        lent.cells[at] = total;
        lent.mark(at, beyond);
    }
}

/// Tries these places at these columns, lowest place first, and only then writes them with
/// frictions, base and totals.
pub fn write(sheet: &Sheet, places: &[usize], columns: &[usize], lent: &mut Lent) -> Answer {
    let (settings, design) = (&sheet.settings, &sheet.design);
    let at: Vec<Column> = columns.iter().map(|&i| settings.columns[i]).collect();
    let marks = lent.marks.is_some();
    let mut rows = Vec::new();
    for &place in places {
        match place_row(sheet, place, &at, marks) {
            Ok(row) => rows.push(row),
            Err(refusal) => return refusal,
        }
    }
    for (&place, row) in places.iter().zip(&rows) {
        for (at, (&column, &value)) in columns.iter().zip(&row.cells).enumerate() {
            let cell = place * settings.count + column;
            lent.cells[cell] = value;
            lent.mark(cell, row.marks.get(at) == Some(&true));
        }
    }
    for &column in columns {
        let at = settings.columns[column];
        for finish in 0..settings.finishes {
            let cell = (FRICTION + finish) * settings.count + column;
            lent.cells[cell] = friction(settings, design, finish, at);
            lent.mark(cell, false);
        }
        finish_column(sheet, column, lent);
    }
    Answer::accepted(0)
}

pub fn write_all(sheet: &Sheet, lent: &mut Lent) -> Answer {
    let places: Vec<usize> = (0..PLACES).collect();
    let columns: Vec<usize> = (0..sheet.settings.count).collect();
    write(sheet, &places, &columns, lent)
}

/// Writes base and totals at every column, and no other row.
pub fn write_base(sheet: &Sheet, lent: &mut Lent) {
    for column in 0..sheet.settings.count {
        finish_column(sheet, column, lent);
    }
}
