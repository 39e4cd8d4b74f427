//! A straightforward model of the cards and of the program `sheet` (docs/REFERENCE.md, Cards and
//! Program): bytes in, the lines of the sheet or `refused N card K` out. The calls are those of the
//! model of the sheet.
//!
//! It is written from the project's scope and requests alone, which docs/REFERENCE.md tells. Bytes
//! are looked at from left to right, one field at a time, and nothing behind the first refusal is
//! looked at.

use crate::answer_bits;
pub use crate::builds::fixed_steps::{of_shape, shape_of};
use crate::model::{base_row, insert, open, total_row, COLUMNS, FINISHES, FRICTION};
use crate::model::{Buffers, Column, Part, Settings, Sheet};

/// "bytes end inside a card", or before it.
const ENDED: u8 = 4;
/// "reserved bit, shape byte above 5".
const RESERVED: u8 = 5;
/// "a field missing or barred".
const FIELD: u8 = 6;
/// "more than 32 columns".
const TOO_MANY: u8 = 7;
/// "F of 0 or above 4".
const FINISH_COUNT: u8 = 19;

/// A refused stream: the refusal's number and the card's, from 0.
#[derive(Debug, Clone, Copy, PartialEq, Eq)]
pub struct Refused {
    pub number: u8,
    pub card: usize,
}

// ---- the bytes of a card

/// The bytes not yet read.
struct Bytes<'a>(&'a [u8]);

impl Bytes<'_> {
    fn byte(&mut self) -> Result<u8, u8> {
        let (&first, rest) = self.0.split_first().ok_or(ENDED)?;
        self.0 = rest;
        Ok(first)
    }

    /// "Floats as 8 bytes, low byte first."
    fn float(&mut self) -> Result<f64, u8> {
        let (&eight, rest) = self.0.split_first_chunk().ok_or(ENDED)?;
        self.0 = rest;
        Ok(f64::from_bits(u64::from_le_bytes(eight)))
    }

    /// A number whose bit stands, or else +0.
    fn float_if(&mut self, stands: bool) -> Result<f64, u8> {
        if stands {
            self.float()
        } else {
            Ok(0.0)
        }
    }
}

/// "A bit map byte (bit 0 lowest)."
fn stands(map: u8, bit: u32) -> bool {
    map >> bit & 1 == 1
}

/// "Settings: 0 D, 1 roughness, 2 B, 3 a count byte and that many pairs M, R", and "bit 4 brings a
/// count byte and that many floats".
fn settings_card(bytes: &mut Bytes) -> Result<Settings, u8> {
    let map = bytes.byte()?;
    if map >= 1 << 5 {
        return Err(RESERVED);
    }
    // "D and B must stand"; "with bit 1 standing too it is refusal 6, tested with the missing bits".
    if !stands(map, 0) || !stands(map, 2) || stands(map, 1) && stands(map, 4) {
        return Err(FIELD);
    }
    let mut settings = NO_CARD;
    settings.reference_diameter = bytes.float()?;
    settings.roughnesses[0] = bytes.float_if(stands(map, 1))?;
    settings.body_fineness = bytes.float()?;
    if stands(map, 3) {
        settings.count = usize::from(bytes.byte()?);
        if settings.count > COLUMNS {
            return Err(TOO_MANY);
        }
        for column in &mut settings.columns[..settings.count] {
            column.mach = bytes.float()?;
            column.reynolds = bytes.float()?;
        }
    }
    if stands(map, 4) {
        settings.finishes = usize::from(bytes.byte()?);
        if settings.finishes == 0 || settings.finishes > FINISHES {
            return Err(FINISH_COUNT);
        }
        for roughness in &mut settings.roughnesses[..settings.finishes] {
            *roughness = bytes.float()?;
        }
    }
    Ok(settings)
}

/// "Part: 0 shape byte, 1 shape parameter, 2 L, 3 d, 4 joint angle, 5 w", 6 its own roughness, and
/// "only a part's bit 7 is then reserved".
fn part_card(bytes: &mut Bytes) -> Result<Part, u8> {
    let map = bytes.byte()?;
    if map >= 1 << 7 {
        return Err(RESERVED);
    }
    // "An absent shape is 0."
    let shape = if stands(map, 0) { bytes.byte()? } else { 0 };
    if shape > 5 {
        return Err(RESERVED);
    }
    // "The parameter stands for shapes 1, 3, 4, 5 and no others."
    if stands(map, 1) != [1, 3, 4, 5].contains(&shape) {
        return Err(FIELD);
    }
    let parameter = bytes.float_if(stands(map, 1))?;
    let length = bytes.float_if(stands(map, 2))?;
    let aft_diameter = bytes.float_if(stands(map, 3))?;
    let joint_angle = bytes.float_if(stands(map, 4))?;
    let wetted_ratio = bytes.float_if(stands(map, 5))?;
    // "Absent, it is the settings' one": no number stands for it.
    let roughness = if stands(map, 6) {
        Some(bytes.float()?)
    } else {
        None
    };
    Ok(Part {
        shape: shape_of(u64::from(shape), parameter),
        length,
        aft_diameter,
        joint_angle,
        wetted_ratio,
        roughness,
    })
}

/// A settings card from the byte `at` on, and where it ends; a place past the end has no bytes.
pub fn read_settings(bytes: &[u8], at: usize) -> Result<(Settings, usize), u8> {
    let mut left = Bytes(bytes.get(at..).unwrap_or_default());
    let settings = settings_card(&mut left)?;
    Ok((settings, bytes.len() - left.0.len()))
}

/// A part card from the byte `at` on, and where it ends.
pub fn read_part(bytes: &[u8], at: usize) -> Result<(Part, usize), u8> {
    let mut left = Bytes(bytes.get(at..).unwrap_or_default());
    let part = part_card(&mut left)?;
    Ok((part, bytes.len() - left.0.len()))
}

// ---- the program

/// What stands for the settings card of a stream without any bytes.
const NO_CARD: Settings = Settings {
    reference_diameter: 1.0,
    finishes: 1,
    roughnesses: [0.0; FINISHES],
    body_fineness: 1.0,
    count: 0,
    columns: [Column {
        mach: 0.0,
        reynolds: 0.0,
    }; COLUMNS],
};

/// A sheet with its cells and marks out of a stream: one settings card, then part cards until the
/// bytes end, each inserted last before the next is read.
pub fn stack(stream: &[u8]) -> Result<(Sheet, Buffers), Refused> {
    let mut bytes = Bytes(stream);
    let mut card = 0;
    let settings = if stream.is_empty() {
        NO_CARD
    } else {
        settings_card(&mut bytes).map_err(|number| Refused { number, card })?
    };
    let mut held = Buffers::new(settings.cells());
    let (mut answer, mut sheet) = open(&settings, held.lend());
    while answer.refusal == 0 && !bytes.0.is_empty() {
        card += 1;
        let part = part_card(&mut bytes).map_err(|number| Refused { number, card })?;
        (answer, sheet) = insert(&sheet, sheet.design.count, &part, held.lend());
    }
    if answer.refusal == 0 {
        Ok((sheet, held))
    } else {
        let number = answer.refusal;
        Err(Refused { number, card })
    }
}

/// "A line is a name, then per column a space and the bits"; "`+` right after a marked cell".
fn line(name: &str, row: &[f64], marks: &[u8]) -> String {
    let mut text = name.to_string();
    for (&cell, &mark) in row.iter().zip(marks) {
        let sign = if mark == 0 { "" } else { "+" };
        text += &format!(" {:016x}{sign}", answer_bits(cell));
    }
    text + "\n"
}

/// "The Machs, the design's part rows, friction, base, total"; with several finishes "`friction j`
/// and `total j`, j from 0". A Mach has no mark.
pub fn lines(sheet: &Sheet, held: &Buffers) -> String {
    let Settings {
        finishes, count, ..
    } = sheet.settings;
    let of_finish = |name: &str, finish: usize| match finishes {
        1 => name.to_string(),
        _ => format!("{name} {finish}"),
    };
    let row = |name: &str, number: usize| {
        let at = number * count..(number + 1) * count;
        line(name, &held.cells[at.clone()], &held.marks[at])
    };
    let machs: Vec<f64> = sheet.settings.columns().iter().map(|c| c.mach).collect();
    let mut text = line("mach", &machs, &[0; COLUMNS]);
    for place in 0..sheet.design.count {
        text += &row(&format!("part {place}"), place);
    }
    for finish in 0..finishes {
        text += &row(&of_finish("friction", finish), FRICTION + finish);
    }
    text += &row("base", base_row(finishes));
    for finish in 0..finishes {
        text += &row(&of_finish("total", finish), total_row(finishes) + finish);
    }
    text
}

/// What `sheet` prints for a stream, and the number of the refusal (0 accepted).
pub fn printed(stream: &[u8]) -> (String, u8) {
    match stack(stream) {
        Ok((sheet, held)) => (lines(&sheet, &held), 0),
        Err(Refused { number, card }) => (format!("refused {number} card {card}\n"), number),
    }
}
