//! A nose and a tube, smooth or rough, at two Mach numbers.

use cobalnis::{Column, Part, Refusal, RowName, Settings, Shape, Sheet};

fn main() -> Result<(), Refusal> {
    let settings = Settings {
        reference_diameter: 0.1,
        roughnesses: vec![2e-5, 6e-5], // smooth and rough paint
        body_fineness: 12.0,
        columns: vec![
            Column {
                mach: 0.5,
                reynolds: 3e6,
            },
            Column {
                mach: 2.5,
                reynolds: 1.5e7,
            },
        ],
    };
    let mut cells = vec![0.0; settings.cell_count()];
    let mut marks = vec![0; settings.cell_count()];
    let mut sheet = Sheet::open(&settings, &mut cells, &mut marks)?;
    let nose = Part {
        shape: Shape::VON_KARMAN,
        length: 0.3,
        aft_diameter: 0.1,
        joint_angle: 0.0,
        wetted_ratio: 8.0,
        roughness: Some(2e-6), // polished; None: the settings' roughnesses
    };
    sheet.push(&nose)?;
    sheet.push(&Part {
        length: 0.9,
        wetted_ratio: 36.0,
        roughness: None,
        ..nose
    })?;
    for row in sheet.rows() {
        if let RowName::Total(_) = row.name() {
            print!("{row}");
            for cell in row {
                print!(" {:.6}{}", cell.value, if cell.beyond { "+" } else { "" });
            }
            println!();
        }
    }
    Ok(())
}
