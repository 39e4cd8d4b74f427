//! What the crate's documentation says of threads: calls at once don't disturb each other, and a
//! sheet may be handed to another thread and be read by several.

use std::thread;

use cobalnis::{Column, Curve, Part, Settings, Shape, Sheet};

/// The bits of a sheet's cells and its marks, of a nose of this length.
fn built(length: f64) -> (Vec<u64>, Vec<u8>) {
    let settings = Settings {
        reference_diameter: 0.1,
        roughnesses: vec![2e-5, 6e-5],
        body_fineness: 12.0,
        columns: (0..32)
            .map(|at| Column {
                mach: f64::from(at) * 0.1,
                reynolds: 1e7,
            })
            .collect(),
    };
    let mut cells = vec![0.0; settings.cell_count()];
    let mut marks = vec![0; settings.cell_count()];
    let mut sheet = Sheet::open(&settings, &mut cells, &mut marks).unwrap();
    let nose = Part {
        shape: Shape::VON_KARMAN,
        length,
        aft_diameter: 0.1,
        joint_angle: 0.0,
        wetted_ratio: 8.0,
        roughness: None,
    };
    for _ in 0..50 {
        sheet.push(&nose).unwrap();
        sheet.remove(0).unwrap();
    }
    sheet.push(&nose).unwrap();
    (cells.into_iter().map(f64::to_bits).collect(), marks)
}

#[test]
fn at_once() {
    let lengths: Vec<f64> = (1..=8).map(|at| f64::from(at) * 0.1).collect();
    let alone: Vec<_> = lengths.iter().map(|length| built(*length)).collect();
    let together: Vec<_> = thread::scope(|scope| {
        let threads: Vec<_> = lengths
            .iter()
            .map(|length| scope.spawn(|| built(*length)))
            .collect();
        threads.into_iter().map(|one| one.join().unwrap()).collect()
    });
    assert_eq!(alone, together);
    assert!(alone.windows(2).all(|pair| pair[0] != pair[1]));
}

#[test]
fn handed_on() {
    fn free<T: Send + Sync>() {}
    free::<Sheet>();
    free::<Curve>();
}
