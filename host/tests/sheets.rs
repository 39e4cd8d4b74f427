//! The wrapper's sheet, cards and `print`, accepted and refused, with the values of
//! docs/REFERENCE.md, Example. The marks are in marks.rs.

mod common;

use cobalnis::formulas::skin_friction_coefficient;
use cobalnis::words::{self, FIRST_PART, PARTS_AT, PART_WORDS};
use cobalnis::{print, rows, Column, Part, Quantity, Refusal, Settings, Shape, Sheet};
use cobalnis::{COLUMNS, PLACES};

use common::{domain, stream, INFINITY, NAN};

/// The rows of a sheet of one finish.
const ROWS: usize = rows(1);

/// The settings of docs/REFERENCE.md, Example: D and B of 1, one column at rest.
fn settings() -> Settings {
    Settings {
        reference_diameter: 1.0,
        roughnesses: vec![0.0],
        body_fineness: 1.0,
        columns: vec![Column {
            mach: 0.0,
            reynolds: 0.0,
        }],
    }
}

/// The first cells of the one finish's rows.
fn friction(sheet: &Sheet) -> f64 {
    sheet.friction(0).unwrap()[0]
}

fn total(sheet: &Sheet) -> f64 {
    sheet.total(0).unwrap()[0]
}

/// The part of docs/REFERENCE.md, Example: a flat face of diameter 1.
const FACE: Part = Part {
    shape: Shape::Conical,
    length: 0.0,
    aft_diameter: 1.0,
    joint_angle: 0.0,
    wetted_ratio: 0.0,
    roughness: None,
};

#[test]
fn the_papers_sheet() {
    let (mut cells, mut marks) = ([-3.0; ROWS + 1], [0; ROWS + 1]);
    let mut sheet = Sheet::open(&settings(), &mut cells, &mut marks).unwrap();
    assert_eq!((sheet.column_count(), sheet.part_count()), (1, 0));
    assert_eq!(sheet.part_row(0), None);
    sheet.push(&FACE).unwrap();
    assert_eq!(sheet.part(0), Some(FACE));
    assert_eq!(sheet.part_row(0), Some(&[0.85][..]));
    assert_eq!(sheet.friction(0), Some(&[0.0][..]));
    assert_eq!(
        (sheet.finish_count(), sheet.friction(1), sheet.total(1)),
        (1, None, None)
    );
    assert_eq!(sheet.base(), [0.12]);
    assert_eq!(total(&sheet).to_bits(), 0x3fef_0a3d_70a3_d70a);
    assert_eq!(sheet.cells()[ROWS], -3.0);
    assert_eq!(sheet.settings(), settings());
    assert_eq!(sheet.words()[PARTS_AT], 1);
}

#[test]
fn edits() {
    let (mut cells, mut marks) = ([0.0; ROWS], [0; ROWS]);
    let mut sheet = Sheet::open(&settings(), &mut cells, &mut marks).unwrap();
    let half = Part {
        aft_diameter: 0.5,
        ..FACE
    };
    sheet.insert(0, &FACE).unwrap();
    sheet.insert(0, &half).unwrap();
    assert_eq!(sheet.part(0), Some(half));
    assert_eq!(sheet.part_row(1), Some(&[0.85 * 0.75][..]));
    sheet.replace(0, &FACE).unwrap();
    assert_eq!(sheet.part_row(1), Some(&[0.0][..]));
    sheet.remove(0).unwrap();
    assert_eq!((sheet.part_count(), sheet.part(0)), (1, Some(FACE)));
    assert_eq!(sheet.part(1), None);
    let column = Column {
        mach: 1.0,
        reynolds: 1e6,
    };
    sheet.set_column(0, column).unwrap();
    assert_eq!(sheet.settings().columns, [column]);
    assert_eq!(sheet.base(), [0.25]);
}

/// A refused call leaves everything as it was.
#[test]
fn edits_refused() {
    let (mut cells, mut marks) = ([0.0; ROWS], [0; ROWS]);
    let mut sheet = Sheet::open(&settings(), &mut cells, &mut marks).unwrap();
    for place in 0..PLACES {
        sheet.insert(place, &FACE).unwrap();
    }
    let words = *sheet.words();
    let before = sheet.cells().to_vec();
    assert_eq!(sheet.insert(16, &FACE), Err(Refusal::ManyParts));
    assert_eq!(sheet.insert(17, &FACE), Err(Refusal::NoPlace));
    assert_eq!(sheet.replace(16, &FACE), Err(Refusal::NoPlace));
    assert_eq!(sheet.remove(usize::MAX), Err(Refusal::NoPlace));
    let long = Part {
        length: 101.0,
        ..FACE
    };
    assert_eq!(sheet.replace(0, &long), Err(Refusal::HouseInterval));
    let angle = Part {
        joint_angle: NAN,
        ..FACE
    };
    let refused = domain(Quantity::JointAngle, NAN);
    assert_eq!(sheet.replace(0, &angle), Err(refused));
    let ogive = Part {
        shape: Shape::Ogive { radius_ratio: 0.9 },
        length: 1.0,
        ..FACE
    };
    assert_eq!(sheet.replace(0, &ogive), Err(Refusal::OgiveRatio));
    let column = |mach| Column {
        mach,
        reynolds: 0.0,
    };
    assert_eq!(sheet.set_column(1, column(0.0)), Err(Refusal::NoPlace));
    let refused = domain(Quantity::Mach, INFINITY);
    assert_eq!(sheet.set_column(0, column(INFINITY)), Err(refused));
    assert_eq!((sheet.words(), sheet.cells()), (&words, &before[..]));
}

/// A body so short that its form factor overflows, and a part with nothing wetted: the friction is
/// a NaN. Without parts it is +0.
#[test]
fn nan_cells_have_the_papers_bits() {
    let settings = Settings {
        body_fineness: 1e-320,
        ..settings()
    };
    let (mut cells, mut marks) = ([-f64::NAN; ROWS + 1], [0; ROWS + 1]);
    let past = cells[ROWS].to_bits();
    let mut sheet =
        Sheet::open(&settings, &mut cells, &mut marks).expect("a fineness above 0 is taken");
    assert_eq!(friction(&sheet).to_bits(), 0);
    assert_eq!(sheet.base()[0].to_bits(), 0);
    sheet.push(&FACE).unwrap();
    assert_eq!(friction(&sheet).to_bits(), 0x7ff8_0000_0000_0000);
    assert_eq!(total(&sheet).to_bits(), 0x7ff8_0000_0000_0000);
    assert_eq!(sheet.cells()[ROWS].to_bits(), past);
}

/// A flat face of wetted ratio 0.5 and this roughness.
fn finished(roughness: Option<f64>) -> Part {
    Part {
        wetted_ratio: 0.5,
        roughness,
        ..FACE
    }
}

/// A polished nose on a rough tube: each part is handed back as it was given, and the friction is
/// the parts' sum.
#[test]
fn roughness_of_its_own() {
    let settings = Settings {
        roughnesses: vec![1e-2],
        ..settings()
    };
    let (mut cells, mut marks) = ([0.0; ROWS], [0; ROWS]);
    let mut sheet = Sheet::open(&settings, &mut cells, &mut marks).unwrap();
    let column = Column {
        mach: 0.0,
        reynolds: 1e6,
    };
    sheet.set_column(0, column).unwrap();
    let added = |roughness| {
        let skin = skin_friction_coefficient(1e6, roughness, 0.0).unwrap();
        (skin * 1.5) * 0.5
    };
    let (nose, tube) = (finished(Some(1e-6)), finished(Some(1e-3)));
    sheet.push(&nose).unwrap();
    sheet.push(&tube).unwrap();
    assert_eq!((sheet.part(0), sheet.part(1)), (Some(nose), Some(tube)));
    assert_eq!(friction(&sheet), added(1e-6) + added(1e-3));
    sheet.replace(1, &finished(None)).unwrap();
    assert_eq!(sheet.part(1), Some(finished(None)));
    assert_eq!(sheet.words()[FIRST_PART + PART_WORDS + 6..][..2], [0, 0]);
    assert_eq!(friction(&sheet), added(1e-6) + added(1e-2));
    for end in [0.0, -0.0, 1.0] {
        sheet.replace(0, &finished(Some(end))).unwrap();
        let back = sheet.part(0).and_then(|part| part.roughness);
        assert_eq!(back.map(f64::to_bits), Some(end.to_bits()));
    }
}

/// Outside [0, 1] it is refused, and nothing is changed.
#[test]
fn roughness_of_its_own_refused() {
    let (mut cells, mut marks) = ([0.0; ROWS], [0; ROWS]);
    let mut sheet = Sheet::open(&settings(), &mut cells, &mut marks).unwrap();
    sheet.push(&finished(Some(1.0))).unwrap();
    let words = *sheet.words();
    let before = sheet.cells().to_vec();
    for bad in [1.5, NAN, -1.0, 1.0f64.next_up(), INFINITY] {
        assert_eq!(
            sheet.push(&finished(Some(bad))),
            Err(Refusal::HouseInterval),
            "{bad}"
        );
        let replaced = sheet.replace(0, &finished(Some(bad)));
        assert_eq!(replaced, Err(Refusal::HouseInterval), "{bad}");
        assert_eq!((sheet.words(), sheet.cells()), (&words, &before[..]));
    }
}

/// By words: a flag of 0 leaves the part to the settings whatever the last word is, any other
/// makes it the part's own, and a held part is tested as one given.
#[test]
fn roughness_by_words() {
    let (mut cells, mut marks) = ([0.0; ROWS], [0; ROWS]);
    let mut sheet = Sheet::open(&settings(), &mut cells, &mut marks).unwrap();
    sheet.push(&FACE).unwrap();
    sheet.push(&finished(None)).unwrap();
    let (whole, before) = (*sheet.words(), sheet.cells().to_vec());
    let at = FIRST_PART + PART_WORDS + 6;
    let held = |flag: u64, roughness: f64| {
        let (mut sheet, mut cells, mut marks) = (whole, before.clone(), [0; ROWS]);
        sheet[at] = flag;
        sheet[at + 1] = roughness.to_bits();
        let given = sheet;
        let (status, _) = words::set_column(&mut sheet, 0, 0.0, 0.0, &mut cells, &mut marks);
        if status != 0 {
            assert_eq!((sheet, &cells), (given, &before));
        }
        (status, [sheet[at], sheet[at + 1]])
    };
    for bad in [1.5, -1.0, NAN] {
        assert_eq!(held(0, bad), (0, [0, 0]));
        for flag in [1, 2, 1 << 63, u64::MAX] {
            assert_eq!(held(flag, bad), (11, [flag, bad.to_bits()]));
        }
    }
    for flag in [1, 2, 1 << 63, u64::MAX] {
        assert_eq!(held(flag, 0.25), (0, [1, 0.25f64.to_bits()]));
    }
}

#[test]
fn opens_refused() {
    let number = |settings: &Settings, cell_count: usize| {
        Sheet::open(
            settings,
            &mut vec![0.0; cell_count],
            &mut vec![0; cell_count],
        )
        .map(|_| ())
        .map_err(|refusal| refusal.number())
    };
    assert_eq!(number(&settings(), ROWS), Ok(()));
    assert_eq!(number(&settings(), ROWS - 1), Err(10));
    let mut wide = settings();
    wide.columns = vec![wide.columns[0]; COLUMNS];
    assert_eq!(number(&wide, ROWS * COLUMNS), Ok(()));
    wide.columns.push(wide.columns[0]);
    assert_eq!(number(&wide, ROWS * (COLUMNS + 1)), Err(7));
    let mut bad = settings();
    bad.reference_diameter = NAN;
    assert_eq!(number(&bad, ROWS), Err(11));
    let mut bad = settings();
    bad.body_fineness = 0.0;
    assert_eq!(number(&bad, ROWS), Err(1));
    let mut none = settings();
    none.columns.clear();
    assert_eq!(number(&none, 0), Ok(()));
}

#[test]
fn cards() {
    let bytes = stream();
    let (read, next) = Settings::read(&bytes, 0).unwrap();
    assert_eq!((read, next), (settings(), 34));
    assert_eq!(Part::read(&bytes, next), Ok((FACE, 43)));
    assert_eq!(Part::read(&bytes, 43), Err(Refusal::Ended));
    assert_eq!(Part::read(&bytes, usize::MAX), Err(Refusal::Ended));
    assert_eq!(Part::read(&[0x80], 0), Err(Refusal::Reserved));
    assert_eq!(Part::read(&[0xc0], 0), Err(Refusal::Reserved));
    assert_eq!(Part::read(&[0x40], 0), Err(Refusal::Ended));
    assert_eq!(Part::read(&[0x01, 0x06], 0), Err(Refusal::Reserved));
    assert_eq!(Part::read(&[0x01, 0x01], 0), Err(Refusal::Field));
    assert_eq!(Settings::read(&[], 0), Err(Refusal::Ended));
    assert_eq!(Settings::read(&[0x01], 0), Err(Refusal::Field));
    let mut many = bytes.clone();
    many[17] = 33;
    assert_eq!(Settings::read(&many, 0), Err(Refusal::ManyColumns));
}

/// A card's own roughness comes after its wetted ratio, and the next card after it.
#[test]
fn cards_with_a_roughness() {
    let (half, quarter) = (0.5f64.to_le_bytes(), 0.25f64.to_le_bytes());
    let bytes = [&[0x60], &half[..], &quarter[..], &[0x20], &half[..]].concat();
    let part = |roughness| Part {
        aft_diameter: 0.0,
        ..finished(roughness)
    };
    assert_eq!(Part::read(&bytes, 0), Ok((part(Some(0.25)), 17)));
    assert_eq!(Part::read(&bytes, 17), Ok((part(None), 26)));
    assert_eq!(Part::read(&bytes[..16], 0), Err(Refusal::Ended));
}

#[test]
fn printed() {
    assert_eq!(
        print(&stream()),
        "mach 0000000000000000\npart 0 3feb333333333333\nfriction 0000000000000000\n\
         base 3fbeb851eb851eb8\ntotal 3fef0a3d70a3d70a\n"
    );
    assert_eq!(print(&[0x0d]), "refused 4 card 0\n");
}

/// No bytes print the names alone, as D = 1 and B = 1 alone do; one byte is a card cut short or one
/// that its bits refuse.
#[test]
fn nothing_to_print() {
    let names = "mach\nfriction\nbase\ntotal\n";
    assert_eq!(print(&[]), names);
    let one = 1.0f64.to_le_bytes();
    assert_eq!(print(&[&[0x05], &one[..], &one[..]].concat()), names);
    for (byte, number) in [(0x00, 6), (0x01, 6), (0x05, 4), (0x0d, 4), (0xff, 5)] {
        assert_eq!(print(&[byte]), format!("refused {number} card 0\n"));
    }
}

/// The longest text of one finish: 16 parts and 32 columns.
#[test]
fn longest_print() {
    let one = 1.0f64.to_le_bytes();
    let mut bytes = vec![0x0d];
    bytes.extend([one, one].concat());
    bytes.push(32);
    bytes.extend([0; 16 * 32]);
    bytes.extend([0; 16]);
    let text = print(&bytes);
    assert_eq!((text.lines().count(), text.len()), (20, 11023));
    bytes.push(0);
    assert_eq!(print(&bytes), "refused 9 card 17\n");
}
