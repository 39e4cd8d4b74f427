//! The wrapper's sheets of several finishes: each finish has the rows of a sheet of it alone, after
//! every call, and what is refused.

mod common;

use cobalnis::formulas::skin_friction_coefficient;
use cobalnis::words::{self, SheetWords, FINISHES_AT, NOZZLE_AT, PARTS_AT, ROUGHNESSES_AT};
use cobalnis::{print, rows, Column, Part, Quantity, Refusal, Settings, Shape, Sheet};
use cobalnis::{COLUMNS, FINISHES, PLACES};

use common::{domain, stream, INFINITY, NAN};

/// Polished, painted, painted badly, unfinished.
const ROUGHNESSES: [f64; FINISHES] = [2e-6, 2e-5, 6e-5, 2e-4];

fn column(mach: f64, reynolds: f64) -> Column {
    Column { mach, reynolds }
}

fn settings(roughnesses: &[f64]) -> Settings {
    Settings {
        reference_diameter: 0.1,
        roughnesses: roughnesses.to_vec(),
        body_fineness: 12.0,
        columns: vec![column(0.3, 7e6), column(1.2, 3e7), column(0.0, 5e3)],
    }
}

fn part(aft_diameter: f64, roughness: Option<f64>) -> Part {
    Part {
        shape: Shape::Ogive { radius_ratio: 1.0 },
        length: 0.3,
        aft_diameter,
        joint_angle: 0.0,
        wetted_ratio: 9.0,
        roughness,
    }
}

fn bits(cells: &[f64]) -> Vec<u64> {
    cells.iter().map(|x| x.to_bits()).collect()
}

/// One change of a sheet.
type Edit = Box<dyn Fn(&mut Sheet) -> Result<(), Refusal>>;

/// Calls of every kind, of which some are refused.
fn edits() -> Vec<Edit> {
    vec![
        Box::new(|sheet| sheet.push(&part(0.08, Some(1e-6)))),
        Box::new(|sheet| sheet.push(&part(0.1, None))),
        Box::new(|sheet| sheet.ignite(0.04)),
        Box::new(|sheet| sheet.insert(1, &part(0.1, None))),
        Box::new(|sheet| sheet.replace(0, &part(0.1, None))),
        Box::new(|sheet| sheet.insert(9, &part(0.1, None))),
        Box::new(|sheet| sheet.set_column(2, column(0.9, 2e7))),
        Box::new(|sheet| sheet.push(&part(0.06, Some(0.5)))),
        Box::new(|sheet| sheet.burnout()),
        Box::new(|sheet| sheet.replace(1, &part(0.1, Some(1.5)))),
        Box::new(|sheet| sheet.remove(1)),
        Box::new(|sheet| sheet.ignite(0.01)),
        Box::new(|sheet| sheet.remove(0)),
    ]
}

/// Every finish's rows are those of a sheet of that finish alone.
fn same_rows(sheet: &Sheet, finish: usize, alone: &Sheet) {
    let friction = sheet.friction(finish).unwrap();
    assert_eq!(bits(friction), bits(alone.friction(0).unwrap()));
    assert_eq!(
        bits(sheet.total(finish).unwrap()),
        bits(alone.total(0).unwrap())
    );
    assert_eq!(bits(sheet.base()), bits(alone.base()));
    assert_eq!(sheet.total_marks(finish), alone.total_marks(0));
    assert_eq!(sheet.part_count(), alone.part_count());
    for place in 0..sheet.part_count() {
        assert_eq!(sheet.part(place), alone.part(place));
        assert_eq!(sheet.part_row(place), alone.part_row(place));
        assert_eq!(sheet.part_marks(place), alone.part_marks(place));
    }
}

#[test]
fn side_by_side() {
    for count in 1..=FINISHES {
        let finishes = &ROUGHNESSES[..count];
        let all = settings(finishes);
        let past = all.cell_count();
        let (mut cells, mut marks) = (vec![-3.0; past + 1], vec![7; past + 1]);
        let mut sheet = Sheet::open(&all, &mut cells, &mut marks).unwrap();
        assert_eq!((sheet.finish_count(), sheet.settings()), (count, all));
        let mut lent = vec![([0.0; 3 * rows(1)], [0; 3 * rows(1)]); count];
        let mut alone = Vec::new();
        for ((cells, marks), &finish) in lent.iter_mut().zip(finishes) {
            alone.push(Sheet::open(&settings(&[finish]), cells, marks).unwrap());
        }
        for edit in edits() {
            let answer = edit(&mut sheet);
            for (finish, alone) in alone.iter_mut().enumerate() {
                assert_eq!(edit(alone), answer);
                same_rows(&sheet, finish, alone);
            }
        }
        assert_eq!((sheet.friction(count), sheet.total(count)), (None, None));
        assert_eq!((sheet.cells()[past], sheet.marks()[past]), (-3.0, 7));
    }
}

/// Friction and totals by hand: a roughness of a part's own holds in every finish.
#[test]
fn by_hand() {
    let all = settings(&ROUGHNESSES[1..]);
    let (mut cells, mut marks) = (vec![0.0; all.cell_count()], vec![0; all.cell_count()]);
    let mut sheet = Sheet::open(&all, &mut cells, &mut marks).unwrap();
    sheet.push(&part(0.1, Some(2e-6))).unwrap();
    sheet.push(&part(0.1, None)).unwrap();
    let added = |roughness| {
        let skin = skin_friction_coefficient(7e6, roughness, 0.3).unwrap();
        (skin * (1.0 + 0.5 / 12.0)) * 9.0
    };
    let (nose, base) = (sheet.part_row(0).unwrap()[0], sheet.base()[0]);
    let mut before = 0.0;
    for (finish, &roughness) in ROUGHNESSES[1..].iter().enumerate() {
        let friction = sheet.friction(finish).unwrap()[0];
        assert_eq!(friction, added(2e-6) + added(roughness));
        assert_eq!(sheet.total(finish).unwrap()[0], (nose + friction) + base);
        assert!(friction > before);
        before = friction;
    }
    let polished = part(0.1, Some(2e-6));
    sheet.replace(1, &polished).unwrap();
    assert_eq!(
        bits(sheet.friction(0).unwrap()),
        bits(sheet.friction(2).unwrap())
    );
    assert_eq!(bits(sheet.total(0).unwrap()), bits(sheet.total(2).unwrap()));
}

fn opened(settings: &Settings, cells: usize) -> Result<(), Refusal> {
    Sheet::open(settings, &mut vec![0.0; cells], &mut vec![0; cells]).map(|_| ())
}

/// 19 for none and for more than four, after 7 and 11 for D and before all else.
#[test]
fn how_many() {
    for count in [0, 5, 300] {
        let mut all = settings(&vec![NAN; count]);
        all.body_fineness = 0.0;
        assert_eq!(opened(&all, 0), Err(Refusal::FinishCount), "{count}");
        all.reference_diameter = 0.0;
        assert_eq!(opened(&all, 0), Err(Refusal::HouseInterval));
        all.columns = vec![column(0.0, 0.0); COLUMNS + 1];
        assert_eq!(opened(&all, 0), Err(Refusal::ManyColumns));
    }
}

/// 11 for any roughness outside [0, 1], before B; and one cell too few.
#[test]
fn roughnesses_and_cells() {
    for count in 1..=FINISHES {
        for at in 0..count {
            for bad in [1.5, NAN, -1.0, 1.0f64.next_up(), INFINITY] {
                let mut all = settings(&ROUGHNESSES[..count]);
                all.body_fineness = 0.0;
                all.roughnesses[at] = bad;
                assert_eq!(opened(&all, 0), Err(Refusal::HouseInterval), "{bad}");
            }
        }
        let mut all = settings(&[0.0, -0.0, 1.0, 0.5][..count]);
        let enough = all.cell_count();
        assert_eq!(enough, (17 + 2 * count) * 3);
        assert_eq!(opened(&all, enough), Ok(()));
        assert_eq!(opened(&all, enough - 1), Err(Refusal::FewCells));
        all.body_fineness = 0.0;
        let refused = domain(Quantity::BodyFineness, 0.0);
        assert_eq!(opened(&all, 0), Err(refused));
    }
}

/// Each call that is given a sheet, by words, all answered with the same number.
fn all_answered(given: &SheetWords, cells: &[f64], number: u32) {
    let tube = [0; words::PART_WORDS];
    type Call<'a> = &'a dyn Fn(&mut SheetWords, &mut [f64], &mut [u8]) -> (u32, u64);
    let calls: [Call; 6] = [
        &|sheet, cells, marks| words::insert(sheet, 0, &tube, cells, marks),
        &|sheet, cells, marks| words::replace(sheet, 0, &tube, cells, marks),
        &|sheet, cells, marks| words::remove(sheet, 0, cells, marks),
        &|sheet, cells, marks| words::set_column(sheet, 0, 0.0, 0.0, cells, marks),
        &|sheet, cells, marks| words::ignite(sheet, 0.01, cells, marks),
        &|sheet, cells, marks| words::burnout(sheet, cells, marks),
    ];
    for (at, call) in calls.iter().enumerate() {
        let (mut sheet, mut lent, mut marks) = (*given, cells.to_vec(), vec![0; cells.len()]);
        let answer = call(&mut sheet, &mut lent, &mut marks);
        assert_eq!(answer, (number, 0), "call {at}");
        if number != 0 {
            assert_eq!((&sheet, bits(&lent)), (given, bits(cells)), "call {at}");
        }
    }
}

/// By words: the number of finishes is tested whole, and roughnesses past it are not looked at.
#[test]
fn by_words() {
    let all = settings(&ROUGHNESSES[..2]);
    let (mut cells, mut marks) = (vec![0.0; all.cell_count()], vec![0; all.cell_count()]);
    let mut sheet = Sheet::open(&all, &mut cells, &mut marks).unwrap();
    sheet.push(&part(0.1, None)).unwrap();
    let (whole, cells) = (*sheet.words(), sheet.cells().to_vec());
    for count in [0, 5, 1 << 32, (1 << 32) + 2, u64::MAX] {
        let mut given = whole;
        given[FINISHES_AT] = count;
        all_answered(&given, &cells, 19);
        given[ROUGHNESSES_AT] = NAN.to_bits();
        given[NOZZLE_AT] = NAN.to_bits();
        given[PARTS_AT] = 17;
        all_answered(&given, &[], 19);
        let mut opened = given;
        assert_eq!(words::open(&mut opened, &mut [], &mut []), (19, 0));
        assert_eq!(opened, given);
    }
    for at in 0..FINISHES {
        let mut given = whole;
        given[ROUGHNESSES_AT + at] = 1.5f64.to_bits();
        all_answered(&given, &cells, if at < 2 { 11 } else { 0 });
    }
    // The sheet has cells for two finishes and not for three.
    let mut given = whole;
    given[FINISHES_AT] = 3;
    all_answered(&given, &cells, 10);
}

/// A settings card of these bits, D and B of 1, a count byte and these roughnesses.
fn card(bits: u8, count: u8, roughnesses: &[f64]) -> Vec<u8> {
    let one = 1.0f64.to_le_bytes();
    let mut bytes = [&[bits], &one[..], &one[..], &[count]].concat();
    bytes.extend(roughnesses.iter().flat_map(|x| x.to_le_bytes()));
    bytes
}

#[test]
fn cards() {
    for count in 1..=FINISHES {
        let bytes = card(0x15, count as u8, &ROUGHNESSES[..count]);
        let (read, next) = Settings::read(&bytes, 0).unwrap();
        assert_eq!(
            (read.roughnesses, next),
            (ROUGHNESSES[..count].to_vec(), 18 + 8 * count)
        );
        for end in 1..bytes.len() {
            assert_eq!(Settings::read(&bytes[..end], 0), Err(Refusal::Ended));
        }
        let mut words = [7; words::SHEET_WORDS];
        assert_eq!(words::read_settings(&bytes, 0, &mut words), (0, next));
        assert_eq!(words[FINISHES_AT], count as u64);
        assert!(words[ROUGHNESSES_AT + count..ROUGHNESSES_AT + FINISHES]
            .iter()
            .all(|&w| w == 0));
    }
    for count in [0, 5, 255] {
        assert_eq!(
            Settings::read(&card(0x15, count, &[]), 0),
            Err(Refusal::FinishCount)
        );
    }
    for bits in [0x17, 0x1f, 0x10, 0x12, 0x14] {
        assert_eq!(Settings::read(&[bits], 0), Err(Refusal::Field));
    }
    for bits in [0x20, 0x35, 0x40, 0x80, 0xff] {
        assert_eq!(Settings::read(&[bits], 0), Err(Refusal::Reserved));
    }
    // Without bit 4 there is one finish, of roughness 0 or bit 1's.
    let (read, _) = Settings::read(&stream(), 0).unwrap();
    assert_eq!(read.roughnesses, [0.0]);
    let (read, _) = Settings::read(&[&[7], &[0; 24][..]].concat(), 0).unwrap();
    assert_eq!(read.roughnesses, [0.0]);
}

#[test]
fn printed() {
    let two = card(0x15, 2, &[0.0, 1.0]);
    assert_eq!(
        print(&two),
        "mach\nfriction 0\nfriction 1\nbase\ntotal 0\ntotal 1\n"
    );
    let names = "mach\nfriction\nbase\ntotal\n";
    assert_eq!(print(&card(0x15, 1, &[1.0])), names);
    assert_eq!(print(&card(0x15, 1, &[1.5])), "refused 11 card 0\n");
    assert_eq!(print(&card(0x15, 0, &[1.5])), "refused 19 card 0\n");
    assert_eq!(print(&card(0x17, 0, &[1.5])), "refused 6 card 0\n");
}

/// The longest text there is: 16 parts, 32 columns, four finishes; and the longest settings card.
#[test]
fn longest_print() {
    let one = 1.0f64.to_le_bytes();
    let mut bytes = [&[0x1d], &one[..], &one[..], &[32]].concat();
    bytes.extend([0; 16 * 32]);
    bytes.push(4);
    bytes.extend(ROUGHNESSES.iter().flat_map(|x| x.to_le_bytes()));
    assert_eq!(bytes.len(), 563);
    bytes.extend([0; PLACES]);
    let text = print(&bytes);
    assert_eq!((text.lines().count(), text.len()), (26, 14348));
}
