//! The model of the cards (docs/REFERENCE.md, Cards): the example of docs/REFERENCE.md, the
//! refusals of its table with their card, and the order in which bytes are looked at.

use compare::cards::{printed, read_part, read_settings, stack};

/// Bytes out of hexadecimal digits; spaces are passed over, `one` is 1.0, `zero` is +0.
fn bytes(text: &str) -> Vec<u8> {
    let text = text.replace("one", "000000000000f03f");
    let text = text.replace("zero", "0000000000000000");
    let digits: String = text.split_whitespace().collect();
    assert_eq!(digits.len() % 2, 0);
    (0..digits.len())
        .step_by(2)
        .map(|at| u8::from_str_radix(&digits[at..at + 2], 16).expect("digits"))
        .collect()
}

fn text(stream: &str) -> String {
    printed(&bytes(stream)).0
}

/// A float as a card has it.
fn float(x: f64) -> String {
    x.to_bits()
        .to_le_bytes()
        .iter()
        .map(|byte| format!("{byte:02x}"))
        .collect()
}

fn refused(number: u8, card: usize) -> String {
    format!("refused {number} card {card}\n")
}

const OPEN: &str = "0d one one 01 zero zero ";

#[test]
fn the_papers_cards() {
    let stream = bytes("0d 000000000000f03f 000000000000f03f 01 zero zero 08 000000000000f03f");
    assert_eq!(
        printed(&stream),
        (
            "mach 0000000000000000\npart 0 3feb333333333333\nfriction 0000000000000000\n\
             base 3fbeb851eb851eb8\ntotal 3fef0a3d70a3d70a\n"
                .to_string(),
            0
        )
    );
}

/// No bytes at all are a sheet with nothing in it, as D = 1 and B = 1 alone are; a card asked for
/// where no byte is left is 4.
#[test]
fn no_bytes() {
    assert_eq!(text(""), "mach\nfriction\nbase\ntotal\n");
    assert_eq!(text(""), text("05 one one"));
    let (sheet, held) = stack(&[]).expect("accepted");
    let settings = &sheet.settings;
    assert_eq!(settings.reference_diameter, 1.0);
    assert_eq!(
        (settings.finishes, settings.roughnesses[0].to_bits()),
        (1, 0)
    );
    assert_eq!(settings.body_fineness, 1.0);
    let cells = held.cells.len();
    assert_eq!((settings.count, sheet.design.count, cells), (0, 0, 0));
    assert_eq!(read_settings(&[], 0).err(), Some(4));
    assert_eq!(read_part(&[], 0).err(), Some(4));
}

/// One byte is a card: refused by its bits, or cut short.
#[test]
fn one_byte() {
    for map in 0..=255u8 {
        let number = match map {
            0x20.. => 5,
            0x05 | 0x07 | 0x0d | 0x0f | 0x15 | 0x1d => 4,
            _ => 6,
        };
        assert_eq!(printed(&[map]), (refused(number, 0), number), "{map:02x}");
    }
}

/// 4: bytes end inside a card.
#[test]
fn bytes_that_end() {
    assert_eq!(text("0d"), refused(4, 0));
    let whole = bytes(&format!("{OPEN} 7f 01 one one one one one one 08 one"));
    let borders = [34, 84, 93];
    assert_eq!(whole.len(), borders[2]);
    for end in 1..=whole.len() {
        let (text, number) = printed(&whole[..end]);
        if borders.contains(&end) {
            assert_eq!(number, 0, "{end}");
        } else {
            let card = borders.iter().filter(|&&border| border < end).count();
            assert_eq!(text, refused(4, card), "{end}");
        }
    }
}

/// 5: a reserved bit, before anything else; a shape byte above 5, before its parameter.
#[test]
fn reserved() {
    for map in ["20", "40", "80", "3d", "37", "ff"] {
        assert_eq!(text(map), refused(5, 0), "{map}");
    }
    for map in ["80", "82", "c0", "ff"] {
        assert_eq!(text(&format!("{OPEN}{map}")), refused(5, 1), "{map}");
    }
    assert_eq!(text(&format!("{OPEN}40")), refused(4, 1));
    for card in ["01 06", "03 06", "03 ff", "01 80"] {
        assert_eq!(text(&format!("{OPEN}{card}")), refused(5, 1), "{card}");
        assert_eq!(text(&format!("{OPEN}00 {card}")), refused(5, 2), "{card}");
    }
    assert_eq!(text(&format!("{OPEN}01")), refused(4, 1));
}

/// 6: D or B missing, or bits 1 and 4 together, right after the map; the parameter missing or barred, once the shape is read.
#[test]
fn missing_and_barred() {
    for map in [
        "00", "01", "02", "04", "08", "0b", "0e", "10", "12", "17", "1f",
    ] {
        assert_eq!(text(map), refused(6, 0), "{map}");
    }
    for card in [
        "02", "7e", "03 00", "03 02", "01 01", "01 03", "01 04", "01 05",
    ] {
        assert_eq!(text(&format!("{OPEN}{card}")), refused(6, 1), "{card}");
        assert_eq!(
            text(&format!("{OPEN}00 00 {card}")),
            refused(6, 3),
            "{card}"
        );
    }
    for card in [
        "00",
        "01 00",
        "01 02",
        "03 01 one",
        "03 03 one",
        "03 04 one",
        "03 05 one",
    ] {
        assert_eq!(printed(&bytes(&format!("{OPEN}{card}"))).1, 0, "{card}");
    }
}

/// 7 at the count byte, though D is out of range and no pair follows; 32 pairs pass.
#[test]
fn too_many_columns() {
    assert_eq!(text("0d one one 21"), refused(7, 0));
    assert_eq!(text("0d zero zero ff"), refused(7, 0));
    assert_eq!(text("0f zero zero zero 21"), refused(7, 0));
    assert_eq!(text("0d one one 20"), refused(4, 0));
    let pairs = "zero".repeat(64);
    assert_eq!(printed(&bytes(&format!("0d one one 20 {pairs}"))).1, 0);
    assert_eq!(
        text(&format!("0d one one 21 {pairs} zero zero")),
        refused(7, 0)
    );
}

/// Bit 4: a count byte and that many roughnesses, after the columns; those past them are +0.
#[test]
fn finishes() {
    let quarter = float(0.25);
    for (count, map) in [(1, "15"), (2, "15"), (4, "15"), (3, "1d")] {
        let columns = if map == "1d" { "01 one one" } else { "" };
        let floats = [quarter.as_str(), "one", "zero", "one"][..count].concat();
        let card = format!("{map} one one {columns} {count:02x} {floats}");
        let whole = bytes(&card);
        let (settings, next) = read_settings(&bytes(&format!("{card} 00")), 0).expect("accepted");
        assert_eq!((settings.finishes, next), (count, whole.len()));
        let mut roughnesses = [0.0; 4];
        roughnesses[..count].copy_from_slice(&[0.25, 1.0, 0.0, 1.0][..count]);
        assert_eq!(settings.roughnesses, roughnesses);
        for end in 1..whole.len() {
            assert_eq!(read_settings(&whole[..end], 0).err(), Some(4), "{end}");
        }
    }
    // Without it there is one, by bit 1 or of +0.
    for (map, roughness) in [("05 one one", 0.0), ("07 one one one", 1.0)] {
        let (settings, _) = read_settings(&bytes(map), 0).expect("accepted");
        assert_eq!(settings.finishes, 1);
        assert_eq!(settings.roughnesses, [roughness, 0.0, 0.0, 0.0]);
    }
}

/// 19 at the count byte, whatever D is and before a float is missed; after 7. Then the call: 11.
#[test]
fn too_many_finishes() {
    for count in ["00", "05", "ff"] {
        assert_eq!(text(&format!("15 one one {count}")), refused(19, 0));
        assert_eq!(text(&format!("15 zero zero {count} one")), refused(19, 0));
        assert_eq!(text(&format!("1d one one 00 {count}")), refused(19, 0));
        assert_eq!(text(&format!("1d one one 21 {count}")), refused(7, 0));
        assert_eq!(text(&format!("1d one one 01 {count}")), refused(4, 0));
    }
    let (half, above) = (float(0.5), float(1.5));
    let nan = float(f64::NAN);
    assert_eq!(
        text(&format!("15 one one 02 {half} {above}")),
        refused(11, 0)
    );
    assert_eq!(
        text(&format!("15 one zero 02 {half} {nan}")),
        refused(11, 0)
    );
    assert_eq!(
        text(&format!("15 one zero 02 {half} {half}")),
        refused(1, 0)
    );
}

/// One line for a finish's friction and total: no number where there is one finish.
#[test]
fn lines_of_finishes() {
    let names = "mach\nfriction\nbase\ntotal\n";
    assert_eq!(text("15 one one 01 one"), names);
    let names = "mach\nfriction 0\nfriction 1\nfriction 2\nbase\ntotal 0\ntotal 1\ntotal 2\n";
    assert_eq!(text("15 one one 03 one zero one"), names);
    let rough = float(0.01);
    let card = format!("{} {rough} zero 28 one one", "1d one one 01 zero zero 02");
    let printed = text(&card);
    let words: Vec<&str> = printed
        .lines()
        .map(|line| &line[line.len() - 16..])
        .collect();
    // Below Reynolds number 10000 no roughness counts: 0.0148 × 1.5.
    assert_eq!((words.len(), words[2]), (7, words[3]));
    assert_eq!(words[2], format!("{:016x}", (0.0148f64 * 1.5).to_bits()));
    assert_eq!(words[5], words[6]);
}

/// The longest settings card, and the longest text.
#[test]
fn longest() {
    let columns = "zero".repeat(64);
    let card = format!("1d one one 20 {columns} 04 one one one one");
    assert_eq!(bytes(&card).len(), 563);
    let text = text(&(card + &"00".repeat(16)));
    assert_eq!((text.lines().count(), text.len()), (26, 14348));
}

/// The calls' refusals with their card: the settings card is 0, and a card is tested when it is
/// whole, before the next one is read.
#[test]
fn refusals_of_the_calls() {
    let nan = float(f64::NAN);
    assert_eq!(text(&format!("{OPEN} 18 one {nan}")), refused(1, 1));
    // Behind a part of the same diameter the angle isn't looked at.
    assert_eq!(printed(&bytes(&format!("{OPEN} 08 one 18 one {nan}"))).1, 0);
    assert_eq!(
        text(&format!("{OPEN} 08 one 18 {} {nan}", float(2.0))),
        refused(1, 2)
    );
    assert_eq!(text(&format!("0d one one 01 {nan} zero")), refused(1, 0));
    assert_eq!(text(&format!("0d one one 01 zero {nan} ff")), refused(1, 0));
    assert_eq!(text(&format!("05 one {nan}")), refused(1, 0));
    let ogive = |ratio| format!("{OPEN} 0f 01 {} one one", float(ratio));
    assert_eq!(text(&ogive(0.9)), refused(2, 1));
    let haack = |parameter| format!("{OPEN} 00 0f 05 {} one one", float(parameter));
    assert_eq!(text(&haack(0.4)), refused(3, 2));
    assert_eq!(text("05 zero one"), refused(11, 0));
    assert_eq!(text("05 zero one ff"), refused(11, 0));
    assert_eq!(text("05 zero"), refused(4, 0));
    assert_eq!(text(&format!("07 one {} one", float(1.5))), refused(11, 0));
    assert_eq!(
        text(&format!("{OPEN} 04 {} ff", float(101.0))),
        refused(11, 1)
    );
    for own in [1.5, -1.0, f64::NAN] {
        let card = format!("40 {} ff", float(own));
        assert_eq!(text(&format!("{OPEN}{card}")), refused(11, 1), "{own}");
        assert_eq!(text(&format!("{OPEN}00 {card}")), refused(11, 2), "{own}");
    }
    let sixteen = "00".repeat(16);
    assert_eq!(text(&format!("{OPEN}{sixteen} 00")), refused(9, 17));
    assert_eq!(text(&format!("{OPEN}{sixteen} 00 ff")), refused(9, 17));
    // A 17th card is read before it is inserted, and 9 comes before 11.
    assert_eq!(text(&format!("{OPEN}{sixteen} ff")), refused(5, 17));
    assert_eq!(text(&format!("{OPEN}{sixteen} 02")), refused(6, 17));
    assert_eq!(text(&format!("{OPEN}{sixteen} 04 00")), refused(4, 17));
    assert_eq!(text(&format!("{OPEN}{sixteen} 04 {nan}")), refused(9, 17));
}

/// Bit 6: a roughness of the part's own, whose bytes come after w's; without it the part has none,
/// which is not 0.
#[test]
fn roughness_of_its_own() {
    let card = format!("60 {} {} 00", float(12.5), float(0.25));
    let (part, next) = read_part(&bytes(&card), 0).expect("accepted");
    assert_eq!((part.wetted_ratio, part.roughness), (12.5, Some(0.25)));
    let (part, end) = read_part(&bytes(&card), next).expect("accepted");
    assert_eq!((part.roughness, next, end), (None, 17, 18));
    for own in [0.0, -0.0, f64::NAN] {
        let (part, next) = read_part(&bytes(&format!("40 {}", float(own))), 0).expect("accepted");
        let read = part.roughness.map(f64::to_bits);
        assert_eq!((read, next), (Some(own.to_bits()), 9));
    }
    // In a rough sheet at R = 10^6 a part without one and a smooth one have other friction.
    let open = format!("0f one {} one 01 zero {} ", float(0.01), float(1e6));
    let plain = text(&format!("{open} 20 one"));
    assert_eq!(plain, text(&format!("{open} 60 one {}", float(0.01))));
    assert_ne!(plain, text(&format!("{open} 60 one zero")));
}

/// C = 0, by a count of 0 or without bit 3: names alone, and curves are built all the same.
#[test]
fn no_columns() {
    for open in ["05 one one", "0d one one 00", "07 one zero one"] {
        assert_eq!(text(open), "mach\nfriction\nbase\ntotal\n");
        assert_eq!(
            text(&format!("{open} 08 one 00")),
            "mach\npart 0\npart 1\nfriction\nbase\ntotal\n"
        );
        let nan = float(f64::NAN);
        assert_eq!(text(&format!("{open} 18 one {nan}")), refused(1, 1));
    }
}
