//! Compiles the tests in C against the header and the archive, and runs them.

mod in_c;

use std::process::Command;

use in_c::{compiler, folder, here, printed};

const FILES: [&str; 5] = ["calls.c", "sheets.c", "burning.c", "finishes.c", "marks.c"];

#[test]
fn calls_in_c() {
    let program = folder("calls_in_c").join("calls");
    printed(
        compiler("c11", &here().join("include"))
            .args(FILES.map(|file| here().join("tests").join(file)))
            .args(["-x", "none", env!("COBALNIS_ARCHIVE"), "-lm", "-o"])
            .arg(&program),
    );
    printed(&mut Command::new(&program));
}

/// The header alone, in every standard that it is for and in the newest ones.
#[test]
fn header_in_each_standard() {
    let source = folder("header").join("header.c");
    let text = "#include \"cobalnis.h\"\nint main(void) { return !cobalnis_fits_header(); }\n";
    std::fs::write(&source, text).expect("a file");
    for standard in ["c11", "c17", "c2x", "c++11", "c++14", "c++17", "c++20"] {
        let program = source.with_extension(standard);
        printed(
            compiler(standard, &here().join("include"))
                .arg(&source)
                .args(["-x", "none", env!("COBALNIS_ARCHIVE"), "-o"])
                .arg(&program),
        );
        printed(&mut Command::new(&program));
    }
}

/// A header with other sizes, or of another version, tells that the archive isn't its own.
#[test]
fn other_headers() {
    let folder = folder("other_headers");
    let source = folder.join("other.c");
    let text = "#include \"cobalnis.h\"\nint main(void) { return cobalnis_fits_header(); }\n";
    std::fs::write(&source, text).expect("a file");
    let include = here().join("include");
    for (at, (old, new)) in [
        ("COBALNIS_COLUMNS = 32", "COBALNIS_COLUMNS = 31"),
        ("COBALNIS_PLACES = 16", "COBALNIS_PLACES = 17"),
        ("COBALNIS_FINISHES = 4", "COBALNIS_FINISHES = 3"),
        ("COBALNIS_INTERFACE 1", "COBALNIS_INTERFACE 2"),
        ("VERSION_MINOR 2", "VERSION_MINOR 3"),
        ("VERSION_PATCH 0", "VERSION_PATCH 1"),
    ]
    .into_iter()
    .enumerate()
    {
        let other = folder.join(format!("include{at}"));
        std::fs::create_dir_all(other.join("cobalnis")).expect("a folder");
        for file in [
            "cobalnis.h",
            "cobalnis/raw.h",
            "cobalnis/status.h",
            "cobalnis/sheet.h",
            "cobalnis/formulas.h",
            "cobalnis/curves.h",
            "cobalnis/numbers.h",
        ] {
            let text = std::fs::read_to_string(include.join(file)).expect("the header");
            let changed = text.replace(old, new);
            assert_eq!(
                changed != text,
                file == "cobalnis/numbers.h",
                "{file} {old}"
            );
            std::fs::write(other.join(file), changed).expect("a file");
        }
        let program = folder.join(format!("other{at}"));
        printed(
            compiler("c11", &other)
                .arg(&source)
                .args(["-x", "none", env!("COBALNIS_ARCHIVE"), "-o"])
                .arg(&program),
        );
        printed(&mut Command::new(&program));
    }
}
