//! The examples as a user has them: in C compiled as C11 and as C++, in Rust as a package outside
//! this repository that depends on this one by the line of README.md. Both print examples/rocket.out,
//! and README.md shows both texts and what they print.

mod in_c;

use std::fs;
use std::path::{Path, PathBuf};
use std::process::Command;

use in_c::{compiler, folder, here, printed};

const README: &str = include_str!("../README.md");
const PRINTED: &str = include_str!("../examples/rocket.out");

#[test]
fn shown_in_the_readme() {
    for (language, text) in [
        ("c", include_str!("../examples/rocket.c")),
        ("rust", include_str!("../examples/rocket.rs")),
        ("text", PRINTED),
    ] {
        let shown = format!("```{language}\n{text}```\n");
        assert!(README.contains(&shown), "{language}");
    }
}

#[test]
fn in_c_and_in_cpp() {
    let folder = folder("example");
    for standard in ["c11", "c++11"] {
        let program = folder.join(standard);
        printed(
            compiler(standard, &here().join("include"))
                .arg(here().join("examples/rocket.c"))
                .args(["-x", "none", env!("COBALNIS_ARCHIVE"), "-o"])
                .arg(&program),
        );
        assert_eq!(printed(&mut Command::new(&program)), PRINTED, "{standard}");
    }
}

/// A package of somebody else's, in a folder outside this repository.
struct Package(PathBuf);

impl Package {
    fn new(name: &str) -> Self {
        let folder = std::env::temp_dir().join(format!("cobalnis-{name}-{}", std::process::id()));
        fs::create_dir_all(folder.join("src")).expect("a folder");
        let line = README.lines().find(|line| line.starts_with("cobalnis = "));
        let line = line.expect("the dependency's line");
        assert!(line.contains("\"path/to/host\""));
        let line = line.replace("path/to/host", here().to_str().expect("a path"));
        let manifest = format!(
            "[package]\nname = \"user\"\nversion = \"1.0.0\"\nedition = \"2021\"\n\n\
             [dependencies]\n{line}\n"
        );
        fs::write(folder.join("Cargo.toml"), manifest).expect("a file");
        let example = here().join("examples/rocket.rs");
        fs::copy(example, folder.join("src/main.rs")).expect("a file");
        Self(folder)
    }

    fn run(&self, archive: &Path) -> Command {
        let mut cargo = Command::new(env!("CARGO"));
        cargo
            .args(["run", "--quiet", "--offline"])
            .current_dir(&self.0)
            .env("CARGO_TARGET_DIR", self.0.join("target"))
            .env("COBALNIS_LIB", archive.parent().expect("its folder"));
        cargo
    }
}

impl Drop for Package {
    fn drop(&mut self) {
        let _ = fs::remove_dir_all(&self.0);
    }
}

#[test]
fn as_a_users_package() {
    let package = Package::new("user");
    let archive = Path::new(env!("COBALNIS_ARCHIVE"));
    assert_eq!(printed(&mut package.run(archive)), PRINTED);
}

/// With an archive of another layout or version the first call stops the program and says why.
#[test]
fn other_archives() {
    let package = Package::new("other");
    let folder = folder("other_archives");
    for (name, number) in [("version", 1000), ("layout", 102_020_799)] {
        let source = folder.join("other.c");
        let text = format!("unsigned cobalnis_{name}(void) {{ return {number}; }}\n");
        fs::write(&source, text).expect("a file");
        let archive = folder.join(name).join("libcobalnis.a");
        fs::create_dir_all(archive.parent().expect("its folder")).expect("a folder");
        let object = folder.join("other.o");
        printed(
            Command::new("cc")
                .arg("-c")
                .arg(&source)
                .arg("-o")
                .arg(&object),
        );
        let hidden = format!("cobalnis_{name}=hidden_{name}");
        printed(
            Command::new("objcopy")
                .args(["--redefine-sym", &hidden, env!("COBALNIS_ARCHIVE")])
                .arg(&archive),
        );
        printed(Command::new("ar").arg("q").arg(&archive).arg(&object));
        let output = package.run(&archive).output().expect("cargo");
        let said = String::from_utf8_lossy(&output.stderr);
        assert!(
            !output.status.success() && output.stdout.is_empty(),
            "{said}"
        );
        let words = format!(
            "libcobalnis.a has version {}",
            if name == "version" { 1000 } else { 2000 }
        );
        assert!(said.contains(&words), "{said}");
        assert!(
            said.contains("make both from one state of the repository"),
            "{said}"
        );
    }
}
