//! What the tests share that compile C; each uses some of it.

#![allow(dead_code)]

use std::path::{Path, PathBuf};
use std::process::Command;

/// This package's folder.
pub fn here() -> &'static Path {
    Path::new(env!("CARGO_MANIFEST_DIR"))
}

/// A folder of a test's own, empty at its start.
pub fn folder(name: &str) -> PathBuf {
    let folder = Path::new(env!("CARGO_TARGET_TMPDIR")).join(name);
    let _ = std::fs::remove_dir_all(&folder);
    std::fs::create_dir_all(&folder).expect("a folder");
    folder
}

/// A compiler with every warning an error, for a standard, that looks for headers in `include`.
pub fn compiler(standard: &str, include: &Path) -> Command {
    let mut compiler = Command::new(if standard.contains("++") { "c++" } else { "cc" });
    let language = if standard.contains("++") { "c++" } else { "c" };
    compiler
        .arg(format!("-std={standard}"))
        .args(["-Wall", "-Wextra", "-Wpedantic", "-Werror", "-O2", "-I"])
        .arg(include)
        .args(["-x", language]);
    compiler
}

/// What a command that succeeds prints.
pub fn printed(command: &mut Command) -> String {
    let output = command.output().expect("it starts");
    let said = String::from_utf8_lossy(&output.stderr);
    let printed = String::from_utf8(output.stdout).expect("text");
    assert!(output.status.success(), "{command:?}\n{printed}{said}");
    printed
}
