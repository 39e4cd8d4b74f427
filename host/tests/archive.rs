//! What the archive asks of the program that links it: two functions of the C library.

mod in_c;

use std::collections::BTreeSet;
use std::process::Command;

use in_c::printed;

#[test]
fn needs_memcpy_and_memset_alone() {
    let said = printed(Command::new("nm").args(["-u", env!("COBALNIS_ARCHIVE")]));
    // A line of two words is a name that is needed, after a letter; the others name the files.
    let needed: BTreeSet<&str> = said
        .lines()
        .filter_map(|line| line.trim().split_once(' '))
        .map(|(_, name)| name)
        .collect();
    assert_eq!(needed, BTreeSet::from(["memcpy", "memset"]), "{said}");
}
