//! Runs the programs on the rows of crates/NAME/rows, by tools/rows, which needs python3 and a C compiler. (It refuses memory and reads
//! /proc as Linux has them.)
#![cfg(target_os = "linux")]

use std::path::Path;
use std::process::Command;

#[test]
fn rows() {
    let programs = Path::new(env!("CARGO_BIN_EXE_machinfo")).parent().unwrap();
    let script = Path::new(env!("CARGO_MANIFEST_DIR")).join("../../tools/rows");
    let ran = Command::new("python3")
        .arg(script)
        .arg("--built")
        .arg(programs)
        .output()
        .unwrap_or_else(|why| panic!("tools/rows runs the rows, and python3 doesn't start: {why}"));
    let said = String::from_utf8_lossy(&ran.stdout);
    assert!(
        ran.status.success(),
        "tools/rows: {}\n{said}{}",
        ran.status,
        String::from_utf8_lossy(&ran.stderr)
    );
    // The last line is the count.
    let passed = said
        .lines()
        .last()
        .and_then(|line| line.strip_suffix(" passed, 0 failed"));
    assert!(
        passed.is_some_and(|count| count != "0"),
        "tools/rows ran nothing: {said}"
    );
}
