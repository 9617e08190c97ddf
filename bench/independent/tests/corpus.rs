//! The committed cases, answered by the program and compared with the committed answers.

use std::fs::{self, File};
use std::path::Path;
use std::process::{Command, Stdio};

#[test]
fn corpus() {
    let folder = Path::new(env!("CARGO_MANIFEST_DIR")).join("../../crates/cases");
    let output = Command::new(env!("CARGO_BIN_EXE_cases"))
        .stdin(File::open(folder.join("stdin")).expect("the cases"))
        .stderr(Stdio::inherit())
        .output()
        .expect("the program runs");
    assert!(output.status.success());
    let expected = fs::read(folder.join("stdout")).expect("the answers");

    let lines = |octets: &[u8]| octets.split(|&b| b == b'\n').map(<[u8]>::to_vec).collect::<Vec<_>>();
    let (ours, theirs) = (lines(&output.stdout), lines(&expected));
    let differing: Vec<usize> =
        (0..ours.len().max(theirs.len())).filter(|&i| ours.get(i) != theirs.get(i)).collect();
    if let Some(&first) = differing.first() {
        let show =
            |lines: &[Vec<u8>]| lines.get(first).map(|line| String::from_utf8_lossy(line).into_owned());
        panic!(
            "{} lines differ, first line {}: {:?}, not {:?}",
            differing.len(),
            first + 1,
            show(&ours),
            show(&theirs)
        );
    }
}
