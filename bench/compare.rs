//! A program's reports beside those of straightforward Rust, on long seeded recordings that no enumeration reaches.
//! Nothing is timed. Use: compare PROGRAM.

mod plain;
mod recordings;

use recordings::{Family, Slow};
use std::io::Write;
use std::process::{Command, Stdio};

/// What the program writes for a recording on its standard input.
fn report_by(program: &str, file: &[u8]) -> Vec<u8> {
    let mut child = Command::new(program)
        .stdin(Stdio::piped())
        .stdout(Stdio::piped())
        .spawn()
        .expect("the program runs");
    let mut input = child.stdin.take().expect("its standard input");
    input.write_all(file).expect("the recording is handed in");
    drop(input);
    child.wait_with_output().expect("its report").stdout
}

/// Both reports of a recording are the same.
fn compare(program: &str, file: &[u8], name: &str) {
    let mut text = Vec::new();
    plain::report(file, &mut text);
    assert!(report_by(program, file) == text, "another report: {name}");
}

fn main() {
    let program = std::env::args().nth(1).expect("use: compare PROGRAM");
    for family in [Family::all(), Family::deep(), Family::forks()].concat() {
        // with few cells there are so many pairs that plain Rust is slow
        let long = if family.cells > 4 { 1000 } else { 512 };
        for n in [128, long] {
            let name = format!("{n} events, {}", family.name());
            compare(&program, &family.recording(n, 1), &name);
        }
    }
    for slow in Slow::ALL {
        compare(&program, &slow.recording(128), slow.name());
    }
}
