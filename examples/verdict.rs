//! Asks everything of a recording through the static library: verdict FILE. It writes the report made of questions 1, 3, 4 and 5, which is the same
//! as the library's own, and says on standard error where the two differ or where a witness is not confirmed.
//! Exit status: 0 no race, 1 races, 2 refused or trouble.

#[path = "../bindings/tarungkis.rs"]
mod tarungkis;

use std::io::Write;
use std::process::ExitCode;
use tarungkis::{Check, Place, Refusal};

/// The line of a race. Its witness by question 3 must be one that question 5 says yes to.
fn race(file: &[u8], a: u16, b: u16, area: &mut [u8]) -> Result<String, Refusal> {
    let mut list = [0; tarungkis::MAX_EVENTS];
    let witness = tarungkis::verdict(file, a, b, &mut list, area)?.expect("a race has a witness");
    assert_eq!(
        tarungkis::check_reordering(file, a, b, witness)?,
        Check::Yes
    );
    let numbers: String = witness.iter().map(|k| format!(" {k}")).collect();
    Ok(format!("race {a} {b} witness{numbers}\n"))
}

/// The report, race by race, and how many races there are.
fn asked(file: &[u8]) -> Result<(String, usize), Refusal> {
    let mut area = vec![0; tarungkis::AREA_BYTES];
    let (events, threads) = tarungkis::judge(file)?;
    let mut text = format!("events {events} threads {threads}\n");
    let (mut pair, mut races) = ((0, 0), 0);
    while let Some((a, b)) = tarungkis::next_race(file, pair.0, pair.1, &mut area)? {
        text += &race(file, a, b, &mut area)?;
        pair = (a, b);
        races += 1;
    }
    Ok((text + &format!("races {races}\n"), races))
}

/// The line of a refusal.
fn refused(r: Refusal) -> String {
    match r.event {
        0 => format!("refused {}\n", r.number),
        k => format!("refused {} at {k}\n", r.number),
    }
}

/// The library's own report.
fn whole(file: &[u8]) -> Vec<u8> {
    let mut out = [0; tarungkis::LINE_BYTES];
    let mut place = Place::default();
    let mut text = Vec::new();
    loop {
        let lines = tarungkis::report(file, &mut place, &mut out);
        if lines.is_empty() {
            return text;
        }
        text.extend_from_slice(lines);
    }
}

fn main() -> ExitCode {
    let Some(Ok(file)) = std::env::args_os().nth(1).map(std::fs::read) else {
        eprintln!("verdict: use: verdict FILE, of a file that can be read");
        return ExitCode::from(2);
    };
    let (text, status) = match asked(&file) {
        Ok((text, 0)) => (text, 0),
        Ok((text, _)) => (text, 1),
        Err(r) => (refused(r), 2),
    };
    if whole(&file) != text.as_bytes() {
        eprintln!("verdict: the library's report is another");
        return ExitCode::from(2);
    }
    if std::io::stdout().write_all(text.as_bytes()).is_err() {
        eprintln!("verdict: cannot write the report");
        return ExitCode::from(2);
    }
    ExitCode::from(status)
}
