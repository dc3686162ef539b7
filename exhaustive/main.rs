//! An independent exhaustive program: it answers the six questions of paper 01 and the writer's of
//! request One by the published definitions alone, with the re-entrant locks of request Three, the
//! forks and joins of request Five and the limits of request Six, by listing and comparing, and
//! writes down what it found as vectors. Three things are choices of this project: what lists of
//! different lengths get, the list lent for all of question 2's answers at once, and the form of a
//! text.

mod askings;
mod book;
mod chance;
mod damaged;
mod depths;
mod enumerate;
mod families;
mod figures;
mod forks;
mod holds;
mod limits;
mod preambles;
mod questions;
mod random;
mod recording;
mod reentry;
mod rules;
mod samples;
mod short;
mod stability;
mod study;
mod text;
mod threads;
mod unforked;
mod worked;
mod writer;
mod writings;

use book::Book;
use chance::Chance;
use std::path::Path;

fn vectors() -> Book {
    let mut book = Book::new();
    worked::write(&mut book);
    figures::write(&mut book);
    short::write(&mut book);
    random::write(&mut book);
    reentry::write(&mut book);
    damaged::write(&mut book);
    limits::write(&mut book);
    samples::write(&mut book);
    writings::write(&mut book);
    worked::choices(&mut book);
    forks::write(&mut book);
    figures::document_002(&mut book);
    unforked::write(&mut book);
    families::write(&mut book);
    writings::forks_and_joins(&mut book);
    book
}

fn put(dir: &Path, name: &str, bytes: &[u8]) {
    let path = dir.join(name);
    let folder = path.parent().expect("a folder");
    std::fs::create_dir_all(folder).expect("the folder is made");
    std::fs::write(&path, bytes).expect("the file is written");
}

fn write(dir: &Path) {
    let book = vectors();
    put(dir, "vectors/asked", book.stdin.as_bytes());
    put(dir, "vectors/answered", book.stdout.as_bytes());
    for (name, bytes) in samples::all() {
        put(dir, &format!("samples/{name}.rec"), &bytes);
        let report = samples::report(&bytes);
        put(dir, &format!("samples/{name}.out"), report.as_bytes());
        let text = samples::text(&bytes);
        put(dir, &format!("samples/{name}.txt"), text.as_bytes());
    }
    let composed = samples::composed();
    put(dir, "crates/compose/stdin", samples::COMPOSED.as_bytes());
    put(dir, "crates/compose/stdout", &composed);
    put(dir, "crates/show/stdin", &composed);
    put(dir, "crates/show/stdout", samples::shown().as_bytes());
    let (asked, answer) = samples::asked();
    put(dir, "crates/ask/stdin", &asked);
    put(dir, "crates/ask/stdout", answer.as_bytes());
    let long = samples::long_report();
    let report = samples::report(&long);
    assert!(
        (65_537..140_000).contains(&report.len()),
        "{}",
        report.len()
    );
    put(dir, "crates/nightly/stdin", &long);
    put(dir, "crates/nightly/stdout", report.as_bytes());
    for (what, count) in &book.counts {
        println!("{count:8} {what}");
    }
    println!(
        "{:8} bytes asked and answered",
        book.stdin.len() + book.stdout.len()
    );
}

/// The pairs' confirmations are made while the vectors are; then those of the lengthenings.
fn confirm() {
    let book = vectors();
    for (what, count) in book
        .counts
        .iter()
        .filter(|(what, _)| what.starts_with("confirmed"))
    {
        println!("{count:8} {what}");
    }
    families::confirm();
    stability::confirm_short();
    stability::confirm_forks();
    let of_book = worked::ALL.iter().chain(&forks::ALL);
    let of_book: Vec<_> = of_book.map(|text| recording::told(text)).collect();
    stability::confirm_random(&[&book.random[..], &of_book].concat());
    stability::confirm_longest(&of_book);
}

/// Further random recordings for whoever wants more than what is stored, a third of them with
/// re-entry, a third with forks and joins.
fn more(seed: &str, count: &str, dir: &str, longer: bool) {
    let seed: u64 = seed.parse().expect("SEED is a number");
    let mut chance = Chance::new(seed);
    let mut of_all = Chance::new(seed.wrapping_add(22));
    let count: usize = count.parse().expect("COUNT is a number");
    let mut book = Book::new();
    book.group("more random recordings");
    for turn in 0..count {
        match (turn % 3, longer) {
            (0, false) => random::put_one(&mut book, &mut chance),
            (0, true) => random::put_longer(&mut book, &mut chance, turn),
            (1, false) => families::put_one(&mut book, &mut chance),
            (1, true) => families::put_longer(&mut book, &mut chance, turn / 3),
            (_, false) => reentry::put_one(&mut book, &mut chance),
            (_, true) => reentry::put_longer(&mut book, &mut chance, turn),
        }
        askings::ask_all_now_and_then(&mut book, &mut of_all);
    }
    put(Path::new(dir), "asked", book.stdin.as_bytes());
    put(Path::new(dir), "answered", book.stdout.as_bytes());
}

fn main() {
    let words: Vec<String> = std::env::args().skip(1).collect();
    let words: Vec<&str> = words.iter().map(String::as_str).collect();
    match words[..] {
        ["write", dir] => write(Path::new(dir)),
        ["confirm"] => confirm(),
        ["more", seed, count, dir] => more(seed, count, dir, false),
        ["longer", seed, count, dir] => more(seed, count, dir, true),
        _ => {
            eprintln!("usage: exhaustive write DIR | confirm");
            eprintln!("       exhaustive more SEED COUNT DIR | longer SEED COUNT DIR");
            std::process::exit(2);
        }
    }
}
