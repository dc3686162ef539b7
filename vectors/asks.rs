//! Asks the static library every stored vector, and writes the answers: asks < asked > answered. Each line read has one line as its answer: a title
//! (it begins with '=') itself; a recording (words of hex digits) what all questions say to it; a line that begins with '?', a question's number
//! and what goes with it, that question's answer for the last recording; a line that begins with '!' what the writer says to it.

#[path = "../bindings/tarungkis.rs"]
mod tarungkis;

use std::fmt::Write as _;
use std::io::{Read, Write as _};
use tarungkis::{Check, Observed, Refusal, AREA_BYTES, MAX_EVENTS};

/// What each entry of a lent list, and each byte of a work area or a buffer, hold beforehand.
const ENTRY: u16 = 9999;
const BYTE: u8 = 170;
/// The most that is lent: entries of a list, bytes of a work area, bytes of the writer's buffer.
const ENTRIES: usize = MAX_EVENTS + 100;
const AREA: usize = AREA_BYTES + 8;
const BUFFER: usize = 20_000;
/// No race more is shown once those of a recording have more bytes than this.
const RACES: usize = 16_000;
/// The operator's note.
const OPERATOR: &[u8] = b"o";

// ---- what is read

fn digit(c: u8) -> u8 {
    char::from(c).to_digit(16).map_or(0, |d| d as u8)
}

/// The last number of a text; of a long one the first five digits.
fn decimal(text: &[u8]) -> usize {
    text.iter().fold(0, |n, &c| match c {
        b' ' => 0,
        _ if n >= 10000 => n,
        _ => n * 10 + usize::from(digit(c)),
    })
}

fn numbers(line: &[u8]) -> Vec<u16> {
    let words = line.split(|&c| c == b' ');
    words.map(|word| decimal(word).min(65535) as u16).collect()
}

/// Bytes from words of hex digits, two to a byte; a word that begins with a number and '*' stands that many times.
fn bytes(line: &[u8]) -> Vec<u8> {
    let hex = |word: &[u8]| -> Vec<u8> {
        let pairs = word.chunks_exact(2);
        pairs.map(|p| digit(p[0]) * 16 + digit(p[1])).collect()
    };
    let words = line.split(|&c| c == b' ');
    let each = words.map(|word| match word.iter().position(|&c| c == b'*') {
        Some(star) => hex(&word[star + 1..]).repeat(decimal(&word[..star])),
        None => hex(word),
    });
    each.collect::<Vec<_>>().concat()
}

// ---- what is written

fn refused(r: Refusal) -> String {
    match r.event {
        0 => format!("refused {}", r.number),
        k => format!("refused {} at {k}", r.number),
    }
}

fn observed(o: Result<Observed, Refusal>) -> String {
    match o {
        Err(r) => refused(r),
        Ok(Observed::Write(w)) => w.to_string(),
        Ok(Observed::Start) => "start".into(),
        Ok(Observed::NotARead) => "-".into(),
    }
}

fn listed(list: &[u16]) -> String {
    list.iter().map(|k| format!(" {k}")).collect()
}

fn hex(bytes: &[u8]) -> String {
    bytes.iter().map(|b| format!("{b:02X}")).collect()
}

fn finding(f: Result<Option<&[u16]>, Refusal>) -> String {
    match f {
        Err(r) => refused(r),
        Ok(None) => "not reported".into(),
        Ok(Some(witness)) => format!("reported {}:{}", witness.len(), listed(witness)),
    }
}

fn next(n: Result<Option<(u16, u16)>, Refusal>) -> String {
    match n {
        Err(r) => refused(r),
        Ok(None) => "none".into(),
        Ok(Some((a, b))) => format!("{a} {b}"),
    }
}

fn check(file: &[u8], a: u16, b: u16, list: &[u16]) -> String {
    match tarungkis::check_reordering(file, a, b, list) {
        Err(r) => refused(r),
        Ok(Check::Yes) => "yes".into(),
        Ok(Check::No(fault)) => format!("no {fault}"),
    }
}

/// The note's length, and at most 20 bytes of it.
fn note(file: &[u8], operator: &[u8]) -> String {
    let note = tarungkis::note(file, operator);
    match note.len() {
        0 => "note 0".into(),
        n => format!("note {n} {}", hex(&note[..n.min(20)])),
    }
}

/// How many entries, or bytes, are as they were lent.
fn left<T: PartialEq>(lent: &[T], before: T, what: &str) -> String {
    let same = lent.iter().filter(|x| **x == before).count();
    format!("; {same} of {} {what} as lent", lent.len())
}

/// How many of the bytes that a question may use are zero, and how many of those behind them are as they were lent.
fn area_after(area: &[u8]) -> String {
    let (used, rest) = area.split_at(area.len().min(AREA_BYTES));
    let zero = used.iter().filter(|&&b| b == 0).count();
    let same = rest.iter().filter(|&&b| b == BYTE).count();
    let (all, behind) = (used.len(), rest.len());
    format!("{zero} of {all} bytes zero, {same} of {behind} behind as lent")
}

// ---- a question, with what is lent

fn ask_verdict(file: &[u8], a: u16, b: u16, entries: usize, bytes: usize) -> String {
    let mut list = vec![ENTRY; entries.min(ENTRIES)];
    let mut area = vec![BYTE; bytes.min(AREA)];
    let said = finding(tarungkis::verdict(file, a, b, &mut list, &mut area));
    said + &left(&list, ENTRY, "entries") + ", " + &area_after(&area)
}

fn ask_next(file: &[u8], a: u16, b: u16, bytes: usize) -> String {
    let mut area = vec![BYTE; bytes.min(AREA)];
    let said = next(tarungkis::next_race(file, a, b, &mut area));
    said + "; " + &area_after(&area)
}

fn answer_of(entry: u16) -> Observed {
    match entry {
        65535 => Observed::NotARead,
        0 => Observed::Start,
        w => Observed::Write(w),
    }
}

fn ask_all(file: &[u8], entries: usize) -> String {
    let mut list = vec![ENTRY; entries.min(ENTRIES)];
    match tarungkis::observed_writes(file, &mut list).map(<[u16]>::len) {
        Err(r) => refused(r) + &left(&list, ENTRY, "entries"),
        Ok(used) => {
            let each = list[..used].iter().map(|&e| observed(Ok(answer_of(e))));
            let each: String = each.map(|o| format!(" {o}")).collect();
            format!("given {}:{each}", used - 1) + &left(&list[used..], ENTRY, "entries")
        }
    }
}

/// The same, and the whole list as numbers.
fn ask_entries(file: &[u8], entries: usize) -> String {
    let mut list = vec![ENTRY; entries.min(ENTRIES)];
    let _ = tarungkis::observed_writes(file, &mut list);
    format!("list{}", listed(&list))
}

/// The question that a line asks, by its number; 22 is question 2 for all events at once, 21 the same with the list as numbers.
fn ask(line: &[u8], file: &[u8]) -> String {
    let numbers = numbers(&line[1..]);
    let at = |i: usize| numbers.get(i).copied().unwrap_or(0);
    let (a, b) = (at(1), at(2));
    match at(0) {
        2 => observed(tarungkis::observed_write(file, a)),
        3 => ask_verdict(file, a, b, at(3).into(), decimal(line)),
        4 => ask_next(file, a, b, decimal(line)),
        5 => check(file, a, b, numbers.get(3..).unwrap_or(&[])),
        6 => note(file, &bytes(&line[2..])),
        21 => ask_entries(file, a.into()),
        22 => ask_all(file, a.into()),
        q => panic!("no question {q}"),
    }
}

/// The writer, as a line says: "! B T K O / PREAMBLE / EVENTS", with a buffer of B bytes and so many entries of each list.
fn ask_writer(line: &[u8]) -> String {
    let parts: Vec<&[u8]> = line.split(|&c| c == b'/').collect();
    let numbers = numbers(parts[0]);
    let first = |i: usize, all: usize| usize::from(numbers[i]).min(all);
    let (preamble, events) = (bytes(parts[1]), bytes(parts[2]));
    let all = 2000;
    let byte = |i: usize| events.get(i).copied().unwrap_or(0);
    let threads: Vec<u8> = (0..all).map(|i| byte(4 * i)).collect();
    let kinds: Vec<u8> = (0..all).map(|i| byte(4 * i + 1)).collect();
    let objects = (0..all).map(|i| u16::from_le_bytes([byte(4 * i + 2), byte(4 * i + 3)]));
    let objects: Vec<u16> = objects.collect();
    let mut buffer = vec![BYTE; first(1, BUFFER)];
    let written = tarungkis::write_file(
        &preamble,
        &threads[..first(2, all)],
        &kinds[..first(3, all)],
        &objects[..first(4, all)],
        &mut buffer,
    );
    match written.map(<[u8]>::len) {
        Err(r) => refused(r) + &left(&buffer, BYTE, "bytes"),
        Ok(n) => format!("wrote {n}: {}", hex(&buffer[..n])) + &left(&buffer[n..], BYTE, "bytes"),
    }
}

// ---- a recording: what all questions say to it

/// The witness by question 3, with a work area of just the bytes that it needs.
fn verdict<'a>(
    file: &[u8],
    a: u16,
    b: u16,
    list: &'a mut [u16],
) -> Result<Option<&'a [u16]>, Refusal> {
    tarungkis::verdict(file, a, b, list, &mut vec![BYTE; AREA_BYTES])
}

fn after(file: &[u8], a: u16, b: u16) -> Result<Option<(u16, u16)>, Refusal> {
    tarungkis::next_race(file, a, b, &mut vec![BYTE; AREA_BYTES])
}

fn refused_file(file: &[u8], r: Refusal) -> String {
    let mut list = [ENTRY; MAX_EVENTS];
    [
        refused(r),
        observed(tarungkis::observed_write(file, 1)),
        finding(verdict(file, 1, 2, &mut list)),
        next(after(file, 0, 0)),
        check(file, 1, 2, &[]),
        note(file, OPERATOR),
    ]
    .join(" | ")
}

/// All races by question 4, each with its witness by question 3 and what question 5 says to that; behind so many bytes they are only counted.
fn races(file: &[u8]) -> String {
    let (mut pair, mut all, mut count) = ((0, 0), String::new(), 0);
    while let Ok(Some((a, b))) = after(file, pair.0, pair.1) {
        pair = (a, b);
        count += 1;
        if all.len() > RACES {
            continue;
        }
        let mut list = [ENTRY; MAX_EVENTS];
        let shown = match verdict(file, a, b, &mut list) {
            Err(r) => refused(r),
            Ok(None) => "-".into(),
            Ok(Some(witness)) => format!("{} {}", listed(witness), check(file, a, b, witness)),
        };
        let between = if count == 1 { "" } else { "; " };
        write!(all, "{between}{a} {b}:{shown}").expect("a string");
    }
    if count == 0 {
        all = "none".into();
    }
    format!("{all} | races {count}")
}

/// The verdicts on all pairs of numbers from 1 to n, lower first, in one character each.
fn grid(file: &[u8], n: u16) -> String {
    let pairs = (1..n).flat_map(|a| (a + 1..=n).map(move |b| (a, b)));
    let marks = pairs.map(|(a, b)| match verdict(file, a, b, &mut [ENTRY; MAX_EVENTS]) {
        Err(Refusal { number: 11, .. }) => ".".into(),
        Err(r) => refused(r),
        Ok(None) => "-".into(),
        Ok(Some(_)) => "+".into(),
    });
    marks.collect()
}

/// Of a good recording: the observed writes, the note, the races and, where it is short, the verdict on each pair.
fn recording(file: &[u8]) -> String {
    let (n, threads) = match tarungkis::judge(file) {
        Err(r) => return refused_file(file, r),
        Ok(good) => good,
    };
    let each = (0..=n + 1).map(|k| observed(tarungkis::observed_write(file, k)));
    let seen = each.collect::<Vec<_>>().join(" ");
    let (note, races) = (note(file, OPERATOR), races(file));
    let mut said = format!("events {n} threads {threads} | {seen} | {note} | {races}");
    if (2..=16).contains(&n) {
        write!(said, " | {}", grid(file, n)).expect("a string");
    }
    said
}

fn main() {
    let mut text = Vec::new();
    std::io::stdin().read_to_end(&mut text).expect("the vectors are read");
    let mut file = Vec::new();
    let mut out = Vec::new();
    for line in text.strip_suffix(b"\n").unwrap_or(&text).split(|&c| c == b'\n') {
        let said = match line.first() {
            Some(b'=') => String::from_utf8_lossy(line).into_owned(),
            Some(b'?') => ask(line, &file),
            Some(b'!') => ask_writer(line),
            _ => {
                file = bytes(line);
                recording(&file)
            }
        };
        out.extend(said.bytes().chain([b'\n']));
    }
    std::io::stdout().write_all(&out).expect("the answers are written");
}
