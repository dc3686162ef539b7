//! Group 7: the samples, their texts, and the nightly program's report (paper 01, "The nightly
//! program").

use crate::askings::{ask_all, ask_next, ask_verdict};
use crate::book::Book;
use crate::chance::Chance;
use crate::questions::{Asked, AREA};
use crate::recording::{acq, file, judge, r, rel, told, w, Event, OLD_LIMITS};
use crate::text::{read_text, text_of};
use crate::worked::Q;
use crate::writer::{write as write_file, Handed};

/// The samples' names and files.
pub fn all() -> Vec<(&'static str, Vec<u8>)> {
    vec![
        ("q", file(&[], &told(Q))),
        ("night", file(b"night 12, stand-in run", &night())),
        ("relay", file(b"relay stand, two arms", &relay())),
    ]
}

pub fn write(book: &mut Book) {
    book.group("group 7: the samples");
    let mut chance = Chance::new(7);
    for (name, bytes) in all() {
        book.title(&format!("samples/{name}.rec"));
        book.recording(&bytes);
        ask_all(book);
        book.ask22(OLD_LIMITS.long_list());
        for _ in 0..10 {
            ask_verdict(book, &mut chance);
            ask_next(book, &mut chance);
        }
        let study = book.study().expect("a good recording");
        let shown: Vec<_> = study
            .pairs
            .iter()
            .filter_map(|p| p.shown.clone().map(|list| (p.a, p.b, list)))
            .collect();
        for (a, b, list) in shown {
            book.ask5(a, b, &list);
            book.ask5(a, b, &list[..list.len() - list.len().min(1)]);
            let mut turned = list.clone();
            turned.rotate_left(list.len().min(1));
            book.ask5(a, b, &turned);
        }
        book.ask6(b"operator");
    }
}

/// The recording whose report is longer than 65,536 bytes.
pub fn long_report() -> Vec<u8> {
    file(&[], &[vec![r(0, 0); 210], vec![w(1, 0)]].concat())
}

/// What the nightly program writes for a file.
pub fn report(bytes: &[u8]) -> String {
    let asked = Asked::new(bytes.to_vec());
    let study = match &asked.judged {
        Err(refusal) => return format!("{}\n", refusal.words()),
        Ok(study) => study,
    };
    let mut text = format!(
        "events {} threads {}\n",
        study.events().len(),
        study.threads
    );
    let mut area = vec![0; AREA];
    let mut last = (0, 0);
    let mut races = 0;
    while let Ok(Some((a, b))) = asked.next_race(last, &mut area) {
        let list = study
            .pair(a, b)
            .and_then(|p| p.shown.as_ref())
            .expect("a race");
        let numbers: String = list.iter().map(|e| format!(" {e}")).collect();
        text += &format!("race {a} {b} witness{numbers}\n");
        last = (a, b);
        races += 1;
    }
    text + &format!("races {races}\n")
}

/// A sample's text, which must name the same recording.
pub fn text(bytes: &[u8]) -> String {
    let recording = judge(bytes).expect("a good sample");
    let text = text_of(&recording);
    assert_eq!(read_text(&text), recording);
    text
}

/// A text with every kind of event, a preamble of three lines, the second of them empty, and
/// comments before, between and behind them.
pub const COMPOSED: &str = "\
# stand 4
note stand 4, night 13 ~ both arms
note \n\
#note not this one
note begun late!
0 write 7
0 acquire 255
0 read 42
#
0 release 255
15 acquire 255
15 read 42
# 0 write 0
15 release 255
3 write 128
15 write 7
0 read 128
3 read 0
15 fork 12
12 write 42
#0 fork 1
3 join 12
0 fork 1
# any byte may follow: \t\r\x7F\u{FF}
";

/// The file that the text above names.
pub fn composed() -> Vec<u8> {
    let recording = read_text(COMPOSED);
    let handed = Handed::of(&recording);
    let mut bytes = vec![0; handed.file_length()];
    assert_eq!(write_file(&handed, &mut bytes), Ok(bytes.len()));
    bytes
}

/// The text of that file: the same without its comments.
pub fn shown() -> String {
    let plain = COMPOSED.lines().filter(|line| !line.starts_with('#'));
    let plain: String = plain.map(|line| format!("{line}\n")).collect();
    assert_eq!(text_of(&read_text(&plain)), plain);
    assert_eq!(text_of(&read_text(COMPOSED)), plain);
    plain
}

/// Question 3 of the first race of the sample `night`, as the program `ask` reads it, and its line.
pub fn asked() -> (Vec<u8>, String) {
    let bytes = file(b"night 12, stand-in run", &night());
    let report = report(&bytes);
    let line = report.lines().nth(1).expect("a race");
    let words: Vec<&str> = line.split(' ').collect();
    let mut asked = format!("3 {} {}\n", words[1], words[2]).into_bytes();
    asked.extend(bytes);
    (asked, format!("{line}\n"))
}

const KEEPER: u8 = 0;
const WORKER: u8 = 1;
const CLOCK: u8 = 2;
const MARK_A: u16 = 0;
const MARK_B: u16 = 1;
const HOUR: u16 = 2;
const DRIVE_A: u16 = 3;
const DRIVE_B: u16 = 4;
const DONE: u16 = 5;
const SCHEDULE: u16 = 0;
const DRIVES: u16 = 1;
const TIME: u16 = 2;

fn section(thread: u8, lock: u16, inner: &[Event]) -> Vec<Event> {
    [&[acq(thread, lock)], inner, &[rel(thread, lock)]].concat()
}

/// A keeper marks drives as due in a schedule, a worker rewrites the drives, a clock sets the
/// hour. Most accesses are locked; three are careless: the worker's count of drives done, a look
/// at the hour, and a mark set back without the schedule's lock.
fn night() -> Vec<Event> {
    [
        section(CLOCK, TIME, &[w(CLOCK, HOUR)]),
        section(KEEPER, SCHEDULE, &[r(KEEPER, MARK_A), w(KEEPER, MARK_A)]),
        section(WORKER, SCHEDULE, &[r(WORKER, MARK_A)]),
        section(WORKER, DRIVES, &[r(WORKER, DRIVE_A), w(WORKER, DRIVE_A)]),
        vec![w(WORKER, DONE)],
        section(KEEPER, TIME, &[r(KEEPER, HOUR)]),
        vec![r(KEEPER, DONE)],
        section(CLOCK, TIME, &[w(CLOCK, HOUR)]),
        section(KEEPER, SCHEDULE, &[w(KEEPER, MARK_B)]),
        vec![w(KEEPER, MARK_A)],
        section(WORKER, SCHEDULE, &[r(WORKER, MARK_B), r(WORKER, MARK_A)]),
        section(WORKER, DRIVES, &[w(WORKER, DRIVE_B)]),
        vec![r(WORKER, HOUR)],
    ]
    .concat()
}

/// Two arms take turns: the first reads the count that the second left, they meet, and the second
/// counts. Most meetings are well locked.
fn relay() -> Vec<Event> {
    let mut events = Vec::new();
    for turn in 0..11 {
        events.extend(section(0, 0, &[r(0, 0)]));
        events.extend(meeting(turn));
        events.extend(section(1, 0, &[r(1, 0), w(1, 0)]));
    }
    events
}

/// What happens between reading the count and counting.
fn meeting(turn: usize) -> Vec<Event> {
    let cell = 10 + turn as u16;
    match turn {
        2 | 5 | 8 => [
            vec![w(0, cell)],
            section(0, 2, &[w(0, 2)]),
            section(1, 2, &[r(1, cell), r(1, 2)]),
        ]
        .concat(),
        10 => [
            vec![w(0, cell)],
            section(0, 3, &[r(0, 3)]),
            section(1, 3, &[r(1, 3)]),
            vec![r(1, cell)],
        ]
        .concat(),
        9 => [
            section(0, 4, &[w(0, cell)]),
            section(1, 4, &[w(1, cell)]),
            vec![r(1, cell)],
        ]
        .concat(),
        _ => [section(0, 1, &[w(0, cell)]), section(1, 1, &[r(1, cell)])].concat(),
    }
}
