//! Group 8: askings of the writer (request One), with re-entry too (request Three), and in group 10
//! with forks and joins (request Five).

use crate::book::{Book, LONGEST_BUFFER};
use crate::chance::Chance;
use crate::damaged::{damages, damages_beyond, newer_damages, newer_pairs, pairs_of, pairs_with};
use crate::damaged::{Damage, Raw};
use crate::damaged::{DEEP_LOCKS, LOCKS, TO_DAMAGE};
use crate::holds::has_reentry;
use crate::preambles::{long, placed, spoiled_places, EDGES};
use crate::questions::AREA;
use crate::recording::{file, told, w, Limits, Recording, LIMITS, OLD_LIMITS};
use crate::unforked;
use crate::worked::{Q, V};
use crate::writer::Handed;

/// A long buffer: the longest that was lent before request Six.
const LONG: usize = 5000;

pub fn write(book: &mut Book) {
    book.group("group 8: the writer");
    the_empty_one(book);
    of_the_book(book);
    short_and_random(book);
    beside_a_recording(book);
    bytes_of_preambles(book);
    lengths(book);
    longest(book);
    fields(book);
    locks(book);
    two_at_once(book);
    judged_last(book);
    uneven(book);
    uneven_first(book);
    at_random(book);
    book.title("lists with objects up to 1,024, preambles and buffers at random");
    changed_at_random(book, 116, 60, higher_objects);
}

/// Asks with a buffer of exactly the file's length and reads back what was written.
fn write_and_read(book: &mut Book, handed: &Handed) {
    let written = book.ask_writer(handed, handed.file_length());
    book.recording(&written.expect("a good file"));
}

fn the_empty_one(book: &mut Book) {
    book.title("no preamble and no events: 8 bytes");
    let nothing = Handed::even(&[], &[]);
    for length in [0, 1, 7, 8, 9, 100, LONG] {
        book.ask_writer(&nothing, length);
    }
    write_and_read(book, &nothing);
}

/// The good recordings of some groups: those within the limits before request Six, then the others.
fn good_of(book: &Book, groups: &[&str]) -> [Vec<Recording>; 2] {
    let wanted = |group: &str| groups.iter().any(|g| group.starts_with(g));
    let good = book.good.iter().filter(|(group, _)| wanted(group));
    let good = good.map(|(_, recording)| recording.clone());
    let (newer, older) = good.partition(Recording::good_since_six);
    [older, newer]
}

fn of_the_book(book: &mut Book) {
    book.title("the worked examples, the figures and the samples, written again");
    let [mut older, _] = good_of(book, &["group 1", "group 2", "group 7"]);
    // those with re-entry came later and stand behind the others
    older.sort_by_key(|recording| has_reentry(&recording.events));
    for (turn, recording) in older.iter().enumerate() {
        let handed = Handed::of(recording);
        let length = handed.file_length();
        for buffer in [length, length - 1, length + 1 + turn] {
            book.ask_writer(&handed, buffer);
        }
    }
    book.title("the limits, written again");
    let [older, newer] = good_of(book, &["group 6"]);
    for recording in older {
        let handed = Handed::of(&recording);
        book.ask_writer(&handed, handed.file_length());
    }
    book.title("some of those that are good since request Six");
    let without_note = newer.iter().filter(|r| r.preamble.is_empty());
    for recording in without_note.step_by(40) {
        let handed = Handed::of(recording);
        let length = handed.file_length();
        book.ask_writer(&handed, length);
        book.ask_writer(&handed, length - 1);
    }
}

/// Some of the short and the random recordings, each with a readable preamble.
fn short_and_random(book: &mut Book) {
    book.title("short and random recordings with preambles of several kinds");
    with_preambles(book, 8, &["group 3:", "group 4:", "group 4, longer"]);
    book.title("short and random recordings with re-entry, likewise");
    with_preambles(book, 89, &["group 3, re-entry", "group 4, re-entry"]);
}

/// Group 10: the refusals of request Five, and good recordings with forks and joins.
pub fn forks_and_joins(book: &mut Book) {
    book.group("group 10, the writer: forks and joins handed to it");
    for case in unforked::handed_cases() {
        let whole = case.file_length();
        book.ask_writer(&case, whole);
        book.ask_writer(&case, whole - 1);
    }
    book.title("two damages at once, one of 15, 16, 17 or an unknown kind");
    for raw in newer_pairs(&damages_handed_in()) {
        book.ask_writer(&handed(&raw), LONG);
    }
    book.title("worked examples, document 002, short and random recordings with preambles");
    let [older, _] = good_of(book, &["group 10:", "group 10, document"]);
    for recording in older {
        let handed = Handed::of(&recording);
        book.ask_writer(&handed, handed.file_length());
    }
    let groups = ["group 10, short", "group 10, random", "group 10, longer"];
    with_preambles(book, 108, &groups);
    book.title("lists with forks and joins, preambles and buffers at random");
    changed_at_random(book, 109, 120, some_forks);
    write_and_read(book, &Handed::new(b"edges", &told("15f0 0f14 14j13 15j0")));
}

fn with_preambles(book: &mut Book, seed: u64, groups: &[&str]) {
    let mut chance = Chance::new(seed);
    let [good, _] = good_of(book, groups);
    for (turn, recording) in good.iter().step_by(83).enumerate() {
        let preamble = readable_preamble(&mut chance, turn);
        let handed = Handed::new(&preamble, &recording.events);
        let length = handed.file_length();
        let other = [0, length / 2, length - 1, length + 1, length + 40, LONG];
        book.ask_writer(&handed, chance.one_of(&other));
        if turn % 6 == 0 {
            write_and_read(book, &handed);
        } else {
            book.ask_writer(&handed, length);
        }
    }
}

fn readable_preamble(chance: &mut Chance, turn: usize) -> Vec<u8> {
    match turn % 8 {
        0 => Vec::new(),
        1 => b"night 7, stand 4".to_vec(),
        2 => b"\n".to_vec(),
        3 => b"two lines,\nthe last one ended\n".to_vec(),
        4 => b"\n\n ~ ~\n\n".to_vec(),
        5 => b"(   PL".to_vec(),
        _ => {
            let length = chance.from_to(1, 90);
            let any = |chance: &mut Chance| match chance.below(20) {
                0 => 0x0A,
                _ => chance.from_to(0x20, 0x7E) as u8,
            };
            (0..length).map(|_| any(chance)).collect()
        }
    }
}

/// What is written has nothing to do with the recording asked about, which stays the same one.
fn beside_a_recording(book: &mut Book) {
    book.title("the questions are asked of the last recording, not of what was written");
    book.recording(&file(b"Q", &told(Q)));
    book.ask_writer(&Handed::new(b"V", &told(V)), 100);
    book.ask3(1, 8, 8, AREA);
    book.ask_writer(&Handed::new(b"V\t", &told(V)), 100);
    book.ask6(b"operator");
    book.ask_writer(&Handed::new(b"", &told("0-0")), 100);
    book.ask4(0, 0, AREA);
    book.ask2(8);
    book.ask22(9);
    book.recording(&file(b"\t", &told(Q)));
    book.ask_writer(&Handed::new(b"V", &told(V)), 100);
    book.ask22(9);
    book.ask6(b"operator");
    book.ask5(1, 2, &[]);
}

fn bytes_of_preambles(book: &mut Book) {
    book.title("refusal 13: a byte alone, first, in the middle and last in the preamble");
    for byte in EDGES {
        for preamble in placed(byte) {
            for events in [vec![], told(V)] {
                book.ask_writer(&Handed::new(&preamble, &events), 100);
            }
        }
    }
    write_and_read(book, &Handed::new(b"\n ~", &told(V)));
}

/// Numbers of events with preambles, around files of 4,096 bytes and around 512 events, which were
/// the limits before request Six.
const LENGTHS: [(usize, usize); 24] = [
    (0, 4087),
    (0, 4088),
    (0, 4089),
    (0, 8000),
    (1, 4084),
    (1, 4085),
    (511, 2044),
    (511, 2045),
    (512, 0),
    (512, 2040),
    (512, 2041),
    (513, 0),
    (513, 1),
    (513, 2036),
    (513, 2037),
    (1021, 0),
    (1021, 4),
    (1021, 5),
    (1022, 0),
    (1022, 1),
    (1023, 0),
    (1023, 1),
    (2000, 0),
    (2000, 8000),
];

fn lengths(book: &mut Book) {
    book.title("refusals 1 and 3: so many events and so long a preamble; 13 and 5 beside them");
    for (n, length) in LENGTHS {
        let handed = Handed::new(&long(length, None), &vec![w(3, 200); n]);
        let whole = handed.file_length();
        for buffer in [0, whole - 1, whole, LONG].iter().filter(|b| **b <= LONG) {
            book.ask_writer(&handed, *buffer);
        }
        for bad in with_a_fault(&handed) {
            book.ask_writer(&bad, LONG);
        }
    }
    write_and_read(book, &Handed::new(&long(2040, None), &vec![w(3, 200); 512]));
    write_and_read(book, &Handed::new(&long(4088, None), &[]));
}

/// Files as long as may be and one byte longer, of up to a thousand events and of more.
fn longest(book: &mut Book) {
    book.title("refusals 1 and 3: around files of 16,384 bytes and 1,000 events");
    let n = LIMITS.events;
    let events = |n| vec![w(3, 1000); n];
    for n in [0, 1, n - 1, n, n + 1, 2000] {
        let most = LIMITS.preamble(n);
        for length in [most - 1, most, most + 1] {
            let handed = Handed::new(&long(length, None), &events(n));
            let whole = handed.file_length();
            for buffer in [0, OLD_LIMITS.bytes, whole - 1] {
                book.ask_writer(&handed, buffer);
            }
            for bad in with_a_fault(&handed) {
                book.ask_writer(&bad, LONGEST_BUFFER);
            }
        }
    }
    for (n, length) in [(n, 0), (n + 1, 0), (n + 1, 1), (0, LONGEST_BUFFER)] {
        let handed = Handed::new(&long(length, None), &events(n));
        book.ask_writer(&handed, LONGEST_BUFFER);
    }
    for n in [0, n] {
        write_and_read(
            book,
            &Handed::new(&long(LIMITS.preamble(n), None), &events(n)),
        );
    }
}

/// The same with an unreadable byte at each of three places, and with an unknown kind.
fn with_a_fault(handed: &Handed) -> Vec<Handed> {
    let length = handed.preamble.len();
    let mut all = Vec::new();
    if length > 1 {
        for (place, byte) in spoiled_places(length) {
            let mut bad = handed.clone();
            bad.preamble[place] = byte;
            all.push(bad);
        }
    }
    if let Some(middle) = handed.events.len().checked_sub(1).map(|last| last / 2) {
        let mut bad = handed.clone();
        bad.events[middle][1] = 9;
        all.push(bad);
    }
    all
}

/// The event with its thread, kind or object at an edge.
fn at_edges(event: [u8; 4]) -> Vec<[u8; 4]> {
    let [thread, kind, low, high] = event;
    let threads = [0, 15, 16, 17, 255].map(|t| [t, kind, low, high]);
    let kinds = [0, 1, 2, 3, 4, 5, 6, 7, 255].map(|k| [thread, k, low, high]);
    let most = LIMITS.object;
    let objects = [0, 255, 256, 257, 511, most, most + 1, 32768, 65280, 65535];
    let objects = objects.map(|o: u16| [thread, kind, o as u8, (o >> 8) as u8]);
    [&threads[..], &kinds, &objects].concat()
}

fn fields(book: &mut Book) {
    book.title("refusals 5, 6, 7: kind, thread and object of the first, middle and last event");
    for (text, places) in [("0w0", vec![0]), (Q, vec![0, 3, 7])] {
        for place in places {
            let mut handed = Handed::new(b"n", &told(text));
            for event in at_edges(handed.events[place]) {
                handed.events[place] = event;
                book.ask_writer(&handed, handed.file_length());
            }
        }
    }
    write_and_read(book, &Handed::new(b"edges", &told("15w255 15+255 0r0 0+0")));
    write_and_read(
        book,
        &Handed::new(
            b"edges",
            &unforked::events_of("15wMOST 15+MOST 15-MOST 0rMOST"),
        ),
    );
}

fn locks(book: &mut Book) {
    book.title("refusals 8 and 9: held locks, releases of what is not held");
    let padding = told("3w7 4r7 5+77");
    for case in LOCKS.iter().chain(&DEEP_LOCKS).map(|case| told(case)) {
        book.ask_writer(&Handed::new(b"", &case), 200);
        let later = [&padding[..], &case, &case].concat();
        book.ask_writer(&Handed::new(b"locks", &later), 200);
    }
    let crossed = told("0+0 1+1 0+2 0-0 1+0 0-2");
    write_and_read(book, &Handed::new(b"locks", &crossed));
}

/// The damages that what is handed in can have: those of the trailer are none of them. Three are no
/// damages since request Six.
fn damages_handed_in() -> Vec<Damage> {
    let mut damages = damages();
    damages.retain(|(number, _)| ![2, 3, 4].contains(number));
    damages.push((3, |raw, _| more_events(raw, &OLD_LIMITS)));
    damages
}

/// Those beyond a limit since request Six.
fn beyond_handed_in() -> Vec<Damage> {
    let mut damages = damages_beyond();
    damages.retain(|(number, _)| *number != 3);
    damages.push((3, |raw, _| more_events(raw, &LIMITS)));
    damages
}

/// One event more than these limits allow.
fn more_events(raw: &mut Raw, limits: &Limits) {
    raw.events.resize(limits.events + 1, [0, 2, 0, 0]);
}

fn handed(raw: &Raw) -> Handed {
    Handed::even(&raw.preamble, &raw.events)
}

fn two_at_once(book: &mut Book) {
    book.title("two damages at once: 1, 3, 13, then event by event 5, 6, 7, then 8 or 9");
    let damages = damages_handed_in();
    for raw in pairs_of(&damages, &damages) {
        book.ask_writer(&handed(&raw), LONG);
    }
    book.title("two damages at once, one of them beyond a limit of request Six: 1, 3 or 7");
    let older = [damages, newer_damages()].concat();
    for raw in pairs_with(&beyond_handed_in(), &older) {
        book.ask_writer(&handed(&raw), LONGEST_BUFFER);
    }
}

/// Each damage alone, done to the fourth event.
fn one_at_a_time() -> Vec<Handed> {
    let damages = [damages_handed_in(), newer_damages(), beyond_handed_in()].concat();
    let damaged = damages.iter().map(|(_, damage)| {
        let mut raw = Raw::new(b"night 12", &told(TO_DAMAGE));
        damage(&mut raw, 3);
        handed(&raw)
    });
    damaged.collect()
}

fn judged_last(book: &mut Book) {
    book.title("refusal 10, a buffer too short, is judged after each other refusal");
    for damaged in one_at_a_time() {
        let whole = damaged.file_length();
        for length in [0, 1, whole - 1, whole, LONG] {
            book.ask_writer(&damaged, length);
        }
    }
    let good = Handed::new(b"night 12", &told(TO_DAMAGE));
    for length in 0..=good.file_length() + 2 {
        book.ask_writer(&good, length);
    }
    write_and_read(book, &good);
}

/// Each number of entries in each of the three lists.
fn each_entries(choices: &[usize]) -> Vec<[usize; 3]> {
    let mut all = Vec::new();
    for threads in choices {
        for kinds in choices {
            for objects in choices {
                all.push([*threads, *kinds, *objects]);
            }
        }
    }
    all
}

fn uneven(book: &mut Book) {
    book.title("refusal 10, lists of different lengths: so many threads, kinds and objects");
    for (text, choices) in [("0w0", &[0, 1][..]), (Q, &[0, 7, 8])] {
        for entries in each_entries(choices) {
            let mut handed = Handed::new(b"uneven", &told(text));
            handed.entries = entries;
            book.ask_writer(&handed, 60);
        }
    }
    let mut fewer = Handed::new(b"the first seven", &told(Q));
    fewer.entries = [7; 3];
    write_and_read(book, &fewer);
    for most in [OLD_LIMITS.events, LIMITS.events] {
        for entries in each_entries(&[most, most + 1]) {
            let mut handed = Handed::new(b"", &vec![w(0, 0); most + 1]);
            handed.entries = entries;
            book.ask_writer(&handed, 100);
        }
    }
}

fn uneven_first(book: &mut Book) {
    book.title("refusal 10, lists of different lengths, is judged before each other refusal");
    for damaged in one_at_a_time() {
        for list in 0..3 {
            let mut handed = damaged.clone();
            handed.entries[list] -= 1;
            book.ask_writer(&handed, LONG);
            handed.entries[list] = 0;
            book.ask_writer(&handed, 0);
        }
    }
}

/// Lists of any numbers near the edges, with any preamble and buffer; what is written is read back.
fn at_random(book: &mut Book) {
    book.title("lists, preambles and buffers at random");
    changed_at_random(book, 88, 120, |_, _| ());
}

/// The same with some events changed.
fn changed_at_random(
    book: &mut Book,
    seed: u64,
    times: usize,
    change: fn(&mut Chance, &mut [u8; 4]),
) {
    let mut chance = Chance::new(seed);
    for turn in 0..times {
        let mut handed = random_handed(&mut chance, turn);
        for event in &mut handed.events {
            change(&mut chance, event);
        }
        let whole = handed.file_length();
        let length = chance.one_of(&[0, whole - 1, whole, whole, whole + 9]);
        if let Some(file) = book.ask_writer(&handed, length) {
            book.recording(&file);
        }
    }
}

/// A fork or a join in place of every other event.
fn some_forks(chance: &mut Chance, event: &mut [u8; 4]) {
    if chance.percent(50) {
        event[1] = chance.one_of(&[5, 6]);
        event[2] = chance.one_of(&[0, 1, 2, 3, 4, 15, 16]);
    }
}

/// An object up to the highest, and one above now and then.
fn higher_objects(chance: &mut Chance, event: &mut [u8; 4]) {
    let most = LIMITS.object;
    let some = [
        0,
        255,
        256,
        most - 1,
        most,
        most,
        most,
        most,
        most,
        most + 1,
    ];
    event[2..].copy_from_slice(&chance.one_of(&some).to_le_bytes());
}

fn random_handed(chance: &mut Chance, turn: usize) -> Handed {
    let n = chance.below(7);
    let events: Vec<[u8; 4]> = (0..n).map(|_| random_event(chance)).collect();
    let mut preamble = readable_preamble(chance, turn);
    if chance.percent(15) {
        preamble.push(chance.one_of(&EDGES));
    }
    let mut handed = Handed::even(&preamble, &events);
    if chance.percent(10) {
        handed.entries[chance.below(3)] = chance.below(n + 1);
    }
    handed
}

/// Four bytes of an event, each now and then beyond its edge.
fn random_event(chance: &mut Chance) -> [u8; 4] {
    let (odd_thread, odd_kind) = (chance.one_of(&[16, 255]), chance.one_of(&[0, 5]));
    let mut odd_or = |odd: u8, usual: &[u8]| {
        let usual = chance.one_of(usual);
        if chance.percent(7) {
            odd
        } else {
            usual
        }
    };
    [
        odd_or(odd_thread, &[0, 0, 1, 15]),
        odd_or(odd_kind, &[1, 1, 2, 2, 3, 3, 4]),
        odd_or(2, &[0, 0, 1, 255]),
        odd_or(1, &[0]),
    ]
}
