//! Group 6: recordings at the limits, and askings with odd lists, areas and numbers. Those at the
//! limits before request Six come first.

use crate::askings::ask_all;
use crate::book::{Book, LONGEST};
use crate::depths;
use crate::questions::AREA;
use crate::recording::{acq, count_threads, file, r, rel, told, w, Event};
use crate::recording::{Limits, LIMITS, OLD_LIMITS};
use crate::study::{conflicting_pairs, shown_by_merges};
use crate::worked::{self, Q, W};

pub fn write(book: &mut Book) {
    book.group("group 6: the limits");
    full(book, &OLD_LIMITS, of_few_threads(&OLD_LIMITS), ask_of_full);
    full(book, &OLD_LIMITS, long_witnesses(&OLD_LIMITS), ask_of_full);
    full(book, &OLD_LIMITS, of_more(&OLD_LIMITS), ask_of_full);
    full(book, &LIMITS, of_few_threads(&LIMITS), ask_a_little);
    full(book, &LIMITS, long_witnesses(&LIMITS), ask_of_full);
    full(book, &LIMITS, of_more(&LIMITS), ask_a_little);
    full(book, &LIMITS, many_objects(), ask_a_little);
    lengthened(book);
    in_turn(book);
    numbers_of_threads(book);
    preambles(book);
    long_lists(book, &OLD_LIMITS);
    long_lists(book, &LIMITS);
    lent_places(book, &told(Q), (1, 8));
    lent_places(book, &told(W), (4, 7));
    lent_places(book, &told(W), (1, 7));
    from_numbers(book);
    depths::write(book);
}

/// A title, and the parts of a recording of as many events as some limits allow.
type Parts = (String, Vec<Vec<Event>>);

/// Takes recordings of as many events as these limits allow.
fn full(book: &mut Book, limits: &Limits, all: Vec<Parts>, ask: fn(&mut Book, &Limits, &[Event])) {
    let n = limits.events;
    for (title, parts) in all {
        let events = parts.concat();
        assert_eq!(events.len(), n, "{title}");
        book.title(&format!("{n} events: {title}"));
        book.recording(&file(&[], &events));
        ask(book, limits, &events);
    }
}

/// The questions asked of such a recording; then one of an event more.
fn ask_of_full(book: &mut Book, limits: &Limits, events: &[Event]) {
    let n = limits.events;
    for k in [1, 2, n / 2, n - 2, n - 1, n, n + 1, 65535] {
        book.ask2(k);
    }
    for entries in [n + 1, n, n + 2, limits.long_list(), 0] {
        book.ask22(entries);
    }
    let (a, b) = last_pair(book);
    for entries in [n - 1, n, n + 1] {
        book.ask3(a, b, entries, AREA);
    }
    book.ask4(a, b, AREA);
    book.ask4(a, b - 1, AREA);
    book.recording(&file(&[], &[events, &[w(0, 0)]].concat()));
    // long enough for the event more
    book.ask22(n + 2);
}

/// Fewer questions, where the answers are long.
fn ask_a_little(book: &mut Book, limits: &Limits, _: &[Event]) {
    let n = limits.events;
    for k in [n - 1, n, n + 1] {
        book.ask2(k);
    }
    book.ask22(n + 1);
    book.ask22(n);
    let (a, b) = last_pair(book);
    book.ask3(a, b, n - 1, AREA);
    book.ask3(a, b, n, AREA);
    book.ask4(a, b - 1, AREA);
}

/// The last reported pair, the last conflicting one, or the first and the last event.
fn last_pair(book: &Book) -> (usize, usize) {
    let study = book.study().expect("a good recording");
    let reported = study.pairs.iter().rev().find(|p| p.shown.is_some());
    match reported.or(study.pairs.last()) {
        Some(pair) => (pair.a, pair.b),
        None => (1, study.events().len()),
    }
}

fn of_more(limits: &Limits) -> Vec<Parts> {
    [
        sixteen_threads(limits),
        many_locks(limits),
        many_reads(limits),
    ]
    .concat()
}

/// So many writes of one cell by one thread.
fn own(thread: u8, cell: u16, n: usize) -> Vec<Event> {
    vec![w(thread, cell); n]
}

/// Of n events: thread `one` works and leaves cell 0; thread `two` reads it and works; then threads
/// 0 and 1 meet at cell 1.
fn one_after_another(n: usize, one: u8, two: u8) -> Vec<Vec<Event>> {
    let work = n / 2 - 2;
    let first = [own(one, 10, work), own(one, 0, 1)].concat();
    let second = [vec![r(two, 0)], own(two, 11, work)].concat();
    vec![first, second, own(0, 1, 1), own(1, 1, 1)]
}

fn of_few_threads(limits: &Limits) -> Vec<Parts> {
    let (n, top) = (limits.events, limits.object);
    let (last, most) = (n - 1, n - 2);
    let reads = |t, cell, n| vec![r(t, cell); n];
    vec![
        (
            format!("one thread, 15, writing cell {top}"),
            vec![own(15, top, n)],
        ),
        (
            format!("one write, then {last} reads by another"),
            vec![own(0, 7, 1), reads(1, 7, last)],
        ),
        (
            format!("{most} reads, a write and a write by another"),
            vec![reads(3, 0, most), own(3, 1, 1), own(4, 1, 1)],
        ),
    ]
}

fn long_witnesses(limits: &Limits) -> Vec<Parts> {
    let n = limits.events;
    let (last, most, sections) = (n - 1, n - 2, n / 2 - 2);
    let section = told("0+9 0w200 0-9");
    vec![
        (
            format!("({last}, {n}) whose witness has {most} events, moved thread first"),
            one_after_another(n, 0, 1),
        ),
        (
            format!("({last}, {n}) whose witness has {most} events, moved thread last"),
            one_after_another(n, 1, 0),
        ),
        (
            format!("(1, {n}), the witness has {most} events, all of the other thread"),
            vec![own(0, 0, 1), own(1, 1, most), own(1, 0, 1)],
        ),
        (
            format!("a section moved behind {sections} sections"),
            vec![
                section,
                vec![taken(1, 9); sections].concat(),
                own(1, 200, 1),
            ],
        ),
    ]
}

fn sixteen_threads(limits: &Limits) -> Vec<Parts> {
    let (n, top) = (limits.events, limits.object);
    let times = n / 2;
    let hello = (0..16).map(|t| w(t, top)).collect();
    let thread = |i: usize| (i * 16 / (n - 16)) as u8;
    let alone = (0..n - 16).map(|i| w(thread(i), thread(i).into()));
    let turns = (0..times).map(|i| taken((i % 16) as u8, top)).collect();
    vec![
        (
            "sixteen threads hand on one cell after another".to_string(),
            (0..16).map(|t| baton(n, t)).collect(),
        ),
        (
            "sixteen threads write one cell at first, then their own".to_string(),
            vec![hello, alone.collect()],
        ),
        (
            format!("a lock taken and given back {times} times by sixteen threads"),
            turns,
        ),
    ]
}

fn many_locks(limits: &Limits) -> Vec<Parts> {
    let (half, top) = (limits.events / 2, limits.object);
    let many = half as u16;
    let fewer = many - 1;
    let locks = (0..many).map(|l| acq(0, l)).collect();
    let cells = (0..fewer).map(|c| w(1, c)).collect();
    let all_cells = (0..many).map(|c| w(0, c)).collect();
    let back = (0..many).map(|l| acq(15, top - l)).collect();
    vec![
        (
            format!("a lock taken and given back {half} times"),
            vec![taken(3, top); half],
        ),
        (
            format!("{many} locks held at the end, {fewer} cells, one race"),
            vec![locks, cells, own(2, fewer - 1, 1)],
        ),
        (
            format!("{many} cells written, then {many} locks taken by another"),
            vec![all_cells, back],
        ),
    ]
}

/// How many cells two threads exchange.
const FEW: usize = 128;

/// Recordings with many reads, for all of question 2's answers at once. They have few races, so
/// that a line holds the lists shown: where cells are read from the last on, the first of the
/// reads sees the last of the writes, so that all writes are in the cones of the other reads.
fn many_reads(limits: &Limits) -> Vec<Parts> {
    let (n, top) = (limits.events, limits.object);
    let half = n / 2;
    let (many, last) = (half as u16, half - 1);
    let written = |t, n| -> Vec<Event> { (0..n).map(|c| w(t, c)).collect() };
    let read = |t, n| -> Vec<Event> { (0..n).rev().map(|c| r(t, c)).collect() };
    let first_reads = (0..n as u16).map(|i| r((i % 16) as u8, i % (top + 1)));
    let there = [written(0, FEW as u16), read(1, FEW as u16)].concat();
    let back = [written(1, FEW as u16), read(0, FEW as u16)].concat();
    let handed = vec![handed_over(); 10].concat();
    let unwritten = (0..n - handed.len()).map(|i| r((i % 16) as u8, 200));
    vec![
        (
            format!(
                "{many} cells written by one thread, then read by thread 15, cell {last} first"
            ),
            vec![written(0, many), read(15, many)],
        ),
        (
            format!(
                "{FEW} cells written by one thread and read by another, then the other way round"
            ),
            vec![there, back, own(0, 300, n - 4 * FEW)],
        ),
        (
            format!("one thread writes cell {top} and reads it, {half} times over"),
            vec![vec![w(15, top), r(15, top)]; half],
        ),
        (
            "eight cells, each written by one thread and read by another under a lock, 10 times"
                .to_string(),
            vec![handed, unwritten.collect()],
        ),
        (
            "reads only: all see the start".to_string(),
            vec![first_reads.collect()],
        ),
    ]
}

/// As many objects as there can be in one recording: what one byte holds of them is not enough.
fn many_objects() -> Vec<Parts> {
    let (n, top) = (LIMITS.events as u16, LIMITS.object);
    let own_cell = |c: u16| match ((c / 250) as u8, c % 2) {
        (thread, 0) => w(thread, c),
        (thread, _) => r(thread, c),
    };
    let apart = told("0w0 1w256 2r0 3r256 4r512 4w768");
    let rest = own(5, 768 + 16, LIMITS.events - apart.len());
    vec![
        (
            format!("{n} locks held at the end"),
            vec![(0..n).map(|l| acq(15, top - l)).collect()],
        ),
        (
            format!("{n} cells, 250 of each of four threads: no two meet"),
            vec![(0..n).map(own_cell).collect()],
        ),
        (
            "cells 0, 256, 512 and 768 are four cells".to_string(),
            vec![apart, rest],
        ),
    ]
}

/// Eight threads write a cell each under its lock; then eight others read one each under its lock.
fn handed_over() -> Vec<Event> {
    let locked = |access: Event| {
        let (thread, lock) = (access.thread, access.object);
        [acq(thread, lock), access, rel(thread, lock)]
    };
    let writes = (0..8).map(|t| w(t, t.into()));
    let reads = (0..8).map(|t| r(15 - t, t.into()));
    writes.chain(reads).flat_map(locked).collect()
}

/// A lock taken and given back.
fn taken(thread: u8, lock: u16) -> Vec<Event> {
    vec![acq(thread, lock), rel(thread, lock)]
}

/// Thread t reads what thread t - 1 left, works on its own, and leaves something in its turn: with
/// a sixteenth of n events.
fn baton(n: usize, thread: u8) -> Vec<Event> {
    let until = |t: usize| t * n / 16;
    let events = until(thread as usize + 1) - until(thread.into());
    let before = thread as u16 + 15;
    let work = vec![w(thread, 100 + thread as u16); events - 2];
    let mut events = [vec![r(thread, before)], work].concat();
    events.push(w(thread, before + 1));
    events
}

/// Demand 3 at the limit: another thread takes a lock again and again, then writes a cell, behind
/// the worked examples. Of at most two threads, each verdict and list stays.
fn lengthened(book: &mut Book) {
    book.title("the worked examples lengthened to 1,000 events");
    let (n, top) = (LIMITS.events, LIMITS.object);
    for events in worked::ALL.map(told) {
        let mut longer = [&events[..], &vec![acq(9, top); n / 2]].concat();
        longer.resize(n, w(9, top));
        book.recording(&file(&[], &longer));
        for (a, b) in conflicting_pairs(&events) {
            let shown = shown_by_merges(&events, a, b);
            let study = book.study().expect("a good recording");
            let now = study.pair(a, b).and_then(|pair| pair.shown.clone());
            assert!(now == shown || count_threads(&events) > 2, "{events:?}");
            book.ask3(a, b, n, AREA);
            book.ask5(a, b, &shown.unwrap_or_default());
        }
    }
}

/// One thread writes a cell again and again, and another reads it each time. Each write races with
/// the next read, each read with all later writes: more than 21 rounds have lists that no line
/// holds.
fn in_turn(book: &mut Book) {
    book.title("one thread writes a cell again and again, another reads it each time");
    for rounds in [1, 2, 3, 8, 21] {
        let events = vec![vec![w(15, 255), r(0, 255)]; rounds].concat();
        book.recording(&file(&[], &events));
        ask_all(book);
    }
}

/// One to sixteen threads that all write one cell, and some again.
fn numbers_of_threads(book: &mut Book) {
    book.title("one to sixteen threads, from 15 down and with some again");
    for n in 1..=16u8 {
        let down = (0..n).map(|t| w(15 - t, 0));
        book.recording(&file(&[], &down.collect::<Vec<_>>()));
        book.ask22(n as usize + 1);
        let again = (0..2 * n).map(|t| r(t % n, 1));
        book.recording(&file(&[], &again.collect::<Vec<_>>()));
        book.ask22(2 * n as usize + 1);
    }
}

fn preambles(book: &mut Book) {
    book.title("preambles up to a file of 4,096 bytes, with and without 512 events");
    let n = OLD_LIMITS.events;
    for n in [0, 1, 8, n - 1, n] {
        preambles_beside(book, &OLD_LIMITS, &vec![r(1, 3); n], &[1, 19, 20, 21]);
    }
    book.title("preambles up to a file of 16,384 bytes, with and without 1,000 events");
    for n in [0, 8, LIMITS.events] {
        preambles_beside(book, &LIMITS, &vec![w(1, 3); n], &[20]);
    }
    book.title("a preamble that is a recording, and one that only ends as a recording does");
    let inner = file(&[], &told(Q));
    book.recording_and_readable(&file(&inner, &[w(0, 0), r(1, 0)]));
    book.ask6(b"x");
}

/// Preambles of so many bytes, and as long as may be, beside these events.
fn preambles_beside(book: &mut Book, limits: &Limits, events: &[Event], short: &[usize]) {
    let n = events.len();
    let most = limits.preamble(n);
    for length in [short, &[most - 1, most, most + 1]].concat() {
        let preamble: Vec<u8> = (0..length)
            .map(|i| if i < 24 { 0x41 + i as u8 } else { 0x2E })
            .collect();
        book.recording(&file(&preamble, events));
        book.ask6(b"not this one");
        book.ask6(&[]);
        if length >= most {
            book.ask22(n + 1);
        }
    }
    book.recording(&file(&[], events));
    book.ask6(&[]);
    book.ask6(&[0x00]);
    book.ask6(&(0..64).collect::<Vec<u8>>());
}

/// Lists of about n numbers; the right one has two fewer.
fn long_lists(book: &mut Book, limits: &Limits) {
    let (n, long) = (limits.events, limits.long_list());
    book.title(&format!(
        "lists of {} and more events for question 5",
        n - 2
    ));
    let events = [vec![w(0, 0)], vec![w(1, 1); n - 2], vec![w(1, 0)]].concat();
    book.recording(&file(&[], &events));
    let right: Vec<usize> = (2..n).collect();
    book.ask5(1, n, &right);
    book.ask5(1, n, &right[..n - 3]);
    book.ask5(1, n, &right[1..]);
    for (first, last) in [(1, n - 1), (2, n), (2, n + 1), (1, long)] {
        book.ask5(1, n, &(first..=last).collect::<Vec<_>>());
    }
    book.ask5(1, n, &vec![2; long]);
    book.ask5(1, n, &vec![65535; long]);
    for length in [n - 1, n, n + 1, n + 2] {
        let mut longer = right.clone();
        longer.resize(length, n - 1);
        book.ask5(1, n, &longer);
    }
}

/// Every mix of pairs, entries and areas: the refusals come in the order 11, 10, 12.
fn lent_places(book: &mut Book, events: &[Event], (a, b): (usize, usize)) {
    book.title("lent lists and areas of all sizes; refusals 11, 10, 12 in this order");
    let n = events.len();
    book.recording(&file(b"", events));
    let long = OLD_LIMITS.long_list();
    for entries in (0..=n + 3).chain([OLD_LIMITS.events, long, LIMITS.events, LONGEST]) {
        book.ask22(entries);
    }
    for pair in [(a, b), (b, a), (0, b), (a, n + 1), (a, a), (65535, 65535)] {
        for entries in [0, 1, n - 1, n, n + 1, long] {
            for area in [0, 1, 65_535, 65_536, 65_544] {
                book.ask3(pair.0, pair.1, entries, area);
            }
        }
    }
    for area in [0, 1, 8, 65_535, 65_536, 65_537, 65_544] {
        book.ask4(0, 0, area);
        book.ask4(a, b, area);
        book.ask4(65535, 65535, area);
    }
}

/// Question 4 from any two numbers.
fn from_numbers(book: &mut Book) {
    book.title("question 4 from any two numbers");
    let events = told("0r0 0w2 1w0 1w2 2r2 2w0");
    book.recording(&file(&[], &events));
    let numbers = [
        0,
        1,
        2,
        3,
        4,
        5,
        6,
        7,
        8,
        OLD_LIMITS.events,
        LIMITS.events,
        65535,
    ];
    for a in numbers {
        for b in numbers {
            book.ask4(a, b, AREA);
        }
    }
    for a in 0..=7 {
        for b in 0..=7 {
            book.ask3(a, b, 6, AREA);
        }
    }
}
