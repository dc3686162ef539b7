//! Group 4, request Three: random recordings in which a lock is taken again.

use crate::book::Book;
use crate::chance::Chance;
use crate::holds::{has_reentry, hold};
use crate::random::{
    edit, in_sections, like_the_book, put, random_access, random_stock, Random, Stock,
};
use crate::recording::{acq, count_threads, rel, told, Event};
use crate::study::depends_on_depth;

const RECORDINGS: usize = 1500;
const LONGER: usize = 300;

pub fn write(book: &mut Book) {
    let random = Random {
        titles: [
            "group 4, re-entry: random recordings of 6 to 9 events by 2 to 4 threads",
            "group 4, re-entry, longer ones: random recordings of 10 to 14 events",
        ],
        counts: [RECORDINGS, LONGER],
        seeds: [10, 32],
        put_one,
        put_longer,
    };
    random.write(book);
}

/// One random recording with its askings.
pub fn put_one(book: &mut Book, chance: &mut Chance) {
    let events = random_reentry(chance);
    put(book, chance, events, 6);
}

/// One longer recording by two or three threads.
pub fn put_longer(book: &mut Book, chance: &mut Chance, turn: usize) {
    let events = one_kept(chance, 2 + turn % 2, |chance, stock| {
        let n = chance.from_to(10, 14);
        match turn % 4 {
            0 => loose(chance, stock, n),
            _ => in_sections(chance, stock, n, deep_script),
        }
    });
    put(book, chance, events, 3);
}

/// A random recording of 6 to 9 events in which a lock is taken again.
pub fn random_reentry(chance: &mut Chance) -> Vec<Event> {
    let threads = chance.one_of(&[2, 2, 3, 3, 3, 4]);
    one_kept(chance, threads, |chance, stock| {
        let n = chance.from_to(6, if stock.threads.len() == 4 { 8 } else { 9 });
        match chance.below(10) {
            0..=2 => loose(chance, stock, n),
            3..=6 => in_sections(chance, stock, n, deep_script),
            _ => like_the_book(chance, stock, &tangles(), edit),
        }
    })
}

/// Makes recordings until one has re-entry and an event of each thread. Of those in which nothing
/// depends on the depth of a hold seven in eight are left out.
fn one_kept(
    chance: &mut Chance,
    threads: usize,
    make: impl Fn(&mut Chance, &Stock) -> Vec<Event>,
) -> Vec<Event> {
    loop {
        let mut stock = random_stock(chance, threads);
        stock.again = true;
        let events = make(chance, &stock);
        let wanted = has_reentry(&events) && count_threads(&events) == threads;
        if wanted && (depends_on_depth(&events) || chance.below(8) == 0) {
            return events;
        }
    }
}

/// Event by event, whatever may come next; a thread that holds a lock takes it again or gives one
/// level back.
fn loose(chance: &mut Chance, stock: &Stock, n: usize) -> Vec<Event> {
    let mut events: Vec<Event> = Vec::new();
    while events.len() < n {
        let thread = chance.one_of(&stock.threads);
        let lock = chance.one_of(&stock.locks);
        let hold = hold(events.iter().copied(), lock);
        let own = hold.is_some_and(|hold| hold.thread == thread);
        let event = match chance.below(10) {
            0..=1 => acq(thread, lock),
            2..=4 if own => rel(thread, lock),
            _ => random_access(chance, stock, thread),
        };
        if stock.allows(&events, event) {
            events.push(event);
        }
    }
    events
}

/// A section, mostly taken again inside, with accesses at any place.
fn deep_script(chance: &mut Chance, stock: &Stock, thread: u8) -> Vec<Event> {
    let lock = chance.one_of(&stock.locks);
    let depth = chance.one_of(&[1, 1, 2, 2, 2, 3]);
    let taken = vec![acq(thread, lock); depth];
    let mut events = Vec::new();
    for event in taken.into_iter().chain(vec![rel(thread, lock); depth]) {
        if chance.percent(35) {
            events.push(random_access(chance, stock, thread));
        }
        events.push(event);
    }
    if chance.percent(60) {
        events.push(random_access(chance, stock, thread));
    }
    events
}

/// Recordings like W, Y, Z and others in which a lock is taken again.
fn tangles() -> Vec<Vec<Event>> {
    [
        "0w0 2+0 2+0 2w1 2-0 2r0 2-0 1r1 1w0",
        "0w0 2+0 2+0 2w1 2-0 2-0 1r1 1+0 1w0",
        "0w1 0+0 0w0 0-0 1+0 1+0 1r1 1r0 1-0",
        "0+0 0w0 0-0 1+0 1+0 1-0 1w0 1-0",
        "0+0 0+0 0w0 0-0 0-0 1+0 1-0 1w0",
        "2+0 2w1 2+0 1r1 2-0 0w0 2r0 1w0",
    ]
    .map(told)
    .to_vec()
}
