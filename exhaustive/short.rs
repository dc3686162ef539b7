//! Group 3: every well-formed recording of at most 5 events by 2 threads with 1 cell and 1 lock, up
//! to renaming of threads, the empty one too; and with 2 locks those with re-entry.

use crate::askings::ask_a_few;
use crate::book::Book;
use crate::chance::Chance;
use crate::holds::has_reentry;
use crate::recording::{acq, file, may_come_next, r, rel, w, Event, MAX_THREAD};

/// Every well-formed recording of at most so many events by two threads with one cell and so many
/// locks, the empty one too. The first event is by thread 0, and a lock comes after the one before
/// it has an event.
pub fn every(most: usize, locks: u16) -> Vec<Vec<Event>> {
    let mut found: Vec<Vec<Event>> = vec![Vec::new()];
    let mut from = 0;
    for _ in 0..most {
        let to = found.len();
        for i in from..to {
            for event in choices(&found[i], locks) {
                if may_come_next(&found[i], event) {
                    let mut longer = found[i].clone();
                    longer.push(event);
                    found.push(longer);
                }
            }
        }
        from = to;
    }
    found
}

fn choices(before: &[Event], locks: u16) -> Vec<Event> {
    let threads = if before.is_empty() { 0..1 } else { 0..2 };
    let locks: Vec<u16> = (0..locks)
        .filter(|lock| *lock == 0 || has_lock(before, lock - 1))
        .collect();
    let of_thread = |t: u8| {
        let of_locks = locks.iter().flat_map(move |l| [acq(t, *l), rel(t, *l)]);
        [r(t, 0), w(t, 0)].into_iter().chain(of_locks)
    };
    threads.flat_map(of_thread).collect()
}

/// Whether there is an event of the lock; in a good recording the first of them is an acquire.
fn has_lock(events: &[Event], lock: u16) -> bool {
    (0..=MAX_THREAD).any(|thread| events.contains(&acq(thread, lock)))
}

/// Those with one lock in which nothing is taken again.
pub fn every_without_reentry(most: usize) -> Vec<Vec<Event>> {
    let mut found = every(most, 1);
    found.retain(|events| !has_reentry(events));
    found
}

/// Those with re-entry stand behind the others and have generators of their own.
pub fn write(book: &mut Book) {
    book.group("group 3: every recording of at most 5 events by 2 threads, 1 cell, 1 lock");
    put_all(book, 3, 4, &every_without_reentry(5));
    book.group("group 3, re-entry, 1 lock: those of them in which the lock is taken again");
    put_all(book, 33, 4, &every_with_reentry(1));
    book.group("group 3, re-entry, 2 locks: likewise with both locks, one of them taken again");
    put_all(book, 333, 2, &every_with_reentry(2));
}

/// Those of at most 5 events with an event of each lock in which one is taken again: 1,956 with two
/// locks (there are 22,920 of at most 6 events).
pub fn every_with_reentry(locks: u16) -> Vec<Vec<Event>> {
    let mut found = every(5, locks);
    found.retain(|events| has_lock(events, locks - 1) && has_reentry(events));
    found
}

fn put_all(book: &mut Book, seed: u64, times: usize, recordings: &[Vec<Event>]) {
    let mut chance = Chance::new(seed);
    for events in recordings {
        book.recording(&file(&[], events));
        ask_a_few(book, &mut chance, times);
    }
}
