//! Group 10, request Five: short recordings with a fork, a join or both, random ones dense in forks
//! and joins.

use crate::askings::ask_a_few;
use crate::book::Book;
use crate::chance::Chance;
use crate::forks;
use crate::random::{edit, like_the_book, put, random_access, random_stock, Random, Stock};
use crate::recording::{
    acq, count_threads, file, fork, join, may_come_next, r, rel, told, w, Event, Kind, Recording,
};
use crate::study::{conflicting_pairs, depends_on_forks, Study};
use crate::threads::has_fork_or_join;

const RECORDINGS: usize = 1200;
const LONGER: usize = 200;

/// How many threads a short recording names.
const NAMED: u8 = 3;

fn count(events: &[Event], kind: Kind) -> usize {
    events.iter().filter(|e| e.kind == kind).count()
}

/// How many threads have an event or are forked or joined: the first ones, in this order.
fn named(events: &[Event]) -> u8 {
    let threads = events.iter().map(|e| u16::from(e.thread));
    let of_threads = events.iter().filter(|e| has_fork_or_join(&[**e]));
    let objects = of_threads.map(|e| e.object);
    threads
        .chain(objects)
        .max()
        .map_or(0, |most| most as u8 + 1)
}

/// The events that may come next, by threads in the order in which they are first named, with at
/// most one fork and one join, one cell and, if wanted, one lock.
fn next_ones(before: &[Event], lock: bool) -> Vec<Event> {
    let known = named(before);
    let mut all = Vec::new();
    for thread in 0..NAMED.min(known + 1) {
        let after = known.max(thread + 1);
        all.extend([r(thread, 0), w(thread, 0)]);
        if lock {
            all.extend([acq(thread, 0), rel(thread, 0)]);
        }
        for other in (0..NAMED.min(after + 1)).map(u16::from) {
            all.extend([fork(thread, other), join(thread, other)]);
        }
    }
    all.retain(|event| {
        let once = |kind| event.kind != kind || count(before, kind) == 0;
        once(Kind::Fork) && once(Kind::Join) && may_come_next(before, *event)
    });
    all
}

/// Every well-formed recording of at most so many events by at most three threads with one cell,
/// at most one fork and one join, in which there is one of these and a conflicting pair, up to
/// renaming of threads; if wanted with one lock, which then has an event.
pub fn every(most: usize, lock: bool) -> Vec<Vec<Event>> {
    let mut found: Vec<Vec<Event>> = vec![Vec::new()];
    let mut from = 0;
    for _ in 0..most {
        let to = found.len();
        for i in from..to {
            for event in next_ones(&found[i], lock) {
                let mut longer = found[i].clone();
                longer.push(event);
                found.push(longer);
            }
        }
        from = to;
    }
    found.retain(|events| {
        let locked = count(events, Kind::Acquire) > 0;
        has_fork_or_join(events) && lock == locked && !conflicting_pairs(events).is_empty()
    });
    found
}

/// Studies those of 5 events without a lock, which are too many to store: what is asserted of each
/// pair of a recording is asserted of theirs.
pub fn confirm() {
    let mut recordings = every(5, false);
    recordings.retain(|events| events.len() == 5);
    let (mut pairs, mut by_two) = (0, 0);
    for events in &recordings {
        let study = Study::new(Recording {
            preamble: Vec::new(),
            events: events.clone(),
        });
        pairs += study.pairs.len();
        by_two += if study.threads <= 2 {
            study.pairs.len()
        } else {
            0
        };
    }
    println!(
        "{} recordings of 5 events with a fork, a join or both: {pairs} pairs with the same verdict \
         and list with cells in place of forks and joins, {by_two} of them by at most two threads, \
         reported exactly if predictable",
        recordings.len()
    );
}

/// Writes the short and the random ones.
pub fn write(book: &mut Book) {
    book.group("group 10, short: every recording with a fork, a join or both");
    let mut chance = Chance::new(103);
    for events in every(4, false).iter().chain(&every(4, true)) {
        book.recording(&file(&[], events));
        ask_a_few(book, &mut chance, 3);
    }
    let random = Random {
        titles: [
            "group 10, random: recordings of 6 to 9 events dense in forks and joins",
            "group 10, longer: random recordings of 10 to 14 events dense in forks and joins",
        ],
        counts: [RECORDINGS, LONGER],
        seeds: [104, 122],
        put_one,
        put_longer,
    };
    random.write(book);
}

/// One random recording with its askings.
pub fn put_one(book: &mut Book, chance: &mut Chance) {
    let events = random_family(chance);
    put(book, chance, events, 6);
}

/// One longer recording by two to four threads.
pub fn put_longer(book: &mut Book, chance: &mut Chance, turn: usize) {
    let events = one_kept(chance, 2 + turn % 3, 10, |chance, stock| {
        let n = chance.from_to(10, 14);
        family(chance, stock, n)
    });
    put(book, chance, events, 3);
}

/// A random recording of 6 to 9 events with forks and joins; half of them are like the examples.
pub fn random_family(chance: &mut Chance) -> Vec<Event> {
    let threads = chance.one_of(&[2, 2, 3, 3, 3, 4]);
    one_kept(chance, threads, 6, |chance, stock| {
        let n = chance.from_to(6, if stock.threads.len() == 4 { 8 } else { 9 });
        match chance.below(2) {
            0 => family(chance, stock, n),
            _ => like_the_book(chance, stock, &tangles(), edit_forks),
        }
    })
}

/// The worked examples and figure 2 of document 002 without its first event.
fn tangles() -> Vec<Vec<Event>> {
    let figure_2 = ["0+0 0f1 1w0 0j1 0-0 2+0 2w0 2-0"];
    let all = forks::ALL.iter().chain(&figure_2);
    all.map(|text| told(text)).collect()
}

/// A fork or a join inserted, or another change.
fn edit_forks(chance: &mut Chance, events: &mut Vec<Event>) {
    let (thread, other) = (chance.below(4) as u8, chance.below(4) as u16);
    let place = chance.below(events.len());
    match chance.below(8) {
        0 => events.insert(place, fork(thread, other)),
        1 => events.insert(place, join(thread, other)),
        _ => edit(chance, events),
    }
}

/// Makes recordings until one has so many events, by so many threads, with a fork or a join and a
/// conflicting pair. Of those in which nothing depends on forks and joins seven in eight are left
/// out.
fn one_kept(
    chance: &mut Chance,
    threads: usize,
    least: usize,
    make: impl Fn(&mut Chance, &Stock) -> Vec<Event>,
) -> Vec<Event> {
    loop {
        let mut stock = random_stock(chance, threads);
        stock.again = true;
        let events = make(chance, &stock);
        let wanted = events.len() >= least
            && has_fork_or_join(&events)
            && count_threads(&events) == threads
            && !conflicting_pairs(&events).is_empty();
        if wanted && (depends_on_forks(&events) || chance.below(8) == 0) {
            return events;
        }
    }
}

/// Event by event, whatever may come next. Threads fork those that have no event, and join others,
/// mostly late. Where nothing fits for long, it ends.
fn family(chance: &mut Chance, stock: &Stock, n: usize) -> Vec<Event> {
    let mut events: Vec<Event> = Vec::new();
    for _ in 0..200 {
        let thread = chance.one_of(&stock.threads);
        let other: u16 = match chance.below(12) {
            0 => 11,
            _ => chance.one_of(&stock.threads).into(),
        };
        let lock = chance.one_of(&stock.locks);
        let late = 3 * events.len() > n;
        let event = match chance.below(20) {
            0..=4 => fork(thread, other),
            5..=7 if late => join(thread, other),
            8..=9 => acq(thread, lock),
            10..=11 => rel(thread, lock),
            _ => random_access(chance, stock, thread),
        };
        if stock.allows(&events, event) {
            events.push(event);
        }
        if events.len() == n {
            break;
        }
    }
    events
}
