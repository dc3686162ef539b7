//! Group 6, request Three: holds up to 512 deep, past what one byte counts, and what depends on
//! the depth there; since request Six, holds up to 1,000 deep.

use crate::askings::ask_all;
use crate::book::Book;
use crate::questions::AREA;
use crate::recording::{acq, file, rel, told, w, Event, LIMITS, OLD_LIMITS};

/// One thread takes a lock so many times and gives so many levels back.
fn held(thread: u8, lock: u16, taken: usize, given_back: usize) -> Vec<Event> {
    let mut events = vec![acq(thread, lock); taken];
    events.extend(vec![rel(thread, lock); given_back]);
    events
}

pub fn write(book: &mut Book) {
    book.title("one lock taken up to 512 times by one thread, and given back");
    alone(book, &[(0, 0), (15, OLD_LIMITS.object)], &HOLDS);
    book.title("then another thread takes or releases it, or its holder gives back one level more");
    before_another(book, &BEFORE_ANOTHER);
    in_steps(book);
    witnesses(
        book,
        OLD_LIMITS.events,
        &[(510, 0), (509, 1), (255, 255), (256, 254)],
    );
    book.title("an acquire moved behind a hold that is given back, or not by 1 or 256 levels");
    for hold in [(254, 254), (254, 253), (256, 0), (257, 1), (300, 44)] {
        let b = behind_another(book, hold);
        for last in [b - 2, b - 1, b] {
            let list: Vec<usize> = (4..=last).chain([1]).collect();
            book.ask5(2, b, &list);
        }
        book.ask5(2, b, &(1..b).collect::<Vec<_>>());
    }
    book.title(
        "rule (iv) with a deep hold: the last release, if there is one, brings in a read or not",
    );
    rule_iv(
        book,
        &[(253, 252, 1), (253, 253, 0), (256, 1, 0), (256, 200, 0)],
    );
    deeper(book);
}

/// The same in recordings of up to 1,000 events.
fn deeper(book: &mut Book) {
    let half = MOST / 2;
    book.title("one lock taken up to 1,000 times by one thread, and given back");
    alone(book, &[(15, LIMITS.object)], &DEEPER_HOLDS);
    book.title("then another thread takes or releases it, or its holder gives back one level more");
    before_another(book, &LEFT.map(left_at));
    // the deepest hold that can be given back but for one level, with place for one event
    before_another(book, &[(half, half - 1)]);
    witnesses(book, MOST, &[(MOST - 2, 0), (half - 1, half - 1)]);
    book.title("an acquire moved behind a hold that is given back, or not by 1 or 512 levels");
    for hold in [(half - 2, half - 2), (half - 2, half - 3), (700, 188)] {
        let b = behind_another(book, hold);
        book.ask5(2, b, &(4..b).chain([1]).collect::<Vec<_>>());
    }
    book.title("rule (iv) with a hold 497 or 600 deep");
    rule_iv(book, &[(497, 1, 496), (600, 1, 0)]);
}

/// Each of these holds by each of these threads, of a lock each.
fn alone(book: &mut Book, threads: &[(u8, u16)], holds: &[(usize, usize)]) {
    for (taken, given_back) in holds.iter().copied() {
        let good = taken + given_back <= MOST && given_back <= taken;
        for (thread, lock) in threads {
            judged(book, &held(*thread, *lock, taken, given_back), good);
        }
    }
}

/// Each of these holds with what may come next.
fn before_another(book: &mut Book, holds: &[(usize, usize)]) {
    for (taken, given_back) in holds.iter().copied() {
        for (next, allowed) in NEXT {
            let events = [held(0, 0, taken, given_back), told(next)].concat();
            let good = events.len() <= MOST && allowed(taken - given_back);
            judged(book, &events, good);
        }
    }
}

/// Takes a recording, which must be good or refused as counting says.
fn judged(book: &mut Book, events: &[Event], good: bool) {
    book.recording(&file(&[], events));
    assert_eq!(book.study().is_some(), good, "{events:?}");
}

/// What comes behind a hold by thread 0, and whether it may where so many levels are left.
const NEXT: [(&str, fn(usize) -> bool); 7] = [
    ("1+0", |left| left == 0),
    ("1-0", |_| false),
    ("0-0", |left| left > 0),
    ("1+0 1-0", |left| left == 0),
    ("1+0 1+0", |left| left == 0),
    ("1+0 0-0", |_| false),
    ("0+0 1+0", |_| false),
];

const MOST: usize = LIMITS.events;

/// Acquires and releases of one lock; a release too many is refused 9.
const HOLDS: [(usize, usize); 20] = [
    (255, 0),
    (256, 0),
    (257, 0),
    (511, 0),
    (512, 0),
    (513, 0),
    (511, 1),
    (510, 2),
    (300, 212),
    (257, 255),
    (256, 255),
    (256, 256),
    (256, 257),
    (255, 255),
    (255, 256),
    (255, 257),
    (128, 128),
    (128, 129),
    (1, 1),
    (1, 2),
];

/// The same up to the limit of request Six; one event more is refused 3.
const DEEPER_HOLDS: [(usize, usize); 13] = [
    (MOST - 1, 0),
    (MOST, 0),
    (MOST + 1, 0),
    (MOST - 1, 1),
    (MOST - 1, 2),
    (MOST - 2, 2),
    (600, 400),
    (MOST / 2 + 1, MOST / 2 - 1),
    (MOST / 2, MOST / 2 - 1),
    (MOST / 2, MOST / 2),
    (MOST / 2, MOST / 2 + 1),
    (MOST / 2 - 1, MOST / 2),
    (MOST / 2 - 1, MOST / 2 + 1),
];

/// How many levels are left of a hold.
const LEFT: [usize; 16] = [
    0,
    1,
    2,
    255,
    256,
    257,
    508,
    509,
    510,
    511,
    512,
    513,
    MOST - 4,
    MOST - 3,
    MOST - 2,
    MOST - 1,
];

/// A hold that is left at so many levels, with as many acquires and releases as leave place for two
/// events where that can be.
fn left_at(left: usize) -> (usize, usize) {
    let given_back = (MOST - 2).saturating_sub(left) / 2;
    (left + given_back, given_back)
}

/// Such holds with place for one event or two behind them: some left at 0, at 1, at 255 to 257 and
/// deeper.
const BEFORE_ANOTHER: [(usize, usize); 19] = [
    (255, 255),
    (255, 254),
    (256, 254),
    (256, 255),
    (254, 254),
    (254, 253),
    (128, 128),
    (128, 127),
    (255, 0),
    (256, 0),
    (257, 0),
    (257, 1),
    (300, 44),
    (300, 43),
    (384, 128),
    (510, 0),
    (511, 0),
    (510, 1),
    (509, 1),
];

/// Holds that go up and down, and two locks held at once.
fn in_steps(book: &mut Book) {
    book.title("a hold that goes up by two and down by one, then is given back");
    let steps = told("0+0 0+0 0-0");
    for (times, given_back) in [(127, 127), (127, 126), (127, 128), (100, 100), (100, 99)] {
        let events = [
            vec![steps.clone(); times].concat(),
            held(0, 0, 0, given_back),
        ]
        .concat();
        let taken = [&events[..], &told("1+0")].concat();
        judged(book, &taken, given_back == times);
        judged(book, &[&events[..], &told("1-0")].concat(), false);
    }
    book.title("two locks taken in turn 127 times, given back in another order");
    let both = vec![told("0+0 0+1"); 127].concat();
    for (first, second) in [(127, 127), (127, 126), (126, 127)] {
        let events = [both.clone(), held(0, 0, 0, first), held(0, 1, 0, second)].concat();
        let taken = [&events[..], &told("1+0 1+1")].concat();
        judged(book, &taken, first.min(second) == 127);
    }
}

/// The witness of (1, n) is n - 2 acquires and releases.
fn witnesses(book: &mut Book, n: usize, holds: &[(usize, usize)]) {
    let most = n - 2;
    book.title(&format!(
        "{n} events: the witness has {most} acquires and releases of one lock"
    ));
    for (taken, given_back) in holds.iter().copied() {
        let events = [vec![w(0, 0)], held(1, 9, taken, given_back), vec![w(1, 0)]].concat();
        judged(book, &events, true);
        book.ask3(1, n, n, AREA);
        ask_all(book);
        let list: Vec<usize> = (2..n).collect();
        book.ask5(1, n, &list);
        book.ask5(1, n, &list[..most - 1]);
        book.ask5(1, n, &[&list[..], &[n - 1]].concat());
    }
}

fn reported(book: &Book, a: usize, b: usize) -> bool {
    let study = book.study().expect("a good recording");
    study.pair(a, b).is_some_and(|pair| pair.shown.is_some())
}

/// The moved thread's acquire fits behind the other thread's hold only where that is all given
/// back: not where one level is left, nor where 256 are. Gives the number of the last event.
fn behind_another(book: &mut Book, (taken, given_back): (usize, usize)) -> usize {
    let own = held(1, 0, taken, given_back);
    let events = [told("0+0 0w0 0-0"), own, told("1w0")].concat();
    judged(book, &events, true);
    let b = events.len();
    assert_eq!(reported(book, 2, b), taken == given_back);
    book.ask3(2, b, b.max(OLD_LIMITS.events), AREA);
    book.ask4(0, 0, AREA);
    b
}

/// A third thread takes a lock, writes, gives so many levels back, reads and gives so many more
/// back. With the outermost acquire the cone of the first and the last event has the last
/// release, if there is one, and what stands before that.
fn rule_iv(book: &mut Book, holds: &[(usize, usize, usize)]) {
    for (taken, before, after) in holds.iter().copied() {
        let front = [told("0w0"), held(2, 0, taken, 0), told("2w1")].concat();
        let back = [held(2, 0, 0, before), told("2r0"), held(2, 0, 0, after)].concat();
        let events = [front, back, told("1r1 1w0")].concat();
        judged(book, &events, true);
        let b = events.len();
        let given_back_later = after > 0 && before + after == taken;
        assert_eq!(reported(book, 1, b), !given_back_later);
        book.ask3(1, b, b.max(OLD_LIMITS.events), AREA);
        let list: Vec<usize> = (2..=taken + 2).chain([b - 1]).collect();
        book.ask5(1, b, &list);
    }
}
