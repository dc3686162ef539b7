//! Group 4: random recordings of 6 to 9 events, dense in conflicts.

use crate::askings::{ask_a_few, ask_all_now_and_then};
use crate::book::Book;
use crate::chance::Chance;
use crate::holds::takes_again;
use crate::recording::{acq, count_threads, file, may_come_next, r, rel, told, w, Event, Kind};
use crate::worked::W;

const RECORDINGS: usize = 3200;
const LONGER: usize = 360;

/// What a random recording is made of, and whether a lock may be taken again in it.
pub struct Stock {
    pub threads: Vec<u8>,
    pub cells: Vec<u16>,
    pub locks: Vec<u16>,
    pub again: bool,
}

impl Stock {
    /// Whether the event may come next.
    pub fn allows(&self, events: &[Event], event: Event) -> bool {
        may_come_next(events, event) && (self.again || !takes_again(events, event))
    }
}

/// A kind of random recordings: the titles, how many there are, and how one of them is put, of the
/// short ones and of the longer ones. The chances are those of the recordings and of the askings.
pub struct Random {
    pub titles: [&'static str; 2],
    pub counts: [usize; 2],
    pub seeds: [u64; 2],
    pub put_one: fn(&mut Book, &mut Chance),
    pub put_longer: fn(&mut Book, &mut Chance, usize),
}

impl Random {
    /// Writes them, with all of question 2's answers now and then.
    pub fn write(&self, book: &mut Book) {
        let mut chance = Chance::new(self.seeds[0]);
        let mut of_all = Chance::new(self.seeds[1]);
        book.group(self.titles[0]);
        for _ in 0..self.counts[0] {
            (self.put_one)(book, &mut chance);
            ask_all_now_and_then(book, &mut of_all);
        }
        book.group(self.titles[1]);
        for turn in 0..self.counts[1] {
            (self.put_longer)(book, &mut chance, turn);
            ask_all_now_and_then(book, &mut of_all);
        }
    }
}

/// Takes a random recording, without a preamble, and asks so many things of it.
pub fn put(book: &mut Book, chance: &mut Chance, events: Vec<Event>, askings: usize) {
    book.recording(&file(&[], &events));
    ask_a_few(book, chance, askings);
    book.random.push(events);
}

pub fn write(book: &mut Book) {
    let random = Random {
        titles: [
            "group 4: random recordings of 6 to 9 events by 2 to 4 threads",
            "group 4, longer ones: random recordings of 10 to 14 events",
        ],
        counts: [RECORDINGS, LONGER],
        seeds: [4, 22],
        put_one,
        put_longer,
    };
    random.write(book);
}

/// One longer recording by two or three threads; by two, every correct reordering is visited too.
/// Every third is without locks on few cells, where the order of the writes matters most.
pub fn put_longer(book: &mut Book, chance: &mut Chance, turn: usize) {
    let mut stock = random_stock(chance, 2 + turn % 2);
    let n = chance.from_to(10, 14);
    let events = match turn % 6 {
        0 => loose(chance, &stock, n),
        1..=3 => in_sections(chance, &stock, n, script),
        _ => {
            stock.cells.truncate(2);
            accesses_only(chance, &stock, n)
        }
    };
    put(book, chance, events, 3);
}

/// One random recording with its askings.
pub fn put_one(book: &mut Book, chance: &mut Chance) {
    let events = random_events(chance);
    let preamble = random_preamble(chance);
    book.recording_and_readable(&file(&preamble, &events));
    ask_a_few(book, chance, 6);
    book.random.push(events);
}

pub fn random_events(chance: &mut Chance) -> Vec<Event> {
    let threads = chance.one_of(&[2, 2, 3, 3, 3, 4]);
    random_events_by(chance, threads)
}

/// A random recording by so many threads, each of them with an event.
pub fn random_events_by(chance: &mut Chance, threads: usize) -> Vec<Event> {
    let most = if threads == 4 { 8 } else { 9 };
    loop {
        let stock = random_stock(chance, threads);
        let n = chance.from_to(6, most);
        let events = match chance.below(10) {
            0..=2 => loose(chance, &stock, n),
            3..=6 => in_sections(chance, &stock, n, script),
            _ => like_the_book(chance, &stock, &tangles(), edit),
        };
        if count_threads(&events) == threads {
            return events;
        }
    }
}

pub fn random_stock(chance: &mut Chance, threads: usize) -> Stock {
    let names: [&[u8]; 5] = [
        &[0, 1, 2, 3],
        &[3, 15, 0, 7],
        &[15, 14, 13, 12],
        &[1, 0, 2, 3],
        &[9, 4, 5, 15],
    ];
    let objects: [&[u16]; 4] = [&[0, 1, 2], &[255, 0, 254], &[7, 7 + 128, 255], &[1, 0, 16]];
    let take = |from: &[u16], n: usize| from[..n].to_vec();
    let cells = chance.one_of(&[1, 2, 2, 3]);
    let locks = chance.from_to(1, 2);
    Stock {
        threads: chance.one_of(&names)[..threads].to_vec(),
        cells: take(chance.one_of(&objects), cells),
        locks: take(chance.one_of(&objects), locks),
        again: false,
    }
}

pub fn random_access(chance: &mut Chance, stock: &Stock, thread: u8) -> Event {
    let cell = chance.one_of(&stock.cells);
    if chance.percent(50) {
        r(thread, cell)
    } else {
        w(thread, cell)
    }
}

/// Event by event, whatever may come next.
fn loose(chance: &mut Chance, stock: &Stock, n: usize) -> Vec<Event> {
    let mut events = Vec::new();
    while events.len() < n {
        let thread = chance.one_of(&stock.threads);
        let lock = chance.one_of(&stock.locks);
        let event = match chance.below(10) {
            0..=1 => acq(thread, lock),
            2..=3 => rel(thread, lock),
            _ => random_access(chance, stock, thread),
        };
        if stock.allows(&events, event) {
            events.push(event);
        }
    }
    events
}

fn accesses_only(chance: &mut Chance, stock: &Stock, n: usize) -> Vec<Event> {
    let mut events = Vec::new();
    while events.len() < n {
        let thread = chance.one_of(&stock.threads);
        events.push(random_access(chance, stock, thread));
    }
    events
}

/// What a thread does in one go.
type Script = fn(&mut Chance, &Stock, u8) -> Vec<Event>;

/// Threads that work in locked sections with accesses before, in and after them, mixed as the
/// locks allow; a section now and then stays open.
pub fn in_sections(chance: &mut Chance, stock: &Stock, n: usize, script: Script) -> Vec<Event> {
    let mut scripts: Vec<Vec<Event>> = Vec::new();
    for thread in &stock.threads {
        scripts.push(script(chance, stock, *thread));
    }
    let mut events: Vec<Event> = Vec::new();
    let mut current = 0;
    for _ in 0..200 {
        if chance.percent(45) {
            current = chance.below(scripts.len());
        }
        let thread = stock.threads[current];
        match scripts[current].first().copied() {
            Some(event) if stock.allows(&events, event) => {
                events.push(event);
                scripts[current].remove(0);
            }
            None => scripts[current] = script(chance, stock, thread),
            _ => current = chance.below(scripts.len()),
        }
        if events.len() == n {
            break;
        }
    }
    events
}

fn script(chance: &mut Chance, stock: &Stock, thread: u8) -> Vec<Event> {
    let lock = chance.one_of(&stock.locks);
    let mut events = Vec::new();
    if chance.percent(40) {
        events.push(random_access(chance, stock, thread));
    }
    events.push(acq(thread, lock));
    for _ in 0..chance.from_to(0, 2) {
        events.push(random_access(chance, stock, thread));
    }
    events.push(rel(thread, lock));
    if chance.percent(60) {
        events.push(random_access(chance, stock, thread));
    }
    events
}

/// How a recording is changed a little.
pub type Edit = fn(&mut Chance, &mut Vec<Event>);

/// One of these recordings with some events inserted, left out or exchanged.
pub fn like_the_book(
    chance: &mut Chance,
    stock: &Stock,
    tangles: &[Vec<Event>],
    edit: Edit,
) -> Vec<Event> {
    loop {
        let mut events = chance.one_of(tangles);
        for _ in 0..chance.from_to(1, 5) {
            edit(chance, &mut events);
        }
        let renamed: Vec<Event> = events.iter().map(|e| rename(stock, *e)).collect();
        let formed = (0..events.len()).all(|i| stock.allows(&renamed[..i], renamed[i]));
        if formed && (6..=9).contains(&events.len()) {
            return renamed;
        }
    }
}

/// The W of the worked examples and other tangles of three threads: here rule (iv) and the recorded
/// order of the others matter.
fn tangles() -> Vec<Vec<Event>> {
    let open = told("0w0 2+0 2w1 1r1 2r0 2-0 1w0");
    let crossed = told("2+0 2w1 2-0 0+0 0r1 0w0 0-0 1+0 1w0");
    let early = told("2+0 2w1 1r1 0w0 2r0 2-0 1r0");
    vec![told(W), open, crossed, early]
}

/// One event inserted, left out, moved or given to another thread.
pub fn edit(chance: &mut Chance, events: &mut Vec<Event>) {
    let place = chance.below(events.len());
    let thread = chance.below(4) as u8;
    let lock = chance.below(2) as u16;
    let cell = chance.below(3) as u16;
    match chance.below(6) {
        0 => events.insert(place, chance.one_of(&[r(thread, cell), w(thread, cell)])),
        1 => events.insert(
            place,
            chance.one_of(&[acq(thread, lock), rel(thread, lock)]),
        ),
        2 if events.len() > 1 => {
            events.remove(place);
        }
        3 => events[place].thread = thread,
        _ => {
            let event = events.remove(place);
            events.insert(chance.below(events.len() + 1), event);
        }
    }
}

fn rename(stock: &Stock, event: Event) -> Event {
    let threads: Vec<u16> = stock.threads.iter().map(|t| u16::from(*t)).collect();
    let objects = match event.kind {
        Kind::Read | Kind::Write => &stock.cells,
        Kind::Acquire | Kind::Release => &stock.locks,
        Kind::Fork | Kind::Join => &threads,
    };
    Event {
        thread: stock.threads[event.thread as usize % stock.threads.len()],
        kind: event.kind,
        object: objects[event.object as usize % objects.len()],
    }
}

/// Mostly none, now and then a short one, sometimes one that looks like an event or a trailer and
/// cannot be read.
fn random_preamble(chance: &mut Chance) -> Vec<u8> {
    match chance.below(12) {
        0 => b"night 7\n".to_vec(),
        1 => vec![0x00, 0x02, 0x01, 0x00],
        2 => vec![0x08, 0, 0, 0, 0, 0, 0x50, 0x4C],
        3 => (0..chance.from_to(1, 7))
            .map(|_| chance.below(256) as u8)
            .collect(),
        _ => Vec::new(),
    }
}
