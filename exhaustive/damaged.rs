//! Group 5: damaged files, each refusal 1 to 9 and 13 at each of its edges, and two damages at
//! once; 15, 16 and 17 among these.

use crate::book::Book;
use crate::chance::Chance;
use crate::preambles;
use crate::questions::AREA;
use crate::random::random_events;
use crate::recording::{acq, event_bytes, file, r, rel, size, told, trailer, w, Event};
use crate::recording::{Limits, LIMITS, OLD_LIMITS, TRAILER};
use crate::reentry::random_reentry;
use crate::short::every_without_reentry;
use crate::worked::{Q, R, Z};

/// A file in parts, each of which may be wrong.
#[derive(Clone)]
pub struct Raw {
    pub preamble: Vec<u8>,
    pub events: Vec<[u8; 4]>,
    trailer: [u8; TRAILER],
}

impl Raw {
    pub fn new(preamble: &[u8], events: &[Event]) -> Raw {
        Raw {
            preamble: preamble.to_vec(),
            events: events.iter().map(event_bytes).collect(),
            trailer: trailer(events.len()),
        }
    }

    pub fn bytes(&self) -> Vec<u8> {
        [&self.preamble, &self.events.concat(), &self.trailer[..]].concat()
    }

    fn set_count(&mut self, count: u16) {
        self.trailer[4..6].copy_from_slice(&count.to_le_bytes());
    }

    fn set_distance(&mut self, distance: u32) {
        self.trailer[..4].copy_from_slice(&distance.to_le_bytes());
    }

    fn set_object(&mut self, place: usize, object: u16) {
        self.events[place][2..].copy_from_slice(&object.to_le_bytes());
    }
}

pub fn write(book: &mut Book) {
    book.group("group 5: damaged files");
    sizes(book);
    marks(book);
    counts(book);
    distances(book);
    preambles::write(book);
    fields(book);
    locks(book);
    two_at_once(book);
    at_random(book);
    deep_locks(book);
    book.title("two damages at once, one of 15, 16, 17 or an unknown kind: 7, 15, 16, 17, 8 or 9");
    two_of(book, &newer_pairs(&damages()));
    book.title("two damages at once, one of them beyond a limit of request Six: 1, 3 or 7");
    let older = [damages(), newer_damages()].concat();
    two_of(book, &pairs_with(&damages_beyond(), &older));
}

fn sizes(book: &mut Book) {
    book.title("refusal 1: sizes 0 to 9; before request Six: 4,095 to 4,097");
    let empty = file(&[], &[]);
    for size in 0..=9 {
        book.recording(&vec![0; size]);
        book.recording(&vec![0xFF; size]);
        let longer = [&[0x2E][..], &empty].concat();
        book.recording(&longer[9 - size..]);
    }
    longest_files(book, &OLD_LIMITS, r(0, 0));
    book.title("refusal 1: sizes 16,383 to 16,385");
    longest_files(book, &LIMITS, w(0, 0));
    book.title("refusal 1: beginnings and ends of Q");
    let whole = file(&[], &told(Q));
    for size in 0..8 {
        book.recording(&whole[..size]);
        book.recording(&whole[whole.len() - size..]);
    }
    ask_of_refused(book);
}

/// Files as long as may be, and longer ones, with and without this event again and again.
fn longest_files(book: &mut Book, limits: &Limits, event: Event) {
    let (most, n) = (limits.bytes, limits.events);
    for bytes in [most - 1, most, most + 1, most + 2, most + 904] {
        book.recording(&vec![0; bytes]);
        for n in [0, 1, 2, n - 1, n, n + 1] {
            book.recording(&file(&vec![0x20; bytes - size(0, n)], &vec![event; n]));
        }
    }
}

/// The questions asked of a refused file all give its refusal; files that a later request made good
/// are asked them too.
pub fn ask_of_refused(book: &mut Book) {
    book.ask2(1);
    book.ask22(0);
    book.ask22(OLD_LIMITS.long_list());
    book.ask3(1, 8, 8, AREA);
    book.ask3(0, 0, 0, 0);
    book.ask4(0, 0, AREA);
    book.ask4(1, 2, 0);
    book.ask5(1, 8, &[5, 6, 7]);
    book.ask6(b"operator");
    book.ask6(&[]);
}

fn marks(book: &mut Book) {
    book.title("refusal 2: each byte of the mark");
    for (preamble, events) in [(&b""[..], vec![]), (b"", told(Q)), (b"night 3\n", told(Q))] {
        for (place, byte) in [(6, 0x4C), (6, 0), (6, 0x51), (6, 0xD0), (7, 0x50), (7, 0)] {
            let mut raw = Raw::new(preamble, &events);
            raw.trailer[place] = byte;
            book.recording(&raw.bytes());
        }
        for (first, second) in [
            (0x4C, 0x50),
            (0x50, 0x4D),
            (0x50, 0x6C),
            (0, 0),
            (0xFF, 0xFF),
        ] {
            let mut raw = Raw::new(preamble, &events);
            raw.trailer[6] = first;
            raw.trailer[7] = second;
            book.recording(&raw.bytes());
        }
        let mut whole = file(preamble, &events);
        whole.push(0x0A);
        book.recording(&whole);
        ask_of_refused(book);
    }
}

fn counts(book: &mut Book) {
    book.title(
        "refusals 3, 4 and 13: the count of events, with and without the distance that fits it",
    );
    claimed_counts(book, &OLD_LIMITS, &[0, 1, 2, 8, 256, OLD_LIMITS.events]);
    ask_of_refused(book);
    book.title("refusals 3 and 4: the count of events around 1,000");
    claimed_counts(book, &LIMITS, &[0, 8, LIMITS.events]);
    ask_of_refused(book);
}

/// With so many events, other counts and those around a limit.
fn claimed_counts(book: &mut Book, limits: &Limits, numbers: &[usize]) {
    let most = limits.events as u16;
    for n in numbers {
        let there = vec![w(1, 9); *n];
        let n = *n as u16;
        let claimed = [
            n.wrapping_sub(1),
            n + 1,
            n.swap_bytes(),
            n + 256,
            most,
            most + 1,
            most + 2,
            1024,
            32768,
            65535,
        ];
        for count in claimed {
            for preamble in [&b""[..], b"12 bytes all"] {
                let mut raw = Raw::new(preamble, &there);
                raw.set_count(count);
                book.recording(&raw.bytes());
                raw.set_distance(size(0, count.into()) as u32);
                // a lower count leaves events in the preamble
                book.recording_and_readable(&raw.bytes());
            }
        }
    }
}

fn distances(book: &mut Book) {
    book.title("refusal 4: the distance");
    for events in [vec![], vec![w(0, 0)], told(Q)] {
        for preamble in [
            &b""[..],
            b"abc",
            b"four",
            b"as long as ten events are, 40 bytes ....",
        ] {
            let right = size(0, events.len()) as u32;
            let length = right + preamble.len() as u32;
            let wrong = [
                right - 1,
                right + 1,
                right - 4,
                right + 4,
                right | 0x100,
                right | 0x1_0000,
                right | 0x100_0000,
                right | 0x8000_0000,
                right.swap_bytes(),
                length,
                length + 1,
                0,
                u32::MAX,
                0x8000_0000,
            ];
            for distance in wrong {
                let mut raw = Raw::new(preamble, &events);
                raw.set_distance(distance);
                book.recording(&raw.bytes());
            }
        }
    }
    ask_of_refused(book);
}

/// Objects around the limit before request Six, around the limit and far beyond it.
const OBJECTS: [u16; 10] = [
    OLD_LIMITS.object,
    OLD_LIMITS.object + 1,
    OLD_LIMITS.object + 2,
    511,
    LIMITS.object,
    LIMITS.object + 1,
    LIMITS.object + 2,
    2047,
    0xFF00,
    65535,
];

fn fields(book: &mut Book) {
    book.title(
        "refusals 5, 6, 7: kind, thread and object of the first, a middle and the last event",
    );
    let first_of = [
        (1, 0),
        (1, 5),
        (1, 255),
        (1, 6),
        (1, 7),
        (1, 8),
        (1, 0x81),
        (0, 15),
        (0, 16),
        (0, 17),
        (0, 255),
    ];
    let plain = told("0w1 1r1 2w0 3r3 0w1");
    for (events, places) in [
        (vec![w(0, 0)], vec![0]),
        (told(Q), vec![0, 1, 4, 7]),
        (plain, vec![0, 2, 4]),
    ] {
        for place in places {
            for (field, value) in first_of {
                let mut raw = Raw::new(b"", &events);
                raw.events[place][field] = value;
                book.recording(&raw.bytes());
            }
            for object in OBJECTS {
                let mut raw = Raw::new(b"n", &events);
                raw.set_object(place, object);
                book.recording(&raw.bytes());
            }
            ask_of_refused(book);
        }
    }
}

/// Locks taken while held or given back by another, and some good ones among them: those by the
/// holder are good by request Three.
pub const LOCKS: [&str; 17] = [
    "0+0 0+0",
    "0+0 1+0",
    "15+255 14+255",
    "0+0 0+1 0+0",
    "0+0 0-0 1+0 0+0",
    "0+0 0-0 0+0 0-0",
    "0+0 0+1 0-0 0-1",
    "0+0 1+1 0+1",
    "0-0",
    "0+0 1-0",
    "0+0 0-1",
    "0+0 0-0 0-0",
    "0+0 0-0 1-0",
    "0+0 1+1 0-1",
    "0+255 0-0",
    "0+0 0-0 1+0 0-0",
    "0w0 0r0 0+0 1w0",
];

/// Holds two and three deep, and what another thread or a release too many meets at each depth.
pub const DEEP_LOCKS: [&str; 24] = [
    "0+0 0+0 1+0",
    "0+0 0+0 0-0 1+0",
    "0+0 0+0 0-0 0-0 1+0",
    "0+0 0+0 1-0",
    "0+0 0+0 0-0 1-0",
    "0+0 0+0 0-0 0-0 1-0",
    "0+0 0+0 0-0 0-0 0-0",
    "0+0 0+0 0+0 0-0 0-0 1+0",
    "0+0 0+0 0+0 0-0 0-0 0-0 1+0",
    "0+0 0+0 0-0 0+0 0-0 1+0",
    "0+0 0+0 0-0 0+0 0-0 0-0 1+0",
    "0+0 0-0 1+0 1+0 0+0",
    "0+0 0-0 1+0 1+0 1-0 0+0",
    "0+0 0-0 1+0 1+0 1-0 1-0 0+0 0+0",
    "0+0 0+0 0-0 0-0 1+0 1+0 0-0",
    "0+0 0+1 0+0 0-1 0-0 1+0",
    "0+0 0+1 0+0 0-1 0-0 1+1",
    "0+0 0+1 0+0 0-0 0-0 1+0",
    "0+0 0+1 0+0 0-0 0-0 1+1",
    "0+0 0+1 0+0 0-0 0-1 0-1",
    "0+0 0+0 1+1 1+1 0-0 1-1 0+1",
    "0+0 0+0 1+1 1+1 0-0 1-1 1-0",
    "15+255 15+255 15-255 15-255 14+255 15-255",
    "15+255 15+255 15-255 14+255",
];

/// Each case alone, behind and before other events, and twice.
fn lock_cases(book: &mut Book, cases: &[&str]) {
    let padding = told("3w7 4r7 5+77");
    for case in cases.iter().map(|case| told(case)) {
        book.recording(&file(&[], &case));
        book.recording(&file(b"p", &[&padding[..], &case].concat()));
        book.recording(&file(&[], &[&case[..], &padding].concat()));
        book.recording(&file(&[], &[&case[..], &case].concat()));
    }
    ask_of_refused(book);
}

fn locks(book: &mut Book) {
    book.title("refusals 8 and 9: held locks, releases of what is not held");
    lock_cases(book, &LOCKS);
    for place in 0..8 {
        let mut events = told(R);
        events.remove(place);
        book.recording(&file(&[], &events));
        events.insert(place, acq(2, 0));
        book.recording(&file(&[], &events));
        events[place] = rel(2, 0);
        book.recording(&file(&[], &events));
    }
    ask_of_refused(book);
    for (text, place) in [Q, R].iter().flat_map(|t| (0..=8).map(move |p| (t, p))) {
        for event in told("0+0 1+0 0-0 1-0 0-1") {
            let mut events = told(text);
            events.insert(place, event);
            book.recording(&file(&[], &events));
        }
    }
}

pub type Damage = (u8, fn(&mut Raw, usize));

/// One damage of each refusal, in the order in which they are judged; those of an event are done
/// to the event at the given place. Those of 1 and 7 are none since request Six, and that of 3 is
/// one of 4, since the distance does not fit.
pub fn damages() -> Vec<Damage> {
    vec![
        (1, |raw, _| raw.preamble = vec![0x2E; OLD_LIMITS.bytes]),
        (2, |raw, _| raw.trailer[7] = 0x4D),
        (3, |raw, _| raw.set_count(OLD_LIMITS.events as u16 + 1)),
        (4, |raw, _| raw.trailer[0] ^= 4),
        (13, |raw, _| raw.preamble.push(0x09)),
        // a fork since request Five: of oneself or of a thread that has an event
        (5, |raw, i| raw.events[i][1] = 5),
        (6, |raw, i| raw.events[i][0] = 16),
        (7, |raw, i| raw.events[i][3] = 1),
        (8, |raw, i| raw.events[i] = [1, 3, 4, 0]),
        (9, |raw, i| raw.events[i] = [1, 4, 4, 0]),
    ]
}

/// Those of request Five, and an unknown kind.
pub fn newer_damages() -> Vec<Damage> {
    vec![
        (5, |raw, i| raw.events[i][1] = 7),
        (15, |raw, i| raw.events[i] = [1, 6, 1, 0]),
        (16, |raw, i| raw.events[i] = [1, 5, 0, 0]),
        (17, |raw, i| {
            raw.events[i - 1] = [2, 6, 3, 0];
            raw.events[i] = [3, 2, 0, 0];
        }),
    ]
}

/// Those beyond a limit since request Six.
pub fn damages_beyond() -> Vec<Damage> {
    vec![
        (1, |raw, _| raw.preamble = vec![0x2E; LIMITS.bytes]),
        (3, |raw, _| raw.set_count(LIMITS.events as u16 + 1)),
        (7, |raw, i| raw.set_object(i, LIMITS.object + 1)),
    ]
}

fn two_at_once(book: &mut Book) {
    book.title("two damages at once: 1, 2, 3, 4, 13, then event by event 5, 6, 7, then 8 or 9");
    two_of(book, &pairs_of(&damages(), &damages()));
}

/// Takes files with two damages each.
fn two_of(book: &mut Book, damaged: &[Raw]) {
    // without the damages 7 entries would be just enough; refusal 10 is judged after all of them
    let lists = [0, 6, 7, OLD_LIMITS.long_list()];
    for (raw, entries) in damaged.iter().zip(lists.iter().cycle()) {
        book.recording(&raw.bytes());
        book.ask22(*entries);
    }
}

/// The recording that the damages are done to.
pub const TO_DAMAGE: &str = "0+4 0w0 1r0 1w1 0r1 0-4";

/// Every two of the damages of which one is of request Five or an unknown kind.
pub fn newer_pairs(older: &[Damage]) -> Vec<Raw> {
    pairs_with(&newer_damages(), older)
}

/// Every two of the damages of which one is a newer one.
pub fn pairs_with(newer: &[Damage], older: &[Damage]) -> Vec<Raw> {
    [
        pairs_of(older, newer),
        pairs_of(newer, older),
        pairs_of(newer, newer),
    ]
    .concat()
}

/// Every two of the damages, one of these and one of those. Where both are done to events, they are
/// done to the same event, to an earlier and a later one, and the other way round.
pub fn pairs_of(these: &[Damage], those: &[Damage]) -> Vec<Raw> {
    let of_event = |number: u8| matches!(number, 5..=9 | 15..=17);
    let mut damaged = Vec::new();
    for (first, one) in these {
        for (second, two) in those {
            for (i, j) in [(2, 2), (1, 4), (4, 1), (3, 4)] {
                if (i, j) != (1, 4) && !(of_event(*first) && of_event(*second)) {
                    continue;
                }
                let mut raw = Raw::new(b"", &told(TO_DAMAGE));
                two(&mut raw, j);
                one(&mut raw, i);
                damaged.push(raw);
            }
        }
    }
    damaged
}

/// A recording with one of these events more at each place.
pub fn one_more(book: &mut Book, recording: &str, more: &str) {
    for place in 0..=told(recording).len() {
        for event in told(more) {
            let mut events = told(recording);
            events.insert(place, event);
            book.recording(&file(&[], &events));
        }
    }
}

/// Request Three: refusals 8 and 9 go by the holder and the depth.
fn deep_locks(book: &mut Book) {
    book.title("refusals 8 and 9: locks held two and three deep");
    lock_cases(book, &DEEP_LOCKS);
    book.title("refusals 8 and 9: an acquire or a release more in Z at each place");
    one_more(book, Z, "0+0 1+0 2+0 0-0 1-0 2-0");
    book.title("good recordings with re-entry with a byte changed, dropped or added");
    let mut chance = Chance::new(55);
    for _ in 0..200 {
        let mut bytes = file(&[], &random_reentry(&mut chance));
        spoil(&mut bytes, &mut chance);
        book.recording_and_readable(&bytes);
    }
}

/// Good recordings of groups 3 and 4 with a byte changed, dropped or added.
fn at_random(book: &mut Book) {
    book.title("good recordings of groups 3 and 4 with a byte changed, dropped or added");
    let mut chance = Chance::new(5);
    let short = every_without_reentry(4);
    for turn in 0..700 {
        let events = if turn % 3 == 0 {
            chance.one_of(&short)
        } else {
            random_events(&mut chance)
        };
        let preamble = chance.one_of(&[&b""[..], b"", b"note"]);
        let mut bytes = file(preamble, &events);
        spoil(&mut bytes, &mut chance);
        book.recording_and_readable(&bytes);
        if chance.percent(10) {
            ask_of_refused(book);
        }
    }
}

pub fn spoil(bytes: &mut Vec<u8>, chance: &mut Chance) {
    let place = chance.below(bytes.len());
    let of_event = chance.below(bytes.len().max(9) - 8);
    match chance.below(8) {
        0..=2 => bytes[of_event] = chance.one_of(&[0, 1, 2, 3, 4, 5, 15, 16, 255]),
        3 => bytes[place] = chance.below(256) as u8,
        4 => bytes[of_event] ^= 1 << chance.below(8),
        5 => bytes[place] = bytes[place].wrapping_add(1),
        6 => {
            bytes.remove(place);
        }
        _ => bytes.insert(place, chance.below(256) as u8),
    }
}
