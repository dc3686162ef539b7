//! Group 10, request Five: refusals 7, 15, 16 and 17 at each of their edges and beside their
//! neighbours, in files and handed to the writer. Those of refusal 7 are at the limits of request
//! Six too.

use crate::book::Book;
use crate::chance::Chance;
use crate::damaged::{ask_of_refused, one_more, spoil, Raw};
use crate::families::random_family;
use crate::forks::BESIDE_THE_CHILD;
use crate::recording::{file, told, Event, LIMITS};
use crate::writer::Handed;

/// Events and what is said of them: 0 for good, or a refusal's number and its event.
type Case = (&'static str, u8, usize);

/// Refusals 5, 6 and 7; a fork's and a join's object is a thread, cells and locks go further.
const FIELDS: [Case; 30] = [
    ("0f15", 0, 0),
    ("0j15", 0, 0),
    ("0f16", 7, 1),
    ("0j16", 7, 1),
    ("0f17", 7, 1),
    ("0j31", 7, 1),
    ("0f255", 7, 1),
    ("0j255", 7, 1),
    ("0f256", 7, 1),
    ("0j256", 7, 1),
    ("0f257", 7, 1),
    ("0j271", 7, 1),
    ("0f65535", 7, 1),
    ("0j65280", 7, 1),
    ("15f0", 0, 0),
    ("15j0", 0, 0),
    ("15f14 15j14", 0, 0),
    ("16f0", 6, 1),
    ("16j0", 6, 1),
    ("16f16", 6, 1),
    ("255j255", 6, 1),
    ("0+15 0+16 0+255 0-16", 0, 0),
    ("0w15 0w16 0r255", 0, 0),
    ("0+256", 0, 0),
    ("0w256", 0, 0),
    ("0f1 0w16 1+255", 0, 0),
    ("0f16 0f16", 7, 1),
    ("0j16 0j0", 7, 1),
    ("0f1 0f17", 7, 2),
    ("0j1 1f16", 7, 2),
];

/// Refusal 7 at the highest cell and lock, and one above. What one byte would hold of an object is
/// not enough.
const OBJECTS: [Case; 36] = [
    ("0rMOST", 0, 0),
    ("0wMOST", 0, 0),
    ("0+MOST", 0, 0),
    ("0+MOST 0-MOST", 0, 0),
    ("0rOVER", 7, 1),
    ("0wOVER", 7, 1),
    ("0+OVER", 7, 1),
    ("0-OVER", 7, 1),
    ("0+MOST 0-OVER", 7, 2),
    ("0r65535", 7, 1),
    ("0w65535", 7, 1),
    ("0+65535", 7, 1),
    ("0-65535", 7, 1),
    ("0fMOST", 7, 1),
    ("0jMOST", 7, 1),
    ("0fOVER", 7, 1),
    ("0jOVER", 7, 1),
    ("0r256 0w256 0+256 0-256", 0, 0),
    ("0w0 1r256 1r0 1w256 0r256", 0, 0),
    ("0wMOST 1rMOST", 0, 0),
    ("0w255 1wMOST", 0, 0),
    ("0+0 1+256 0-0 1-256", 0, 0),
    ("0+255 1+MOST 1-MOST", 0, 0),
    ("0-MOST", 9, 1),
    ("0+MOST 1-MOST", 9, 2),
    ("0+255 0-MOST", 9, 2),
    ("0+0 0-256", 9, 2),
    ("0+256 1+256", 8, 2),
    ("0+MOST 1+MOST", 8, 2),
    ("0+MOST 0+MOST 0-MOST 1+MOST", 8, 4),
    ("0+MOST 0+MOST 0-MOST 0-MOST 1+MOST", 0, 0),
    ("16wOVER", 6, 1),
    ("0wOVER 16w0", 7, 1),
    ("0j1 1wOVER", 7, 2),
    ("0+MOST 1+OVER", 7, 2),
    ("0j1 1wMOST", 17, 2),
];

/// The events of a case, where MOST stands for the highest cell and lock and OVER for one more.
pub fn events_of(text: &str) -> Vec<Event> {
    let most = LIMITS.object;
    let text = text.replace("MOST", &most.to_string());
    told(&text.replace("OVER", &(most + 1).to_string()))
}

/// Refusal 15: of oneself, and a second fork.
const FIFTEEN: [Case; 21] = [
    ("0f0", 15, 1),
    ("0j0", 15, 1),
    ("15f15", 15, 1),
    ("15j15", 15, 1),
    ("1j1", 15, 1),
    ("0w0 0f0", 15, 2),
    ("0w0 0j0", 15, 2),
    ("0f1 0f1", 15, 2),
    ("0f1 2f1", 15, 2),
    ("0f1 1f1", 15, 2),
    ("0f1 1j1", 15, 2),
    ("0f15 2f15", 15, 2),
    ("0f1 1w0 0f1", 15, 3),
    ("0f1 1w0 2f1", 15, 3),
    ("0f1 0f2 0f1", 15, 3),
    ("0f1 1w0 0j1 0f1", 15, 4),
    ("0f1 0j1 2f1", 15, 3),
    ("0j1 0f1 0f1", 15, 3),
    ("0f1 0f2 1f3 2f4 3f5", 0, 0),
    ("0f1 0j1 0j1 2j1", 0, 0),
    ("0f1 1f2 2f0", 16, 3),
];

/// Refusal 16: a fork of a thread that has an event of any kind.
const SIXTEEN: [Case; 13] = [
    ("1w0 0f1", 16, 2),
    ("1r0 0f1", 16, 2),
    ("1+0 0f1", 16, 2),
    ("1+0 1-0 0f1", 16, 3),
    ("1f2 0f1", 16, 2),
    ("1j2 0f1", 16, 2),
    ("15w0 0f15", 16, 2),
    ("0f1 1f0", 16, 2),
    ("0w0 1f0", 16, 2),
    ("1w0 0j1 0f1", 16, 3),
    ("1w0 0j1", 0, 0),
    ("0f1 1j0", 0, 0),
    ("2w0 0f1 1w0", 0, 0),
];

/// Refusal 17: an event of any kind by a joined thread.
const SEVENTEEN: [Case; 25] = [
    ("0j1 1r0", 17, 2),
    ("0j1 1w0", 17, 2),
    ("0j1 1+0", 17, 2),
    ("0j1 1-0", 17, 2),
    ("0j1 1f2", 17, 2),
    ("0j1 1j2", 17, 2),
    ("0j1 1j0", 17, 2),
    ("0j15 15w0", 17, 2),
    ("1w0 0j1 1w0", 17, 3),
    ("0f1 1w0 0j1 1r0", 17, 4),
    ("0f1 1w0 0j1 0w0 2w0 1w0", 17, 6),
    ("0j1 0f1", 0, 0),
    ("0j1 2f1", 0, 0),
    ("0j1 0f1 1w0", 17, 3),
    ("0j1 2f1 2w0 1w0", 17, 4),
    ("0j1 0j1", 0, 0),
    ("0j1 2j1 0w0 2w0", 0, 0),
    ("1w0 0j1 2j1 0j1", 0, 0),
    ("1j0 0w0", 17, 2),
    ("0f1 1j0 0w0", 17, 3),
    ("0f1 1j0 1w0", 0, 0),
    ("0j1 1w0 0j2 2w0", 17, 2),
    ("0j1 0j2 2w0 1w0", 17, 3),
    ("1+0 0j1", 0, 0),
    ("0f1 0j1", 0, 0),
];

/// Two refusals in one event: 15 before 16 before 17 before 8 and 9.
const IN_ONE_EVENT: [Case; 17] = [
    ("0w0 0f0", 15, 2),
    ("0f1 1w0 0f1", 15, 3),
    ("0f1 1w0 1f1", 15, 3),
    ("0j1 1f1", 15, 2),
    ("0j1 1j1", 15, 2),
    ("0j1 2f3 1f3", 15, 3),
    ("1w0 0j1 1f1", 15, 3),
    ("0f2 2w0 0j1 1f2", 15, 4),
    ("2w0 0j1 1f2", 16, 3),
    ("0j1 1f0", 16, 2),
    ("2+0 0j1 1+0", 17, 3),
    ("1+0 0j1 1-0", 17, 3),
    ("1+0 1+0 0j1 1+0", 17, 4),
    ("0j1 1-0", 17, 2),
    ("2+0 0j1 1-0", 17, 3),
    ("1+0 0j1 0+0", 8, 3),
    ("1+0 0j1 0-0", 9, 3),
];

/// Two refusals in two events: the earlier event's.
const IN_TWO_EVENTS: [Case; 14] = [
    ("0+0 1+0 2f2", 8, 2),
    ("2f2 0+0 1+0", 15, 1),
    ("0-0 2j2", 9, 1),
    ("0f1 0f1 0-0", 15, 2),
    ("1w0 0f1 0-0", 16, 2),
    ("0-0 1w0 0f1", 9, 1),
    ("1+0 0+0 0f1", 8, 2),
    ("0j1 1w0 0-0", 17, 2),
    ("0-0 0j1 1w0", 9, 1),
    ("0j1 1w0 0f0", 17, 2),
    ("0f0 0j1 1w0", 15, 1),
    ("1w0 0f1 0f0", 16, 2),
    ("0j1 1w0 2f0", 17, 2),
    ("0j1 2f0 1w0", 16, 2),
];

const CASES: [&[Case]; 7] = [
    &FIELDS,
    &FIFTEEN,
    &SIXTEEN,
    &SEVENTEEN,
    &IN_ONE_EVENT,
    &IN_TWO_EVENTS,
    &OBJECTS,
];

/// Events by threads that no case has.
const PADDING: &str = "13w7 12r7 11+77";

pub fn write(book: &mut Book) {
    book.group("group 10, refusals: 7, 15, 16 and 17");
    for (title, cases) in TITLES.iter().zip(CASES) {
        book.title(title);
        for case in cases {
            each_way(book, *case);
        }
    }
    book.title("the questions asked of files that are refused 7, 15, 16 and 17");
    for text in ["0f16", "0f0", "1w0 0f1", "0j1 1w0"] {
        book.recording(&file(&[], &told(text)));
        ask_of_refused(book);
    }
    unknown_kinds(book);
    book.title("a fork or a join more at each place");
    let more = "0f1 0j1 1f0 1j0 2f1 2j1 2f0 2j0 1f1 0f2 0j2 1j2";
    one_more(book, BESIDE_THE_CHILD, more);
    spoiled(book);
}

const TITLES: [&str; 7] = [
    "refusals 6 and 7: a fork's and a join's object is a thread, a lock's goes further",
    "refusal 15: a fork or a join of oneself, a second fork",
    "refusal 16: a fork of a thread that has an event",
    "refusal 17: an event of a joined thread; what is joined twice, before its fork or without",
    "15, 16, 17, then 8 or 9, in one event",
    "15, 16, 17, 8 and 9 in two events",
    "refusal 7: cells and locks to 1,023",
];

/// What is said of a case behind so many events.
fn said((_, number, event): Case, behind: usize) -> String {
    match number {
        0 => "good".to_string(),
        _ => format!("refused {number} at {}", event + behind),
    }
}

/// The case alone, behind and before other events; what is said is asserted.
fn each_way(book: &mut Book, case: Case) {
    let (events, padding) = (events_of(case.0), told(PADDING));
    let ways: [(Vec<Event>, usize); 3] = [
        (events.clone(), 0),
        ([&padding[..], &events].concat(), padding.len()),
        ([&events[..], &padding].concat(), 0),
    ];
    for (events, behind) in ways {
        book.recording(&file(&[], &events));
        let words = match &book.asked.judged {
            Ok(_) => "good".to_string(),
            Err(refusal) => refusal.words(),
        };
        assert_eq!(words, said(case, behind), "{case:?}");
    }
}

/// An unknown kind comes before all that is said of threads.
fn unknown_kinds(book: &mut Book) {
    book.title("refusal 5: kinds 7 and 0 of a joined thread, beside 15 and 16");
    for text in ["0j1 1w0", "0f1 0f1", "1w0 0f1", "0w0 0j0"] {
        for kind in [0, 7, 8, 255] {
            let mut raw = Raw::new(b"", &told(text));
            raw.events[1][1] = kind;
            book.recording(&raw.bytes());
            assert!(book.stdout.trim_end().ends_with("refused 5 at 2 | note 0"));
        }
    }
}

fn spoiled(book: &mut Book) {
    book.title("good recordings with forks and joins with a byte changed, dropped or added");
    let mut chance = Chance::new(105);
    for _ in 0..200 {
        let mut bytes = file(&[], &random_family(&mut chance));
        spoil(&mut bytes, &mut chance);
        book.recording_and_readable(&bytes);
    }
}

/// The cases as they are handed to the writer, alone and behind other events.
pub fn handed_cases() -> Vec<Handed> {
    let padding = told(PADDING);
    let mut all = Vec::new();
    for (text, _, _) in CASES.concat() {
        let events = events_of(text);
        all.push(Handed::new(b"", &events));
        all.push(Handed::new(b"forks", &[&padding[..], &events].concat()));
    }
    all
}
