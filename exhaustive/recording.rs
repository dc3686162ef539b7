//! A recording as bytes: how it is laid out and how it is judged
//! (paper 01, "A recording on the desk" and refusals 1 to 9; request One, refusal 13; request
//! Three, refusals 8 and 9; request Five, refusals 15, 16 and 17; request Six, the limits).

use crate::holds::{held_by_another, hold};
use crate::threads::{has_event, is_forked, is_joined};

/// What a recording may have at most.
pub struct Limits {
    pub events: usize,
    pub bytes: usize,
    /// The highest cell, and the highest lock.
    pub object: u16,
}

impl Limits {
    /// The longest preamble beside so many events.
    pub fn preamble(&self, events: usize) -> usize {
        self.bytes - size(0, events)
    }

    /// How many entries a lent list has that is long enough for every recording.
    pub fn long_list(&self) -> usize {
        self.events + 88
    }
}

pub const LIMITS: Limits = Limits {
    events: 1000,
    bytes: 16_384,
    object: 1023,
};

/// The limits before request Six. What lies beyond them is good now, and is asked still.
pub const OLD_LIMITS: Limits = Limits {
    events: 512,
    bytes: 4096,
    object: 255,
};

/// The highest thread, as an event's own and as the object of a fork or a join.
pub const MAX_THREAD: u8 = 15;

/// How many bytes an event has, and how many the trailer.
pub const EVENT: usize = 4;
pub const TRAILER: usize = 8;

/// How many bytes a file has with a preamble of so many and so many events.
pub fn size(preamble: usize, events: usize) -> usize {
    preamble + EVENT * events + TRAILER
}

#[derive(Clone, Copy, PartialEq, Eq, Debug)]
pub enum Kind {
    Read,
    Write,
    Acquire,
    Release,
    Fork,
    Join,
}

#[derive(Clone, Copy, PartialEq, Eq, Debug)]
pub struct Event {
    pub thread: u8,
    pub kind: Kind,
    pub object: u16,
}

#[derive(Clone, PartialEq, Eq, Debug, Default)]
pub struct Recording {
    pub preamble: Vec<u8>,
    pub events: Vec<Event>,
}

impl Recording {
    /// Whether it is beyond the limits before request Six.
    pub fn good_since_six(&self) -> bool {
        let n = self.events.len();
        n > OLD_LIMITS.events
            || size(self.preamble.len(), n) > OLD_LIMITS.bytes
            || self.events.iter().any(|e| e.object > OLD_LIMITS.object)
    }
}

/// A refusal's number and, where one belongs to it, the event's number.
#[derive(Clone, Copy, PartialEq, Eq, Debug)]
pub struct Refusal {
    pub number: u8,
    pub event: Option<usize>,
}

impl Refusal {
    pub fn plain(number: u8) -> Refusal {
        Refusal {
            number,
            event: None,
        }
    }

    fn at(number: u8, event: usize) -> Refusal {
        Refusal {
            number,
            event: Some(event),
        }
    }

    pub fn words(&self) -> String {
        match self.event {
            None => format!("refused {}", self.number),
            Some(event) => format!("refused {} at {}", self.number, event),
        }
    }
}

/// Judges a file: refusals 1, 2, 3, 4, then 13, then event by event 5, 6, 7, then 15, 16, 17, then
/// 8 or 9.
pub fn judge(bytes: &[u8]) -> Result<Recording, Refusal> {
    let first = first_event(bytes)?;
    let preamble = &bytes[..first];
    if !readable(preamble) {
        return Err(Refusal::plain(13));
    }
    Ok(Recording {
        preamble: preamble.to_vec(),
        events: judge_events(&bytes[first..bytes.len() - TRAILER])?,
    })
}

/// Whether a preamble may hold these bytes (request One): only 20 to 7E hex and 0A.
pub fn readable(preamble: &[u8]) -> bool {
    preamble
        .iter()
        .all(|byte| matches!(byte, 0x20..=0x7E | 0x0A))
}

/// A file that is refused 13 with each byte that its preamble may not hold made into one that it
/// may.
pub fn made_readable(bytes: &[u8]) -> Vec<u8> {
    let first = first_event(bytes).expect("a file that is not refused 1 to 4");
    let mut bytes = bytes.to_vec();
    for byte in &mut bytes[..first] {
        if !readable(&[*byte]) {
            *byte = 0x20 + *byte % 95;
        }
    }
    bytes
}

/// Judges the events one by one: refusals 5, 6, 7, then 15, 16, 17, then 8 or 9.
pub fn judge_events(bytes: &[u8]) -> Result<Vec<Event>, Refusal> {
    let mut events: Vec<Event> = Vec::new();
    for four in bytes.chunks(EVENT) {
        let number = events.len() + 1;
        let event = judge_event(four, number)?;
        judge_thread(&events, event, number)?;
        judge_lock(&events, event, number)?;
        events.push(event);
    }
    Ok(events)
}

/// Judges size and trailer and gives the place of the first event's first byte.
fn first_event(bytes: &[u8]) -> Result<usize, Refusal> {
    if bytes.len() < TRAILER || bytes.len() > LIMITS.bytes {
        return Err(Refusal::plain(1));
    }
    let trailer = &bytes[bytes.len() - TRAILER..];
    if trailer[6] != 0x50 || trailer[7] != 0x4C {
        return Err(Refusal::plain(2));
    }
    let count = u16::from_le_bytes([trailer[4], trailer[5]]) as usize;
    if count > LIMITS.events {
        return Err(Refusal::plain(3));
    }
    let distance = u32::from_le_bytes([trailer[0], trailer[1], trailer[2], trailer[3]]) as usize;
    if distance != size(0, count) || distance > bytes.len() {
        return Err(Refusal::plain(4));
    }
    Ok(bytes.len() - distance)
}

/// Judges the four bytes of one event: refusals 5, 6, 7.
fn judge_event(four: &[u8], number: usize) -> Result<Event, Refusal> {
    let kind = match four[1] {
        1 => Kind::Read,
        2 => Kind::Write,
        3 => Kind::Acquire,
        4 => Kind::Release,
        5 => Kind::Fork,
        6 => Kind::Join,
        _ => return Err(Refusal::at(5, number)),
    };
    if four[0] > MAX_THREAD {
        return Err(Refusal::at(6, number));
    }
    let object = u16::from_le_bytes([four[2], four[3]]);
    if object > most_object(kind) {
        return Err(Refusal::at(7, number));
    }
    Ok(Event {
        thread: four[0],
        kind,
        object,
    })
}

/// The object of a fork or a join is a thread; cells and locks go further.
fn most_object(kind: Kind) -> u16 {
    match kind {
        Kind::Fork | Kind::Join => MAX_THREAD.into(),
        _ => LIMITS.object,
    }
}

/// Well-formed: no thread forks or joins itself, and none is forked twice (15); none is forked that
/// has an event (16); a joined thread has no event more (17).
fn judge_thread(before: &[Event], event: Event, number: usize) -> Result<(), Refusal> {
    let of_thread = matches!(event.kind, Kind::Fork | Kind::Join);
    let fork = event.kind == Kind::Fork;
    let of_itself = of_thread && event.object == u16::from(event.thread);
    if of_itself || fork && is_forked(before, event.object) {
        return Err(Refusal::at(15, number));
    }
    if fork && has_event(before, event.object) {
        return Err(Refusal::at(16, number));
    }
    if is_joined(before, event.thread.into()) {
        return Err(Refusal::at(17, number));
    }
    Ok(())
}

/// Well-formed: an acquire takes a lock that no other thread holds (8), a release is by the
/// holder (9).
fn judge_lock(before: &[Event], event: Event, number: usize) -> Result<(), Refusal> {
    let before = before.iter().copied();
    match event.kind {
        Kind::Acquire if held_by_another(before.clone(), event) => Err(Refusal::at(8, number)),
        Kind::Release if hold(before, event.object).map(|h| h.thread) != Some(event.thread) => {
            Err(Refusal::at(9, number))
        }
        _ => Ok(()),
    }
}

/// Whether the event may come next in a well-formed recording.
pub fn may_come_next(events: &[Event], event: Event) -> bool {
    judge_thread(events, event, 0).is_ok() && judge_lock(events, event, 0).is_ok()
}

/// The number of different threads that have an event.
pub fn count_threads(events: &[Event]) -> usize {
    (0..=MAX_THREAD)
        .filter(|t| events.iter().any(|e| e.thread == *t))
        .count()
}

pub fn event_bytes(event: &Event) -> [u8; EVENT] {
    let kind = match event.kind {
        Kind::Read => 1,
        Kind::Write => 2,
        Kind::Acquire => 3,
        Kind::Release => 4,
        Kind::Fork => 5,
        Kind::Join => 6,
    };
    let object = event.object.to_le_bytes();
    [event.thread, kind, object[0], object[1]]
}

/// The trailer of so many events. If they are more than it can count, it is wrong.
pub fn trailer(events: usize) -> [u8; TRAILER] {
    let d = (size(0, events) as u32).to_le_bytes();
    let c = (events as u16).to_le_bytes();
    [d[0], d[1], d[2], d[3], c[0], c[1], 0x50, 0x4C]
}

/// The file of a preamble and events.
pub fn file(preamble: &[u8], events: &[Event]) -> Vec<u8> {
    let mut bytes = preamble.to_vec();
    for event in events {
        bytes.extend(event_bytes(event));
    }
    bytes.extend(trailer(events.len()));
    bytes
}

/// Short ways to write events down.
pub fn r(thread: u8, cell: u16) -> Event {
    made(thread, Kind::Read, cell)
}

pub fn w(thread: u8, cell: u16) -> Event {
    made(thread, Kind::Write, cell)
}

pub fn acq(thread: u8, lock: u16) -> Event {
    made(thread, Kind::Acquire, lock)
}

pub fn rel(thread: u8, lock: u16) -> Event {
    made(thread, Kind::Release, lock)
}

pub fn fork(thread: u8, child: u16) -> Event {
    made(thread, Kind::Fork, child)
}

pub fn join(thread: u8, child: u16) -> Event {
    made(thread, Kind::Join, child)
}

fn made(thread: u8, kind: Kind, object: u16) -> Event {
    Event {
        thread,
        kind,
        object,
    }
}

/// Events from words such as `0w1 0+0 2r1 0-0 0f3`: thread, then r, w, + (acquire), - (release),
/// f (fork) or j (join), then the object.
pub fn told(text: &str) -> Vec<Event> {
    text.split_whitespace().map(told_event).collect()
}

fn told_event(word: &str) -> Event {
    let place = word.find(['r', 'w', '+', '-', 'f', 'j']);
    let place = place.expect("a kind");
    let thread = word[..place].parse().expect("a thread");
    let object = word[place + 1..].parse().expect("an object");
    match &word[place..=place] {
        "r" => r(thread, object),
        "w" => w(thread, object),
        "+" => acq(thread, object),
        "-" => rel(thread, object),
        "f" => fork(thread, object),
        _ => join(thread, object),
    }
}
