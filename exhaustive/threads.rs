//! Forks and joins (request Five): a forked thread's events follow its fork, and a join follows all
//! events of the joined thread.

use crate::holds::idle;
use crate::recording::{r, w, Event, Kind, LIMITS, MAX_THREAD};

fn forks(event: &Event, thread: u16) -> bool {
    event.kind == Kind::Fork && event.object == thread
}

fn joins(event: &Event, thread: u16) -> bool {
    event.kind == Kind::Join && event.object == thread
}

/// Whether a thread, named as an object, is forked in these events.
pub fn is_forked(events: &[Event], thread: u16) -> bool {
    events.iter().any(|e| forks(e, thread))
}

/// Whether a thread, named as an object, is joined in these events.
pub fn is_joined(events: &[Event], thread: u16) -> bool {
    events.iter().any(|e| joins(e, thread))
}

/// Whether a thread, named as an object, has one of these events.
pub fn has_event(events: &[Event], thread: u16) -> bool {
    events.iter().any(|e| u16::from(e.thread) == thread)
}

/// The number of the event that forks this event's thread, if the recording has one.
pub fn fork_of(events: &[Event], event: Event) -> Option<usize> {
    let place = events.iter().position(|e| forks(e, event.thread.into()));
    place.map(|place| place + 1)
}

/// The numbers of all events of the thread that this event joins; none if it joins none.
pub fn joined_by(events: &[Event], event: Event) -> Vec<usize> {
    let of_joined = |e: &usize| u16::from(events[*e - 1].thread) == event.object;
    let all = 1..=events.len();
    match event.kind {
        Kind::Join => all.filter(of_joined).collect(),
        _ => Vec::new(),
    }
}

/// Whether the fork of this event's thread, if there is one, is in the list.
pub fn begun(events: &[Event], list: &[usize], event: Event) -> bool {
    fork_of(events, event).is_none_or(|fork| list.contains(&fork))
}

/// Whether all events of the thread that this event joins are in the list.
pub fn ended(events: &[Event], list: &[usize], event: Event) -> bool {
    let joined = joined_by(events, event);
    joined.iter().all(|e| list.contains(e))
}

/// Whether a recording has a fork or a join.
pub fn has_fork_or_join(events: &[Event]) -> bool {
    let of_thread = |e: &Event| matches!(e.kind, Kind::Fork | Kind::Join);
    events.iter().any(of_thread)
}

/// The recording as one would read it who knows of no forks and joins: with an idle read in place
/// of each.
pub fn without_forks(events: &[Event]) -> Vec<Event> {
    let read = |e: &Event| match e.kind {
        Kind::Fork | Kind::Join => idle(e.thread),
        _ => *e,
    };
    events.iter().map(read).collect()
}

/// A recording in which cells stand for forks and joins. A fork is a write of a cell of its own,
/// and the forked thread reads it first; a joined thread writes another cell last, and a join is a
/// read of that. So the old rules decide.
pub struct Told {
    pub events: Vec<Event>,
    /// The number that each event has there; entry 0 is for no event.
    pub numbers: Vec<usize>,
}

/// The cells that stand for the fork and the join of a thread: none that a recording may have, nor
/// that of an idle read.
fn fork_cell(thread: u16) -> u16 {
    LIMITS.object + 2 + thread
}

fn join_cell(thread: u16) -> u16 {
    fork_cell(MAX_THREAD.into()) + 1 + thread
}

/// Tells forks and joins by cells; the thread that is left out does not read its fork's cell.
pub fn told_by_cells(events: &[Event], left_out: Option<u8>) -> Told {
    let mut told = Told {
        events: Vec::new(),
        numbers: vec![0],
    };
    for (i, event) in events.iter().enumerate() {
        let thread = event.thread;
        let own = u16::from(thread);
        let first = !has_event(&events[..i], own);
        let last = !has_event(&events[i + 1..], own);
        if first && is_forked(events, own) && left_out != Some(thread) {
            told.events.push(r(thread, fork_cell(own)));
        }
        told.events.push(match event.kind {
            Kind::Fork => w(thread, fork_cell(event.object)),
            Kind::Join => r(thread, join_cell(event.object)),
            _ => *event,
        });
        told.numbers.push(told.events.len());
        if last && is_joined(events, own) {
            told.events.push(w(thread, join_cell(own)));
        }
    }
    told
}
