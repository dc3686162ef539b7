//! Who holds a lock and how deep (request Three): an acquire by the holder deepens the hold, a
//! release undoes one level. Only an outermost acquire and its last release count in matching, in
//! cone rule (iv) and in "no lock acquired while held"; the inner ones are events as any other.

use crate::recording::{r, Event, Kind, LIMITS};
use crate::rules::is_of_lock;

/// A lock's holder, and how many of the holder's acquires are not undone: one or more.
#[derive(Clone, Copy, PartialEq, Eq, Debug)]
pub struct Hold {
    pub thread: u8,
    pub depth: usize,
}

/// Who holds the lock after these events and how deep, told from the first event on.
pub fn hold(events: impl Iterator<Item = Event>, lock: u16) -> Option<Hold> {
    events
        .filter(|event| event.object == lock)
        .fold(None, hold_after)
}

/// Who holds the lock of this event after it. An acquire of what another thread holds and a release
/// of what the thread does not hold change nothing: there are none where this is asked.
fn hold_after(before: Option<Hold>, event: Event) -> Option<Hold> {
    let thread = event.thread;
    let own = before.is_some_and(|hold| hold.thread == thread);
    let depth = before.map_or(0, |hold| hold.depth);
    match event.kind {
        Kind::Acquire if own || before.is_none() => Some(Hold {
            thread,
            depth: depth + 1,
        }),
        Kind::Release if own => (depth > 1).then_some(Hold {
            thread,
            depth: depth - 1,
        }),
        _ => before,
    }
}

/// Whether a thread other than the event's holds the lock of that event after these events.
pub fn held_by_another(before: impl Iterator<Item = Event>, event: Event) -> bool {
    hold(before, event.object).is_some_and(|hold| hold.thread != event.thread)
}

/// The event's thread's own depth at its lock after these events: acquires less releases of it.
fn own_depth(events: &[Event], of: Event) -> usize {
    let own = |e: &&Event| e.thread == of.thread && e.object == of.object;
    let kinds = events.iter().filter(own).map(|e| e.kind);
    kinds.fold(0, |depth, kind| match kind {
        Kind::Acquire => depth + 1,
        Kind::Release => depth - 1,
        _ => depth,
    })
}

/// Whether the event of this number is an outermost acquire or a last release: its thread does not
/// hold the lock before it, or not after it. The thread's own events decide that.
pub fn counts(events: &[Event], number: usize) -> bool {
    let event = events[number - 1];
    match event.kind {
        Kind::Acquire => own_depth(&events[..number - 1], event) == 0,
        Kind::Release => own_depth(&events[..number], event) == 0,
        _ => false,
    }
}

/// Whether the event takes a lock again after these events.
pub fn takes_again(before: &[Event], event: Event) -> bool {
    let hold = || hold(before.iter().copied(), event.object);
    event.kind == Kind::Acquire && hold().is_some_and(|hold| hold.thread == event.thread)
}

/// Whether a lock is taken again in a recording.
pub fn has_reentry(events: &[Event]) -> bool {
    (0..events.len()).any(|i| takes_again(&events[..i], events[i]))
}

/// How deep the deepest hold of a recording is.
pub fn deepest(events: &[Event]) -> usize {
    let depths = (1..=events.len()).map(|number| own_depth(&events[..number], events[number - 1]));
    depths.max().unwrap_or(0)
}

/// A read of a cell that no recording may have: it stands in its thread as any event, and nothing else
/// depends on it.
pub fn idle(thread: u8) -> Event {
    r(thread, LIMITS.object + 1)
}

/// The recording with an idle read in place of each inner acquire and release. Nothing in it is
/// taken again, and by request Three every verdict and list is the same.
pub fn without_inner(events: &[Event]) -> Vec<Event> {
    (1..=events.len())
        .map(|number| match events[number - 1] {
            event if is_of_lock(event) && !counts(events, number) => idle(event.thread),
            event => event,
        })
        .collect()
}

/// The recording as one would read it who gives a lock back with the first release: with an idle
/// read in place of each acquire of what is held then, and of each release of what is not.
pub fn freed_by_first(events: &[Event]) -> Vec<Event> {
    let mut read: Vec<Event> = Vec::new();
    for event in events {
        let held = hold(read.iter().copied(), event.object).is_some();
        read.push(match event.kind {
            Kind::Acquire if held => idle(event.thread),
            Kind::Release if !held => idle(event.thread),
            _ => *event,
        });
    }
    read
}
