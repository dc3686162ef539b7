//! The definitions of paper 01, "When one access can meet another", each tested by its own words;
//! of locks as request Three has it, of forks and joins as request Five has it. Events are numbered
//! from 1; a list is a list of event numbers.

use crate::holds::{self, counts};
use crate::recording::{Event, Kind, MAX_THREAD};
use crate::threads::{begun, ended, fork_of, joined_by};

pub type List = Vec<usize>;

/// What question 2 says of an event.
#[derive(Clone, Copy, PartialEq, Eq, Debug)]
pub enum Seen {
    Write(usize),
    Start,
    NotARead,
}

fn at(events: &[Event], number: usize) -> Event {
    events[number - 1]
}

/// Observed write: the last write to the read's cell before it, by any thread, or the start.
pub fn observed(events: &[Event], number: usize) -> Seen {
    if number == 0 || number > events.len() || at(events, number).kind != Kind::Read {
        return Seen::NotARead;
    }
    let cell = at(events, number).object;
    match (1..number).rev().find(|w| writes(at(events, *w), cell)) {
        Some(write) => Seen::Write(write),
        None => Seen::Start,
    }
}

fn writes(event: Event, cell: u16) -> bool {
    event.kind == Kind::Write && event.object == cell
}

pub fn is_access(event: Event) -> bool {
    matches!(event.kind, Kind::Read | Kind::Write)
}

pub fn is_of_lock(event: Event) -> bool {
    matches!(event.kind, Kind::Acquire | Kind::Release)
}

/// Conflicting pair: a lower than b, different threads, same cell, at least one a write.
pub fn conflicting(events: &[Event], a: usize, b: usize) -> bool {
    if a == 0 || a >= b || b > events.len() {
        return false;
    }
    let (x, y) = (at(events, a), at(events, b));
    is_access(x)
        && is_access(y)
        && x.thread != y.thread
        && x.object == y.object
        && (x.kind == Kind::Write || y.kind == Kind::Write)
}

/// Correct reordering, clause by clause.
pub fn correct(events: &[Event], list: &[usize]) -> bool {
    none_twice(list)
        && beginnings_in_order(events, list)
        && no_lock_acquired_while_held(events, list)
        && reads_see_as_recorded(events, list)
        && forks_and_joins_obeyed(events, list)
}

fn none_twice(list: &[usize]) -> bool {
    (0..list.len()).all(|i| !list[..i].contains(&list[i]))
}

fn beginnings_in_order(events: &[Event], list: &[usize]) -> bool {
    (0..=MAX_THREAD).all(|thread| {
        let mut own = (1..=events.len()).filter(|e| at(events, *e).thread == thread);
        list.iter()
            .filter(|e| at(events, **e).thread == thread)
            .all(|e| own.next() == Some(*e))
    })
}

/// Of those acquires and releases that count, no acquire stands where its lock is held.
fn no_lock_acquired_while_held(events: &[Event], list: &[usize]) -> bool {
    (0..list.len()).all(|i| {
        let event = at(events, list[i]);
        event.kind != Kind::Acquire
            || !counts(events, list[i])
            || !held_after(events, &list[..i], event.object)
    })
}

/// Whether the lock is held after the list: of those that count, the last one is an acquire.
fn held_after(events: &[Event], list: &[usize], lock: u16) -> bool {
    let of_lock = |e: &usize| is_of_lock(at(events, *e)) && at(events, *e).object == lock;
    list.iter()
        .copied()
        .rev()
        .find(|e| of_lock(e) && counts(events, *e))
        .is_some_and(|e| at(events, e).kind == Kind::Acquire)
}

/// Whether another thread holds, after the list, the lock that this event takes. For the next
/// event of its thread after a correct list that says what the clause above says: an outermost
/// acquire finds its lock held by another or by nobody, an inner one by its own thread.
pub fn held_by_another(events: &[Event], list: &[usize], event: Event) -> bool {
    holds::held_by_another(list.iter().map(|e| at(events, *e)), event)
}

fn reads_see_as_recorded(events: &[Event], list: &[usize]) -> bool {
    (0..list.len()).all(|i| {
        at(events, list[i]).kind != Kind::Read
            || seen_after(events, &list[..i], at(events, list[i]).object)
                == observed(events, list[i])
    })
}

/// A forked thread's events follow its fork; a join follows all events of the joined thread.
fn forks_and_joins_obeyed(events: &[Event], list: &[usize]) -> bool {
    (0..list.len()).all(|i| {
        let event = at(events, list[i]);
        begun(events, &list[..i], event) && ended(events, &list[..i], event)
    })
}

/// What a read of the cell would see after the list.
pub fn seen_after(events: &[Event], list: &[usize], cell: u16) -> Seen {
    match list.iter().rev().find(|w| writes(at(events, **w), cell)) {
        Some(write) => Seen::Write(*write),
        None => Seen::Start,
    }
}

/// Whether the event is the next of its thread after the list (so it is not in the list):
/// the events of its thread that are in the list are just those before it in the recording.
pub fn next_of_thread(events: &[Event], list: &[usize], number: usize) -> bool {
    let thread = at(events, number).thread;
    let own = |e: &usize| at(events, *e).thread == thread;
    !list.contains(&number)
        && list.iter().copied().filter(own).count() == (1..number).filter(own).count()
}

/// For a correct list: whether it stays correct with this event put at its end.
pub fn fits_after(events: &[Event], list: &[usize], number: usize) -> bool {
    if !next_of_thread(events, list, number) {
        return false;
    }
    let event = at(events, number);
    if !begun(events, list, event) || !ended(events, list, event) {
        return false;
    }
    match event.kind {
        Kind::Read => seen_after(events, list, event.object) == observed(events, number),
        Kind::Acquire => !held_by_another(events, list, event),
        _ => true,
    }
}

/// Enabled: not in the list, the next of its thread, and the thread's fork, if there is one, is in
/// the list. What a read would see does not matter.
pub fn enabled(events: &[Event], list: &[usize], number: usize) -> bool {
    !list.contains(&number)
        && next_of_thread(events, list, number)
        && begun(events, list, at(events, number))
}

/// A list that brings both accesses next.
pub fn brings_next(events: &[Event], list: &[usize], a: usize, b: usize) -> bool {
    enabled(events, list, a) && enabled(events, list, b)
}

/// The causal cone of (a, b): place e tells whether event e is in it. What an event brings in
/// depends on that event alone, so the rules are used once of each that is in it.
pub fn cone(events: &[Event], a: usize, b: usize) -> Vec<bool> {
    let mut inside = vec![false; events.len() + 1];
    for e in [a, b] {
        take_earlier(events, &mut inside, e);
        take_fork(events, &mut inside, e);
    }
    let mut used = vec![false; events.len() + 1];
    while let Some(e) = (1..=events.len()).find(|e| inside[*e] && !used[*e]) {
        used[e] = true;
        use_rules(events, &mut inside, e, a, b);
    }
    inside
}

/// Rules (i) and (ii): every event before this one in its thread.
fn take_earlier(events: &[Event], inside: &mut [bool], number: usize) {
    for e in 1..number {
        if at(events, e).thread == at(events, number).thread {
            inside[e] = true;
        }
    }
}

/// Request Five: the fork of this event's thread.
fn take_fork(events: &[Event], inside: &mut [bool], number: usize) {
    if let Some(fork) = fork_of(events, at(events, number)) {
        inside[fork] = true;
    }
}

/// Rules (ii), (iii) and (iv) for one event of the cone, and those of request Five.
fn use_rules(events: &[Event], inside: &mut [bool], number: usize, a: usize, b: usize) {
    take_earlier(events, inside, number);
    take_fork(events, inside, number);
    for joined in joined_by(events, at(events, number)) {
        inside[joined] = true;
    }
    if let Seen::Write(write) = observed(events, number) {
        inside[write] = true;
    }
    let event = at(events, number);
    let of_pair = event.thread == at(events, a).thread || event.thread == at(events, b).thread;
    if event.kind == Kind::Acquire && !of_pair {
        if let Some(release) = matching_release(events, number) {
            inside[release] = true;
        }
    }
}

/// The last release of what this outermost acquire took, if there is one: the first release of the
/// lock that counts. An inner acquire is matched with none.
fn matching_release(events: &[Event], acquire: usize) -> Option<usize> {
    let lock = at(events, acquire).object;
    let gives_back = |e: &usize| {
        at(events, *e).kind == Kind::Release && at(events, *e).object == lock && counts(events, *e)
    };
    if !counts(events, acquire) {
        return None;
    }
    (acquire + 1..=events.len()).find(gives_back)
}

/// Whether all events outside the moved thread keep the recording's order among themselves.
pub fn keeps_order(events: &[Event], list: &[usize], moved: u8) -> bool {
    let others: List = list
        .iter()
        .copied()
        .filter(|e| at(events, *e).thread != moved)
        .collect();
    others.windows(2).all(|two| two[0] < two[1])
}

/// Whether the list is one that makes (a, b) reported.
pub fn is_candidate(events: &[Event], list: &[usize], inside: &[bool], a: usize, b: usize) -> bool {
    !inside[a]
        && !inside[b]
        && list.len() == inside.iter().filter(|i| **i).count()
        && list.iter().all(|e| inside[*e])
        && keeps_order(events, list, at(events, a).thread)
        && correct(events, list)
}

/// The one shown: all candidates are compared, and at the first place where two differ the one
/// whose event is not of the moved thread is chosen.
pub fn shown(events: &[Event], candidates: &[List], a: usize) -> Option<List> {
    let moved = at(events, a).thread;
    let mut best = candidates.first()?;
    for other in candidates {
        if preferred(events, other, best, moved) {
            best = other;
        }
    }
    Some(best.clone())
}

/// Whether the first list is preferred to the second.
fn preferred(events: &[Event], one: &[usize], two: &[usize], moved: u8) -> bool {
    let Some(place) = (0..one.len()).find(|i| one[*i] != two[*i]) else {
        return false;
    };
    let first_moved = at(events, one[place]).thread == moved;
    let second_moved = at(events, two[place]).thread == moved;
    assert!(
        first_moved != second_moved,
        "the preference does not decide"
    );
    second_moved
}
