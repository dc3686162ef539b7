//! Everything there is to know of one good recording: its conflicting pairs, which are reported,
//! what is shown for them and, for short recordings, which are predictable.

use crate::enumerate::{all_correct, correct_merges, every_correct};
use crate::holds::{freed_by_first, has_reentry, without_inner};
use crate::recording::{count_threads, Event, Recording};
use crate::rules::{brings_next, cone, conflicting, correct, is_candidate, shown, List};
use crate::threads::{fork_of, has_event, has_fork_or_join, told_by_cells, without_forks, Told};

/// Up to so many events by up to so many threads every correct reordering is listed.
pub const SHORT: usize = 9;
pub const SHORT_THREADS: usize = 6;

/// Up to so many events by at most two threads every correct reordering is visited.
pub const SHORT_BY_TWO: usize = 14;

pub struct Pair {
    pub a: usize,
    pub b: usize,
    /// The reordering shown, if the pair is reported.
    pub shown: Option<List>,
    /// Whether the pair is a predictable race, where every correct reordering was listed.
    pub predictable: Option<bool>,
}

pub struct Study {
    pub recording: Recording,
    pub threads: usize,
    pub pairs: Vec<Pair>,
    /// Every correct reordering, for short recordings.
    pub lists: Option<Vec<List>>,
}

impl Study {
    pub fn new(recording: Recording) -> Study {
        let events = &recording.events;
        let threads = count_threads(events);
        let short = events.len() <= SHORT && threads <= SHORT_THREADS;
        let lists = short.then(|| all_correct(events));
        let visited = short || threads <= 2 && events.len() <= SHORT_BY_TWO;
        let predictable = match &lists {
            Some(lists) => Some(predictable_of_all(events, lists)),
            None if visited => Some(predictable_pairs(events)),
            None => (threads <= 2).then(|| predictable_by_two(events)),
        };
        let pairs: Vec<Pair> = conflicting_pairs(events)
            .into_iter()
            .map(|pair| study_pair(events, lists.as_deref(), predictable.as_deref(), pair))
            .collect();
        check_inner(events, &pairs, visited);
        check_forks(events, &pairs, visited);
        Study {
            threads,
            pairs,
            lists,
            recording,
        }
    }

    pub fn events(&self) -> &[Event] {
        &self.recording.events
    }

    pub fn pair(&self, a: usize, b: usize) -> Option<&Pair> {
        self.pairs.iter().find(|p| (p.a, p.b) == (a, b))
    }
}

pub fn conflicting_pairs(events: &[Event]) -> Vec<(usize, usize)> {
    let mut pairs = Vec::new();
    for a in 1..=events.len() {
        for b in a + 1..=events.len() {
            if conflicting(events, a, b) {
                pairs.push((a, b));
            }
        }
    }
    pairs
}

/// The predictable races: every correct reordering is visited.
pub fn predictable_pairs(events: &[Event]) -> Vec<(usize, usize)> {
    let mut open = conflicting_pairs(events);
    every_correct(events, &mut |list| drop_brought(events, &mut open, list));
    all_but(events, &open)
}

/// The predictable races, from the list of every correct reordering.
fn predictable_of_all(events: &[Event], lists: &[List]) -> Vec<(usize, usize)> {
    let mut open = conflicting_pairs(events);
    for list in lists {
        drop_brought(events, &mut open, list);
    }
    all_but(events, &open)
}

/// Drops the pairs that the list brings next.
fn drop_brought(events: &[Event], open: &mut Vec<(usize, usize)>, list: &[usize]) {
    open.retain(|(a, b)| !brings_next(events, list, *a, *b));
}

/// The conflicting pairs but these.
fn all_but(events: &[Event], open: &[(usize, usize)]) -> Vec<(usize, usize)> {
    let mut pairs = conflicting_pairs(events);
    pairs.retain(|pair| !open.contains(pair));
    pairs
}

/// The predictable races of a longer recording by two threads. A list that brings both next has
/// exactly the events before a and those before b in their threads, so that every such list is
/// one of the merges of the two; where a fork is lacking, none is.
fn predictable_by_two(events: &[Event]) -> Vec<(usize, usize)> {
    let mut found = conflicting_pairs(events);
    found.retain(|(a, b)| {
        let thread = |e: usize| events[e - 1].thread;
        let before = |e: usize| {
            e > 0 && (e < *a && thread(e) == thread(*a) || e < *b && thread(e) == thread(*b))
        };
        let inside: Vec<bool> = (0..=events.len()).map(before).collect();
        let merges = correct_merges(events, &inside, thread(*a));
        merges.iter().any(|list| brings_next(events, list, *a, *b))
    });
    found
}

fn study_pair(
    events: &[Event],
    lists: Option<&[List]>,
    predictable: Option<&[(usize, usize)]>,
    (a, b): (usize, usize),
) -> Pair {
    let shown = shown_by_merges(events, a, b);
    if let Some(lists) = lists {
        assert_eq!(shown, shown_of_all(events, lists, a, b), "{events:?}");
    }
    let pair = Pair {
        a,
        b,
        shown,
        predictable: predictable.map(|races| races.contains(&(a, b))),
    };
    check_pair(events, &pair);
    pair
}

/// The reordering shown, from all merges of the cone's events.
pub fn shown_by_merges(events: &[Event], a: usize, b: usize) -> Option<List> {
    let inside = cone(events, a, b);
    if inside[a] || inside[b] {
        return None;
    }
    let merges = correct_merges(events, &inside, events[a - 1].thread);
    shown(events, &merges, a)
}

/// The reordering shown, from all correct reorderings of the recording.
/// Both ways must give the same candidates.
fn shown_of_all(events: &[Event], lists: &[List], a: usize, b: usize) -> Option<List> {
    let inside = cone(events, a, b);
    let mut candidates: Vec<List> = lists
        .iter()
        .filter(|list| is_candidate(events, list, &inside, a, b))
        .cloned()
        .collect();
    candidates.sort();
    let mut merges = correct_merges(events, &inside, events[a - 1].thread);
    merges.retain(|_| !inside[a] && !inside[b]);
    merges.sort();
    assert_eq!(candidates, merges, "{events:?} {a} {b}");
    shown(events, &candidates, a)
}

/// The list shown is a correct reordering that brings both next; a reported pair is predictable;
/// by at most two threads a predictable pair is reported.
fn check_pair(events: &[Event], pair: &Pair) {
    let (a, b) = (pair.a, pair.b);
    if let Some(list) = &pair.shown {
        assert!(correct(events, list), "{events:?} {a} {b} {list:?}");
        assert!(brings_next(events, list, a, b), "{events:?} {a} {b}");
        assert!(pair.predictable != Some(false), "{events:?} {a} {b}");
    } else if count_threads(events) <= 2 {
        assert!(pair.predictable != Some(true), "{events:?} {a} {b}");
    }
}

/// With idle reads in place of the inner acquires and releases no lock is taken again, and each
/// pair must have the same verdict and list, and be predictable or not as before.
fn check_inner(events: &[Event], pairs: &[Pair], visited: bool) {
    if !has_reentry(events) {
        return;
    }
    let plain = without_inner(events);
    assert!(!has_reentry(&plain), "{events:?}");
    let predictable = visited.then(|| predictable_pairs(&plain));
    for pair in pairs {
        let (a, b) = (pair.a, pair.b);
        assert_eq!(pair.shown, shown_by_merges(&plain, a, b), "{events:?}");
        if let Some(predictable) = &predictable {
            let found = predictable.contains(&(a, b));
            assert_eq!(pair.predictable, Some(found), "{events:?} {a} {b}");
        }
    }
}

/// Whether some pair would have another verdict or list if the first release gave a lock back.
pub fn depends_on_depth(events: &[Event]) -> bool {
    let read = freed_by_first(events);
    conflicting_pairs(events)
        .into_iter()
        .any(|(a, b)| shown_by_merges(events, a, b) != shown_by_merges(&read, a, b))
}

/// With cells that stand for forks and joins the old rules decide, and each pair must have the same
/// verdict and list, and be predictable or not as before.
fn check_forks(events: &[Event], pairs: &[Pair], visited: bool) {
    if !has_fork_or_join(events) {
        return;
    }
    let told = told_by_cells(events, None);
    let visited = visited && told.events.len() <= SHORT + 1;
    let predictable = visited.then(|| predictable_pairs(&told.events));
    for pair in pairs {
        let (a, b) = (pair.a, pair.b);
        assert_eq!(
            pair.shown,
            shown_by_cells(events, a, b),
            "{events:?} {a} {b}"
        );
        if let Some(predictable) = &predictable {
            let found = predictable.contains(&(told.numbers[a], told.numbers[b]));
            assert_eq!(pair.predictable, Some(found), "{events:?} {a} {b}");
        }
    }
}

/// The reordering shown where cells stand for forks and joins, in the recording's own numbers. If
/// b is its thread's first event, and a's thread forks that thread before a, rule (i) has the fork
/// already. A read of its cell would only stand among the others and hold them to its place.
fn shown_by_cells(events: &[Event], a: usize, b: usize) -> Option<List> {
    let thread = |e: usize| events[e - 1].thread;
    let first = !has_event(&events[..b - 1], thread(b).into());
    let by_a = |f: usize| f < a && thread(f) == thread(a);
    let left_out = first && fork_of(events, events[b - 1]).is_some_and(by_a);
    let Told { events, numbers } = told_by_cells(events, left_out.then(|| thread(b)));
    let list = shown_by_merges(&events, numbers[a], numbers[b])?;
    let own = |e: &usize| numbers.iter().position(|number| number == e);
    Some(list.iter().filter_map(own).collect())
}

/// Whether some pair would have another verdict or list if there were no rules of forks and joins.
pub fn depends_on_forks(events: &[Event]) -> bool {
    let read = without_forks(events);
    conflicting_pairs(events)
        .into_iter()
        .any(|(a, b)| shown_by_merges(events, a, b) != shown_by_merges(&read, a, b))
}
