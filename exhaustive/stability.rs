//! Confirmations about lengthenings (paper 01, demand 3). By at most two threads: each conflicting
//! pair has the same verdict and the same list shown in a lengthening, and a pair that is not
//! reported is not predictable there. By any number: the list shown passes question 5.
//! Request Five: a lengthening may fork, join and begin threads. Request Six: it may reach to 1,000
//! events.

use crate::chance::Chance;
use crate::enumerate::every_correct;
use crate::families;
use crate::holds::has_reentry;
use crate::questions::first_fault;
use crate::recording::{acq, count_threads, fork, join, may_come_next, r, rel, w, Event, Kind};
use crate::recording::{LIMITS, MAX_THREAD};
use crate::rules::{brings_next, is_access, is_of_lock, List};
use crate::short::{every, every_with_reentry};
use crate::study::{conflicting_pairs, shown_by_merges, SHORT, SHORT_BY_TWO};
use crate::threads::{has_event, has_fork_or_join, is_forked, is_joined};

type Known = (usize, usize, Option<List>);

/// By so many events a recording is lengthened at most where every correct reordering is visited.
const MOST_ADDED: usize = 3;

/// A recording with what is known of its conflicting pairs.
struct Base {
    events: Vec<Event>,
    pairs: Vec<Known>,
    by_two: bool,
}

impl Base {
    fn new(events: &[Event]) -> Base {
        let pairs = conflicting_pairs(events).into_iter();
        Base {
            events: events.to_vec(),
            pairs: pairs
                .map(|(a, b)| (a, b, shown_by_merges(events, a, b)))
                .collect(),
            by_two: count_threads(events) <= 2,
        }
    }
}

/// How many confirmations were made.
#[derive(Default)]
pub struct Tally {
    pub lengthenings: usize,
    /// Those in which a lock is taken again.
    pub with_reentry: usize,
    /// Those with a fork or a join among the added events.
    pub with_forks: usize,
    /// Those in which a thread begins that is forked in the recording or among the added events.
    pub begun: usize,
    pub same_verdicts: usize,
    pub never_predictable: usize,
    pub lists_still_pass: usize,
    pub verdicts_changed: usize,
    pub example: Option<String>,
}

impl Tally {
    fn look(&mut self, base: &Base, longer: &[Event]) {
        self.lengthenings += 1;
        self.with_reentry += usize::from(has_reentry(longer));
        let (before, added) = longer.split_at(base.events.len());
        self.with_forks += usize::from(has_fork_or_join(added));
        let begins = |e: &Event| {
            let thread = u16::from(e.thread);
            !has_event(before, thread) && is_forked(longer, thread)
        };
        self.begun += usize::from(added.iter().any(begins));
        for (a, b, shown) in &base.pairs {
            let now = shown_by_merges(longer, *a, *b);
            if base.by_two {
                assert_eq!(now, *shown, "{:?} {longer:?} {a} {b}", base.events);
                self.same_verdicts += 1;
            } else if now.is_some() != shown.is_some() {
                self.changed(base, longer, (*a, *b), (shown, &now));
            }
            if let Some(list) = shown {
                assert_eq!(
                    first_fault(longer, *a, *b, list),
                    None,
                    "{longer:?} {a} {b}"
                );
                self.lists_still_pass += 1;
            }
        }
        if base.by_two && longer.len() <= SHORT_BY_TWO + MOST_ADDED {
            self.not_predictable(base, longer);
        }
    }

    /// Every correct reordering of the lengthening is visited: none brings a pair next that is
    /// not reported.
    fn not_predictable(&mut self, base: &Base, longer: &[Event]) {
        let silent: Vec<&Known> = base.pairs.iter().filter(|p| p.2.is_none()).collect();
        if silent.is_empty() {
            return;
        }
        every_correct(longer, &mut |list| {
            for (a, b, _) in &silent {
                assert!(
                    !brings_next(longer, list, *a, *b),
                    "{longer:?} {a} {b} {list:?}"
                );
            }
        });
        self.never_predictable += silent.len();
    }

    /// With three or more threads a verdict may change; the shortest such is kept as an example.
    fn changed(
        &mut self,
        base: &Base,
        longer: &[Event],
        pair: (usize, usize),
        (before, now): (&Option<List>, &Option<List>),
    ) {
        self.verdicts_changed += 1;
        let words = format!(
            "{} then {}: {pair:?} was {}, is {}",
            events_words(&base.events),
            events_words(&longer[base.events.len()..]),
            verdict_words(before),
            verdict_words(now)
        );
        if self
            .example
            .as_ref()
            .is_none_or(|old| words.len() < old.len())
        {
            self.example = Some(words);
        }
    }

    pub fn print(&self, what: &str) {
        println!(
            "{what}: {} lengthenings ({} with re-entry, {} with a fork or a join added, {} in which \
             a forked thread begins), {} verdicts the same, {} pairs still not predictable, {} \
             lists still pass, {} verdicts changed (three or more threads)",
            self.lengthenings,
            self.with_reentry,
            self.with_forks,
            self.begun,
            self.same_verdicts,
            self.never_predictable,
            self.lists_still_pass,
            self.verdicts_changed
        );
        if let Some(example) = &self.example {
            println!("  for example {example}");
        }
    }
}

fn verdict_words(shown: &Option<List>) -> String {
    match shown {
        Some(list) => format!("reported with {list:?}"),
        None => "not reported".to_string(),
    }
}

fn events_words(events: &[Event]) -> String {
    let words: Vec<String> = events
        .iter()
        .map(|e| {
            let kind = match e.kind {
                Kind::Read => "r",
                Kind::Write => "w",
                Kind::Acquire => "acq",
                Kind::Release => "rel",
                Kind::Fork => "fork",
                Kind::Join => "join",
            };
            format!("T{} {kind}({})", e.thread, e.object)
        })
        .collect();
    words.join(", ")
}

/// The threads that have an event here or are forked or joined, and so many new ones.
fn threads_with(events: &[Event], new_threads: usize) -> Vec<u8> {
    let named = |t: &u8| {
        let thread = u16::from(*t);
        has_event(events, thread) || is_forked(events, thread) || is_joined(events, thread)
    };
    let old = (0..=MAX_THREAD).filter(named);
    let new = (0..=MAX_THREAD).filter(|t| !named(t)).take(new_threads);
    old.chain(new).collect()
}

/// What events may be added: the recording's threads and so many new ones, its cells and locks
/// and a new one of each.
fn additions(events: &[Event], new_threads: usize) -> Vec<Event> {
    let threads = threads_with(events, new_threads);
    let objects = |cell: bool| -> Vec<u16> {
        let of_kind = |e: &&Event| {
            if cell {
                is_access(**e)
            } else {
                is_of_lock(**e)
            }
        };
        let mut used: Vec<u16> = events.iter().filter(of_kind).map(|e| e.object).collect();
        used.extend((0..=LIMITS.object).find(|o| !used.contains(o)));
        used.sort();
        used.dedup();
        used
    };
    let mut all = Vec::new();
    for t in threads {
        all.extend(objects(true).iter().flat_map(|c| [r(t, *c), w(t, *c)]));
        all.extend(objects(false).iter().flat_map(|l| [acq(t, *l), rel(t, *l)]));
    }
    all
}

/// The same, and forks and joins of all these threads.
fn additions_with_forks(events: &[Event], new_threads: usize) -> Vec<Event> {
    let threads = threads_with(events, new_threads);
    let mut all = additions(events, new_threads);
    for t in &threads {
        let others = threads.iter().map(|o| u16::from(*o));
        all.extend(others.flat_map(|o| [fork(*t, o), join(*t, o)]));
    }
    all
}

/// Visits every lengthening by one to so many events.
fn every_lengthening(
    events: &mut Vec<Event>,
    added: &[Event],
    steps: usize,
    visit: &mut dyn FnMut(&[Event]),
) {
    if steps == 0 {
        return;
    }
    for event in added {
        if may_come_next(events, *event) {
            events.push(*event);
            visit(events);
            every_lengthening(events, added, steps - 1, visit);
            events.pop();
        }
    }
}

/// All lengthenings by one to so many of these events.
fn all_of(events: &[Event], added: &[Event], steps: usize, tally: &mut Tally) {
    let base = Base::new(events);
    if !base.pairs.is_empty() {
        let mut longer = events.to_vec();
        every_lengthening(&mut longer, added, steps, &mut |e| tally.look(&base, e));
    }
}

/// A few lengthenings, at random, by at least so many events and at most three; every other one may
/// have forks and joins.
fn some_of(events: &[Event], least: usize, times: usize, chance: &mut Chance, tally: &mut Tally) {
    let base = Base::new(events);
    if base.pairs.is_empty() {
        return;
    }
    let added = [additions_with_forks(events, 2), additions(events, 2)];
    for turn in 0..times {
        let steps = chance.from_to(least, MOST_ADDED);
        let longer = lengthened(events, &added[turn % 2], steps, chance);
        tally.look(&base, &longer);
    }
}

/// The recording lengthened by so many of these events, at random.
fn lengthened(events: &[Event], added: &[Event], steps: usize, chance: &mut Chance) -> Vec<Event> {
    let mut longer = events.to_vec();
    while longer.len() < events.len() + steps {
        let event = chance.one_of(added);
        if may_come_next(&longer, event) {
            longer.push(event);
        }
    }
    longer
}

/// Accesses and locks by every thread, of the highest object and of any other.
fn anywhere(chance: &mut Chance) -> Vec<Event> {
    let mut all = Vec::new();
    for t in 0..=MAX_THREAD {
        for o in [LIMITS.object, chance.below(LIMITS.object.into()) as u16] {
            all.extend([r(t, o), w(t, o), acq(t, o), rel(t, o)]);
        }
    }
    all
}

/// The confirmations for the worked examples lengthened to as many events as there can be, by any
/// threads with any cells and locks. Not every correct reordering can be visited there.
pub fn confirm_longest(recordings: &[Vec<Event>]) {
    let mut chance = Chance::new(14);
    let mut tally = Tally::default();
    for events in recordings {
        let base = Base::new(events);
        for added in [additions_with_forks(events, 2), additions(events, 2)] {
            let added = [added, anywhere(&mut chance)].concat();
            let steps = LIMITS.events - events.len();
            tally.look(&base, &lengthened(events, &added, steps, &mut chance));
        }
    }
    tally.print("the worked examples, lengthened to 1,000 events at random");
}

/// The confirmations for every recording of at most 5 events by 2 threads with 1 lock, re-entry
/// among them, and for those with 2 locks and re-entry.
pub fn confirm_short() {
    for (length, new_threads, steps) in [(2, 2, 3), (3, 2, 3), (4, 2, 2), (5, 1, 2)] {
        let mut tally = Tally::default();
        for events in every(length, 1).iter().filter(|e| e.len() == length) {
            all_of(events, &additions(events, new_threads), steps, &mut tally);
        }
        tally.print(&format!(
            "all recordings of {length} events, all lengthenings by up to {steps} events, \
             {new_threads} new threads"
        ));
    }
    let mut chance = Chance::new(12);
    let mut tally = Tally::default();
    for events in every(5, 1).iter().filter(|e| e.len() >= 4) {
        some_of(events, 3, 60, &mut chance, &mut tally);
    }
    tally.print(
        "all recordings of 4 and 5 events, lengthenings by 3 events at random, 2 new threads",
    );
    let mut tally = Tally::default();
    for events in every_with_reentry(2) {
        some_of(&events, 1, 10, &mut chance, &mut tally);
    }
    tally.print("those of up to 5 events with 2 locks and re-entry, lengthenings at random");
}

/// The confirmations with forks and joins among the added events: for every recording of at most 4
/// events by 2 threads with 1 lock, and for the short ones of group 10.
pub fn confirm_forks() {
    let mut chance = Chance::new(13);
    for (length, new_threads, steps) in [(2, 2, 2), (3, 2, 2), (4, 2, 2)] {
        let mut tally = Tally::default();
        for events in every(length, 1).iter().filter(|e| e.len() == length) {
            let added = additions_with_forks(events, new_threads);
            all_of(events, &added, steps, &mut tally);
        }
        tally.print(&format!(
            "all recordings of {length} events, all lengthenings by up to {steps} events with forks \
             and joins, {new_threads} new threads"
        ));
    }
    let short = [families::every(4, false), families::every(4, true)].concat();
    for by_two in [true, false] {
        let mut tally = Tally::default();
        for events in short.iter().filter(|e| (count_threads(e) <= 2) == by_two) {
            let added = additions_with_forks(events, 1);
            all_of(events, &added, 1, &mut tally);
            some_of(events, 2, 20, &mut chance, &mut tally);
        }
        let who = if by_two { "at most two" } else { "three" };
        tally.print(&format!(
            "the short recordings of group 10 by {who} threads, all lengthenings by 1 event with \
             forks and joins, and some by 2 and 3"
        ));
    }
}

/// How many lengthenings of a random recording are tried: few where visiting every correct
/// reordering takes long.
fn times(events: &[Event], by_two: bool) -> usize {
    match (by_two, events.len() > SHORT) {
        (true, true) => 1,
        (true, false) => 10,
        (false, _) => 20,
    }
}

/// The confirmations for the random recordings and the worked examples.
pub fn confirm_random(recordings: &[Vec<Event>]) {
    let mut chance = Chance::new(11);
    for by_two in [true, false] {
        let mut tally = Tally::default();
        let of_these = |e: &&Vec<Event>| (count_threads(e) <= 2) == by_two;
        for events in recordings.iter().filter(of_these) {
            let times = times(events, by_two);
            some_of(events, 1, times, &mut chance, &mut tally);
        }
        let who = if by_two {
            "at most two"
        } else {
            "three or four"
        };
        tally.print(&format!(
            "random recordings and worked examples by {who} threads, lengthenings at random"
        ));
    }
}
