//! Enumerations: all correct reorderings of a recording, and all merges of a cone's events.

use crate::recording::Event;
use crate::rules::{correct, fits_after, List};

/// Visits every correct reordering of the recording: each list is lengthened by any event and
/// tested by the definition. Each beginning of a correct reordering is one itself.
pub fn every_correct(events: &[Event], visit: &mut dyn FnMut(&[usize])) {
    lengthen(events, &mut Vec::new(), visit);
}

fn lengthen(events: &[Event], list: &mut List, visit: &mut dyn FnMut(&[usize])) {
    visit(list);
    for e in 1..=events.len() {
        if fits_after(events, list, e) {
            list.push(e);
            lengthen(events, list, visit);
            list.pop();
        }
    }
}

/// All correct reorderings as lists (for short recordings). Each list with any event put at its
/// end is tested by the whole definition as well; and of very short recordings every list there
/// is, correct beginnings or not.
pub fn all_correct(events: &[Event]) -> Vec<List> {
    let mut lists = Vec::new();
    every_correct(events, &mut |list| {
        let mut longer = list.to_vec();
        lists.push(list.to_vec());
        for e in 1..=events.len() {
            longer.push(e);
            let fits = fits_after(events, list, e);
            assert_eq!(correct(events, &longer), fits, "{events:?} {longer:?}");
            longer.pop();
        }
    });
    if events.len() <= 5 {
        let mut count = 0;
        every_list(events, &mut Vec::new(), &mut count);
        assert_eq!(count, lists.len(), "{events:?}");
    }
    lists
}

/// Counts the correct ones among all lists of events without repeats.
fn every_list(events: &[Event], list: &mut List, count: &mut usize) {
    *count += usize::from(correct(events, list));
    for e in 1..=events.len() {
        if !list.contains(&e) {
            list.push(e);
            every_list(events, list, count);
            list.pop();
        }
    }
}

/// All correct lists of exactly the cone's events in which the events outside the moved thread
/// keep the recording's order: the moved thread's events merged with the others in every way.
pub fn correct_merges(events: &[Event], inside: &[bool], moved: u8) -> Vec<List> {
    let cone = (1..=events.len()).filter(|e| inside[*e]);
    let (own, others): (List, List) = cone.partition(|e| events[*e - 1].thread == moved);
    let mut found = Vec::new();
    merge(events, &own, &others, &mut Vec::new(), &mut found);
    found
}

fn merge(
    events: &[Event],
    own: &[usize],
    others: &[usize],
    list: &mut List,
    found: &mut Vec<List>,
) {
    if own.is_empty() && others.is_empty() {
        found.push(list.clone());
        return;
    }
    for (from_own, next) in [(true, own.first()), (false, others.first())] {
        let Some(next) = next.copied().filter(|e| fits_after(events, list, *e)) else {
            continue;
        };
        list.push(next);
        if from_own {
            merge(events, &own[1..], others, list, found);
        } else {
            merge(events, own, &others[1..], list, found);
        }
        list.pop();
    }
}
