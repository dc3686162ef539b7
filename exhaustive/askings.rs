//! Askings of questions 2 to 6 about the recording asked about.

use crate::book::Book;
use crate::chance::Chance;
use crate::questions::AREA;
use crate::recording::{Event, OLD_LIMITS};
use crate::rules::{brings_next, List};
use crate::study::{Pair, Study};

/// Asks question 5 some times, and the other questions now and then.
pub fn ask_a_few(book: &mut Book, chance: &mut Chance, times: usize) {
    let Some(study) = book.study() else { return };
    let mut askings: Vec<(usize, usize, List)> = Vec::new();
    if !study.pairs.is_empty() {
        for turn in 0..times {
            askings.push(proposal(study, chance, turn));
        }
    }
    if chance.percent(12) {
        let (a, b) = odd_pair(study, chance);
        askings.push((a, b, random_walk(study.events(), chance)));
    }
    for (a, b, list) in askings {
        book.ask5(a, b, &list);
    }
    if chance.percent(35) {
        ask_verdict(book, chance);
    }
    if chance.percent(35) {
        ask_next(book, chance);
    }
    if chance.percent(2) {
        let note: Vec<u8> = (0..chance.below(30))
            .map(|_| chance.below(256) as u8)
            .collect();
        book.ask6(&note);
    }
}

/// Question 2 of all numbers at once with a list that is just long enough, and with one entry
/// fewer. Then the list as numbers, with two entries more than are needed.
pub fn ask_all(book: &mut Book) {
    let Some(study) = book.study() else {
        return ask_all_of_refused(book);
    };
    let n = study.events().len();
    book.ask22(n + 1);
    book.ask22(n);
    book.ask21(n + 3);
}

/// The same of a refused file, with a long list and with none, since its refusal precedes 10.
pub fn ask_all_of_refused(book: &mut Book) {
    book.ask22(OLD_LIMITS.long_list());
    book.ask22(0);
    book.ask21(2);
}

/// Question 2 of all numbers at once, asked of one recording in five, with a list that is mostly
/// long enough. It has a generator of its own, so that all other choices stay as they are.
pub fn ask_all_now_and_then(book: &mut Book, chance: &mut Chance) {
    let Some(study) = book.study() else { return };
    let n = study.events().len();
    if chance.below(5) == 0 {
        let longer = chance.from_to(n + 1, OLD_LIMITS.long_list());
        let lists = [n + 1, n + 1, n + 1, n + 2, longer, longer, n, 0];
        book.ask22(chance.one_of(&lists));
    }
}

/// A pair and a list for it: right ones in the first turns, then mostly spoiled ones.
fn proposal(study: &Study, chance: &mut Chance, turn: usize) -> (usize, usize, List) {
    let missed = |p: &&Pair| p.shown.is_none() && p.predictable == Some(true);
    let pair = match study.pairs.iter().find(missed) {
        Some(pair) if turn == 0 => pair,
        _ => &study.pairs[chance.below(study.pairs.len())],
    };
    let bringing = one_bringing(study, chance, pair.a, pair.b);
    let base = match (&pair.shown, bringing) {
        (Some(shown), _) if turn == 0 => shown.clone(),
        (_, Some(list)) if turn < 2 => return (pair.a, pair.b, list),
        (Some(shown), _) if chance.percent(50) => shown.clone(),
        (_, Some(list)) if chance.percent(40) => list,
        _ => random_walk(study.events(), chance),
    };
    let list = if turn < 2 && chance.percent(50) {
        base
    } else {
        spoiled(base, study.events().len(), chance)
    };
    (pair.a, pair.b, list)
}

/// Some correct reordering that brings both next, if there is one.
fn one_bringing(study: &Study, chance: &mut Chance, a: usize, b: usize) -> Option<List> {
    let lists = study.lists.as_ref()?;
    let bringing: Vec<&List> = lists
        .iter()
        .filter(|list| brings_next(study.events(), list, a, b))
        .collect();
    (!bringing.is_empty()).then(|| chance.one_of(&bringing).clone())
}

/// A list in which each thread's events are its first ones in order, locks and reads ignored.
pub fn random_walk(events: &[Event], chance: &mut Chance) -> List {
    let mut list: List = Vec::new();
    for _ in 0..chance.below(events.len() + 1) {
        let next: List = (1..=events.len())
            .filter(|e| crate::rules::next_of_thread(events, &list, *e))
            .collect();
        list.push(chance.one_of(&next));
    }
    list
}

/// One number replaced, exchanged, dropped, repeated or added.
pub fn spoiled(mut list: List, n: usize, chance: &mut Chance) -> List {
    let place = chance.below(list.len() + 1);
    let odd = [
        chance.one_of(&[0, n + 1, 65535, n + 2]),
        chance.from_to(1, n),
        chance.from_to(1, n),
        chance.from_to(1, n),
    ];
    let inside = place < list.len();
    match chance.below(7) {
        0 if inside => list[place] = chance.one_of(&odd),
        1 if inside => {
            let other = chance.below(list.len());
            list.swap(place, other);
        }
        2 if inside => {
            list.remove(place);
        }
        3 if inside => list.push(list[place]),
        4 if !list.is_empty() => {
            list.pop();
        }
        5 => list.push(chance.from_to(1, n)),
        _ => list.insert(place, chance.one_of(&odd)),
    }
    list
}

/// Two numbers that mostly are no conflicting pair.
fn odd_pair(study: &Study, chance: &mut Chance) -> (usize, usize) {
    let n = study.events().len();
    let some = chance.from_to(0, n + 1);
    match chance.below(7) {
        0 => (0, some),
        1 => (some, n + 1),
        2 => (some, some),
        3 => (65535, some),
        4 => (some, 65535),
        _ => match study.pairs.first() {
            Some(pair) if chance.percent(50) => (pair.b, pair.a),
            _ => (some, chance.from_to(0, n + 1)),
        },
    }
}

const AREAS: [usize; 8] = [AREA, AREA, AREA, AREA, AREA + 8, AREA - 1, 0, AREA + 1];

/// Question 3 with all sorts of pairs, lists and areas.
pub fn ask_verdict(book: &mut Book, chance: &mut Chance) {
    let Some(study) = book.study() else { return };
    let n = study.events().len();
    let (a, b) = if study.pairs.is_empty() || chance.percent(15) {
        odd_pair(study, chance)
    } else {
        let pair = &study.pairs[chance.below(study.pairs.len())];
        (pair.a, pair.b)
    };
    let short = n.saturating_sub(1);
    let (most, long) = (OLD_LIMITS.events, OLD_LIMITS.long_list());
    let entries = chance.one_of(&[n, n, n, n + 1, n + 3, short, short, 0, most, long]);
    let area = chance.one_of(&AREAS);
    book.ask3(a, b, entries, area);
}

/// Question 4 from all sorts of numbers.
pub fn ask_next(book: &mut Book, chance: &mut Chance) {
    let Some(study) = book.study() else { return };
    let n = study.events().len();
    let any = [0, 0, 1, 2, n, n + 1, 65535];
    let (a, b) = if study.pairs.is_empty() || chance.percent(30) {
        (chance.one_of(&any), chance.one_of(&any))
    } else {
        let pair = &study.pairs[chance.below(study.pairs.len())];
        match chance.below(6) {
            0 => (pair.a, pair.b),
            1 => (pair.a, pair.b - 1),
            2 => (pair.a, 0),
            3 => (pair.a - 1, 65535),
            4 => (pair.b, pair.a),
            _ => (chance.from_to(0, n), chance.from_to(0, n)),
        }
    };
    let area = chance.one_of(&AREAS);
    book.ask4(a, b, area);
}
