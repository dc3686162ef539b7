//! Group 10, request Five: worked examples of forks and joins, lists with each fault beside 27, and
//! recordings of 512 and 1,000 events.
//! Cells x = 0, y = 1, z = 2; lock l = 0.

use crate::askings::ask_all;
use crate::book::Book;
use crate::questions::AREA;
use crate::recording::{file, fork, join, told, w, Event, Limits, LIMITS, OLD_LIMITS};
use crate::worked::{put, Race};

/// A proposed list for a pair, with its answer.
type Proposal<'a> = (usize, usize, &'a [usize], &'a str);

const BEFORE_THE_FORK: &str = "0w0 0f1 1w0 0j1";
pub const BESIDE_THE_CHILD: &str = "0f1 0w0 1w0 0j1 0w0";
const THE_CHILD_FIRST: &str = "0f1 1w0 0w0 0j1 0w0";
const THIRD_FORKS: &str = "2+0 2w1 2f1 2-0 0w0 1w0";
const WHOLE_THREAD: &str = "1w1 1w0 0j1 0w2 2r2 2w0";
const MOVED_FORKS: &str = "0f2 0w0 2w1 1r1 1w0";
const CONE_FORKS: &str = "3f2 2w1 0w0 1r1 1w0";
const SECTION_JOINS: &str = "1w0 2+0 2w1 0r1 2j1 2-0 0w0";
const SECTION_FIRST: &str = "2+1 2w1 0r1 0+0 0f1 0w0 1w0 0-0 2+0 2-0 2-1";
const JOINED_TWICE: &str = "1w0 0j1 2j1 0w1 2w1";
const NEVER_BEGUN: &str = "0j1 0f1 0w0 2f3 2w0";
const READS_FIRST: &str = "0w0 0f1 1r0 1w1 2w1";
const LOCKS_FIRST: &str = "0+0 0f1 0-0 1+0 1w0 1-0 2w0";

/// All worked examples, for the confirmations.
pub const ALL: [&str; 13] = [
    BEFORE_THE_FORK,
    BESIDE_THE_CHILD,
    THE_CHILD_FIRST,
    THIRD_FORKS,
    WHOLE_THREAD,
    MOVED_FORKS,
    CONE_FORKS,
    SECTION_JOINS,
    SECTION_FIRST,
    JOINED_TWICE,
    NEVER_BEGUN,
    READS_FIRST,
    LOCKS_FIRST,
];

pub fn write(book: &mut Book) {
    book.group("group 10: worked examples of forks and joins");
    parent_and_child(book);
    other_threads(book);
    fork_in_the_cone(book);
    sections(book);
    odd_ones(book);
    beside_27(book);
    full(book, &OLD_LIMITS);
    full(book, &LIMITS);
}

/// Writes a worked example down; asserts its races and the answers to the proposed lists.
fn put_with(book: &mut Book, title: &str, text: &str, races: &[Race], lists: &[Proposal]) {
    put(book, title, text, races);
    let n = told(text).len();
    let pairs: Vec<(usize, usize)> = book.study().map_or(Vec::new(), |study| {
        study.pairs.iter().map(|p| (p.a, p.b)).collect()
    });
    for (a, b) in pairs {
        book.ask3(a, b, n, AREA);
    }
    for (a, b, list, answer) in lists {
        book.ask5(*a, *b, list);
        book.assert_answer(answer);
    }
}

fn parent_and_child(book: &mut Book) {
    let title = "a write before the fork never meets the child's first write";
    let lists: [Proposal; 6] = [
        (1, 3, &[], "no 26"),
        (1, 3, &[1], "no 25"),
        (1, 3, &[1, 2], "no 25"),
        (1, 3, &[2], "no 22"),
        (1, 3, &[3], "no 27"),
        (1, 3, &[1, 3], "no 27"),
    ];
    put_with(book, title, BEFORE_THE_FORK, &[], &lists);
    let title = "the parent's write between fork and join meets the child's; after the join none";
    let lists: [Proposal; 8] = [
        (2, 3, &[1], "yes"),
        (2, 3, &[], "no 25"),
        (2, 3, &[3], "no 27"),
        (2, 3, &[1, 2], "no 25"),
        (3, 5, &[1, 2, 4], "no 27"),
        (3, 5, &[1, 2, 3, 4], "no 25"),
        (3, 5, &[1, 2], "no 26"),
        (3, 5, &[1, 4], "no 22"),
    ];
    put_with(book, title, BESIDE_THE_CHILD, &[(2, 3, &[1])], &lists);
    let title = "the same with the child's write first: without the fork it is not enabled";
    let lists: [Proposal; 6] = [
        (2, 3, &[1], "yes"),
        (2, 3, &[], "no 25"),
        (2, 3, &[2], "no 27"),
        (2, 5, &[], "no 25"),
        (2, 5, &[1, 3], "no 26"),
        (2, 5, &[1, 3, 4], "no 27"),
    ];
    put_with(book, title, THE_CHILD_FIRST, &[(2, 3, &[1])], &lists);
}

fn other_threads(book: &mut Book) {
    let title =
        "the fork stands in a third thread's section: (5, 6) with 1 2 3 4, and 1 2 3 passes";
    let lists: [Proposal; 7] = [
        (5, 6, &[1, 2, 3, 4], "yes"),
        (5, 6, &[1, 2, 3], "yes"),
        (5, 6, &[1, 2], "no 26"),
        (5, 6, &[], "no 26"),
        (5, 6, &[5], "no 25"),
        (5, 6, &[1, 2, 6], "no 27"),
        (5, 6, &[3], "no 22"),
    ];
    put_with(book, title, THIRD_FORKS, &[(5, 6, &[1, 2, 3, 4])], &lists);
    let title = "with the join comes a whole thread: (4, 5) with 1 2 3; (2, 6) has 2 in its cone";
    let lists: [Proposal; 8] = [
        (4, 5, &[1, 2, 3], "yes"),
        (4, 5, &[1, 2], "no 25"),
        (4, 5, &[1, 3], "no 27"),
        (4, 5, &[3], "no 27"),
        (2, 6, &[1, 2, 3, 4, 5], "no 25"),
        (2, 6, &[1, 3, 4, 5], "no 27"),
        (2, 6, &[1, 5], "no 23"),
        (2, 6, &[1], "no 26"),
    ];
    put_with(book, title, WHOLE_THREAD, &[(4, 5, &[1, 2, 3])], &lists);
    let title = "the moved thread forks: (2, 5) with 1 3 4, where 1 comes before the others";
    let lists: [Proposal; 8] = [
        (2, 5, &[1, 3, 4], "yes"),
        (2, 5, &[3, 1, 4], "no 27"),
        (2, 5, &[1, 4, 3], "no 23"),
        (2, 5, &[4, 1, 3], "no 23"),
        (2, 5, &[1, 3], "no 26"),
        (2, 5, &[], "no 25"),
        (3, 4, &[1], "yes"),
        (3, 4, &[], "no 25"),
    ];
    let races: [Race; 2] = [(2, 5, &[1, 3, 4]), (3, 4, &[1])];
    put_with(book, title, MOVED_FORKS, &races, &lists);
}

/// The fork of a thread that has no event of the pair.
fn fork_in_the_cone(book: &mut Book) {
    let title = "with the write that 4 saw comes its thread's fork: (3, 5) with 1 2 4";
    let lists: [Proposal; 7] = [
        (3, 5, &[1, 2, 4], "yes"),
        (3, 5, &[2, 4], "no 27"),
        (3, 5, &[2, 1, 4], "no 27"),
        (3, 5, &[4], "no 23"),
        (3, 5, &[1, 2], "no 26"),
        (2, 4, &[1], "yes"),
        (2, 4, &[], "no 25"),
    ];
    let races: [Race; 2] = [(2, 4, &[1]), (3, 5, &[1, 2, 4])];
    put_with(book, title, CONE_FORKS, &races, &lists);
}

fn sections(book: &mut Book) {
    let title = "(1, 7) is not reported, with 2 comes 6, so 5, so 1; yet 2 3 4 passes the check";
    let lists: [Proposal; 6] = [
        (1, 7, &[2, 3, 4], "yes"),
        (1, 7, &[2, 3], "no 26"),
        (1, 7, &[2, 3, 5], "no 27"),
        (1, 7, &[2, 3, 4, 5], "no 27"),
        (1, 7, &[1, 2, 3, 4, 5, 6], "no 25"),
        (3, 4, &[2], "yes"),
    ];
    put_with(book, title, SECTION_JOINS, &[(3, 4, &[2])], &lists);
    let title = "(6, 7): the fork of 7's thread comes behind a section that was recorded after 7";
    let lists: [Proposal; 5] = [
        (6, 7, &[1, 2, 9, 10, 11, 3, 4, 5], "yes"),
        (6, 7, &[1, 2, 3, 4, 5], "yes"),
        (6, 7, &[1, 2, 3, 4, 5, 9], "no 24"),
        (6, 7, &[1, 2, 9, 10, 11, 3, 4], "no 25"),
        (6, 7, &[1, 2, 3, 4, 7], "no 27"),
    ];
    let races: [Race; 2] = [(2, 3, &[1]), (6, 7, &[1, 2, 9, 10, 11, 3, 4, 5])];
    put_with(book, title, SECTION_FIRST, &races, &lists);
}

fn odd_ones(book: &mut Book) {
    let title = "a thread that nobody forked is joined twice: (4, 5) with 1 3 2";
    let lists: [Proposal; 6] = [
        (4, 5, &[1, 3, 2], "yes"),
        (4, 5, &[1, 2, 3], "yes"),
        (4, 5, &[2, 1, 3], "no 27"),
        (4, 5, &[3, 1, 2], "no 27"),
        (4, 5, &[1, 2], "no 26"),
        (4, 5, &[1, 3], "no 25"),
    ];
    put_with(book, title, JOINED_TWICE, &[(4, 5, &[1, 3, 2])], &lists);
    let title = "a thread without events is joined, then forked: (3, 5) with 4 1 2, two threads";
    let lists: [Proposal; 5] = [
        (3, 5, &[4, 1, 2], "yes"),
        (3, 5, &[1, 2, 4], "yes"),
        (3, 5, &[1, 4], "no 25"),
        (3, 5, &[1, 2], "no 26"),
        (3, 5, &[2, 1, 4], "no 22"),
    ];
    put_with(book, title, NEVER_BEGUN, &[(3, 5, &[4, 1, 2])], &lists);
}

/// Lists in which one place has two faults, or two places have one each.
fn beside_27(book: &mut Book) {
    let title = "the child's first event is a read: 23 comes before 27, and 21 and 22 do";
    let lists: [Proposal; 11] = [
        (4, 5, &[1, 2, 3], "yes"),
        (4, 5, &[3], "no 23"),
        (4, 5, &[1, 3], "no 27"),
        (4, 5, &[1, 3, 2], "no 27"),
        (4, 5, &[4], "no 22"),
        (4, 5, &[1, 4], "no 22"),
        (4, 5, &[0, 1, 3], "no 21"),
        (4, 5, &[1, 6], "no 21"),
        (4, 5, &[1, 3, 0], "no 27"),
        (4, 5, &[1, 3, 3], "no 27"),
        (4, 5, &[1, 2], "no 25"),
    ];
    let races: [Race; 1] = [(4, 5, &[1, 2, 3])];
    put_with(book, title, READS_FIRST, &races, &lists);
    let title = "the child's first event is an acquire: 24 comes before 27";
    let lists: [Proposal; 8] = [
        (5, 7, &[1, 2, 3, 4], "yes"),
        (5, 7, &[4], "no 27"),
        (5, 7, &[1, 4], "no 24"),
        (5, 7, &[1, 2, 4], "no 24"),
        (5, 7, &[1, 2, 3], "no 25"),
        (5, 7, &[4, 1], "no 27"),
        (5, 7, &[5], "no 22"),
        (5, 7, &[1, 2, 3, 4, 7], "no 26"),
    ];
    let races: [Race; 1] = [(5, 7, &[1, 2, 3, 4])];
    put_with(book, title, LOCKS_FIRST, &races, &lists);
}

/// Recordings of as many events as these limits allow, with many forks and joins.
fn full_recordings(limits: &Limits) -> [(String, Vec<Event>); 3] {
    let n = limits.events;
    let last = vec![w(0, limits.object), w(15, limits.object)];
    // the first child to work is forked last and the first to be joined works last, so that the
    // moved thread's events can be merged with the others in one way only
    let work = n / 16 - 1;
    let crew: Vec<Event> = [
        (1..16).map(|t| fork(0, t)).collect(),
        (1..16)
            .rev()
            .flat_map(|t| vec![w(t, t.into()); work])
            .collect(),
        (1..15).map(|t| join(0, t)).collect(),
        vec![w(0, 100); n - 31 - 15 * work],
        last.clone(),
    ]
    .concat();
    let chain: Vec<Event> = [
        (0..15).map(|t| fork(t, u16::from(t) + 1)).collect(),
        vec![w(15, 3); n - 17],
        last.clone(),
    ]
    .concat();
    let times = n - 3;
    let joins = [vec![w(7, 9)], vec![join(0, 7); times], last].concat();
    [
        ("fifteen threads forked, fourteen joined".to_string(), crew),
        ("each thread forks the next one".to_string(), chain),
        (format!("one thread joined {times} times"), joins),
    ]
}

fn full(book: &mut Book, limits: &Limits) {
    let n = limits.events;
    for (title, events) in full_recordings(limits) {
        assert_eq!(events.len(), n, "{title}");
        book.title(&format!("{n} events: {title}"));
        book.recording(&file(&[], &events));
        assert!(book.study().is_some_and(|s| s.pair(n - 1, n).is_some()));
        if n == OLD_LIMITS.events {
            ask_all(book);
        }
        book.ask3(n - 1, n, n, AREA);
        let before: Vec<usize> = (1..n - 1).collect();
        book.ask5(n - 1, n, &before);
        book.ask5(n - 1, n, &before[1..]);
        book.ask5(n - 1, n, &[]);
        book.ask4(0, 0, AREA);
    }
}
