//! Group 2: the figures of documents 000 and 001 as recordings. Where a paper states a verdict,
//! the enumeration of all correct reorderings must give the same.

use crate::askings::ask_all;
use crate::book::Book;
use crate::questions::AREA;
use crate::recording::{file, told, OLD_LIMITS};
use crate::study::predictable_pairs;
use crate::worked::{Q, R, S, T};

/// What a paper says of one pair: a predictable race or not; and what these rules report.
struct Said {
    pair: (usize, usize),
    race: bool,
    reported: bool,
}

fn race(a: usize, b: usize) -> Said {
    Said {
        pair: (a, b),
        race: true,
        reported: true,
    }
}

fn no_race(a: usize, b: usize) -> Said {
    Said {
        pair: (a, b),
        race: false,
        reported: false,
    }
}

pub fn write(book: &mut Book) {
    book.group("group 2: the figures of documents 000 and 001");
    document_000(book);
    document_001(book);
    more_of_000(book);
    more_of_001(book);
}

/// Writes a figure down with the paper's verdicts tested.
fn put(book: &mut Book, title: &str, text: &str, said: &[Said]) {
    let events = told(text);
    book.title(title);
    book.recording(&file(&[], &events));
    let predictable = predictable_pairs(&events);
    let study = book.study().expect("a good recording");
    for say in said {
        let (a, b) = say.pair;
        assert_eq!(predictable.contains(&say.pair), say.race, "{title} {a} {b}");
        let pair = study.pair(a, b).expect("a conflicting pair");
        assert_eq!(pair.shown.is_some(), say.reported, "{title} {a} {b}");
    }
    for pair in &study.pairs {
        let race = predictable.contains(&(pair.a, pair.b));
        assert!(race || pair.shown.is_none(), "{title}");
        assert!(
            !race || pair.shown.is_some() || study.threads > 2,
            "{title}"
        );
    }
    for say in said {
        book.ask3(say.pair.0, say.pair.1, events.len(), AREA);
    }
    ask_all(book);
}

const FIGURE_1A: &str = "0+0 0w0 0-0 1+0 1w0 1-0 1r0";
/// x = 0, y = 1, z = 2; locks 1 and 2.
const FIGURE_1B: &str = "0+1 0w0 0w1 0-1 1+1 1+2 1w2 1-2 1w1 1-1 2+2 2r2 2-2 2w0";
/// x = 0, x1 to x4 = 1 to 4.
const FIGURE_2: &str = "0w1 0w2 0w3 0+0 0w4 0r1 0-0 0+0 0r4 0w0 0-0 \
                        1w3 1+0 1w4 1-0 1w1 1r2 1r3 1r0";
const FIGURE_6: &str = "0+0 0w0 0-0 1+0 1w1 1-0 1w2 0r2 2r1 2w0";
/// x = 0, y = 1; locks 1 and 2.
const FIGURE_7: &str = "0w0 0+1 0+2 0w0 0-2 0w1 0-1 1+1 1w0 1-1 2+1 2-1 2+2 2r0 2-2 2r1";
/// x = 0, y = 1, z = 2.
const FIGURE_8: &str = "1w1 0+0 0w0 0r1 0w2 0-0 1+0 1w0 1-0 2r0 2w1 2r0 2r2";
/// y = 0, x1 to x4 = 1 to 4.
const FIGURE_9: &str = "2w1 0+0 0w2 0r1 0w0 0-0 2w2 2w3 2w4 1+0 1w3 1-0 1w1 1r2 1r4 1w0";

fn document_000(book: &mut Book) {
    let title = "document 000, figure 1a: the paper says (2, 7) is a predictable race; reported";
    put(book, title, FIGURE_1A, &[race(2, 7)]);
    book.ask5(2, 7, &[4, 5, 6, 1]);
    book.ask5(2, 7, &[1, 4, 5, 6]);
    let title = "document 000, figure 1b: the paper says (2, 14) is a predictable race; reported";
    put(book, title, FIGURE_1B, &[race(2, 14)]);
    book.ask5(2, 14, &[5, 6, 7, 8, 9, 10, 11, 12, 13, 1]);
    book.ask5(2, 14, &[5, 6, 7, 8, 9, 10, 1, 11, 12, 13]);
    book.ask5(2, 14, &[1, 5, 6, 7, 8, 9, 10, 11, 12, 13]);
    let title = "document 000, figure 2: the paper says (10, 19) is a predictable race; reported";
    put(book, title, FIGURE_2, &[race(10, 19)]);
    book.ask22(OLD_LIMITS.long_list());
    let of_paper = [1, 2, 3, 12, 13, 14, 15, 4, 5, 6, 7, 8, 9, 16, 17, 18];
    book.ask5(10, 19, &of_paper);
    book.ask5(10, 19, &of_paper[..15]);
    let recorded = [1, 2, 3, 4, 5, 6, 7, 8, 9, 12, 13, 14, 15, 16, 17, 18];
    book.ask5(10, 19, &recorded);
}

/// Figures 6 to 9 of document 000, which state verdicts too.
fn more_of_000(book: &mut Book) {
    let title = "document 000, figure 6 (threads of 7 and 8 chosen, the columns are lost): the \
                 paper's cones of (2, 10) hold 1 and 4 5 6 9; reported";
    put(book, title, FIGURE_6, &[race(2, 10)]);
    let title = "document 000, figure 7: the paper says (6, 16) is a predictable race; reported";
    put(book, title, FIGURE_7, &[race(6, 16)]);
    book.ask5(6, 16, &[1, 8, 9, 10, 11, 12, 13, 14, 15, 2, 3, 4, 5]);
    let title = "document 000, figure 8: the paper says (5, 13) is not a predictable race; agreed";
    put(book, title, FIGURE_8, &[no_race(5, 13)]);
    book.ask22(OLD_LIMITS.long_list());
    let title =
        "document 000, figure 9: the paper says the writes of y, (5, 16), are a predictable \
                 race; these rules do not report it (thread 1's section would have to come before \
                 thread 2's writes)";
    let missed = Said {
        pair: (5, 16),
        race: true,
        reported: false,
    };
    put(book, title, FIGURE_9, &[missed]);
    book.ask5(5, 16, &[10, 11, 12, 13, 1, 7, 8, 9, 14, 15, 2, 3, 4]);
    book.assert_answer("yes");
    book.ask5(5, 16, &[1, 7, 8, 9, 10, 11, 12, 2, 3, 4, 13, 14, 15]);
}

/// Figures 1 to 3 of document 001. In figure 3, sync(x) is acq(x), a read and a write of x's own
/// cell, rel(x): z = 0, x's cell = 1; l = 0, x = 1, n = 2.
const FIGURE_3: &str = "0+0 0+1 0r1 0w1 0-1 0r0 0-0 \
                        1+1 1r1 1w1 1-1 1+0 1+2 1-2 1-0 2+2 2-2 2w0";

fn document_001(book: &mut Book) {
    let title = "document 001, figure 1a: the paper says the sections cannot be swapped; R, agreed";
    let none = [no_race(2, 7), no_race(3, 6), no_race(3, 7)];
    put(book, title, R, &none);
    let title = "document 001, figure 1b: the paper says a race on y, (1, 8); Q, reported";
    put(book, title, Q, &[race(1, 8)]);
    let title = "document 001, figure 2a (taken from the prose): the paper says no race; T, agreed";
    put(book, title, T, &[no_race(1, 7), no_race(3, 6)]);
    let title = "document 001, figure 2b (taken from the prose): a race on y, (1, 6); S, reported";
    put(book, title, S, &[race(1, 6), no_race(3, 7)]);
    book.ask5(1, 6, &[5]);
    let title = "document 001, figure 3, sync(x) written out as acq r w rel: the paper says \
                 (3, 12), here (6, 18), is a predictable race; reported";
    put(book, title, FIGURE_3, &[race(6, 18)]);
    book.ask5(6, 18, &[1, 2, 3, 4, 5, 16, 17]);
    book.ask5(6, 18, &[16, 17, 1, 2, 3, 4, 5]);
    book.ask5(6, 18, &[1, 2, 3, 4, 5, 16]);
    book.ask5(6, 18, &[2, 3, 4, 5, 16, 17]);
}

/// Figures 4 and 5 of document 001: z = 0; l = 0, m = 1, n = 2, x = 3, y = 4 with cells alike.
const FIGURE_4: &str = "0+0 0+1 0-1 0r0 0-0 1+1 1+2 1+3 1r3 1w3 1-3 1-2 1-1 \
                        2+2 2+0 2-0 2+3 2r3 2w3 2-3 2w0 2-2";
const FIGURE_5: &str = "0+0 0+1 0-1 0r0 0-0 1+1 1+2 1+3 1r3 1w3 1-3 1-2 \
                        2+2 2+0 2-0 2+3 2r3 2w3 2-3 2w0 2-2 2+4 2r4 2w4 2-4 1+4 1r4 1w4 1-4 1-1";

fn more_of_001(book: &mut Book) {
    let title =
        "document 001, figure 4, sync(x) written out: the paper says (4, 15), here (4, 21), \
                 is a predictable race; reported";
    put(book, title, FIGURE_4, &[race(4, 21)]);
    let sections: Vec<usize> = (6..=20).chain(1..=3).collect();
    book.ask5(4, 21, &sections);
    let title = "document 001, figure 5, sync(x) and sync(y) written out: the paper says no race, \
                 (4, 14), here (4, 20); agreed";
    put(book, title, FIGURE_5, &[no_race(4, 20)]);
    book.ask22(OLD_LIMITS.long_list());
}

/// Figures of document 002: t_1 to t_4 are threads 0 to 3; a, b = cells 0, 1 and x, y, z = locks
/// 0, 1, 2. In figure 13 x, y = cells 0, 1, and l_1 to l_3 = locks 1 to 3.
const FORKS_2: &str = "0f2 0+0 0f1 1w0 0j1 0-0 2+0 2w0 2-0";
const FORKS_3: &str = "0f1 0+0 0w0 0-0 1+0 1-0 1w0";
const FORKS_4: &str = "0f2 0f1 0w0 0+1 0w1 0-1 1+1 1w1 1-1 1w0";
const FORKS_5: &str = "0f2 0+0 0f1 1+1 1-1 0j1 0w0 0-0 2+1 2+0 2-0 2w0 2-1";
const LEMMA_5_8: &str = "0+0 0f1 0w0 1w0 0j1 0-0";
const FORKS_6: &str = "0f1 0f2 0+0 0w0 1w1 0j1 0-0 2+0 2f3 3w1 2r0 2-0";
const FORKS_7: &str = "0f1 0f2 0+0 1+1 1-1 2+2 2j1 2-2 0j1 0-0";
const FORKS_9: &str = "0f1 0f2 0+0 0w0 1+1 1w1 0j1 0-0 2+0 2f3 3w1 2r0 2-0 1j3 1-1";
const FORKS_10: &str = "0f1 0w0 0+0 0w0 0-0 1+0 1w0 1-0";
const FORKS_13: &str = "0f2 0+1 0+2 0f1 1+3 1w0 1-3 0j1 0-2 0w1 0-1 \
                        2+1 2+2 2w0 2-2 2-1 2+3 2w1 2r0 2-3";
const FORKS_14: &str = "0f2 0+0 0f1 1w0 0w1 0j1 0-0 2+0 2f3 3r0 2j3 2-0 2w1";

/// Document 002, whose recordings have forks and joins.
pub fn document_002(book: &mut Book) {
    book.group("group 10, document 002: its figures and the recording of its lemma 5.8");
    sections_across_threads(book);
    swapped_sections(book);
    stated_otherwise(book);
}

fn sections_across_threads(book: &mut Book) {
    let title = "document 002, figure 2: the paper says (4, 8) cannot be brought together; agreed";
    put(book, title, FORKS_2, &[no_race(4, 8)]);
    book.ask5(4, 8, &[1, 7]);
    book.assert_answer("no 25");
    book.ask5(4, 8, &[1, 2, 3, 7]);
    book.assert_answer("no 24");
    book.ask5(4, 8, &[1, 7, 2, 3]);
    book.assert_answer("no 24");
    let title = "document 002, figure 5: the paper says (7, 12) is not a predictable race; agreed";
    put(book, title, FORKS_5, &[no_race(7, 12)]);
    book.ask5(7, 12, &[1, 2, 3, 9]);
    book.ask5(7, 12, &[1, 2, 3, 9, 10]);
    book.assert_answer("no 24");
    book.ask5(7, 12, &[1, 2, 3, 9, 4]);
    book.assert_answer("no 24");
    book.ask5(7, 12, &[1, 2, 3, 9, 6]);
    book.assert_answer("no 27");
    let title = "document 002, lemma 5.8: the paper says (3, 4) is a race; reported";
    put(book, title, LEMMA_5_8, &[race(3, 4)]);
    book.ask5(3, 4, &[1, 2]);
    book.assert_answer("yes");
    book.ask5(3, 4, &[1]);
    let title =
        "document 002, figure 7: the paper says it is well-formed, one thread joined twice; \
                 good, without accesses";
    put(book, title, FORKS_7, &[]);
    let title = "document 002, figure 14: the paper says there is no race here; agreed";
    put(book, title, FORKS_14, &[no_race(4, 10), no_race(5, 13)]);
    book.ask5(5, 13, &[1, 2, 3, 4, 8, 9, 10, 11, 12]);
    book.assert_answer("no 24");
    book.ask5(5, 13, &[1, 8, 9, 11]);
    book.assert_answer("no 27");
}

fn swapped_sections(book: &mut Book) {
    let title = "document 002, figure 3: the paper says (3, 7) is a race; reported";
    put(book, title, FORKS_3, &[race(3, 7)]);
    book.ask5(3, 7, &[1, 5, 6, 2]);
    book.assert_answer("yes");
    book.ask5(3, 7, &[5, 6, 1, 2]);
    book.assert_answer("no 27");
    let title = "document 002, figure 4: the paper says (3, 10) is a race and (5, 8) is none; \
                 agreed, (3, 10) is reported";
    put(book, title, FORKS_4, &[race(3, 10), no_race(5, 8)]);
    book.ask5(3, 10, &[1, 2, 7, 8, 9]);
    book.assert_answer("yes");
    book.ask5(3, 10, &[1, 7, 8, 9]);
    book.assert_answer("no 27");
    let title = "document 002, figure 10: the paper says (2, 7) is a race; reported";
    put(book, title, FORKS_10, &[race(2, 7), no_race(4, 7)]);
    book.ask5(2, 7, &[1, 6]);
    book.assert_answer("yes");
    book.ask5(2, 7, &[6, 1]);
    book.assert_answer("no 27");
}

/// Where the paper's words and its definitions differ.
fn stated_otherwise(book: &mut Book) {
    let missed = |a, b| Said {
        pair: (a, b),
        race: true,
        reported: false,
    };
    let title = "document 002, figure 6: the paper says (5, 10) is not predictable; by its own \
                 definitions and these rules 1 2 8 9 brings both next; not reported (with 8 comes \
                 12, so 11, so 4, so 7, so 6, so 5)";
    put(book, title, FORKS_6, &[missed(5, 10), no_race(4, 11)]);
    book.ask5(5, 10, &[1, 2, 8, 9]);
    book.assert_answer("yes");
    book.ask5(5, 10, &[1, 2, 8]);
    book.assert_answer("no 26");
    let title = "document 002, figure 13: the paper says (10, 18) is not predictable; by its own \
                 definitions and these rules a list brings both next; not reported (thread 1's \
                 section would have to come behind thread 2's)";
    let said = [missed(10, 18), no_race(6, 14), no_race(6, 19)];
    put(book, title, FORKS_13, &said);
    let swapped = [1, 12, 13, 14, 15, 16, 2, 3, 4, 5, 6, 7, 8, 9, 17];
    book.ask5(10, 18, &swapped);
    book.assert_answer("yes");
    book.ask5(10, 18, &swapped[..14]);
    book.assert_answer("no 26");
    book.title(
        "document 002, figure 9: 7 joins the second thread, which has the events 14 and 15; \
         refused 17 at 14",
    );
    book.recording(&file(&[], &told(FORKS_9)));
    assert!(book
        .stdout
        .trim_end()
        .ends_with("refused 17 at 14 | note 0"));
    ask_all(book);
    book.recording(&file(&[], &told(FORKS_9)[..13]));
    ask_all(book);
    book.ask5(6, 11, &[1, 2, 5, 9, 10]);
}
