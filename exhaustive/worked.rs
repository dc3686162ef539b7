//! Group 1: the worked examples P to Z, the slips and the limits of paper 01. Y, Z and the last
//! slips are those of request Three.
//! Cells x = 0, y = 1, z = 2; locks l = 0, m = 1.

use crate::askings::{ask_all, ask_all_of_refused};
use crate::book::Book;
use crate::questions::AREA;
use crate::recording::{acq, file, told, w, Limits, Recording, LIMITS, MAX_THREAD, OLD_LIMITS};

pub const Q: &str = "0w1 0+0 0r0 0-0 1+0 1r0 1-0 1r1";
pub const R: &str = "0+0 0r0 0w0 0-0 1+0 1r0 1w0 1-0";
pub const S: &str = "0w1 0+0 0w0 0-0 1+0 1r1 1r0 1-0";
pub const T: &str = "0w1 0+0 0w0 0-0 1+0 1r0 1r1 1-0";
const U: &str = "0r0 0w2 1w0 1w2";
pub const V: &str = "0w0 1r0";
pub const W: &str = "0w0 2+0 2w1 2r0 2-0 1r1 1w0";
const X: &str = "2+1 2w1 0r1 0w0 1+0 1r0 1-0 2+0 2-0 2-1";
const Y: &str = "0w0 2+0 2+0 2w1 2-0 2r0 2-0 1r1 1+0 1w0";
pub const Z: &str = "0w1 0+0 0w0 0-0 1+0 1+0 1r1 1r0 1-0 1-0";

/// All but the empty one.
pub const ALL: [&str; 10] = [Q, R, S, T, U, V, W, X, Y, Z];

/// A reported pair with the list shown for it.
pub type Race<'a> = (usize, usize, &'a [usize]);

/// Writes a recording down; asserts its reported pairs with what is shown for them.
pub fn put(book: &mut Book, title: &str, text: &str, races: &[Race]) {
    book.title(title);
    book.recording(&file(&[], &told(text)));
    let study = book.study().expect("a good recording");
    let reported: Vec<Race> = study
        .pairs
        .iter()
        .filter_map(|p| p.shown.as_deref().map(|list| (p.a, p.b, list)))
        .collect();
    assert_eq!(reported, races, "{title}");
    ask_all(book);
}

pub fn write(book: &mut Book) {
    book.group("group 1: the worked examples, the slips and the limits");
    p_and_q(book);
    r_s_t(book);
    u_and_v(book);
    w_and_x(book);
    y_and_z(book);
    slips(book);
    more_slips(book);
    slips_of_reentry(book);
    limits(book);
}

fn p_and_q(book: &mut Book) {
    put(book, "P: no events", "", &[]);
    book.ask22(OLD_LIMITS.long_list());
    book.ask2(0);
    book.ask2(1);
    book.ask3(1, 2, 0, AREA);
    book.ask3(0, 0, 0, 0);
    book.ask4(0, 0, AREA);
    book.ask4(65535, 65535, AREA - 1);
    book.ask5(1, 2, &[]);
    book.ask6(&[]);
    book.ask6(b"stand 4");
    let title = "Q: (1, 8) is reported with 5 6 7";
    put(book, title, Q, &[(1, 8, &[5, 6, 7])]);
    book.ask22(OLD_LIMITS.long_list());
    book.ask3(1, 8, 8, AREA);
    book.ask3(1, 8, 7, AREA);
    book.ask3(8, 1, 8, AREA);
    book.ask4(0, 0, AREA);
    book.ask4(1, 7, AREA);
    book.ask4(1, 8, AREA);
    book.ask5(1, 8, &[5, 6, 7]);
    book.ask5(1, 8, &[5, 6]);
    book.ask5(1, 8, &[]);
    book.ask5(1, 8, &[1, 5, 6, 7]);
    book.ask5(3, 6, &[]);
}

fn r_s_t(book: &mut Book) {
    put(book, "R: nothing is reported", R, &[]);
    for (a, b) in [(2, 7), (3, 6), (3, 7), (2, 6)] {
        book.ask3(a, b, 8, AREA);
        book.ask5(a, b, &[1, 2, 3, 4, 5]);
        book.ask5(a, b, &[5, 1]);
        book.ask5(a, b, &[1, 5]);
    }
    put(book, "S: only (1, 6), with 5", S, &[(1, 6, &[5])]);
    book.ask3(1, 6, 8, AREA);
    book.ask3(3, 7, 8, AREA);
    book.ask5(1, 6, &[5]);
    book.ask5(1, 6, &[5, 6]);
    book.ask5(3, 7, &[1, 2, 5, 6]);
    put(book, "T: nothing is reported", T, &[]);
    book.ask3(1, 7, 8, AREA);
    book.ask3(3, 6, 8, AREA);
    book.ask5(1, 7, &[5, 6]);
    book.ask5(1, 7, &[5]);
}

fn u_and_v(book: &mut Book) {
    let title = "U: (1, 3) with the empty list, (2, 4) with 1 3";
    put(book, title, U, &[(1, 3, &[]), (2, 4, &[1, 3])]);
    book.ask5(2, 4, &[1, 3]);
    book.ask5(2, 4, &[3, 1]);
    book.assert_answer("no 23");
    book.ask5(1, 3, &[]);
    book.ask4(1, 3, AREA);
    book.ask4(2, 3, AREA);
    book.ask4(2, 4, AREA);
    book.ask3(2, 4, 4, AREA);
    let title = "V: reported, with the empty list";
    put(book, title, V, &[(1, 2, &[])]);
    book.ask22(5);
    book.ask5(1, 2, &[]);
    book.ask5(1, 2, &[1]);
    book.ask5(1, 2, &[2]);
    book.ask3(1, 2, 2, AREA);
}

fn w_and_x(book: &mut Book) {
    let title = "W: (1, 7) is not reported, yet 2 3 6 passes";
    let races: [Race; 3] = [(1, 4, &[2, 3]), (3, 6, &[2]), (4, 7, &[2, 3, 6])];
    put(book, title, W, &races);
    book.ask22(OLD_LIMITS.long_list());
    book.ask3(1, 7, 7, AREA);
    book.ask5(1, 7, &[2, 3, 6]);
    book.assert_answer("yes");
    book.ask5(1, 7, &[2, 3]);
    book.ask5(1, 7, &[2, 3, 4, 5, 6]);
    book.ask5(4, 7, &[2, 3, 6]);
    put(book, "X: (4, 6) is not reported", X, &[(2, 3, &[1])]);
    book.ask3(4, 6, 10, AREA);
    book.ask5(4, 6, &[1, 2, 3, 5]);
    book.ask5(4, 6, &[1, 2, 3, 5, 8]);
    book.ask5(4, 6, &[5, 1, 2, 3]);
}

fn y_and_z(book: &mut Book) {
    let title =
        "Y: (6, 10) is not reported, 5 leaves the lock held; nor is (1, 10), with 2 comes 7";
    put(book, title, Y, &[(1, 6, &[2, 3, 4, 5]), (4, 8, &[2, 3])]);
    book.ask22(OLD_LIMITS.long_list());
    book.ask3(6, 10, 10, AREA);
    book.ask5(6, 10, &[2, 3, 4, 5, 8, 9]);
    book.assert_answer("no 24");
    book.ask5(6, 10, &[2, 3, 4, 5, 8]);
    book.ask3(1, 10, 10, AREA);
    book.ask5(1, 10, &[2, 3, 4, 5, 8, 9]);
    book.ask5(1, 10, &[1, 2, 3, 4, 5, 6, 7, 8, 9]);
    book.ask5(1, 6, &[2, 3, 4, 5]);
    book.ask5(4, 8, &[2, 3]);
    let title = "Z: only (1, 7), with 5 6: the holder takes the lock again";
    put(book, title, Z, &[(1, 7, &[5, 6])]);
    book.ask22(OLD_LIMITS.long_list());
    book.ask3(1, 7, 10, AREA);
    book.ask5(1, 7, &[5, 6]);
    book.assert_answer("yes");
    book.ask5(1, 7, &[5]);
    book.ask3(3, 8, 10, AREA);
    book.ask5(3, 8, &[1, 2, 5, 6, 7]);
    book.ask5(3, 8, &[1, 5, 6, 7, 2]);
}

/// What the worked examples leave open: which of two lists is shown, whose release ends a section,
/// and proposals that get 21, 22, 25 and 26.
pub fn choices(book: &mut Book) {
    book.group("group 9: what the worked examples leave open");
    let title = "two lists are possible: the one shown begins with the thread that is not moved";
    put(book, title, "0w1 0w0 1w2 1w0", &[(2, 4, &[3, 1])]);
    book.ask5(2, 4, &[1, 3]);
    book.assert_answer("yes");
    let title = "two locks: (1, 9) is not reported, 2 is given back by 7 and not by 5";
    let races: [Race; 3] = [
        (1, 6, &[2, 3, 4, 5]),
        (4, 8, &[2, 3]),
        (6, 9, &[2, 3, 4, 8, 5]),
    ];
    put(book, title, "0w0 2+0 2+1 2w1 2-1 2r0 2-0 1r1 1w0", &races);
    let title = "U again: a number that is no event, one that is not next, a and b not enabled";
    put(book, title, U, &[(1, 3, &[]), (2, 4, &[1, 3])]);
    let lists: [(&[usize], &str); 6] = [
        (&[1, 0], "no 21"),
        (&[5], "no 21"),
        (&[2], "no 22"),
        (&[1, 1], "no 22"),
        (&[], "no 25"),
        (&[1], "no 26"),
    ];
    for (list, answer) in lists {
        book.ask5(2, 4, list);
        book.assert_answer(answer);
    }
}

/// For each slip a recording that a program making it answers wrongly.
fn slips(book: &mut Book) {
    let title = "slip, differing lock sets: T, (1, 7) has no common lock";
    put(book, title, T, &[]);
    let title = "slip, differing lock sets: (1, 8) has no lock at all, yet 6 saw 3";
    put(book, title, "0w1 0+0 0w0 0-0 1+0 1r0 1-0 1r1", &[]);
    let title = "slip, a start read floating past a write: U shows 1 3, not 3 1";
    put(book, title, U, &[(1, 3, &[]), (2, 4, &[1, 3])]);
    let title = "slip, a start read floating past a write: (3, 8) is not reported";
    put(book, title, "0+0 0r0 0w2 0-0 1+0 1w0 1-0 1w2", &[]);
    book.ask5(3, 8, &[5, 6, 7, 1, 2]);
    book.ask5(3, 8, &[1, 2, 5, 6, 7]);
}

fn more_slips(book: &mut Book) {
    let title = "slip, the enabled read must see its old write: V";
    put(book, title, V, &[(1, 2, &[])]);
    let title = "slip, the enabled read must see its old write: (2, 3)";
    put(book, title, "0w0 1w0 0r0", &[(1, 2, &[]), (2, 3, &[1])]);
    let title = "slip, keeping the recorded order of sections: Q is lost";
    put(book, title, Q, &[(1, 8, &[5, 6, 7])]);
    let title = "slip, keeping the recorded order of sections: (2, 6) needs 4 5 before 1";
    put(
        book,
        title,
        "0+0 0w0 0-0 1+0 1-0 1w0",
        &[(2, 6, &[4, 5, 1])],
    );
    book.ask5(2, 6, &[4, 5, 1]);
    book.ask5(2, 6, &[1, 4, 5]);
    book.ask5(2, 6, &[4, 1, 5]);
    let title = "slip, releases added for the pair's own threads: S is hidden";
    put(book, title, S, &[(1, 6, &[5])]);
    let title = "slip, releases added for the pair's own threads: (1, 3) with 2";
    put(book, title, "0w0 1+0 1w0 1-0", &[(1, 3, &[2])]);
}

/// The slips that request Three invites.
fn slips_of_reentry(book: &mut Book) {
    let title = "slip, an inner release taken for the last: (2, 7) is not reported";
    put(book, title, "0+0 0w0 0-0 1+0 1+0 1-0 1w0 1-0", &[]);
    book.ask5(2, 7, &[4, 5, 6, 1]);
    book.assert_answer("no 24");
    let title = "slip, an inner release taken for the last: (2, 8) is, with 4 5 6 7 before 1";
    let last = "0+0 0w0 0-0 1+0 1+0 1-0 1-0 1w0";
    put(book, title, last, &[(2, 8, &[4, 5, 6, 7, 1])]);
    let title = "slip, rule (iv) with the first release: (1, 9) is not reported, with 2 comes 7";
    let races: [Race; 3] = [
        (1, 6, &[2, 3, 4, 5]),
        (4, 8, &[2, 3]),
        (6, 9, &[2, 3, 4, 8, 5]),
    ];
    put(book, title, "0w0 2+0 2+0 2w1 2-0 2r0 2-0 1r1 1w0", &races);
    book.ask5(1, 9, &[2, 3, 4, 5, 8]);
    let title = "slip, refusal 8 for the holder: (1, 4) is reported with 2 3";
    put(book, title, "0w0 1+0 1+0 1w0", &[(1, 4, &[2, 3])]);
    let title = "slip, a hold that is all given back counted as left: (1, 6) with 2 3 4 5";
    put(
        book,
        title,
        "0w0 1+0 1+0 1-0 1-0 1w0 0+0",
        &[(1, 6, &[2, 3, 4, 5])],
    );
}

/// A recording at a limit or beyond it. One that was refused before request Six is asked what it
/// was asked then too.
fn put_limit(book: &mut Book, bytes: &[u8]) {
    book.recording(bytes);
    let recording = book.study().map(|study| &study.recording);
    if recording.is_some_and(Recording::good_since_six) {
        ask_all_of_refused(book);
    }
    ask_all(book);
}

fn limits(book: &mut Book) {
    book.title("the limit before request Six: 512 events, and 513");
    numbers_of_events(book, &OLD_LIMITS);
    book.title("the limit before request Six: objects 255 and 256, cells and locks");
    highest_objects(book, &OLD_LIMITS);
    book.title("limit: threads 15 and 16");
    for thread in [MAX_THREAD, MAX_THREAD + 1] {
        put_limit(book, &file(&[], &[w(thread, 0)]));
    }
    book.title("limit: files of 7 and 8 bytes; before request Six: of 4,096 and 4,097 bytes");
    let least = file(&[], &[]);
    put_limit(book, &least[1..]);
    put_limit(book, &least);
    longest_files(book, &OLD_LIMITS);
    book.title("limit: 1,000 events good, 1,001 refused 3");
    numbers_of_events(book, &LIMITS);
    book.title("limit: objects 1,023 and 1,024, cells and locks");
    highest_objects(book, &LIMITS);
    book.title("limit: files of 16,384 and 16,385 bytes");
    longest_files(book, &LIMITS);
}

fn numbers_of_events(book: &mut Book, limits: &Limits) {
    let many = |n: usize| file(&[], &vec![w(0, 0); n]);
    put_limit(book, &many(limits.events));
    book.ask22(limits.long_list());
    put_limit(book, &many(limits.events + 1));
}

fn highest_objects(book: &mut Book, limits: &Limits) {
    for object in [limits.object, limits.object + 1] {
        put_limit(book, &file(&[], &[w(0, object)]));
        put_limit(book, &file(&[], &[acq(0, object)]));
    }
}

fn longest_files(book: &mut Book, limits: &Limits) {
    let most = limits.preamble(0);
    for length in [most, most + 1] {
        put_limit(book, &file(&vec![0x2E; length], &[]));
    }
}
