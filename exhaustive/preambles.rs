//! Group 5, refusal 13 (request One): a preamble may hold only bytes 20 to 7E hex and 0A.

use crate::book::Book;
use crate::damaged::ask_of_refused;
use crate::recording::{file, r, readable, told, w, Limits, LIMITS, OLD_LIMITS};
use crate::worked::Q;

/// Bytes on both sides of each edge of what a preamble may hold.
pub const EDGES: [u8; 11] = [
    0x00, 0x09, 0x0A, 0x0B, 0x0D, 0x1F, 0x20, 0x7E, 0x7F, 0x80, 0xFF,
];

pub fn write(book: &mut Book) {
    each_byte(book);
    at_each_place(book);
    book.title(
        "refusals 13, 3 and 1 before request Six: preambles up to 4,096 bytes of file, and 4,097",
    );
    longest(book, &OLD_LIMITS);
    book.title("refusals 13, 3 and 1: preambles up to 16,384 bytes of file, and one byte longer");
    longest(book, &LIMITS);
    beside_the_preamble(book);
}

/// The byte alone, and first, in the middle and last among others.
pub fn placed(byte: u8) -> [Vec<u8>; 4] {
    let among = |place: usize| {
        let mut preamble = b"stand 4, night 12".to_vec();
        preamble[place] = byte;
        preamble
    };
    [vec![byte], among(0), among(8), among(16)]
}

/// A preamble of so many bytes, readable but for the byte at one place, if a place is given.
pub fn long(length: usize, spoiled: Option<(usize, u8)>) -> Vec<u8> {
    let mut preamble = vec![0x2E; length];
    if let Some((place, byte)) = spoiled {
        preamble[place] = byte;
    }
    preamble
}

/// The first, a middle and the last place of a preamble, each with a byte that it may not hold.
pub fn spoiled_places(length: usize) -> [(usize, u8); 3] {
    [(0, 0x00), (length / 2, 0x7F), (length - 1, 0x1F)]
}

fn each_byte(book: &mut Book) {
    book.title("refusal 13: each byte alone as the preamble");
    let mut good = 0;
    for byte in 0..=255 {
        book.recording(&file(&[byte], &[]));
        good += usize::from(book.study().is_some());
    }
    assert_eq!(good, 0x7E - 0x20 + 1 + 1);
}

fn at_each_place(book: &mut Book) {
    book.title("refusal 13: a byte alone, first, in the middle and last in the preamble of Q");
    for byte in EDGES {
        for preamble in placed(byte) {
            book.recording(&file(&preamble, &told(Q)));
            assert_eq!(book.study().is_some(), readable(&[byte]));
            book.ask6(b"operator");
            book.ask6(&[]);
        }
    }
    ask_of_refused(book);
    book.title("the empty preamble; the operator's own note may hold any byte");
    for events in [vec![], told(Q)] {
        book.recording(&file(&[], &events));
        for byte in EDGES {
            book.ask6(&[byte]);
        }
    }
}

fn longest(book: &mut Book, limits: &Limits) {
    for n in [0, 1, limits.events, limits.events + 1] {
        let events = vec![r(1, 3); n];
        let most = limits.preamble(n);
        for length in [most, most + 1] {
            let spoiled = spoiled_places(length).map(Some);
            for spoiled in [None].into_iter().chain(spoiled) {
                book.recording(&file(&long(length, spoiled), &events));
                book.ask6(b"operator");
            }
        }
    }
    ask_of_refused(book);
}

/// The bytes that follow the preamble are none of its own.
fn beside_the_preamble(book: &mut Book) {
    book.title("not refusal 13: an event's first byte, and a trailer's, beside the preamble");
    for preamble in [&b""[..], b"x", b"abc", b"four"] {
        book.recording(&file(preamble, &[]));
        for thread in [0x00, 0x09, 0x0B, 0x0D, 0x0F, 0x10, 0x1F, 0x7F, 0x80, 0xFF] {
            book.recording(&file(preamble, &[w(thread, 0)]));
            assert!(book.asked.judged.as_ref().err().map(|e| e.number) != Some(13));
        }
    }
    book.title("refusal 13: the preamble's last byte is like a thread or a trailer's first");
    for byte in [0x00, 0x08, 0x0B, 0x0C, 0x0F, 0x10] {
        for events in [vec![], vec![w(0, 0)], vec![w(byte, 0)]] {
            book.recording(&file(&[b'n', byte], &events));
            book.recording(&file(&[byte], &events));
        }
    }
}
