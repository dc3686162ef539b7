//! Tarungkis from Rust: the functions of include/tarungkis.h, each as a safe function that takes slices and gives an enum.
//! Take this file into a program with `mod tarungkis;` and link libtarungkis.a (examples/verdict.rs is a whole program).
//! A number that no answer has would be a defect of the library; it panics here.

#![allow(dead_code)]

unsafe extern "C" {
    fn tarungkis_judge(file: *const u8, bytes: usize) -> u64;
    fn tarungkis_observed_write(file: *const u8, bytes: usize, k: u16) -> u64;
    fn tarungkis_observed_writes(
        file: *const u8,
        bytes: usize,
        list: *mut u16,
        entries: usize,
    ) -> u64;
    fn tarungkis_verdict(
        file: *const u8,
        bytes: usize,
        a: u16,
        b: u16,
        list: *mut u16,
        entries: usize,
        area: *mut u8,
        area_bytes: usize,
    ) -> u64;
    fn tarungkis_next_race(
        file: *const u8,
        bytes: usize,
        a: u16,
        b: u16,
        area: *mut u8,
        area_bytes: usize,
    ) -> u64;
    fn tarungkis_check_reordering(
        file: *const u8,
        bytes: usize,
        a: u16,
        b: u16,
        list: *const u16,
        entries: usize,
    ) -> u64;
    fn tarungkis_note(file: *const u8, bytes: usize) -> u64;
    fn tarungkis_write_file(
        preamble: *const u8,
        preamble_bytes: usize,
        threads: *const u8,
        thread_entries: usize,
        kinds: *const u8,
        kind_entries: usize,
        objects: *const u16,
        object_entries: usize,
        buffer: *mut u8,
        buffer_bytes: usize,
    ) -> u64;
    fn tarungkis_report(
        file: *const u8,
        bytes: usize,
        place: *mut u32,
        out: *mut u8,
        out_bytes: usize,
    ) -> usize;
}

pub const MAX_BYTES: usize = 16384;
pub const MAX_EVENTS: usize = 1000;
pub const MAX_THREAD: usize = 15;
pub const MAX_OBJECT: usize = 1023;
pub const AREA_BYTES: usize = 65536;
pub const LINE_BYTES: usize = 25 + 6 * MAX_EVENTS;
pub const MAX_RACES: usize = MAX_EVENTS * MAX_EVENTS;

/// A refusal: its number in the paper, and the event that it speaks of, or 0.
#[derive(Clone, Copy, Debug, PartialEq)]
pub struct Refusal {
    pub number: u8,
    pub event: u16,
}

#[derive(Clone, Copy, Debug, PartialEq)]
pub enum Observed {
    Write(u16),
    Start,
    NotARead,
}

#[derive(Clone, Copy, Debug, PartialEq)]
pub enum Check {
    Yes,
    /// The first fault's number, 21 to 27.
    No(u8),
}

/// An answer: its case and the two numbers that go with it.
struct Answer {
    case: u8,
    first: u16,
    second: u64,
}

/// The refusals' cases are below this.
const CASES: u8 = 100;

fn answer(number: u64) -> Result<Answer, Refusal> {
    let case = number as u8;
    let first = (number >> 8) as u16;
    let second = number >> 24;
    if case < CASES {
        return Err(Refusal {
            number: case,
            event: first,
        });
    }
    Ok(Answer {
        case,
        first,
        second,
    })
}

/// Question 1: how many events and threads a good recording has.
pub fn judge(file: &[u8]) -> Result<(u16, u64), Refusal> {
    // SAFETY: the slice is lent for the call, which only reads it and keeps nothing.
    let a = answer(unsafe { tarungkis_judge(file.as_ptr(), file.len()) })?;
    assert_eq!(a.case, 100);
    Ok((a.first, a.second))
}

/// Question 2: which write event k sees.
pub fn observed_write(file: &[u8], k: u16) -> Result<Observed, Refusal> {
    // SAFETY: as above.
    let a = answer(unsafe { tarungkis_observed_write(file.as_ptr(), file.len(), k) })?;
    Ok(match a.case {
        101 => Observed::Write(a.first),
        102 => Observed::Start,
        103 => Observed::NotARead,
        c => panic!("no answer to question 2: {c}"),
    })
}

/// Question 2 for all events at once: the entries for 0 to the number of events, in the front of the list.
pub fn observed_writes<'a>(file: &[u8], list: &'a mut [u16]) -> Result<&'a [u16], Refusal> {
    // SAFETY: the slices are lent for the call, which writes within the list only and keeps nothing.
    let number = unsafe {
        tarungkis_observed_writes(file.as_ptr(), file.len(), list.as_mut_ptr(), list.len())
    };
    let a = answer(number)?;
    assert_eq!(a.case, 104);
    Ok(&list[..usize::from(a.first) + 1])
}

/// Question 3: the witness of (a, b) in the front of the list, or none where the pair is not reported.
pub fn verdict<'a>(
    file: &[u8],
    a: u16,
    b: u16,
    list: &'a mut [u16],
    area: &mut [u8],
) -> Result<Option<&'a [u16]>, Refusal> {
    // SAFETY: as above; Rust's borrows keep the list and the area apart.
    let number = unsafe {
        tarungkis_verdict(
            file.as_ptr(),
            file.len(),
            a,
            b,
            list.as_mut_ptr(),
            list.len(),
            area.as_mut_ptr(),
            area.len(),
        )
    };
    let x = answer(number)?;
    Ok(match x.case {
        105 => Some(&list[..usize::from(x.first)]),
        106 => None,
        c => panic!("no answer to question 3: {c}"),
    })
}

/// Question 4: the first race after (a, b), or none.
pub fn next_race(
    file: &[u8],
    a: u16,
    b: u16,
    area: &mut [u8],
) -> Result<Option<(u16, u16)>, Refusal> {
    // SAFETY: as above.
    let number = unsafe {
        tarungkis_next_race(
            file.as_ptr(),
            file.len(),
            a,
            b,
            area.as_mut_ptr(),
            area.len(),
        )
    };
    let x = answer(number)?;
    Ok(match x.case {
        107 => Some((
            x.first,
            u16::try_from(x.second).expect("an event's number"),
        )),
        108 => None,
        c => panic!("no answer to question 4: {c}"),
    })
}

/// Question 5: is the list a correct reordering that brings both a and b next?
pub fn check_reordering(file: &[u8], a: u16, b: u16, list: &[u16]) -> Result<Check, Refusal> {
    // SAFETY: as above.
    let number = unsafe {
        tarungkis_check_reordering(file.as_ptr(), file.len(), a, b, list.as_ptr(), list.len())
    };
    let x = answer(number)?;
    Ok(match x.case {
        109 => Check::Yes,
        110 => Check::No(u8::try_from(x.first).expect("a fault's number")),
        c => panic!("no answer to question 5: {c}"),
    })
}

/// Question 6: the recording's note, or the operator's own where it has none; empty for a refused file.
pub fn note<'a>(file: &'a [u8], operator: &'a [u8]) -> &'a [u8] {
    // SAFETY: as above.
    match answer(unsafe { tarungkis_note(file.as_ptr(), file.len()) }) {
        Ok(Answer {
            case: 111, first, ..
        }) => &file[..usize::from(first)],
        Ok(Answer { case: 112, .. }) => operator,
        _ => panic!("no answer to question 6"),
    }
}

/// The writer: the recording of a preamble and events, in the front of the buffer.
pub fn write_file<'a>(
    preamble: &[u8],
    threads: &[u8],
    kinds: &[u8],
    objects: &[u16],
    buffer: &'a mut [u8],
) -> Result<&'a [u8], Refusal> {
    // SAFETY: as above; it writes within the buffer only.
    let number = unsafe {
        tarungkis_write_file(
            preamble.as_ptr(),
            preamble.len(),
            threads.as_ptr(),
            threads.len(),
            kinds.as_ptr(),
            kinds.len(),
            objects.as_ptr(),
            objects.len(),
            buffer.as_mut_ptr(),
            buffer.len(),
        )
    };
    let a = answer(number)?;
    assert_eq!(a.case, 113);
    Ok(&buffer[..usize::from(a.first)])
}

/// A place in a report; the default is its start.
#[derive(Clone, Copy, Debug, Default, PartialEq)]
pub struct Place([u32; 4]);

/// The next lines of a report, as many as surely fit, in the front of `out`, which needs LINE_BYTES; none where it has ended.
pub fn report<'a>(file: &[u8], place: &mut Place, out: &'a mut [u8]) -> &'a [u8] {
    // SAFETY: as above; it writes within the place's four words and within `out` only.
    let n = unsafe {
        tarungkis_report(
            file.as_ptr(),
            file.len(),
            place.0.as_mut_ptr(),
            out.as_mut_ptr(),
            out.len(),
        )
    };
    &out[..n]
}
