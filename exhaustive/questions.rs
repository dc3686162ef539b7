//! The six questions of paper 01, "What may be asked", with their refusals.

use crate::recording::{judge, Refusal};
use crate::recording::{Event, Kind};
use crate::rules::{
    conflicting, enabled, held_by_another, next_of_thread, observed, seen_after, Seen,
};
use crate::study::Study;
use crate::threads::{begun, ended};

/// The least work area of questions 3 and 4.
pub const AREA: usize = 65_536;

/// A file that is asked about, judged.
pub struct Asked {
    pub bytes: Vec<u8>,
    pub judged: Result<Study, Refusal>,
}

#[derive(Clone, Copy, PartialEq, Eq, Debug)]
pub enum Verdict {
    Reported(usize),
    NotReported,
}

impl Asked {
    pub fn new(bytes: Vec<u8>) -> Asked {
        let judged = judge(&bytes).map(Study::new);
        Asked { bytes, judged }
    }

    fn study(&self) -> Result<&Study, Refusal> {
        self.judged.as_ref().map_err(|refusal| *refusal)
    }

    /// Question 1: the number of events and of threads.
    pub fn good(&self) -> Result<(usize, usize), Refusal> {
        let study = self.study()?;
        Ok((study.events().len(), study.threads))
    }

    /// Question 2: the observed write.
    pub fn observed(&self, number: usize) -> Result<Seen, Refusal> {
        Ok(observed(self.study()?.events(), number))
    }

    /// Question 2 of all numbers at once: entry k of the lent list is for number k, from 0 on, and
    /// none stands for an entry as it was lent. It gives the number of events. A list too short is
    /// refusal 10, judged last, which is a choice of this project; a refusal changes no entry.
    pub fn all_observed(&self, entries: &mut [Option<Seen>]) -> Result<usize, Refusal> {
        let n = self.study()?.events().len();
        let front = entries.get_mut(..=n).ok_or(Refusal::plain(10))?;
        for (number, entry) in front.iter_mut().enumerate() {
            *entry = Some(self.observed(number)?);
        }
        Ok(n)
    }

    /// Question 3: the verdict; the refusals come in the order 11, 10, 12.
    pub fn verdict(
        &self,
        (a, b): (usize, usize),
        entries: &mut [u16],
        area: &mut [u8],
    ) -> Result<Verdict, Refusal> {
        let study = self.study()?;
        let pair = study.pair(a, b).ok_or(Refusal::plain(11))?;
        if entries.len() < study.events().len() {
            return Err(Refusal::plain(10));
        }
        if area.len() < AREA {
            return Err(Refusal::plain(12));
        }
        area[..AREA].fill(0);
        let Some(list) = &pair.shown else {
            return Ok(Verdict::NotReported);
        };
        for (entry, event) in entries.iter_mut().zip(list) {
            *entry = *event as u16;
        }
        Ok(Verdict::Reported(list.len()))
    }

    /// Question 4: the first reported pair after the given numbers.
    pub fn next_race(
        &self,
        after: (usize, usize),
        area: &mut [u8],
    ) -> Result<Option<(usize, usize)>, Refusal> {
        let study = self.study()?;
        if area.len() < AREA {
            return Err(Refusal::plain(12));
        }
        area[..AREA].fill(0);
        Ok(study
            .pairs
            .iter()
            .filter(|pair| pair.shown.is_some())
            .map(|pair| (pair.a, pair.b))
            .filter(|pair| *pair > after)
            .min())
    }

    /// Question 5: yes (no fault), or the number of the first fault.
    pub fn check(&self, a: usize, b: usize, list: &[usize]) -> Result<Option<u8>, Refusal> {
        let events = self.study()?.events();
        if !conflicting(events, a, b) {
            return Err(Refusal::plain(11));
        }
        Ok(first_fault(events, a, b, list))
    }

    /// Question 6: the note.
    pub fn note<'a>(&'a self, operator: &'a [u8]) -> &'a [u8] {
        match &self.judged {
            Err(_) => &self.bytes[..0],
            Ok(study) if study.recording.preamble.is_empty() => operator,
            Ok(study) => &self.bytes[..study.recording.preamble.len()],
        }
    }
}

/// The first fault by place; if the list is clean, 25 if a is not enabled, then 26 if b is not.
pub fn first_fault(events: &[Event], a: usize, b: usize, list: &[usize]) -> Option<u8> {
    let by_place = (0..list.len()).find_map(|i| fault_at(events, &list[..i], list[i]));
    if by_place.is_some() {
        return by_place;
    }
    if !enabled(events, list, a) {
        return Some(25);
    }
    (!enabled(events, list, b)).then_some(26)
}

/// The fault of one place, those before it being clean: 21, 22, 23, 24, 27 in this order.
fn fault_at(events: &[Event], before: &[usize], number: usize) -> Option<u8> {
    if number == 0 || number > events.len() {
        return Some(21);
    }
    if !next_of_thread(events, before, number) {
        return Some(22);
    }
    let event = events[number - 1];
    match event.kind {
        Kind::Read if seen_after(events, before, event.object) != observed(events, number) => {
            Some(23)
        }
        Kind::Acquire if held_by_another(events, before, event) => Some(24),
        _ if !begun(events, before, event) || !ended(events, before, event) => Some(27),
        _ => None,
    }
}
