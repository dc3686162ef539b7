//! The writer of request One: a preamble and a list of events, handed in as three lists, become a
//! file in a lent buffer, or are refused as reading that file would refuse it.

use crate::recording::{
    event_bytes, judge, judge_events, readable, size, trailer, Event, Recording, Refusal, LIMITS,
};

/// What is handed to the writer: of the events the first so many threads, kinds and objects.
#[derive(Clone, Debug)]
pub struct Handed {
    pub preamble: Vec<u8>,
    pub events: Vec<[u8; 4]>,
    pub entries: [usize; 3],
}

impl Handed {
    /// With three lists of one entry an event.
    pub fn even(preamble: &[u8], events: &[[u8; 4]]) -> Handed {
        Handed {
            preamble: preamble.to_vec(),
            events: events.to_vec(),
            entries: [events.len(); 3],
        }
    }

    pub fn new(preamble: &[u8], events: &[Event]) -> Handed {
        let events: Vec<[u8; 4]> = events.iter().map(event_bytes).collect();
        Handed::even(preamble, &events)
    }

    pub fn of(recording: &Recording) -> Handed {
        Handed::new(&recording.preamble, &recording.events)
    }

    pub fn file_length(&self) -> usize {
        size(self.preamble.len(), self.entries[0])
    }

    fn threads(&self) -> Vec<u8> {
        let events = &self.events[..self.entries[0]];
        events.iter().map(|e| e[0]).collect()
    }

    fn kinds(&self) -> Vec<u8> {
        let events = &self.events[..self.entries[1]];
        events.iter().map(|e| e[1]).collect()
    }

    fn objects(&self) -> Vec<u16> {
        let events = &self.events[..self.entries[2]];
        let object = |e: &[u8; 4]| u16::from_le_bytes([e[2], e[3]]);
        events.iter().map(object).collect()
    }

    /// Whether a file, read, has the same preamble and events.
    pub fn reads_back(&self, file: &[u8]) -> bool {
        let Ok(read) = judge(file) else { return false };
        let events: Vec<[u8; 4]> = read.events.iter().map(event_bytes).collect();
        read.preamble == self.preamble && events == self.events[..self.entries[0]]
    }

    /// The first fault with a buffer of so many bytes, told without a file. A mark and a distance
    /// cannot be wrong here, so that 2 and 4 have no case.
    pub fn first_fault(&self, buffer: usize) -> Option<Refusal> {
        let [n, kinds, objects] = self.entries;
        let plain = [
            (10, n != kinds || n != objects),
            (1, self.file_length() > LIMITS.bytes),
            (3, n > LIMITS.events),
            (13, !readable(&self.preamble)),
        ];
        if let Some((number, _)) = plain.iter().find(|(_, fault)| *fault) {
            return Some(Refusal::plain(*number));
        }
        let of_events = judge_events(&self.events[..n].concat()).err();
        let short = buffer < self.file_length();
        of_events.or(short.then_some(Refusal::plain(10)))
    }
}

/// Puts the file in the front of the lent buffer and gives its length. Lists of different lengths
/// name no events (10, before all else); then comes what reading the file would give; then a
/// buffer too short for it (10). A refusal changes nothing.
pub fn write(handed: &Handed, buffer: &mut [u8]) -> Result<usize, Refusal> {
    let (threads, kinds, objects) = (handed.threads(), handed.kinds(), handed.objects());
    if threads.len() != kinds.len() || threads.len() != objects.len() {
        return Err(Refusal::plain(10));
    }
    let file = laid_out(&handed.preamble, &threads, &kinds, &objects);
    judge(&file)?;
    let front = buffer.get_mut(..file.len()).ok_or(Refusal::plain(10))?;
    front.copy_from_slice(&file);
    Ok(file.len())
}

/// Preamble, events, trailer, good or not. More events than the trailer can count make a file that
/// is refused 1 whatever its trailer.
fn laid_out(preamble: &[u8], threads: &[u8], kinds: &[u8], objects: &[u16]) -> Vec<u8> {
    let mut file = preamble.to_vec();
    for ((thread, kind), object) in threads.iter().zip(kinds).zip(objects) {
        file.extend([*thread, *kind]);
        file.extend(object.to_le_bytes());
    }
    file.extend(trailer(threads.len()));
    file
}
