//! Seeded recordings of a given length: well-formed, by so many threads, with few or many cells and sparse or
//! dense locks, or dense ones that are taken again while held, or by threads that are forked and joined. And three
//! kinds that a search is slow on.

use crate::plain::{ACQUIRE, FORK, JOIN, READ, RELEASE, WRITE};

/// Thread, kind, object.
type Event = (u8, u8, u16);

/// The file of some events, without a preamble.
fn file_of(events: &[Event]) -> Vec<u8> {
    let n = events.len();
    let mut file = Vec::new();
    for &(thread, kind, object) in events {
        file.extend_from_slice(&[thread, kind]);
        file.extend_from_slice(&object.to_le_bytes());
    }
    file.extend_from_slice(&(8 + 4 * n as u32).to_le_bytes());
    file.extend_from_slice(&(n as u16).to_le_bytes());
    file.extend_from_slice(&[0x50, 0x4C]);
    file
}

/// xorshift64*: the same numbers on every machine.
pub struct Random(u64);

impl Random {
    pub fn new(seed: u64) -> Random {
        Random(seed.wrapping_mul(0x9E37_79B9_7F4A_7C15) | 1)
    }

    /// A number below n.
    fn below(&mut self, n: u64) -> u64 {
        self.0 ^= self.0 >> 12;
        self.0 ^= self.0 << 25;
        self.0 ^= self.0 >> 27;
        (self.0.wrapping_mul(0x2545_F491_4F6C_DD1D) >> 33) % n
    }
}

#[derive(Clone, Copy, PartialEq)]
pub enum Locks {
    Sparse,
    Dense,
    /// Dense, and taken again while held.
    Deep,
}

#[derive(Clone, Copy)]
pub struct Family {
    pub threads: u64,
    pub cells: u64,
    pub locks: Locks,
    /// Do threads begin by a fork, and does thread 0 join some of them?
    pub forks: bool,
}

/// The lock that a thread holds, and how deep.
type Hold = Option<(u64, usize)>;

/// The threads that run, and how many have begun and were joined.
struct Threads {
    running: Vec<u64>,
    begun: u64,
    joined: u64,
}

impl Family {
    pub fn name(self) -> String {
        let locks = match self.locks {
            Locks::Sparse => "sparse",
            Locks::Dense => "dense",
            Locks::Deep => "deep",
        };
        let forked = if self.forks { ", forked" } else { "" };
        format!("{}{forked} | {} | {locks}", self.threads, self.cells)
    }

    fn with(threads: &[u64], locks: &[Locks], forks: bool) -> Vec<Family> {
        let mut all = Vec::new();
        for &threads in threads {
            for cells in [4, 64] {
                for &locks in locks {
                    all.push(Family {
                        threads,
                        cells,
                        locks,
                        forks,
                    });
                }
            }
        }
        all
    }

    /// The families of recordings: 2, 4 and 8 threads, 4 and 64 cells, sparse and dense locks.
    pub fn all() -> Vec<Family> {
        Family::with(&[2, 4, 8], &[Locks::Sparse, Locks::Dense], false)
    }

    /// The same with deep locks.
    pub fn deep() -> Vec<Family> {
        Family::with(&[2, 4, 8], &[Locks::Deep], false)
    }

    /// With forks and joins: 4 and 8 threads, 4 and 64 cells, sparse locks.
    pub fn forks() -> Vec<Family> {
        Family::with(&[4, 8], &[Locks::Sparse], true)
    }

    /// A recording of n events. A thread outside any section enters one in one step of 16 (sparse) or of 3
    /// (dense, deep), if the lock it wants is free; inside, it gives back one level in one step of 4 and, if the
    /// locks are deep, takes its lock again in one of 4 of the other steps. All else are accesses, one in three a
    /// write.
    ///
    /// With forks, thread 0 runs alone at first. Then all the others are forked, and then half as many joins follow as
    /// there are threads; they fall due at equal distances. A fork that is due is by thread 0 in its next step, or
    /// before that by another thread, in one step of 8. A join that is due is by thread 0, in a step in which the
    /// thread that it picks holds no lock.
    pub fn recording(self, n: usize, seed: u64) -> Vec<u8> {
        let mut r = Random::new(seed);
        let mut holds = vec![None; self.threads as usize];
        let begun = if self.forks { 1 } else { self.threads };
        let mut threads = Threads {
            running: (0..begun).collect(),
            begun,
            joined: 0,
        };
        let mut events = Vec::new();
        for k in 0..n as u64 {
            let thread = threads.running[r.below(threads.running.len() as u64) as usize];
            let changes = threads.begun + threads.joined;
            let due = self.forks && 3 * self.threads * k >= 2 * changes * n as u64;
            let change = if due {
                self.fork_or_join(&mut r, &mut threads, &holds, thread)
            } else {
                None
            };
            let (kind, object) =
                change.unwrap_or_else(|| self.step(&mut r, &mut holds, thread as usize));
            events.push((thread as u8, kind, object as u16));
        }
        file_of(&events)
    }

    fn fork_or_join(
        self,
        r: &mut Random,
        threads: &mut Threads,
        holds: &[Hold],
        thread: u64,
    ) -> Option<(u8, u64)> {
        if threads.begun < self.threads {
            if thread == 0 || r.below(8) == 0 {
                let child = threads.begun;
                threads.begun += 1;
                threads.running.push(child);
                return Some((FORK, child));
            }
        } else if thread == 0 && threads.joined < self.threads / 2 {
            let place = 1 + r.below(threads.running.len() as u64 - 1) as usize;
            if holds[threads.running[place] as usize].is_none() {
                threads.joined += 1;
                return Some((JOIN, threads.running.remove(place)));
            }
        }
        None
    }

    fn step(self, r: &mut Random, holds: &mut [Hold], thread: usize) -> (u8, u64) {
        if let Some((lock, depth)) = holds[thread] {
            if r.below(4) == 0 {
                holds[thread] = (depth > 1).then_some((lock, depth - 1));
                return (RELEASE, lock);
            }
            if self.locks == Locks::Deep && r.below(4) == 0 {
                holds[thread] = Some((lock, depth + 1));
                return (ACQUIRE, lock);
            }
        } else if r.below(if self.locks == Locks::Sparse { 16 } else { 3 }) == 0 {
            let lock = r.below(4);
            if !holds.iter().flatten().any(|(held, _)| *held == lock) {
                holds[thread] = Some((lock, 1));
                return (ACQUIRE, lock);
            }
        }
        let kind = if r.below(3) == 0 { WRITE } else { READ };
        (kind, r.below(self.cells))
    }
}

/// What a search through the places of two lists is slow on. The first two are correct programs by two threads:
/// nothing is reported.
#[derive(Clone, Copy)]
pub enum Slow {
    /// Each thread writes cells of its own, and then one shared cell in many short sections.
    Sections,
    /// Each thread writes cells of its own, and then one shared cell many times in one long section.
    Long,
    /// Eight threads take their locks hand over hand, so that a section in the cone brings in the next.
    Chain,
}

impl Slow {
    pub const ALL: [Slow; 3] = [Slow::Sections, Slow::Long, Slow::Chain];

    /// Would plain Rust take minutes or hours over n events?
    #[allow(dead_code)] // only the benchmark asks it
    pub fn endless(self, n: usize) -> bool {
        n > 512 && !matches!(self, Slow::Chain)
    }

    pub fn name(self) -> &'static str {
        match self {
            Slow::Sections => "sections",
            Slow::Long => "long",
            Slow::Chain => "chain",
        }
    }

    /// A recording of n events, or a few fewer.
    pub fn recording(self, n: usize) -> Vec<u8> {
        let events = match self {
            Slow::Sections => by_two(n / 4, sections((n / 2 - n / 4) / 3)),
            Slow::Long => by_two((n / 2 - 1) / 2, long((n / 2 - 2) / 2)),
            Slow::Chain => chain(n / 6),
        };
        file_of(&events)
    }
}

/// Two threads, one after the other: some writes of cells of its own, then a shared part.
fn by_two(own: usize, shared: Vec<u8>) -> Vec<Event> {
    let mut events = Vec::new();
    for thread in 0..2 {
        let cell = |i| 1 + ((2 * i + thread as usize) % 200) as u16;
        events.extend((0..own).map(|i| (thread, WRITE, cell(i))));
        events.extend(shared.iter().map(|&kind| (thread, kind, 0)));
    }
    events
}

fn sections(count: usize) -> Vec<u8> {
    [ACQUIRE, WRITE, RELEASE].repeat(count)
}

fn long(writes: usize) -> Vec<u8> {
    let mut kinds = vec![ACQUIRE];
    kinds.resize(1 + writes, WRITE);
    kinds.push(RELEASE);
    kinds
}

fn chain(steps: usize) -> Vec<Event> {
    let mut events = Vec::new();
    for step in 0..steps {
        let thread = step as u8 % 8;
        let turn = |n| (step as u16 % n, (step as u16 + 1) % n);
        let ((this, next), (written, read)) = (turn(50), turn(3));
        let kinds = [
            (ACQUIRE, this),
            (ACQUIRE, next),
            (WRITE, 100 + written),
            (RELEASE, this),
            (READ, 100 + read),
            (RELEASE, next),
        ];
        events.extend(kinds.map(|(kind, object)| (thread, kind, object)));
    }
    events
}
