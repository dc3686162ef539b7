//! The nightly report as straightforward Rust: the recording's events in a vector, links built once, then for
//! each conflicting pair the cone, its split into the moved thread's events and the others', and a search with a
//! table of dead places, as the proved code had it before it had staircases. And question 2 for all events at once.
//! Nothing is shared with the proved code; what the two sides give is compared.

pub const READ: u8 = 1;
pub const WRITE: u8 = 2;
pub const ACQUIRE: u8 = 3;
pub const RELEASE: u8 = 4;
pub const FORK: u8 = 5;
pub const JOIN: u8 = 6;

const MAX_BYTES: usize = 16384;
const MAX_EVENTS: usize = 1000;
const MAX_THREAD: usize = 15;
const MAX_OBJECT: usize = 1023;

const THREADS: usize = MAX_THREAD + 1;
const OBJECTS: usize = MAX_OBJECT + 1;

#[derive(Clone, Copy)]
struct Event {
    thread: u8,
    kind: u8,
    object: u16,
}

/// The events of a good file; event k is `events[k]`, and place 0 is not used.
fn parse(file: &[u8]) -> Option<Vec<Event>> {
    if file.len() < 8 || file.len() > MAX_BYTES || file[file.len() - 2..] != [0x50, 0x4C] {
        return None;
    }
    let trailer = &file[file.len() - 8..];
    let distance = u32::from_le_bytes(trailer[..4].try_into().unwrap()) as usize;
    let n = u16::from_le_bytes(trailer[4..6].try_into().unwrap()) as usize;
    if n > MAX_EVENTS || distance != 8 + 4 * n || distance > file.len() {
        return None;
    }
    let first = file.len() - distance;
    if file[..first]
        .iter()
        .any(|b| !matches!(b, 0x0A | 0x20..=0x7E))
    {
        return None;
    }
    let mut events = vec![Event {
        thread: 0,
        kind: 0,
        object: 0,
    }];
    for e in file[first..file.len() - 8].chunks(4) {
        events.push(Event {
            thread: e[0],
            kind: e[1],
            object: u16::from_le_bytes([e[2], e[3]]),
        });
    }
    well_formed(&events).then_some(events)
}

fn well_formed(events: &[Event]) -> bool {
    // who holds each lock, and how deep
    let mut holds: [Option<(u8, usize)>; OBJECTS] = [None; OBJECTS];
    let mut begun = [false; THREADS];
    let mut forked = [false; THREADS];
    let mut joined = [false; THREADS];
    for e in &events[1..] {
        let thread = e.thread as usize;
        let object = e.object as usize;
        let most = if e.kind >= FORK {
            MAX_THREAD
        } else {
            MAX_OBJECT
        };
        if e.kind == 0 || e.kind > JOIN || thread > MAX_THREAD || object > most {
            return false;
        }
        if joined[thread] {
            return false;
        }
        begun[thread] = true;
        match (e.kind, holds[object]) {
            (ACQUIRE, None) => holds[object] = Some((e.thread, 1)),
            (ACQUIRE, Some((t, depth))) if t == e.thread => holds[object] = Some((t, depth + 1)),
            (RELEASE, Some((t, 1))) if t == e.thread => holds[object] = None,
            (RELEASE, Some((t, depth))) if t == e.thread => holds[object] = Some((t, depth - 1)),
            (ACQUIRE | RELEASE, _) => return false,
            (FORK | JOIN, _) if object == thread => return false,
            (FORK, _) if forked[object] || begun[object] => return false,
            (FORK, _) => forked[object] = true,
            (JOIN, _) => joined[object] = true,
            _ => {}
        }
    }
    true
}

/// For each event the one before it in its thread or, for the thread's first, the thread's fork, and that fork alone; a
/// read's observed write; an outermost acquire's last release; the last event of the thread that a join joins; 0 for
/// none. `counts`: is it an outermost acquire or a last release?
struct Links {
    previous: Vec<usize>,
    fork: Vec<usize>,
    observed: Vec<usize>,
    released: Vec<usize>,
    joined: Vec<usize>,
    counts: Vec<bool>,
}

impl Links {
    fn new(places: usize) -> Links {
        Links {
            previous: vec![0; places],
            fork: vec![0; places],
            observed: vec![0; places],
            released: vec![0; places],
            joined: vec![0; places],
            counts: vec![false; places],
        }
    }
}

fn links(events: &[Event]) -> Links {
    let places = events.len();
    let mut l = Links::new(places);
    let mut last_of_thread = [0; THREADS];
    let mut fork_of_thread = [0; THREADS];
    let mut last_write = [0; OBJECTS];
    let mut acquired = [0; OBJECTS];
    let mut depth = [0; OBJECTS];
    for k in 1..places {
        let e = events[k];
        let thread = e.thread as usize;
        let object = e.object as usize;
        l.previous[k] = last_of_thread[thread];
        if l.previous[k] == 0 {
            l.fork[k] = fork_of_thread[thread];
            l.previous[k] = l.fork[k];
        }
        last_of_thread[thread] = k;
        match e.kind {
            READ => l.observed[k] = last_write[object],
            WRITE => last_write[object] = k,
            ACQUIRE => {
                if depth[object] == 0 {
                    acquired[object] = k;
                    l.counts[k] = true;
                }
                depth[object] += 1;
            }
            FORK => fork_of_thread[object] = k,
            JOIN => l.joined[k] = last_of_thread[object],
            _ => {
                depth[object] -= 1;
                if depth[object] == 0 {
                    l.released[acquired[object]] = k;
                    l.counts[k] = true;
                }
            }
        }
    }
    l
}

/// The entry of an event that is not a read.
const NOT_A_READ: u16 = u16::MAX;

/// Question 2 for all events at once: entry k is the write that event k sees, 0 for the start. False for a refusal.
#[allow(dead_code)] // only the benchmark asks it
pub fn observed_writes(file: &[u8], entries: &mut Vec<u16>) -> bool {
    let Some(events) = parse(file) else {
        return false;
    };
    entries.clear();
    entries.resize(events.len(), NOT_A_READ);
    let mut last_write = [0; OBJECTS];
    for (k, e) in events.iter().enumerate() {
        let cell = e.object as usize;
        match e.kind {
            READ => entries[k] = last_write[cell],
            WRITE => last_write[cell] = k as u16,
            _ => {}
        }
    }
    true
}

fn conflicting(x: Event, y: Event) -> bool {
    x.object == y.object
        && x.thread != y.thread
        && (x.kind == WRITE && (y.kind == WRITE || y.kind == READ)
            || x.kind == READ && y.kind == WRITE)
}

/// Which events are in the causal cone of (a, b): a list of events still to be followed.
fn cone(events: &[Event], l: &Links, a: usize, b: usize) -> Vec<bool> {
    let mut inside = vec![false; events.len()];
    inside[0] = true;
    let mut waiting = vec![l.previous[a], l.previous[b]];
    while let Some(k) = waiting.pop() {
        if inside[k] {
            continue;
        }
        inside[k] = true;
        waiting.push(l.previous[k]);
        waiting.push(l.observed[k]);
        if events[k].kind == JOIN {
            waiting.push(l.joined[k]);
        }
        let thread = events[k].thread;
        if thread != events[a].thread && thread != events[b].thread {
            waiting.push(l.released[k]);
        }
    }
    inside
}

/// The search on the grid: `p` has the moved thread's events, `q` the others'.
struct Search<'a> {
    events: &'a [Event],
    links: &'a Links,
    moved: u8,
    p: Vec<usize>,
    q: Vec<usize>,
    dead: Vec<bool>,
}

impl Search<'_> {
    fn is(&self, k: usize, kind: u8, object: u16) -> bool {
        self.events[k].kind == kind && self.events[k].object == object
    }

    /// Nobody holds the lock after what was passed: of what counts on it, the last was a release.
    fn lock_free(&self, passed: &[usize], lock: u16) -> bool {
        let last = passed
            .iter()
            .rev()
            .find(|&&k| self.links.counts[k] && self.events[k].object == lock);
        last.is_none_or(|&k| self.events[k].kind == RELEASE)
    }

    /// Is the event w in the list to which k does not belong?
    fn in_other(&self, w: usize, k: usize) -> bool {
        (self.events[w].thread == self.moved) != (self.events[k].thread == self.moved)
    }

    /// Did the read k observe a write that is in the list to which k does not belong?
    fn sees_other(&self, k: usize) -> bool {
        let w = self.links.observed[k];
        w != 0 && self.in_other(w, k)
    }

    /// The reads of a cell in what is ahead, up to the next write of it.
    fn reads_ahead<'b>(
        &'b self,
        ahead: &'b [usize],
        cell: u16,
    ) -> impl Iterator<Item = usize> + 'b {
        let until_write = ahead
            .iter()
            .copied()
            .take_while(move |&k| !self.is(k, WRITE, cell));
        until_write.filter(move |&k| self.is(k, READ, cell))
    }

    /// May the event i of `own` come next, where j events of `other` were passed?
    fn may_step(&self, own: &[usize], i: usize, other: &[usize], j: usize) -> bool {
        let k = own[i];
        let object = self.events[k].object;
        let missing = |w| w != 0 && self.in_other(w, k) && !other[..j].contains(&w);
        if missing(self.links.fork[k]) {
            return false;
        }
        match self.events[k].kind {
            READ => {
                let passed = || other[..j].iter().rev();
                let last = || passed().find(|&&w| self.is(w, WRITE, object));
                !self.sees_other(k) || last() == Some(&self.links.observed[k])
            }
            WRITE => {
                self.reads_ahead(&other[j..], object)
                    .all(|r| self.sees_other(r))
                    && self
                        .reads_ahead(&own[i + 1..], object)
                        .all(|r| !other[..j].contains(&self.links.observed[r]))
            }
            ACQUIRE => {
                !self.links.counts[k]
                    || self.lock_free(&own[..i], object) && self.lock_free(&other[..j], object)
            }
            JOIN => !missing(self.links.joined[k]),
            _ => true,
        }
    }

    /// Is there a path from the place (i, j) to the end? It is put in `path` from its end on.
    fn explore(&mut self, i: usize, j: usize, path: &mut Vec<usize>) -> bool {
        if i == self.p.len() && j == self.q.len() {
            return true;
        }
        let place = i * (self.q.len() + 1) + j;
        if self.dead[place] {
            return false;
        }
        if j < self.q.len() && self.may_step(&self.q, j, &self.p, i) && self.explore(i, j + 1, path)
        {
            path.push(self.q[j]);
            return true;
        }
        if i < self.p.len() && self.may_step(&self.p, i, &self.q, j) && self.explore(i + 1, j, path)
        {
            path.push(self.p[i]);
            return true;
        }
        self.dead[place] = true;
        false
    }
}

fn witness(events: &[Event], l: &Links, a: usize, b: usize) -> Option<Vec<usize>> {
    let inside = cone(events, l, a, b);
    if inside[a] || inside[b] {
        return None;
    }
    let moved = events[a].thread;
    let members = (1..events.len()).filter(|&k| inside[k]);
    let (p, q): (Vec<usize>, Vec<usize>) = members.partition(|&k| events[k].thread == moved);
    let dead = vec![false; (p.len() + 1) * (q.len() + 1)];
    let mut search = Search {
        events,
        links: l,
        moved,
        p,
        q,
        dead,
    };
    let mut path = Vec::new();
    search.explore(0, 0, &mut path).then(|| {
        path.reverse();
        path
    })
}

fn push_number(out: &mut Vec<u8>, n: usize) {
    if n >= 10 {
        push_number(out, n / 10);
    }
    out.push(b'0' + (n % 10) as u8);
}

fn push_line(out: &mut Vec<u8>, a: usize, b: usize, path: &[usize]) {
    out.extend_from_slice(b"race ");
    push_number(out, a);
    out.push(b' ');
    push_number(out, b);
    out.extend_from_slice(b" witness");
    for &k in path {
        out.push(b' ');
        push_number(out, k);
    }
    out.push(b'\n');
}

/// How many conflicting pairs a good file has.
#[allow(dead_code)] // only the benchmark asks it
pub fn pairs(file: &[u8]) -> usize {
    conflicting_pairs(&parse(file).expect("a good file")).len()
}

fn conflicting_pairs(events: &[Event]) -> Vec<(usize, usize)> {
    let mut pairs = Vec::new();
    for a in 1..events.len() {
        for b in a + 1..events.len() {
            if conflicting(events[a], events[b]) {
                pairs.push((a, b));
            }
        }
    }
    pairs
}

/// The nightly report of a good file, and how many conflicting pairs it has.
pub fn report(file: &[u8], out: &mut Vec<u8>) -> usize {
    out.clear();
    let events = parse(file).expect("a good file");
    let l = links(&events);
    let threads = (0..THREADS)
        .filter(|&t| events[1..].iter().any(|e| e.thread as usize == t))
        .count();
    out.extend_from_slice(format!("events {} threads {threads}\n", events.len() - 1).as_bytes());
    let pairs = conflicting_pairs(&events);
    let mut races = 0;
    for &(a, b) in &pairs {
        if let Some(path) = witness(&events, &l, a, b) {
            push_line(out, a, b, &path);
            races += 1;
        }
    }
    out.extend_from_slice(format!("races {races}\n").as_bytes());
    pairs.len()
}
