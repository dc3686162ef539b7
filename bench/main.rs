//! The report by the proved library, and all of question 2's answers, beside straightforward Rust, on the same seeded
//! recordings. What the two sides give is compared. The tables that it prints are those of docs/PERFORMANCE.md.

mod plain;
mod recordings;
#[path = "../bindings/tarungkis.rs"]
mod tarungkis;

use recordings::{Family, Slow};
use std::hint::black_box;
use std::time::{Duration, Instant};
use tarungkis::Place;

/// The recordings' events.
const SIZES: [usize; 4] = [128, 256, 512, tarungkis::MAX_EVENTS];
const SEEDS: u64 = 3;
const RUNS: usize = 5;
/// How often question 2 is answered in a run: once takes microseconds.
const TIMES: u32 = 1000;

/// The report by the library, block by block, each behind the one before; how many bytes it has.
fn proved(file: &[u8], out: &mut [u8]) -> usize {
    let mut place = Place::default();
    let mut n = 0;
    loop {
        let lines = tarungkis::report(file, &mut place, &mut out[n..]).len();
        if lines == 0 {
            return n;
        }
        n += lines;
    }
}

fn proved_observed_writes(file: &[u8], list: &mut [u16]) -> usize {
    let entries = tarungkis::observed_writes(file, list);
    entries.expect("a good recording").len()
}

/// The least time of several runs.
fn least(mut run: impl FnMut()) -> Duration {
    let times = (0..RUNS).map(|_| {
        let start = Instant::now();
        run();
        start.elapsed()
    });
    times.min().unwrap()
}

fn ms(d: Duration) -> f64 {
    d.as_secs_f64() * 1000.0
}

#[derive(Default, Clone, Copy)]
struct Total {
    pairs: usize,
    races: usize,
    bytes: usize,
    plain: Duration,
    proved: Duration,
}

impl Total {
    fn add(&mut self, t: Total) {
        self.pairs += t.pairs;
        self.races += t.races;
        self.bytes += t.bytes;
        self.plain += t.plain;
        self.proved += t.proved;
    }

    fn row(self) -> String {
        let ratio = self.proved.as_secs_f64() / self.plain.as_secs_f64();
        format!(
            "{} | {} | {} | {:.1} | {:.1} | {ratio:.2}",
            self.pairs,
            self.races,
            self.bytes / 1024,
            ms(self.plain),
            ms(self.proved)
        )
    }
}

/// How many races a report has.
fn races(text: &[u8]) -> usize {
    let lines = text.split(|&c| c == b'\n');
    lines.filter(|l| l.starts_with(b"race ")).count()
}

/// Both reports of one recording: equal, and how long each takes. Plain Rust is timed in that one run.
fn once(file: &[u8], text: &mut Vec<u8>, out: &mut [u8]) -> Total {
    let start = Instant::now();
    let pairs = plain::report(file, text);
    let plain = start.elapsed();
    let bytes = proved(file, out);
    assert!(out[..bytes] == text[..], "the two reports differ");
    Total {
        pairs,
        races: races(text),
        bytes,
        plain,
        proved: least(|| {
            proved(file, out);
        }),
    }
}

/// The same, with the least of several runs of plain Rust too.
fn side_by_side(file: &[u8], text: &mut Vec<u8>, out: &mut [u8]) -> Total {
    let total = once(file, text, out);
    let plain = least(|| {
        plain::report(file, text);
    });
    Total { plain, ..total }
}

fn family(f: Family, n: usize, text: &mut Vec<u8>, out: &mut [u8]) -> Total {
    let mut total = Total::default();
    for seed in 1..=SEEDS {
        total.add(side_by_side(&f.recording(n, seed), text, out));
    }
    total
}

/// All of question 2's answers for one recording: equal, and how long each side takes for `TIMES` of them.
fn answers_side_by_side(file: &[u8]) -> (usize, Duration, Duration) {
    let mut entries = Vec::new();
    assert!(
        plain::observed_writes(file, &mut entries),
        "a good recording"
    );
    let mut list = vec![0; entries.len()];
    let n = proved_observed_writes(file, &mut list);
    assert!(list[..n] == entries[..], "the answers differ");
    let reads = entries.iter().filter(|&&e| e != u16::MAX).count();
    let plain = least(|| {
        for _ in 0..TIMES {
            black_box(plain::observed_writes(black_box(file), &mut entries));
        }
    });
    let proved = least(|| {
        for _ in 0..TIMES {
            black_box(proved_observed_writes(black_box(file), &mut list));
        }
    });
    (reads, plain, proved)
}

/// The row of question 2: all families together, for one recording on average.
fn observed_writes_row(n: usize) -> String {
    let (mut recordings, mut reads) = (0, 0);
    let (mut plain, mut proved) = (Duration::ZERO, Duration::ZERO);
    for f in Family::all() {
        for seed in 1..=SEEDS {
            let (r, p, q) = answers_side_by_side(&f.recording(n, seed));
            recordings += 1;
            reads += r;
            plain += p;
            proved += q;
        }
    }
    let us = |d: Duration| d.as_secs_f64() * 1e6 / f64::from(TIMES * recordings);
    let ratio = proved.as_secs_f64() / plain.as_secs_f64();
    let reads = reads / recordings as usize;
    format!(
        "{n} | {reads} | {:.2} | {:.2} | {ratio:.2}",
        us(plain),
        us(proved)
    )
}

const COLUMNS: &str =
    "conflicting pairs | races | report, KiB | plain Rust, ms | proved, ms | ratio";

/// A row for each family, and one for all of them.
fn table(families: Vec<Family>, n: usize, text: &mut Vec<u8>, out: &mut [u8]) -> Total {
    println!("threads | cells | locks | {COLUMNS}");
    println!("--- | --- | --- | --- | --- | --- | --- | --- | ---");
    let mut all = Total::default();
    for f in families {
        let total = family(f, n, text, out);
        println!("{} | {}", f.name(), total.row());
        all.add(total);
    }
    println!("all | | | {}\n", all.row());
    all
}

/// The row of a recording that a search is slow on, after its name and events. Plain Rust: one run.
fn slow_row(file: &[u8], text: &mut Vec<u8>, out: &mut [u8]) -> String {
    let t = once(file, text, out);
    let (plain, proved) = (ms(t.plain), ms(t.proved));
    let (pairs, races, times) = (t.pairs, t.races, plain / proved);
    format!("{pairs} | {races} | {plain:.1} | {proved:.2} | {times:.0}")
}

/// The same without plain Rust, which would not end: a correct program by two threads, so nothing is reported.
fn proved_row(file: &[u8], events: usize, out: &mut [u8]) -> String {
    let n = proved(file, out);
    let report = format!("events {events} threads 2\nraces 0\n");
    assert!(out[..n] == *report.as_bytes(), "something is reported");
    let time = least(|| {
        proved(file, out);
    });
    format!("{} | 0 | not run | {:.2} |", plain::pairs(file), ms(time))
}

/// What a search is slow on: one recording a row. Rows are printed as they are done.
fn slow_table(text: &mut Vec<u8>, out: &mut [u8]) {
    println!("recordings that a search is slow on; plain Rust: one run\n");
    println!("recording | events | conflicting pairs | races | plain Rust, ms | proved, ms | times as quick");
    println!("--- | --- | --- | --- | --- | --- | ---");
    for slow in Slow::ALL {
        for n in SIZES {
            let file = slow.recording(n);
            let events = (file.len() - 8) / 4;
            let row = if slow.endless(n) {
                proved_row(&file, events, out)
            } else {
                slow_row(&file, text, out)
            };
            println!("{} | {events} | {row}", slow.name());
        }
    }
    println!();
}

fn main() {
    let mut text = Vec::new();
    let mut out = vec![0; 1 << 28];
    println!(
        "{SEEDS} recordings a row; the least of {RUNS} runs of each; ratio: proved to plain\n"
    );
    let mut growth = Vec::new();
    for n in SIZES {
        println!("{n} events\n");
        growth.push((n, table(Family::all(), n, &mut text, &mut out)));
    }
    for n in [512, tarungkis::MAX_EVENTS] {
        println!("{n} events, locks taken again while held\n");
        table(Family::deep(), n, &mut text, &mut out);
        println!("{n} events, forks and joins\n");
        table(Family::forks(), n, &mut text, &mut out);
    }
    println!("events | {COLUMNS}");
    println!("--- | --- | --- | --- | --- | --- | ---");
    for (n, all) in growth {
        println!("{n} | {}", all.row());
    }
    println!();
    slow_table(&mut text, &mut out);
    println!("all of question 2's answers for a recording, on average\n");
    println!("events | reads | plain Rust, µs | proved, µs | ratio");
    println!("--- | --- | --- | --- | ---");
    for n in [512, tarungkis::MAX_EVENTS] {
        println!("{}", observed_writes_row(n));
    }
}
