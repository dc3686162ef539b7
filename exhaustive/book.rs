//! The vectors' two texts: each line asked, and the line that answers it.

use crate::holds::{deepest, has_reentry};
use crate::questions::{Asked, Verdict, AREA};
use crate::recording::{made_readable, Event, Kind, Recording, Refusal, LIMITS};
use crate::rules::{fits_after, Seen};
use crate::study::{depends_on_depth, depends_on_forks, Pair, Study, SHORT_BY_TWO};
use crate::threads::has_fork_or_join;
use crate::writer::{self, Handed};
use std::collections::BTreeMap;

/// The longest list that is lent to a question, or proposed in one.
pub const LONGEST: usize = 1100;

/// The longest buffer that is lent to the writer, and the longest preamble handed to it.
pub const LONGEST_BUFFER: usize = 20_000;

/// The longest line.
const LONGEST_LINE: usize = 33_000;

/// A line shows no race more once its races have more bytes than this.
const RACES_SHOWN: usize = 16_000;

pub struct Book {
    pub stdin: String,
    pub stdout: String,
    pub counts: BTreeMap<String, usize>,
    pub asked: Asked,
    /// The random recordings, for the confirmations.
    pub random: Vec<Vec<Event>>,
    /// The good recordings with their groups, for the writer.
    pub good: Vec<(&'static str, Recording)>,
    group: &'static str,
}

impl Book {
    pub fn new() -> Book {
        Book {
            stdin: String::new(),
            stdout: String::new(),
            counts: BTreeMap::new(),
            asked: Asked::new(Vec::new()),
            random: Vec::new(),
            good: Vec::new(),
            group: "none",
        }
    }

    fn line(&mut self, asked: &str, answer: &str) {
        let longer = asked.len().max(answer.len());
        assert!(longer <= LONGEST_LINE, "a line too long: {longer}");
        self.stdin.push_str(asked);
        self.stdin.push('\n');
        self.stdout.push_str(answer);
        self.stdout.push('\n');
    }

    /// The last answer must be this one, which a paper states.
    pub fn assert_answer(&self, answer: &str) {
        assert_eq!(self.stdout.lines().last(), Some(answer));
    }

    fn count(&mut self, what: String) {
        *self.counts.entry(what).or_insert(0) += 1;
    }

    /// Begins a group of vectors.
    pub fn group(&mut self, group: &'static str) {
        self.group = group;
        self.title(group);
    }

    pub fn title(&mut self, words: &str) {
        let line = format!("= {words}");
        self.line(&line, &line);
    }

    /// Takes a recording to ask about and writes down what is said of it.
    pub fn recording(&mut self, bytes: &[u8]) {
        self.asked = Asked::new(bytes.to_vec());
        let answer = match &self.asked.judged {
            Err(refusal) => refused_line(refusal),
            Ok(study) => good_line(&self.asked, study),
        };
        self.line(&hex_words(bytes), &answer);
        self.count(format!("recordings of {}", self.group));
        self.count_verdicts();
        self.write_again();
    }

    /// Takes a recording; where its preamble is refused, then also the same one with a readable
    /// preamble, so that whatever else it tests is tested.
    pub fn recording_and_readable(&mut self, bytes: &[u8]) {
        self.recording(bytes);
        if self.asked.judged.as_ref().err() == Some(&Refusal::plain(13)) {
            self.recording(&made_readable(bytes));
        }
    }

    /// A good file written again from what was read is the same file.
    fn write_again(&mut self) {
        let Some(study) = self.study() else { return };
        let recording = study.recording.clone();
        let mut again = vec![170; self.asked.bytes.len()];
        let said = writer::write(&Handed::of(&recording), &mut again);
        assert_eq!(said, Ok(again.len()), "{recording:?}");
        assert_eq!(again, self.asked.bytes, "{recording:?}");
        self.good.push((self.group, recording));
        self.count("confirmed: a good file written again is the same file".to_string());
    }

    fn count_verdicts(&mut self) {
        let study = match &self.asked.judged {
            Ok(study) => study,
            Err(refusal) => {
                let number = refusal.number;
                return self.count(format!("refusal {number:2} of files"));
            }
        };
        let by = study.threads;
        let mut words = vec![format!("good recordings by {by:2} threads")];
        for pair in &study.pairs {
            words.push(match (&pair.shown, pair.predictable) {
                (Some(_), _) => format!("pairs reported, by {by:2} threads"),
                (None, Some(true)) => format!("pairs predictable, not reported, by {by:2} threads"),
                (None, Some(false)) => format!("pairs not predictable, by {by:2} threads"),
                (None, None) => format!("pairs not reported (long), by {by:2} threads"),
            });
        }
        words.extend(study.pairs.iter().flat_map(|p| confirmed(study, p)));
        words.extend(study.pairs.iter().flat_map(|p| shape(study, p)));
        words.extend(reentry_words(study, self.group));
        words.extend(fork_words(study, self.group));
        for word in words {
            self.count(word);
        }
    }

    /// The recording asked about; none if it is refused.
    pub fn study(&self) -> Option<&Study> {
        self.asked.judged.as_ref().ok()
    }

    pub fn ask2(&mut self, number: usize) {
        let answer = seen_or_refused(self.asked.observed(number));
        self.count_asking("question 2", &answer);
        self.line(&format!("?2 {number}"), &answer);
    }

    /// Asks question 2 of all numbers at once with a lent list of so many entries.
    pub fn ask22(&mut self, entries: usize) {
        assert!(entries <= LONGEST, "a list too long");
        let mut lent = vec![None; entries];
        let said = self.asked.all_observed(&mut lent);
        let (front, behind) = lent.split_at(said.map_or(0, |n| n + 1));
        let words = match said {
            Ok(n) => format!("given {n}:{}", seen_words(front)),
            Err(refusal) => refusal.words(),
        };
        let kept = behind.iter().filter(|entry| entry.is_none()).count();
        let places = format!("; {kept} of {} entries as lent", behind.len());
        self.count_asking("question 2 of all numbers", &words);
        let events = self.study().map_or(&[][..], Study::events);
        for word in seen_shape(events, front) {
            self.count(format!("given at once with {word}, {}", self.group));
        }
        self.line(&format!("?22 {entries}"), &(words + &places));
    }

    /// The same, and the whole list afterwards as numbers: 0 for the start, 65535 for what is not
    /// a read, 9999 where an entry is as it was lent.
    pub fn ask21(&mut self, entries: usize) {
        assert!(entries <= LONGEST, "a list too long");
        let mut lent = vec![None; entries];
        // a refusal leaves the list as it was lent
        let _ = self.asked.all_observed(&mut lent);
        let numbers: String = lent.iter().map(|e| format!(" {}", entry(*e))).collect();
        self.count("question 2 of all numbers, the list as numbers".to_string());
        self.line(&format!("?21 {entries}"), &format!("list{numbers}"));
    }

    pub fn ask3(&mut self, a: usize, b: usize, entries: usize, area: usize) {
        assert!(entries <= LONGEST, "a list too long");
        let mut lent = vec![9999u16; entries];
        let mut work = vec![170u8; area];
        let said = self.asked.verdict((a, b), &mut lent, &mut work);
        let said = match said {
            Ok(Verdict::Reported(length)) => {
                let numbers: String = lent[..length].iter().map(|e| format!(" {e}")).collect();
                format!("reported {length}:{numbers}")
            }
            Ok(Verdict::NotReported) => "not reported".to_string(),
            Err(refusal) => refusal.words(),
        };
        self.count_asking("question 3", said.split(':').next().unwrap_or(""));
        let kept = lent.iter().filter(|e| **e == 9999).count();
        let places = format!(
            "; {kept} of {entries} entries as lent, {}",
            area_words(&work)
        );
        self.line(&format!("?3 {a} {b} {entries} {area}"), &(said + &places));
    }

    pub fn ask4(&mut self, a: usize, b: usize, area: usize) {
        let mut work = vec![170u8; area];
        let said = match self.asked.next_race((a, b), &mut work) {
            Ok(Some((a, b))) => format!("{a} {b}"),
            Ok(None) => "none".to_string(),
            Err(refusal) => refusal.words(),
        };
        self.count_asking("question 4", &said);
        let answer = format!("{said}; {}", area_words(&work));
        self.line(&format!("?4 {a} {b} {area}"), &answer);
    }

    pub fn ask5(&mut self, a: usize, b: usize, list: &[usize]) {
        assert!(list.len() <= LONGEST, "a list too long");
        let answer = fault_or_refused(self.asked.check(a, b, list));
        self.count_asking("question 5", &answer);
        let numbers: String = list.iter().map(|e| format!(" {e}")).collect();
        self.line(&format!("?5 {a} {b}{numbers}"), &answer);
    }

    pub fn ask6(&mut self, operator: &[u8]) {
        assert!(operator.len() <= 64, "a note too long");
        let answer = note_words(self.asked.note(operator));
        self.count("asked question 6".to_string());
        let asked = if operator.is_empty() {
            "?6".to_string()
        } else {
            format!("?6 {}", hex(operator))
        };
        self.line(&asked, &answer);
    }

    /// Asks the writer with a lent buffer of so many bytes and gives the file, if there is one.
    pub fn ask_writer(&mut self, handed: &Handed, length: usize) -> Option<Vec<u8>> {
        assert!(length <= LONGEST_BUFFER, "a buffer too long");
        let preamble = handed.preamble.len();
        assert!(preamble <= LONGEST_BUFFER, "a preamble too long");
        assert!(handed.events.len() <= 2000, "too many events");
        let mut buffer = vec![170u8; length];
        let said = writer::write(handed, &mut buffer);
        assert_eq!(said.err(), handed.first_fault(length), "{handed:?}");
        let (file, behind) = buffer.split_at(said.unwrap_or(0));
        let words = match said {
            Ok(_) => format!("wrote {}: {}", file.len(), hex(file)),
            Err(refusal) => refusal.words(),
        };
        let kept = behind.iter().filter(|b| **b == 170).count();
        let places = format!("; {kept} of {} bytes as lent", behind.len());
        self.count_asking("the writer", &words);
        self.line(&writer_words(handed, length), &(words + &places));
        let written = said.ok().map(|_| file.to_vec());
        self.count(confirmed_of_writer(handed, written.as_deref()).to_string());
        written
    }

    fn count_asking(&mut self, question: &str, answer: &str) {
        self.count(format!("asked {question}"));
        let first = answer.split(' ').next().unwrap_or("");
        let word = match first {
            "refused" => answer.split(" at ").next().unwrap_or("").to_string(),
            "no" => answer.to_string(),
            "reported" | "not" | "none" | "yes" | "start" | "-" | "wrote" | "given" => {
                first.to_string()
            }
            _ => "numbers".to_string(),
        };
        self.count(format!("answers to {question}: {word}"));
    }
}

/// What was confirmed of a pair while it was studied.
fn confirmed(study: &Study, pair: &Pair) -> Vec<String> {
    let mut words = Vec::new();
    if pair.shown.is_some() {
        words.push("confirmed: the list shown is correct and brings both next");
    }
    if pair.shown.is_some() && pair.predictable.is_some() {
        words.push("confirmed: reported, and found predictable by listing everything");
    }
    if study.threads <= 2 && pair.predictable.is_some() {
        words.push("confirmed: by two threads, reported exactly if predictable");
    }
    words.into_iter().map(str::to_string).collect()
}

/// What is told of a recording in which a lock is taken again.
fn reentry_words(study: &Study, group: &str) -> Vec<String> {
    let events = study.events();
    if !has_reentry(events) {
        return Vec::new();
    }
    let same = "confirmed: the same verdict and list without inner acquires and releases";
    let mut words = vec![same.to_string(); study.pairs.len()];
    words.push(format!("with re-entry, {group}"));
    if deepest(events) > 2 {
        words.push(format!("with a lock held three deep or deeper, {group}"));
    }
    if events.len() <= SHORT_BY_TWO && depends_on_depth(events) {
        words.push(format!("with a pair that depends on the depth, {group}"));
    }
    words
}

/// What is told of a recording with a fork or a join.
fn fork_words(study: &Study, group: &str) -> Vec<String> {
    let events = study.events();
    if !has_fork_or_join(events) {
        return Vec::new();
    }
    let same = "confirmed: the same verdict and list with cells in place of forks and joins";
    let mut words = vec![same.to_string(); study.pairs.len()];
    words.push(format!("with a fork or a join, {group}"));
    if events.len() <= SHORT_BY_TWO && depends_on_forks(events) {
        words.push(format!(
            "with a pair that depends on forks and joins, {group}"
        ));
    }
    words
}

/// What was confirmed of an asking of the writer; a file is read back here.
fn confirmed_of_writer(handed: &Handed, written: Option<&[u8]>) -> &'static str {
    let Some(file) = written else {
        return "confirmed: the writer's refusal is the first fault of what is handed in";
    };
    assert!(handed.reads_back(file), "{handed:?}");
    "confirmed: what is written reads back as the same preamble and events"
}

/// What is special about a list shown; only to see that the vectors are varied.
fn shape(study: &Study, pair: &Pair) -> Vec<String> {
    let Some(list) = &pair.shown else {
        return Vec::new();
    };
    let events = study.events();
    let moved = events[pair.a - 1].thread;
    let own: Vec<bool> = list
        .iter()
        .map(|e| events[*e - 1].thread == moved)
        .collect();
    let mut words = Vec::new();
    if own.windows(2).any(|two| two[0] && !two[1]) {
        words.push("lists shown with an event of the moved thread before others");
    }
    if list.windows(2).any(|two| two[0] > two[1]) {
        words.push("lists shown that are not in the recorded order");
    }
    let mut waits = false;
    for (i, _) in list.iter().enumerate().filter(|(i, _)| own[*i]) {
        let other = (i..list.len()).find(|j| !own[*j]).map(|j| list[j]);
        waits |= other.is_some_and(|e| fits_after(events, &list[..i], e));
    }
    if waits {
        words.push("lists shown where another event fitted but led nowhere");
    }
    words.into_iter().map(str::to_string).collect()
}

/// What is special about the answers given at once; only to see that the vectors are varied.
fn seen_shape(events: &[Event], front: &[Option<Seen>]) -> Vec<&'static str> {
    let seen = front.iter().enumerate();
    let seen: Vec<(usize, usize)> = seen
        .filter_map(|(read, seen)| match seen {
            Some(Seen::Write(write)) => Some((read, *write)),
            _ => None,
        })
        .collect();
    let event = |number: usize| events[number - 1];
    let by_another = |(read, write)| event(read).thread != event(write).thread;
    let again = |read: usize| {
        let cell = event(read).object;
        let mut later = events[read..].iter();
        later.any(|e| e.kind == Kind::Write && e.object == cell)
    };
    let mut words = Vec::new();
    if seen.iter().any(|two| by_another(*two)) {
        words.push("a read of another thread's write");
    }
    if seen.iter().any(|two| by_another(*two) && again(two.0)) {
        words.push("such a read and a later write of its cell");
    }
    words
}

fn refused_line(refusal: &Refusal) -> String {
    let words = refusal.words();
    format!("{words} | {words} | {words} | {words} | {words} | note 0")
}

/// An asking of the writer; an empty preamble leaves two spaces, no events leave none at the end.
fn writer_words(handed: &Handed, length: usize) -> String {
    let [threads, kinds, objects] = handed.entries;
    let preamble = hex_words(&handed.preamble);
    let events = hex_words(&handed.events.concat());
    let words = format!("! {length} {threads} {kinds} {objects} / {preamble} / {events}");
    words.trim_end().to_string()
}

/// What is left of a work area: how many of the bytes that a question may use are zero, and how
/// many of those behind them are as they were lent.
fn area_words(work: &[u8]) -> String {
    let (used, behind) = work.split_at(work.len().min(AREA));
    let zero = used.iter().filter(|b| **b == 0).count();
    let kept = behind.iter().filter(|b| **b == 170).count();
    format!(
        "{zero} of {} bytes zero, {kept} of {} behind as lent",
        used.len(),
        behind.len()
    )
}

fn good_line(asked: &Asked, study: &Study) -> String {
    let (n, threads) = asked.good().expect("a good recording");
    let seen: Vec<String> = (0..=n + 1)
        .map(|k| seen_or_refused(asked.observed(k)))
        .collect();
    let (races, count) = races_words(asked);
    let mut fields = vec![
        format!("events {n} threads {threads}"),
        seen.join(" "),
        note_words(asked.note(b"o")),
        races,
        format!("races {count}"),
    ];
    if (2..=16).contains(&n) {
        fields.push(verdict_signs(study));
    }
    fields.join(" | ")
}

/// The races by question 4 from (0, 0) on, each with its witness and what question 5 says to it;
/// beyond a length they are only counted.
fn races_words(asked: &Asked) -> (String, usize) {
    let (mut races, mut count) = (String::new(), 0);
    let mut area = vec![170u8; AREA];
    let mut entries = vec![9999u16; LIMITS.events];
    let mut last = (0, 0);
    while let Ok(Some((a, b))) = asked.next_race(last, &mut area) {
        last = (a, b);
        count += 1;
        if races.len() > RACES_SHOWN {
            continue;
        }
        let Ok(Verdict::Reported(length)) = asked.verdict(last, &mut entries, &mut area) else {
            panic!("question 4 gives a pair that question 3 does not report");
        };
        let list: Vec<usize> = entries[..length].iter().map(|e| *e as usize).collect();
        let numbers: String = list.iter().map(|e| format!(" {e}")).collect();
        let said = fault_or_refused(asked.check(a, b, &list));
        assert_eq!(said, "yes");
        let between = if count == 1 { "" } else { "; " };
        races += &format!("{between}{a} {b}:{numbers} {said}");
    }
    match count {
        0 => ("none".to_string(), 0),
        _ => (races, count),
    }
}

fn verdict_signs(study: &Study) -> String {
    let n = study.events().len();
    let mut signs = String::new();
    for a in 1..=n {
        for b in a + 1..=n {
            signs.push(match study.pair(a, b) {
                None => '.',
                Some(pair) if pair.shown.is_some() => '+',
                Some(_) => '-',
            });
        }
    }
    signs
}

fn seen_or_refused(seen: Result<Seen, Refusal>) -> String {
    match seen {
        Ok(Seen::Write(write)) => write.to_string(),
        Ok(Seen::Start) => "start".to_string(),
        Ok(Seen::NotARead) => "-".to_string(),
        Err(refusal) => refusal.words(),
    }
}

/// The answers given at once, each after a space.
fn seen_words(front: &[Option<Seen>]) -> String {
    let given = front.iter().flatten();
    given
        .map(|seen| format!(" {}", seen_or_refused(Ok(*seen))))
        .collect()
}

/// An entry of the lent list as a number.
fn entry(entry: Option<Seen>) -> usize {
    match entry {
        None => 9999,
        Some(Seen::Write(w)) => w,
        Some(Seen::Start) => 0,
        Some(Seen::NotARead) => 65535,
    }
}

fn fault_or_refused(said: Result<Option<u8>, Refusal>) -> String {
    match said {
        Ok(None) => "yes".to_string(),
        Ok(Some(fault)) => format!("no {fault}"),
        Err(refusal) => refusal.words(),
    }
}

fn note_words(note: &[u8]) -> String {
    if note.is_empty() {
        return "note 0".to_string();
    }
    let front = &note[..note.len().min(20)];
    format!("note {} {}", note.len(), hex(front))
}

pub fn hex(bytes: &[u8]) -> String {
    bytes.iter().map(|b| format!("{b:02X}")).collect()
}

/// The bytes as words of four, counted from the end of the file so that events and trailer are
/// words of their own; three or more equal words in a row are written once with their count.
pub fn hex_words(bytes: &[u8]) -> String {
    let (front, rest) = bytes.split_at(bytes.len() % 4);
    let mut words: Vec<String> = rest.chunks(4).map(hex).collect();
    if !front.is_empty() {
        words.insert(0, hex(front));
    }
    let mut folded: Vec<String> = Vec::new();
    let mut at = 0;
    while at < words.len() {
        let run = words[at..].iter().take_while(|w| **w == words[at]).count();
        if run >= 3 {
            folded.push(format!("{run}*{}", words[at]));
        } else {
            folded.extend(words[at..at + run].iter().cloned());
        }
        at += run;
    }
    folded.join(" ")
}
