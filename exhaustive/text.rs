//! The text of a recording: lines `note TEXT`, whose texts joined by byte 0A are the preamble, then
//! a line an event, such as `0 write 7`. Each line ends with byte 0A. A line that begins with `#` is
//! a comment.

use crate::recording::{Event, Kind, Recording};

const KINDS: [(Kind, &str); 6] = [
    (Kind::Read, "read"),
    (Kind::Write, "write"),
    (Kind::Acquire, "acquire"),
    (Kind::Release, "release"),
    (Kind::Fork, "fork"),
    (Kind::Join, "join"),
];

/// The text; an empty preamble has no note line.
pub fn text_of(recording: &Recording) -> String {
    let mut text = String::new();
    let preamble = String::from_utf8(recording.preamble.clone()).expect("a readable preamble");
    if !preamble.is_empty() {
        let lines = preamble.split('\n');
        text.extend(lines.map(|line| format!("note {line}\n")));
    }
    for event in &recording.events {
        let (_, word) = KINDS
            .iter()
            .find(|(k, _)| *k == event.kind)
            .expect("a kind");
        text += &format!("{} {word} {}\n", event.thread, event.object);
    }
    text
}

/// The recording that a well-made text names.
pub fn read_text(text: &str) -> Recording {
    let lines = text.strip_suffix('\n').unwrap_or("").split('\n');
    let lines: Vec<&str> = lines.filter(|line| !line.starts_with('#')).collect();
    let notes = lines.iter().map_while(|line| line.strip_prefix("note "));
    let notes: Vec<&str> = notes.collect();
    let events = lines[notes.len()..].iter().map(|line| read_event(line));
    Recording {
        preamble: notes.join("\n").into_bytes(),
        events: events.collect(),
    }
}

fn read_event(line: &str) -> Event {
    let words: Vec<&str> = line.split(' ').collect();
    let [thread, kind, object] = words[..] else {
        panic!("not an event: {line}");
    };
    let (kind, _) = KINDS.iter().find(|(_, w)| *w == kind).expect("a kind");
    Event {
        thread: thread.parse().expect("a thread"),
        kind: *kind,
        object: object.parse().expect("an object"),
    }
}
