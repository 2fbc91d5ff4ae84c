//! Stories told line by line.

// Each file of tests takes what it needs and leaves the rest.
#![allow(dead_code)]

use corrector_reference::device::{Device, Value};
use corrector_reference::lines::answer_line;

/// A device that is given lines.
pub struct Teller {
    device: Device,
}

impl Teller {
    pub fn new() -> Teller {
        Teller { device: Device::new() }
    }

    /// The answer to one line; empty where there is none.
    pub fn say(&mut self, line: &str) -> String {
        let mut answer = Vec::new();
        let _ = answer_line(&mut self.device, line.as_bytes(), &mut answer);
        String::from_utf8(answer).expect("an answer of plain characters")
    }

    /// Lines with the answers they must have.
    #[track_caller]
    pub fn tell(&mut self, story: &[(&str, &str)]) {
        for (place, (line, answer)) in story.iter().enumerate() {
            assert_eq!(self.say(line), *answer, "line {} of the story: {line}", place + 1);
        }
    }

    /// Lines that must all be done.
    #[track_caller]
    pub fn done(&mut self, lines: &[&str]) {
        for line in lines {
            assert_eq!(self.say(line), "0", "{line}");
        }
    }

    /// All that can be seen without changing anything.
    pub fn everything(&mut self) -> Vec<String> {
        let mut seen = vec![self.say("report")];
        for (book, size) in [("archive", 15), ("log", 250), ("audit", 200)] {
            for index in 0..=size {
                seen.push(self.say(&format!("{book} {index}")));
            }
        }
        seen.push(self.say("readout 200"));
        seen.push(self.say("outputs"));
        seen
    }
}

/// A value as the lines have it.
pub fn shown(value: Value) -> String {
    match value {
        Value::Whole(number) => format!("w {number}"),
        Value::Coefficient(float) => format!("c {:016x}", float.to_bits()),
    }
}

/// A story from a fresh device on.
#[track_caller]
pub fn tell(story: &[(&str, &str)]) {
    Teller::new().tell(story);
}
