//! Cuts a script that shows a difference down to the shortest that still does.

use std::collections::HashMap;
use std::time::{Duration, Instant};

use crate::script::Script;

/// Tries shorter and simpler scripts as long as the time lasts.
///
/// `differs` gives the place of the line at which a script differs, or none.
/// The script given must differ. What comes back differs too, but perhaps in
/// another way than the first: any difference is worth keeping.
pub fn shrink(
    script: &Script,
    time: Duration,
    differs: &mut dyn FnMut(&Script) -> Option<usize>,
) -> Script {
    let mut shrinker = Shrinker { best: script.clone(), end: Instant::now() + time, differs };
    shrinker.attempt(script.clone());
    loop {
        let before = shrinker.best.clone();
        shrinker.remove_kinds();
        shrinker.remove_lines();
        shrinker.simplify_words();
        if shrinker.best == before || shrinker.is_over() {
            return shrinker.best;
        }
    }
}

struct Shrinker<'a> {
    best: Script,
    end: Instant,
    differs: &'a mut dyn FnMut(&Script) -> Option<usize>,
}

impl Shrinker<'_> {
    fn is_over(&self) -> bool {
        Instant::now() >= self.end
    }

    /// Keeps the script if it still differs, without what follows the line
    /// where it does.
    fn attempt(&mut self, mut script: Script) -> bool {
        let Some(line) = (self.differs)(&script) else {
            return false;
        };
        if line + 1 < script.lines.len() {
            let mut cut = script.clone();
            cut.lines.truncate(line + 1);
            cut.open_end = false;
            // A program that looks ahead may differ only when more follows.
            if (self.differs)(&cut).is_some() {
                script = cut;
            }
        }
        self.best = script;
        true
    }

    /// Leaves out all lines of a kind at once. A long script is mostly the
    /// same few lines over and over, and lines that do not matter stand between
    /// those that do.
    fn remove_kinds(&mut self) {
        const MOST: usize = 40;
        for kind in [kind_by_command, kind_without_time] {
            let mut counts: HashMap<Vec<u8>, usize> = HashMap::new();
            for line in &self.best.lines {
                *counts.entry(kind(line)).or_default() += 1;
            }
            let mut kinds: Vec<(usize, Vec<u8>)> =
                counts.into_iter().map(|(kind, count)| (count, kind)).collect();
            kinds.sort_unstable();
            for (_, unwanted) in kinds.into_iter().rev().take(MOST) {
                if self.is_over() {
                    return;
                }
                let mut shorter = self.best.clone();
                shorter.lines.retain(|line| kind(line) != unwanted);
                if shorter.lines.len() < self.best.lines.len() {
                    self.attempt(shorter);
                }
            }
        }
    }

    /// Leaves out stretches of lines, large ones first.
    fn remove_lines(&mut self) {
        let mut size = self.best.lines.len().div_ceil(2).max(1);
        loop {
            let mut removed = false;
            // From the end, so that what a line needs before it goes later.
            let mut end = self.best.lines.len();
            while end > 0 && !self.is_over() {
                let start = end.saturating_sub(size);
                let mut shorter = self.best.clone();
                shorter.lines.drain(start..end);
                if self.attempt(shorter) {
                    removed = true;
                }
                end = start.min(self.best.lines.len());
            }
            if self.is_over() || (size == 1 && !removed) {
                return;
            }
            if size > 1 {
                size = size.div_ceil(2);
            }
        }
    }

    /// Puts simpler words in the place of numbers, and takes away an open
    /// end.
    fn simplify_words(&mut self) {
        if self.best.open_end {
            let mut closed = self.best.clone();
            closed.open_end = false;
            self.attempt(closed);
        }
        let mut line = 0;
        while line < self.best.lines.len() {
            let count = self.words(line).len();
            for place in 0..count {
                self.simplify_word(line, place);
                if self.is_over() {
                    return;
                }
            }
            line += 1;
        }
    }

    fn words(&self, line: usize) -> Vec<Vec<u8>> {
        match self.best.lines.get(line) {
            Some(line) => line.split(|byte| *byte == b' ').map(<[u8]>::to_vec).collect(),
            None => Vec::new(),
        }
    }

    fn simplify_word(&mut self, line: usize, place: usize) {
        loop {
            let words = self.words(line);
            let Some(word) = words.get(place) else { return };
            let mut tried = simpler(word).into_iter();
            let kept = tried.any(|word| {
                let mut words = words.clone();
                words[place] = word;
                let mut script = self.best.clone();
                script.lines[line] = words.join(&b' ');
                self.attempt(script)
            });
            if !kept || self.is_over() {
                return;
            }
        }
    }
}

fn kind_by_command(line: &[u8]) -> Vec<u8> {
    line.split(|byte| *byte == b' ').next().unwrap_or_default().to_vec()
}

/// The line without its second word: cycles that differ in their time alone
/// are of one kind.
fn kind_without_time(line: &[u8]) -> Vec<u8> {
    let mut words: Vec<&[u8]> = line.split(|byte| *byte == b' ').collect();
    if words.len() > 1 {
        words.remove(1);
    }
    words.join(&b' ')
}

/// Words to try for a word, the simplest first. Each is shorter than the word
/// or, at the same length, smaller, so that trying comes to an end.
fn simpler(word: &[u8]) -> Vec<Vec<u8>> {
    let number = std::str::from_utf8(word).ok().and_then(|text| text.parse::<u64>().ok());
    let Some(number) = number else {
        return match word.len() {
            0..=16 => Vec::new(),
            length => vec![word[..length / 2].to_vec(), word[..length - 1].to_vec()],
        };
    };
    let plain = number.to_string();
    let round = format!("{}{}", &plain[..1], "0".repeat(plain.len() - 1));
    let mut words: Vec<Vec<u8>> = Vec::new();
    let smaller = [0, 1, number / 1_000_000, number / 1_000, number / 10, number / 2];
    for candidate in smaller.map(|number| number.to_string()).into_iter().chain([round, plain]) {
        let candidate = candidate.into_bytes();
        let simpler = (candidate.len(), candidate.as_slice()) < (word.len(), word)
            && !words.contains(&candidate);
        if simpler {
            words.push(candidate);
        }
    }
    words
}

#[cfg(test)]
mod tests {
    use super::*;
    use crate::command::Command;
    use crate::coverage::Coverage;
    use crate::generate::{random_script, Rng};
    use crate::lines::{read_line, Line};

    fn script(text: &str) -> Script {
        Script::from_bytes(text.as_bytes())
    }

    #[test]
    fn only_the_needed_lines_stay() {
        let mut lines: Vec<String> = (0..500).map(|number| format!("log {number}")).collect();
        lines.insert(100, "open 2 77".to_string());
        lines.insert(400, "clear".to_string());
        let long = script(&(lines.join("\n") + "\n"));
        // Differs at a clear that has an open before it.
        let mut differs = |script: &Script| {
            let open = script.lines.iter().position(|line| line.starts_with(b"open 2 "))?;
            let clear = script.lines.iter().position(|line| line == b"clear")?;
            (open < clear).then_some(clear)
        };
        let short = shrink(&long, Duration::from_secs(20), &mut differs);
        assert_eq!(short, script("open 2 0\nclear\n"));
    }

    /// Disturbed cycles stand between the ones that matter in a long script.
    #[test]
    fn lines_of_a_kind_go_together() {
        let lines: Vec<String> = (0..4_000)
            .map(|time| match time % 2 {
                0 => format!("cycle {time} 600 5120 101325 -"),
                _ => format!("cycle {time} 600 - - -"),
            })
            .collect();
        let long = script(&(lines.join("\n") + "\n"));
        let mut differs = |script: &Script| {
            let good = |line: &Vec<u8>| line.ends_with(b" 5120 101325 -");
            script
                .lines
                .iter()
                .enumerate()
                .filter(|(_, line)| good(line))
                .map(|(at, _)| at)
                .nth(900)
        };
        let short = shrink(&long, Duration::from_secs(1), &mut differs);
        assert_eq!(short.lines.len(), 901);
    }

    #[test]
    fn a_stale_commit_answered_wrongly_is_cut_to_its_story() {
        let mut rng = Rng::new(5);
        // As a device that never finds a commit stale would answer.
        let mut differs = |script: &Script| {
            let answers = Coverage::new().answer(script);
            answers.iter().find(|(_, answer)| answer == b"11").map(|(line, _)| *line)
        };
        let long = loop {
            let long = random_script(&mut rng);
            if differs(&long).is_some() {
                break long;
            }
        };
        let short = shrink(&long, Duration::from_secs(60), &mut differs);
        // Begin, read, begin, write, commit, commit, and the lock for it.
        assert!(short.lines.len() <= 7, "{short:?}");
        assert!(matches!(
            read_line(short.lines.last().unwrap()),
            Line::Command(Command::Commit { .. })
        ));
    }

    #[test]
    fn a_simpler_word_is_simpler() {
        for word in ["0", "1", "007", "10", "101325", "18446744073709551615", "-5", "x", "", "000"]
        {
            let word = word.as_bytes();
            for simple in simpler(word) {
                assert!((simple.len(), simple.as_slice()) < (word.len(), word));
            }
        }
        assert!(simpler(b"0").is_empty());
        assert!(simpler(b"101325").contains(&b"100000".to_vec()));
        assert!(simpler(b"007").contains(&b"7".to_vec()));
    }
}
