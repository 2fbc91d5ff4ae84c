//! The script that walks the rows of the settings page: every end of every
//! range, and every set of open locks. It is the same at every run.

use crate::command::Command;
use crate::device::{Value, DOORS};
use crate::lines::write_command;
use crate::script::Script;
use crate::table::{Range, Setting, LOCKS, LOCK_SETS, PAGE};

/// The codes of locks 2 and 3. They differ, so that one cannot pass for the
/// other.
const CODES: [u32; 2] = [4_711, 815];

/// The whole walk.
pub fn walk_script() -> Script {
    let mut walk = Walk { lines: Vec::new() };
    walk.say(Command::Start { time: 0, code2: CODES[0], code3: CODES[1] });
    for door in 1..=DOORS as u64 {
        walk.ranges(door);
    }
    for open in 0..LOCK_SETS as u8 {
        walk.rights(open);
    }
    Script { lines: walk.lines, open_end: false }
}

/// The values to try of a setting. Refused ones come after the last that is
/// taken: a read then shows whether one of them was staged all the same.
pub fn tries(setting: &Setting) -> Vec<Value> {
    match setting.range {
        Range::Whole { low, high } => {
            let whole = [low - 1, low, high, high + 1, i64::MIN, i64::MAX].map(Value::Whole);
            // The wrong kind: a float that is in range as a number, and the
            // float whose bits are.
            let floats = [high as f64, f64::from_bits(high as u64)].map(Value::Coefficient);
            whole.into_iter().chain(floats).collect()
        }
        Range::Finite => {
            let tiny = f64::from_bits(1);
            let finite = [f64::MIN, f64::MAX, -0.0, tiny];
            // The first and the last NaN there is, of either sign.
            let nans = [0x7ff0_0000_0000_0001, 0xffff_ffff_ffff_ffff].map(f64::from_bits);
            let floats = [f64::INFINITY, f64::NEG_INFINITY, f64::NAN];
            let floats = finite.into_iter().chain(floats).chain(nans).map(Value::Coefficient);
            floats.chain([0, 1].map(Value::Whole)).collect()
        }
    }
}

struct Walk {
    lines: Vec<Vec<u8>>,
}

impl Walk {
    fn say(&mut self, command: Command) {
        let mut line = Vec::new();
        write_command(&command, &mut line);
        self.lines.push(line);
    }

    /// One session over all settings, and a second one in which nothing of it
    /// is seen.
    fn ranges(&mut self, door: u64) {
        self.say(Command::Begin { door });
        for setting in &PAGE.settings {
            let number = setting.number as u64;
            for value in tries(setting) {
                self.say(Command::Write { door, setting: number, value });
            }
            self.say(Command::Read { door, setting: number });
        }
        self.say(Command::Abandon { door });
        self.say(Command::Begin { door });
        for setting in &PAGE.settings {
            self.say(Command::Read { door, setting: setting.number as u64 });
        }
        self.say(Command::Abandon { door });
    }

    /// With these locks open and the others shut, a commit of each setting
    /// alone. The doors take turns.
    fn rights(&mut self, open: u8) {
        for lock in 1..=LOCKS as u64 {
            if open >> (lock - 1) & 1 == 1 {
                // Lock 1 is a switch and asks for no code.
                let code = if lock == 1 { 0 } else { CODES[lock as usize - 2] };
                self.say(Command::Open { lock, code });
            } else {
                self.say(Command::Shut { lock });
            }
        }
        self.say(Command::Report);
        self.say(Command::Clear);
        for setting in &PAGE.settings {
            let number = setting.number as u64;
            let door = 1 + (number + u64::from(open)) % DOORS as u64;
            self.say(Command::Begin { door });
            self.say(Command::Write { door, setting: number, value: setting.factory });
            self.say(Command::Commit { door });
            // Old and new are the same, so that the audit trail alone tells
            // whether the value was put in force.
            self.say(Command::Audit { index: 0 });
            self.say(Command::Begin { door });
            self.say(Command::Read { door, setting: number });
            self.say(Command::Abandon { door });
        }
    }
}

#[cfg(test)]
mod tests {
    use super::*;
    use crate::coverage::Coverage;
    use crate::lines::{read_line, Line};

    /// All lines are commands, and none needs what the seed would bring.
    #[test]
    fn the_walk_is_the_same_every_time() {
        let script = walk_script();
        assert_eq!(script, walk_script());
        for line in &script.lines {
            assert!(matches!(read_line(line), Line::Command(_)), "{line:?}");
        }
    }

    /// Every setting takes some of what is tried and refuses some.
    #[test]
    fn something_is_taken_and_something_refused() {
        let script = walk_script();
        let mut taken = vec![0; PAGE.settings.len()];
        let mut refused = taken.clone();
        for (place, answer) in Coverage::new().answer(&script) {
            let Line::Command(command) = read_line(&script.lines[place]) else { continue };
            if let Command::Write { setting, .. } = command {
                let row = setting as usize - 1;
                match answer.as_slice() {
                    b"0" => taken[row] += 1,
                    b"9" => refused[row] += 1,
                    _ => panic!("{command:?} answered {answer:?}"),
                }
            }
        }
        // Both ends at each door, and the factory value with each set of locks.
        let least = 2 * DOORS + LOCK_SETS;
        assert!(taken.iter().all(|count| *count >= least), "{taken:?}");
        assert!(refused.iter().all(|count| *count >= 6 * DOORS), "{refused:?}");
    }
}
