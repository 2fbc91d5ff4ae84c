//! The bench's lines: commands read from text, answers written as text.
//!
//! A line is bytes, not characters: anything may be on it, and what is not a
//! command answers `?`.

use crate::command::{obey, Answer, Command, Done, MOST_LENT};
use crate::device::{Counters, Cycle, Device, LogLine, Value};
use crate::last::Last;

/// A longer line is not a command, whatever is on it, so that a reader needs
/// no more than this much room. See the README.
pub const LONGEST_LINE: usize = 500;

/// The most words of a command: those of `cycle`.
const MOST_WORDS: usize = 6;

#[derive(Clone, Debug, PartialEq)]
pub enum Line {
    /// An empty line or a remark: no answer.
    Nothing,
    /// None of the commands: the answer is `?`.
    Malformed,
    Command(Command),
}

/// Reads one line, given without its line feed.
pub fn read_line(line: &[u8]) -> Line {
    if line.is_empty() || line[0] == b'#' {
        return Line::Nothing;
    }
    match read_command(line) {
        Some(command) => Line::Command(command),
        None => Line::Malformed,
    }
}

fn read_command(line: &[u8]) -> Option<Command> {
    if line.len() > LONGEST_LINE {
        return None;
    }
    read_words(line)
}

/// The command that the words of a line make, however long it is.
pub(crate) fn read_words(line: &[u8]) -> Option<Command> {
    let mut words: [&[u8]; MOST_WORDS] = [b""; MOST_WORDS];
    let mut count = 0;
    for word in line.split(|byte| *byte == b' ') {
        // An empty word is a space too many.
        if word.is_empty() || count == MOST_WORDS {
            return None;
        }
        words[count] = word;
        count += 1;
    }
    match words[..count] {
        [b"start", time, code2, code3] => {
            Some(Command::Start { time: unsigned(time)?, code2: code(code2)?, code3: code(code3)? })
        }
        [b"cycle", time, n, raw, p, k] => Some(Command::Cycle(Cycle {
            time: unsigned(time)?,
            n: unsigned(n)?,
            raw: or_failed(raw, |word| u16::try_from(unsigned(word)?).ok())?,
            p: or_failed(p, unsigned)?,
            k: or_failed(k, unsigned)?,
        })),
        [b"begin", door] => Some(Command::Begin { door: unsigned(door)? }),
        [b"commit", door] => Some(Command::Commit { door: unsigned(door)? }),
        [b"abandon", door] => Some(Command::Abandon { door: unsigned(door)? }),
        [b"read", door, setting] => {
            Some(Command::Read { door: unsigned(door)?, setting: unsigned(setting)? })
        }
        [b"write", door, setting, kind, value] => Some(Command::Write {
            door: unsigned(door)?,
            setting: unsigned(setting)?,
            value: match kind {
                b"w" => Value::Whole(signed(value)?),
                b"c" => Value::Coefficient(f64::from_bits(hexadecimal(value)?)),
                _ => return None,
            },
        }),
        [b"open", lock, word] => Some(Command::Open { lock: unsigned(lock)?, code: code(word)? }),
        [b"shut", lock] => Some(Command::Shut { lock: unsigned(lock)? }),
        [b"clear"] => Some(Command::Clear),
        [b"tick", named] => Some(Command::Tick { named: unsigned(named)? }),
        [b"report"] => Some(Command::Report),
        [b"outputs"] => Some(Command::Outputs),
        [b"readout", length] => Some(Command::Readout { length: lent_length(length)? }),
        [b"archive", index] => Some(Command::Archive { index: unsigned(index)? }),
        [b"log", index] => Some(Command::Log { index: unsigned(index)? }),
        [b"audit", index] => Some(Command::Audit { index: unsigned(index)? }),
        [b"last", code] => Some(Command::Last { code: unsigned(code)? }),
        [b"parse", digits] => Some(Command::Parse { message: bytes(digits)? }),
        _ => None,
    }
}

/// Digits and nothing else, of a number that fits. Leading zeros change
/// nothing.
pub(crate) fn unsigned(word: &[u8]) -> Option<u64> {
    if word.is_empty() {
        return None;
    }
    let mut number: u64 = 0;
    for byte in word {
        if !byte.is_ascii_digit() {
            return None;
        }
        number = number.checked_mul(10)?.checked_add(u64::from(byte - b'0'))?;
    }
    Some(number)
}

/// The length of a buffer, if one so long is lent.
fn lent_length(word: &[u8]) -> Option<usize> {
    let length = usize::try_from(unsigned(word)?).ok()?;
    (length <= MOST_LENT).then_some(length)
}

fn code(word: &[u8]) -> Option<u32> {
    u32::try_from(unsigned(word)?).ok()
}

fn signed(word: &[u8]) -> Option<i64> {
    match word.strip_prefix(b"-") {
        // The negative side reaches one further than the positive.
        Some(digits) => 0_i64.checked_sub_unsigned(unsigned(digits)?),
        None => i64::try_from(unsigned(word)?).ok(),
    }
}

fn hexadecimal(word: &[u8]) -> Option<u64> {
    if word.len() != 16 {
        return None;
    }
    let mut bits = 0;
    for byte in word {
        bits = bits << 4 | u64::from(hex_digit(*byte)?);
    }
    Some(bits)
}

/// Bytes of two digits each.
fn bytes(word: &[u8]) -> Option<Vec<u8>> {
    let pair = |pair: &[u8]| match *pair {
        [high, low] => Some(hex_digit(high)? << 4 | hex_digit(low)?),
        // An odd number of digits leaves one alone.
        _ => None,
    };
    word.chunks(2).map(pair).collect()
}

/// The value of a digit, small letters only.
fn hex_digit(byte: u8) -> Option<u8> {
    match byte {
        b'0'..=b'9' => Some(byte - b'0'),
        b'a'..=b'f' => Some(byte - b'a' + 10),
        _ => None,
    }
}

fn or_failed<T>(word: &[u8], read: impl Fn(&[u8]) -> Option<T>) -> Option<Option<T>> {
    if word == b"-" {
        Some(None)
    } else {
        read(word).map(Some)
    }
}

/// Writes a command as the line that `read_line` reads, without line feed.
pub fn write_command(command: &Command, out: &mut Vec<u8>) {
    let mut words = Words::new(out);
    match *command {
        Command::Start { time, code2, code3 } => {
            words.text("start").number(time).number(code2.into()).number(code3.into());
        }
        Command::Cycle(Cycle { time, n, raw, p, k }) => {
            words.text("cycle").number(time).number(n);
            words.reading(raw.map(u64::from)).reading(p).reading(k);
        }
        Command::Begin { door } => {
            words.text("begin").number(door);
        }
        Command::Read { door, setting } => {
            words.text("read").number(door).number(setting);
        }
        Command::Write { door, setting, value } => {
            words.text("write").number(door).number(setting).value(value);
        }
        Command::Commit { door } => {
            words.text("commit").number(door);
        }
        Command::Abandon { door } => {
            words.text("abandon").number(door);
        }
        Command::Open { lock, code } => {
            words.text("open").number(lock).number(code.into());
        }
        Command::Shut { lock } => {
            words.text("shut").number(lock);
        }
        Command::Clear => {
            words.text("clear");
        }
        Command::Tick { named } => {
            words.text("tick").number(named);
        }
        Command::Report => {
            words.text("report");
        }
        Command::Outputs => {
            words.text("outputs");
        }
        Command::Readout { length } => {
            words.text("readout").number(length as u64);
        }
        Command::Archive { index } => {
            words.text("archive").number(index);
        }
        Command::Log { index } => {
            words.text("log").number(index);
        }
        Command::Audit { index } => {
            words.text("audit").number(index);
        }
        Command::Last { code } => {
            words.text("last").number(code);
        }
        Command::Parse { ref message } => {
            words.text("parse").bytes(message);
        }
    }
}

/// Writes an answer, without line feed.
pub fn write_answer(answer: &Answer, out: &mut Vec<u8>) {
    let mut words = Words::new(out);
    let done = match answer {
        Err(refusal) => {
            words.number(refusal.number().into());
            return;
        }
        Ok(done) => done,
    };
    words.number(0);
    match *done {
        Done::Nothing => {}
        Done::Value(value) => {
            words.value(value);
        }
        Done::Emitted(emitted) => {
            for pulses in emitted {
                words.number(pulses);
            }
        }
        Done::Report(report) => {
            words.number(report.time).counters(report.counters);
            words.number(report.totals.vm).number(report.totals.vb);
            words.flags(report.alarms).flags(report.latches).flags(report.locks);
        }
        Done::Outputs(outputs) => {
            for output in outputs {
                words.number(output.account).number(output.waiting).number(output.lost);
            }
        }
        Done::Readout(ref buffer) => {
            words.bytes(buffer);
        }
        Done::Archive(line) => {
            words.number(line.month.into()).counters(line.counters);
        }
        Done::Log(line) => {
            words.log_line(line);
        }
        Done::Audit(line) => {
            words.number(line.number.into()).number(line.time);
            words.number(line.door.into()).number(line.setting.into());
            words.value(line.old).value(line.new);
        }
        Done::Last(Last { line, looked }) => {
            match line {
                Some(line) => words.log_line(line),
                None => words.text("-"),
            };
            words.number(looked);
        }
        Done::Parsed(values) => {
            for litres in values {
                words.number(litres);
            }
        }
    }
}

/// Words with single spaces between them.
struct Words<'a> {
    out: &'a mut Vec<u8>,
    first: bool,
}

impl<'a> Words<'a> {
    fn new(out: &'a mut Vec<u8>) -> Self {
        Words { out, first: true }
    }

    fn space(&mut self) {
        if !self.first {
            self.out.push(b' ');
        }
        self.first = false;
    }

    fn text(&mut self, text: &str) -> &mut Self {
        self.space();
        self.out.extend_from_slice(text.as_bytes());
        self
    }

    fn number(&mut self, number: u64) -> &mut Self {
        self.space();
        push_decimal(self.out, number);
        self
    }

    fn reading(&mut self, reading: Option<u64>) -> &mut Self {
        match reading {
            Some(number) => self.number(number),
            None => self.text("-"),
        }
    }

    fn value(&mut self, value: Value) -> &mut Self {
        match value {
            Value::Whole(number) => {
                self.text("w");
                self.space();
                if number < 0 {
                    self.out.push(b'-');
                }
                push_decimal(self.out, number.unsigned_abs());
            }
            Value::Coefficient(float) => {
                self.text("c").bytes(&float.to_bits().to_be_bytes());
            }
        }
        self
    }

    /// Bytes as one word, two digits a byte.
    fn bytes(&mut self, bytes: &[u8]) -> &mut Self {
        self.space();
        for byte in bytes {
            for digit in [byte >> 4, byte & 15] {
                self.out.push(b"0123456789abcdef"[usize::from(digit)]);
            }
        }
        self
    }

    fn counters(&mut self, counters: Counters) -> &mut Self {
        self.number(counters.vm).number(counters.vm_disturbed);
        self.number(counters.vb).number(counters.vb_disturbed)
    }

    fn log_line(&mut self, line: LogLine) -> &mut Self {
        self.number(line.number.into()).number(line.time).number(line.code.into())
    }

    fn flags(&mut self, flags: [bool; 3]) -> &mut Self {
        for flag in flags {
            self.number(flag.into());
        }
        self
    }
}

fn push_decimal(out: &mut Vec<u8>, mut number: u64) {
    let mut digits = [0; 20];
    let mut first = digits.len();
    loop {
        first -= 1;
        digits[first] = b'0' + (number % 10) as u8;
        number /= 10;
        if number == 0 {
            break;
        }
    }
    out.extend_from_slice(&digits[first..]);
}

/// Answers one line, given without its line feed. None if the line has no
/// answer.
pub fn answer_line(device: &mut Device, line: &[u8], out: &mut Vec<u8>) -> Option<()> {
    match read_line(line) {
        Line::Nothing => None,
        Line::Malformed => {
            out.push(b'?');
            Some(())
        }
        Line::Command(command) => {
            write_answer(&obey(device, &command), out);
            Some(())
        }
    }
}

/// Answers a stream of bytes as they come, in any pieces. Memory does not grow
/// with the stream, and not with its lines either.
pub struct Answerer {
    device: Device,
    /// The line so far. Of a line that is too long, enough to show that it is.
    line: Vec<u8>,
}

impl Default for Answerer {
    fn default() -> Self {
        Answerer::new()
    }
}

impl Answerer {
    pub fn new() -> Answerer {
        Answerer { device: Device::new(), line: Vec::with_capacity(LONGEST_LINE + 1) }
    }

    /// Takes the next bytes and adds the answers of the lines they end.
    pub fn take(&mut self, mut bytes: &[u8], out: &mut Vec<u8>) {
        while let Some(end) = bytes.iter().position(|byte| *byte == b'\n') {
            self.add(&bytes[..end]);
            self.end_line(out);
            bytes = &bytes[end + 1..];
        }
        self.add(bytes);
    }

    /// Answers a last line that has no line feed.
    pub fn end(&mut self, out: &mut Vec<u8>) {
        self.end_line(out);
    }

    fn add(&mut self, bytes: &[u8]) {
        let room = LONGEST_LINE + 1 - self.line.len();
        self.line.extend_from_slice(&bytes[..bytes.len().min(room)]);
    }

    fn end_line(&mut self, out: &mut Vec<u8>) {
        if answer_line(&mut self.device, &self.line, out).is_some() {
            out.push(b'\n');
        }
        self.line.clear();
    }
}
