//! Random scripts.
//!
//! Lines drawn at random alone would be refused nearly always. So a device is
//! carried along while the script is made, and what it holds steers the next
//! lines to where the rules change their answer: the ends of ranges, the edge
//! of a month, a setting that the other door has just read. What the answer
//! must be plays no part here.

use crate::calendar::{first_midnight, first_second, month_of_time, SIX_O_CLOCK};
use crate::command::{obey, Command, MOST_LENT};
use crate::device::{
    temperature_float, Cycle, Device, Value, ALARM_K, ALARM_P, ALARM_T, ARCHIVE_LINES, AUDIT_LINES,
    EQ1, FIRST_WEIGHT, LOG_LINES, N_LIMIT, PULSE, SETTINGS, TIME_LIMIT, UNITS_A_LITRE, VB_MODULUS,
    VM_MODULUS,
};
use crate::last::CODES;
use crate::lines::{read_line, write_command, Line, LONGEST_LINE};
use crate::output::{Output, BUFFER, OFF, OUTPUTS, TICK_LIMIT};
use crate::readout::{message, message_of, Values, ETX, MESSAGE_LENGTH, STX};
use crate::script::Script;
use crate::spoilt::{
    digit_places, doubled, end_places, end_reversed, exchanged, left_out, mended, of_length,
    point_moved, unit_places, with_byte, with_byte_doubled, without_byte, LINES, LONGEST_MESSAGE,
    POINT, VALUE_LENGTH,
};
use crate::table::{Pair, Range, PAGE};

/// A small generator of random numbers (SplitMix64): the same seed gives the
/// same scripts on every machine.
#[derive(Clone, Debug)]
pub struct Rng(u64);

impl Rng {
    pub fn new(seed: u64) -> Rng {
        Rng(seed)
    }

    /// Any 64-bit number.
    pub fn any(&mut self) -> u64 {
        self.0 = self.0.wrapping_add(0x9e37_79b9_7f4a_7c15);
        let mut z = self.0;
        z = (z ^ (z >> 30)).wrapping_mul(0xbf58_476d_1ce4_e5b9);
        z = (z ^ (z >> 27)).wrapping_mul(0x94d0_49bb_1331_11eb);
        z ^ (z >> 31)
    }

    /// A number from 0 up to, but not including, the count.
    pub fn below(&mut self, count: u64) -> u64 {
        ((u128::from(self.any()) * u128::from(count)) >> 64) as u64
    }

    /// True once in so many times.
    pub fn one_in(&mut self, count: u64) -> bool {
        self.below(count) == 0
    }

    pub fn percent(&mut self, percent: u64) -> bool {
        self.below(100) < percent
    }

    /// A whole number from low to high, ends included.
    pub fn between(&mut self, low: i64, high: i64) -> i64 {
        low.wrapping_add(self.below((high - low) as u64 + 1) as i64)
    }

    pub fn pick<T: Clone>(&mut self, from: &[T]) -> T {
        from[self.below(from.len() as u64) as usize].clone()
    }
}

/// A random script of some thousand lines.
pub fn random_script(rng: &mut Rng) -> Script {
    let length = 300 + rng.below(5_000) as usize;
    let mut writer = Writer::new(rng);
    // Without a start the device must be as start time 0 and codes 0 give.
    if writer.rng.percent(30) {
        writer.readout();
    }
    if writer.rng.percent(60) {
        writer.parse();
    }
    if writer.rng.percent(50) {
        writer.ask();
    }
    if writer.rng.percent(80) {
        writer.start();
    }
    if writer.rng.percent(50) {
        writer.turn_outputs_on();
    }
    while writer.lines.len() < length {
        writer.stretch();
    }
    if writer.rng.percent(40) {
        writer.dump();
    } else {
        writer.glance();
    }
    writer.finish()
}

/// A script of mostly malformed lines and random bytes, with enough good ones
/// among them to show a later answer spoiled.
pub fn fuzz_script(rng: &mut Rng) -> Script {
    let length = 300 + rng.below(4_000) as usize;
    let mut writer = Writer::new(rng);
    while writer.lines.len() < length {
        match writer.rng.below(100) {
            0..=54 => writer.malformed_line(),
            55..=74 => writer.random_line(),
            75..=84 => writer.alphabet_line(),
            85..=97 => writer.anything(),
            98 => writer.glance(),
            _ => {
                if writer.rng.one_in(8) {
                    writer.long_line();
                }
            }
        }
    }
    if writer.rng.percent(20) {
        writer.dump();
    } else {
        writer.glance();
    }
    writer.finish()
}

/// One line far longer than any that means something, and a good one after it.
pub fn giant_script(rng: &mut Rng) -> Script {
    let mut writer = Writer::new(rng);
    let mut giant = b"report ".to_vec();
    while giant.len() < 8_000_000 {
        giant.push(writer.byte());
    }
    writer.push(giant);
    writer.push(b"report".to_vec());
    writer.finish()
}

/// One long script for what no random one reaches: Vm, VmD, Vb, VmT and VbT
/// roll over, the totals also where neither part does, with a readout on either
/// side, which is read back; the line numbers of both books pass 65,535, with
/// questions for codes on either side; a readout goes into every length, and every
/// month of the century begins. No number of pulses, no reading and no code asked
/// for hangs on the seed, so every seed reaches all of this.
pub fn long_script(rng: &mut Rng) -> Script {
    let mut writer = Writer::new(rng);
    writer.no_noise = true;
    writer.vb_total_lands();
    // This start puts the totals back to 0 as well.
    let codes = [writer.rng.any() as u32, writer.rng.any() as u32];
    writer.say(Command::Start { time: 0, code2: codes[0], code3: codes[1] });
    writer.say(Command::Open { lock: 1, code: 0 });
    writer.put_in_force(1, &[(1, Value::Whole(4)), (6, Value::Whole(1))]);
    // The outputs follow their counters through the rollover. At the largest
    // weights some 60 pulses are due of each a cycle, which the ticks take again.
    let choices = [1, 2, 3, 4].map(Value::Whole);
    let weights = [1, 0, 17, 12_346].map(|less| Value::Whole(highest(26) - less));
    let outputs: Vec<(usize, Value)> = (22..).zip(choices.into_iter().chain(weights)).collect();
    writer.put_in_force(2, &outputs);
    // 60,000,000 litres a cycle, every second one disturbed, and six logbook
    // lines every two cycles. Vm lands on its modulus exactly and Vb, at a
    // factor of 1, on its own; VmD passes over it. Half way there, with both
    // parts near the middle, VmT lands on its modulus, and a few hundred cycles
    // later VbT passes over its own.
    for round in 0..33_400_u64 {
        let time = writer.model.time + writer.rng.below(10_000);
        let disturbed = round % 2 == 1;
        let nearest = writer.model.counters.vm.max(writer.model.totals.vm);
        let room = (VM_MODULUS - nearest) / 100_000;
        writer.say(Command::Cycle(Cycle {
            time,
            n: if disturbed { N_LIMIT } else { N_LIMIT.min(room) },
            raw: (!disturbed).then_some(5_120),
            p: (!disturbed).then_some(101_325),
            k: (!disturbed).then_some(10_000),
        }));
        let near = writer.near_rollover();
        if near {
            writer.good_readout();
            writer.read_back();
        }
        if round % 64 == 0 || near {
            writer.say(Command::Report);
            writer.say(Command::Outputs);
        }
        if round % 8 == 0 {
            writer.say(Command::Tick { named: TICK_LIMIT });
        }
        if round % 256 == 0 || (21_750..21_950).contains(&round) {
            let index = writer.rng.below(4);
            writer.say(Command::Log { index });
            let code = ROUND_CODES[round as usize % ROUND_CODES.len()];
            writer.say(Command::Last { code });
        }
        // The line of lock 1 is the first of all. In round 83 it is the last
        // one that the full book holds.
        if round <= 90 {
            writer.say(Command::Last { code: 31 });
        }
        // Line 65,535 comes in round 21,845, and line 0 in the next.
        if (21_840..21_850).contains(&round) {
            writer.ask_for_every_code();
        }
        // The last before the next cycle, which may roll a counter over.
        if round % 64 == 0 || near {
            writer.good_readout();
        }
    }
    writer.dump();
    writer.every_length();
    // All 29 settings at every commit, at either door in turn.
    for round in 0..2_290_u64 {
        let door = 1 + round % 2;
        writer.say(Command::Begin { door });
        for setting in 1..=SETTINGS {
            let value = writer.good_value(setting);
            writer.say(Command::Write { door, setting: setting as u64, value });
        }
        // The values were drawn apart, so the pairs are put in order.
        for pair in numbered_pairs() {
            let mut ends = pair.map(|setting| writer.staged_whole(door, setting));
            ends.sort_unstable();
            for (setting, value) in pair.into_iter().zip(ends.map(Value::Whole)) {
                writer.say(Command::Write { door, setting: setting as u64, value });
            }
        }
        writer.say(Command::Commit { door });
        if round % 64 == 0 || round > 2_255 {
            let index = writer.rng.below(AUDIT_LINES as u64);
            writer.say(Command::Audit { index });
            writer.say(Command::Audit { index: 0 });
        }
    }
    writer.dump();
    writer.every_month_begins();
    writer.finish()
}

/// Commands for the measure of speed: working days with every command of
/// document 01 in them, well formed and mostly accepted. They stay as they are,
/// so that figures can be compared from one request to the next.
pub fn mixed_commands(seed: u64, count: usize) -> Vec<Command> {
    let mut rng = Rng::new(seed);
    let mut writer = Writer::new(&mut rng);
    writer.no_noise = true;
    writer.keep_commands = true;
    writer.say(Command::Start { time: 0, code2: 1_234, code3: 5_678 });
    while writer.commands.len() < count {
        match writer.rng.below(100) {
            0..=59 => writer.day_cycle(),
            60..=69 => writer.say(Command::Report),
            70..=79 => writer.look(),
            80..=89 => writer.day_session(),
            90..=94 => {
                let lock = 1 + writer.rng.below(3);
                writer.open_lock(lock);
            }
            95..=96 => {
                let lock = 1 + writer.rng.below(3);
                writer.say(Command::Shut { lock });
            }
            97..=98 => writer.say(Command::Clear),
            _ => {
                let lock = 2 + writer.rng.below(2);
                writer.say(Command::Open { lock, code: 1 });
            }
        }
    }
    writer.commands.truncate(count);
    writer.commands
}

/// Cycles for the measure of speed, after a start: all accepted, one in a
/// hundred of them disturbed.
pub fn accepted_cycles(seed: u64, count: usize) -> Vec<Command> {
    let mut rng = Rng::new(seed);
    let mut commands = vec![Command::Start { time: 0, code2: 0, code3: 0 }];
    let mut time = 0;
    for _ in 0..count {
        time += rng.below(120);
        commands.push(Command::Cycle(Cycle {
            time,
            n: rng.below(N_LIMIT + 1),
            raw: Some(rng.between(5_000, 10_000) as u16),
            p: (!rng.one_in(100)).then(|| rng.between(95_000, 600_000) as u64),
            k: Some(rng.between(9_000, 10_000) as u64),
        }));
    }
    commands
}

/// The ends of a setting's range, by its number.
fn lowest(setting: usize) -> i64 {
    PAGE.settings[setting - 1].ends().0
}

fn highest(setting: usize) -> i64 {
    PAGE.settings[setting - 1].ends().1
}

/// What stands before the digits of a message.
const PARSE: &[u8] = b"parse ";

/// Codes that the long script asks for in turn. Their count is odd, so that each
/// comes after a disturbed cycle as well as after one in main.
const ROUND_CODES: [u64; 9] = [11, 12, 13, 21, 22, 23, 31, 51, 256 + 11];

/// Codes that no line can have: numbers beside those that one can, and beside
/// the ends of what a byte, two bytes and eight bytes hold.
const NO_CODES: [u64; 21] = [
    0,
    1,
    2,
    10,
    14,
    20,
    24,
    30,
    34,
    40,
    44,
    50,
    55,
    99,
    255,
    256,
    65_535,
    65_536,
    1 << 32,
    1 << 63,
    u64::MAX,
];

/// The pairs that are in order, by number: the lower and the upper of each.
fn numbered_pairs() -> Vec<[usize; 2]> {
    PAGE.pairs.iter().map(|Pair { lower, upper }| [lower + 1, upper + 1]).collect()
}

/// Writes a script and carries the device along.
struct Writer<'a> {
    rng: &'a mut Rng,
    model: Device,
    lines: Vec<Vec<u8>>,
    commands: Vec<Command>,
    keep_commands: bool,
    /// No malformed lines, remarks or odd spellings in between.
    no_noise: bool,
}

impl<'a> Writer<'a> {
    fn new(rng: &'a mut Rng) -> Self {
        Writer {
            rng,
            model: Device::new(),
            lines: Vec::new(),
            commands: Vec::new(),
            keep_commands: false,
            no_noise: false,
        }
    }

    fn finish(self) -> Script {
        let open_end = !self.no_noise
            && self.lines.last().is_some_and(|line| !line.is_empty())
            && self.rng.percent(20);
        Script { lines: self.lines, open_end }
    }

    fn say(&mut self, command: Command) {
        if self.keep_commands {
            let _ = obey(&mut self.model, &command);
            self.commands.push(command);
            return;
        }
        let mut line = Vec::new();
        write_command(&command, &mut line);
        if !self.no_noise {
            if self.rng.one_in(60) {
                self.malformed_line();
            }
            if self.rng.one_in(100) {
                let remark = self.remark();
                self.push(remark);
            }
            // No step of the device, so that it may come between any two.
            if self.rng.one_in(40) {
                self.parse();
            }
            if self.rng.one_in(50) {
                line = self.with_leading_zeros(line);
            }
        }
        self.push(line);
    }

    /// Adds a line and lets the model answer it, whatever it is.
    fn push(&mut self, line: Vec<u8>) {
        if let Line::Command(command) = read_line(&line) {
            let _ = obey(&mut self.model, &command);
        }
        self.lines.push(line);
    }

    /// Some hundred lines with one thing in mind.
    fn stretch(&mut self) {
        let until = self.lines.len() + 20 + self.rng.below(300) as usize;
        // The end of the century leaves nothing to do but to start again.
        if self.model.time > TIME_LIMIT - 40_000_000 && self.rng.percent(70) {
            self.start();
        }
        match self.rng.below(17) {
            0 | 1 => {
                while self.lines.len() < until {
                    self.everyday();
                }
            }
            2 => self.metering(until),
            3 | 4 => self.racing(until),
            5 => self.pairs(until),
            6 => self.calendar(until),
            7 => self.books(until),
            8 | 14 => self.coefficients(until),
            9 => self.big_factor(),
            10 => self.halves(),
            11..=13 => self.boiler_house(until),
            15 => self.growing_old(),
            _ => {
                while self.lines.len() < until {
                    self.anything();
                }
            }
        }
        if self.rng.percent(50) {
            self.say(Command::Report);
        }
        if self.rng.percent(50) {
            self.say(Command::Outputs);
        }
        if self.rng.percent(30) {
            self.readout();
        }
        if self.rng.percent(30) {
            self.ask();
        }
    }

    // ---- stretches ----

    fn everyday(&mut self) {
        match self.rng.below(100) {
            0..=39 => self.everyday_cycle(),
            40..=47 => self.say(Command::Report),
            48 | 49 => self.readout(),
            50..=57 => self.look(),
            58 | 59 => self.ask(),
            60..=79 => self.everyday_session(),
            80..=85 => {
                let lock = 1 + self.rng.below(3);
                self.open_lock(lock);
            }
            86..=89 => {
                let lock = 1 + self.rng.below(3);
                self.say(Command::Shut { lock });
            }
            90..=92 => self.say(Command::Clear),
            93 | 94 => self.tick(),
            95 => self.say(Command::Outputs),
            _ => self.anything(),
        }
    }

    /// Readings around every limit that a reading has.
    fn metering(&mut self, until: usize) {
        if self.rng.percent(60) {
            self.open_lock(1);
            let modes: Vec<(usize, Value)> = [4, 5, 6]
                .into_iter()
                .map(|setting| (setting, Value::Whole(i64::from(!self.rng.one_in(4)))))
                .collect();
            self.put_in_force(1, &modes);
        }
        while self.lines.len() < until {
            self.odd_cycle();
            if self.rng.percent(8) {
                self.readout();
            }
            if self.rng.percent(25) {
                self.say(Command::Report);
            }
            if self.rng.percent(5) {
                self.say(Command::Outputs);
            }
            if self.rng.percent(10) {
                let index = self.rng.below(7);
                self.say(Command::Log { index });
            }
            if self.rng.percent(10) {
                self.ask();
            }
            if self.rng.percent(6) {
                if self.rng.percent(30) {
                    self.open_lock(2);
                }
                self.say(Command::Clear);
            }
        }
    }

    /// Sessions at both doors over the same few settings.
    fn racing(&mut self, until: usize) {
        let mut hot = [0; 3];
        for setting in &mut hot {
            *setting = 1 + self.rng.below(SETTINGS as u64) as usize;
        }
        if self.rng.percent(80) {
            let lock = 1 + self.rng.below(2);
            self.open_lock(lock);
        }
        while self.lines.len() < until {
            let door = 1 + self.rng.below(2);
            let setting = self.rng.pick(&hot);
            if !self.model.sessions[door as usize - 1].open && !self.rng.one_in(12) {
                self.say(Command::Begin { door });
                continue;
            }
            match self.rng.below(100) {
                0..=28 => self.say(Command::Read { door, setting: setting as u64 }),
                29 | 30 => self.ask(),
                31..=33 => self.readout(),
                34..=61 => {
                    let value = if self.rng.percent(90) {
                        self.good_value(setting)
                    } else {
                        self.any_value(setting)
                    };
                    self.say(Command::Write { door, setting: setting as u64, value });
                }
                62..=83 => self.say(Command::Commit { door }),
                84..=87 => self.say(Command::Abandon { door }),
                88..=89 => self.say(Command::Begin { door }),
                90 | 91 => {
                    let index = self.rng.below(4);
                    self.say(Command::Audit { index });
                }
                92 => self.tick(),
                93..=95 => self.everyday_cycle(),
                96..=97 => {
                    let lock = 1 + self.rng.below(3);
                    self.open_lock(lock);
                }
                _ => {
                    let lock = 1 + self.rng.below(3);
                    self.say(Command::Shut { lock });
                }
            }
        }
    }

    /// The pairs, staged apart and together, near each other.
    fn pairs(&mut self, until: usize) {
        let pairs = numbered_pairs();
        self.open_lock(1);
        while self.lines.len() < until {
            let door = 1 + self.rng.below(2);
            let [lower, upper] = self.rng.pick(&pairs);
            let pivot = self.rng.between(lowest(lower) + 2, highest(lower) - 2);
            if !self.model.sessions[door as usize - 1].open {
                self.say(Command::Begin { door });
            }
            for setting in [lower, upper] {
                if self.rng.percent(60) {
                    let near = self.rng.between(-1, 1);
                    let value = match self.rng.below(4) {
                        0 => self.whole_in_force(setting),
                        1 => self.whole_in_force(lower) + near,
                        2 => self.whole_in_force(upper) + near,
                        _ => pivot + near,
                    };
                    let value = Value::Whole(value);
                    self.say(Command::Write { door, setting: setting as u64, value });
                }
                if self.rng.percent(10) {
                    self.say(Command::Read { door, setting: setting as u64 });
                }
            }
            if self.rng.percent(85) {
                self.say(Command::Commit { door });
            }
            if self.rng.percent(4) {
                // A lock missing comes before a pair out of order.
                self.say(Command::Shut { lock: 1 });
                self.say(Command::Commit { door });
                self.open_lock(1);
            }
            if self.rng.percent(10) {
                self.odd_cycle();
            }
            if self.rng.percent(6) {
                self.readout();
            }
        }
    }

    /// Times at the edges of months, and jumps over many.
    fn calendar(&mut self, until: usize) {
        while self.lines.len() < until {
            let now = self.model.time;
            let next = self.next_six();
            let time = match self.rng.below(100) {
                0..=21 => now + self.rng.below(1_000_000),
                22..=51 => self.edge(next).max(now),
                52..=71 => {
                    let later = next + self.rng.below(20) as u32;
                    self.edge(later).max(now)
                }
                72..=79 => {
                    self.through_six();
                    continue;
                }
                80..=83 => now + self.rng.below(TIME_LIMIT - now),
                84 => TIME_LIMIT - 1,
                85 => TIME_LIMIT,
                86..=88 => now.saturating_sub(1 + self.rng.below(3)),
                _ => now + self.rng.below(90_000),
            };
            self.cycle_at(time);
            if self.rng.percent(4) {
                self.readout();
            }
            if self.rng.percent(40) {
                let index = self.index(self.model.archive.held, ARCHIVE_LINES);
                self.say(Command::Archive { index });
            }
            if self.rng.percent(3) {
                self.whole_archive();
            }
            if self.model.time > TIME_LIMIT - 40_000_000 && self.rng.percent(30)
                || self.rng.one_in(40)
            {
                self.start();
                match self.rng.below(4) {
                    // A whole century, and a thousand months, in one step.
                    0 => self.cycle_at(TIME_LIMIT - 1),
                    1 => {
                        let month = 1_000 + self.rng.below(199) as u32;
                        let time = self.edge(month);
                        self.cycle_at(time);
                    }
                    // The start's own day may be the first that this is about.
                    2 => self.through_six(),
                    _ => {}
                }
            }
        }
    }

    /// Through the six hours before the next month begins: the second before
    /// midnight of its first day, midnight, a time in between, the second
    /// before six, six, and the second after. Some are left out, so that each
    /// of them may be the one that comes after a long time.
    fn through_six(&mut self) {
        let midnight = first_midnight(self.next_six());
        let between = midnight + self.rng.below(SIX_O_CLOCK);
        let six = midnight + SIX_O_CLOCK;
        for time in [midnight.saturating_sub(1), midnight, between, six - 1, six, six + 1] {
            if self.rng.percent(60) {
                self.cycle_at(time);
            }
            if self.rng.percent(40) {
                self.say(Command::Archive { index: 0 });
            }
        }
    }

    /// Every first of the century after the first of all: no month ends at
    /// midnight nor a second before six, and one ends at six.
    fn every_month_begins(&mut self) {
        self.say(Command::Start { time: 0, code2: 0, code3: 0 });
        let good = Cycle { time: 0, n: 1, raw: Some(5_120), p: Some(101_325), k: None };
        // Six o'clock of the first day, where no month begins.
        for time in [0, SIX_O_CLOCK - 1, SIX_O_CLOCK] {
            self.say(Command::Cycle(Cycle { time, ..good }));
            self.say(Command::Archive { index: 0 });
        }
        for month in 1..1_200 {
            let midnight = first_midnight(month);
            let six = midnight + SIX_O_CLOCK;
            for time in [midnight - 1, midnight, six - 1] {
                self.say(Command::Cycle(Cycle { time, ..good }));
            }
            self.say(Command::Archive { index: 0 });
            self.say(Command::Cycle(Cycle { time: six, ..good }));
            self.say(Command::Archive { index: 0 });
        }
        self.say(Command::Cycle(Cycle { time: TIME_LIMIT - 1, ..good }));
        self.whole_archive();
        self.say(Command::Report);
    }

    /// Many lines into the logbook and the audit trail, and looks at them.
    fn books(&mut self, until: usize) {
        self.open_lock(1);
        while self.lines.len() < until {
            match self.rng.below(11) {
                0..=4 => {
                    for _ in 0..self.rng.below(30) {
                        let lock = 1 + self.rng.below(3);
                        self.turn_lock(lock);
                    }
                }
                5 | 6 => {
                    self.open_lock(1);
                    let door = 1 + self.rng.below(2);
                    let mut values = Vec::new();
                    for setting in [14, 15, 16, 17, 18, 19, 20, 21, 11, 12, 13, 2, 3] {
                        if self.rng.percent(70) {
                            values.push((setting, self.good_value(setting)));
                        }
                    }
                    self.put_in_force(door, &values);
                }
                7 => {
                    let index = self.index(self.model.log.held, LOG_LINES);
                    self.say(Command::Log { index });
                }
                8 => {
                    let index = self.index(self.model.audit_held(), AUDIT_LINES);
                    self.say(Command::Audit { index });
                }
                9 => self.ask(),
                _ => self.odd_cycle(),
            }
        }
    }

    /// A line of a code that no line after it has grows old: it is the last one
    /// that a full logbook holds, and then it is lost. Questions for it come all
    /// the way, and a few for other codes.
    fn growing_old(&mut self) {
        // From an empty book, over what the store still has of before.
        if self.rng.percent(60) {
            self.start();
            self.ask();
        }
        self.open_lock(1);
        let door = 1 + self.rng.below(2);
        self.put_in_force(door, &[4, 5, 6].map(|mode| (mode, Value::Whole(1))));
        // At the end of the store or at its beginning, or anywhere.
        match self.rng.below(4) {
            0 => self.until_the_next_place_is(LOG_LINES - 1),
            1 => self.until_the_next_place_is(0),
            _ => {}
        }
        let kept = self.line_to_be_kept();
        let Some(newest) = self.model.log.newest_first().next() else { return };
        let code = u64::from(newest.code);
        // Each round brings a line at least.
        for _ in 0..LOG_LINES {
            let Some(place) = self.place_of(code) else { break };
            if LOG_LINES - place <= 3 || self.rng.percent(12) {
                self.say(Command::Last { code });
            }
            if self.rng.percent(6) {
                self.ask();
            }
            // A cycle brings three lines at most, a lock one.
            if LOG_LINES - place > 4 {
                self.alarm_cycle(!kept);
            } else {
                self.turn_lock(1);
            }
        }
        self.say(Command::Last { code });
        self.ask();
    }

    /// A line of lock 2 or 3, or of one alarm. Gives the alarm that must not turn
    /// again.
    fn line_to_be_kept(&mut self) -> u8 {
        if self.rng.percent(50) {
            let lock = 2 + self.rng.below(2);
            self.turn_lock(lock);
            return 0;
        }
        let alarm = self.rng.pick(&[ALARM_P, ALARM_T, ALARM_K]);
        self.alarm_cycle(alarm);
        alarm
    }

    /// Lines into the logbook until the next one goes to this place of the store.
    fn until_the_next_place_is(&mut self, place: usize) {
        for _ in 0..LOG_LINES {
            match (place + LOG_LINES - self.model.log.next) % LOG_LINES {
                0 => return,
                1..=4 => self.turn_lock(1),
                _ => self.alarm_cycle(ALARM_P | ALARM_T | ALARM_K),
            }
        }
    }

    /// A cycle that turns these alarms, as far as their modes are on, and leaves
    /// the others as they are.
    fn alarm_cycle(&mut self, turned: u8) {
        let good = self.good_cycle();
        let present = self.model.present ^ turned;
        let is_good = |alarm: u8| present & alarm == 0;
        let time = self.model.time + self.rng.below(100);
        self.say(Command::Cycle(Cycle {
            time: time.min(TIME_LIMIT - 1),
            // No pulse, so that no output overflows and has a line of its own.
            n: 0,
            raw: good.raw.filter(|_| is_good(ALARM_T)),
            p: good.p.filter(|_| is_good(ALARM_P)),
            k: good.k.filter(|_| is_good(ALARM_K)),
        }));
    }

    /// The temperature equation at its edges. What it gives shows in Vb.
    fn coefficients(&mut self, until: usize) {
        self.open_lock(1);
        let limits = [(9, Value::Whole(lowest(9))), (10, Value::Whole(highest(10)))];
        self.put_in_force(1, &[(1, Value::Whole(4)), (5, Value::Whole(1)), limits[0], limits[1]]);
        while self.lines.len() < until {
            let (set, raw) = if self.rng.percent(50) {
                let (set, raw) = self.half_set();
                (set, Some(raw))
            } else {
                (self.coefficient_set(), None)
            };
            let values: Vec<(usize, Value)> =
                (11..).zip(set.into_iter().map(Value::Coefficient)).collect();
            let door = 1 + self.rng.below(2);
            self.open_lock(1);
            self.put_in_force(door, &values);
            let cycles = if raw.is_some() { 1 } else { 1 + self.rng.below(4) };
            for _ in 0..cycles {
                let mut cycle = self.good_cycle();
                cycle.raw = Some(raw.unwrap_or_else(|| self.raw()));
                cycle.n = 1 + self.rng.below(N_LIMIT);
                self.say(Command::Cycle(cycle));
                if self.rng.percent(10) {
                    self.readout();
                }
                self.say(Command::Report);
            }
        }
        if self.rng.percent(70) {
            self.factory_coefficients();
        }
    }

    /// The largest amounts there are, until Vb or VbD rolls over.
    fn big_factor(&mut self) {
        let measured = self.rng.percent(50);
        self.open_lock(1);
        self.put_in_force(
            1,
            &[
                (1, Value::Whole(highest(1))),
                (2, Value::Whole(lowest(2))),
                (3, Value::Whole(highest(3))),
                (4, Value::Whole(1)),
                (5, Value::Whole(0)),
                (6, Value::Whole(0)),
                (8, Value::Whole(highest(8))),
                (14, Value::Whole(highest(14))),
                (15, Value::Whole(lowest(15))),
                (16, Value::Whole(lowest(16))),
            ],
        );
        // At a litre a pulse more than 2^32 pulses are due in each cycle.
        if self.rng.percent(60) {
            self.small_weights();
        }
        for _ in 0..20 + self.rng.below(90) {
            self.pressure_cycle(N_LIMIT, |_| measured.then_some(highest(8) as u64));
            if self.near_base_rollover() {
                self.good_readout();
            } else if self.rng.percent(8) {
                self.readout();
            }
            if self.rng.percent(30) {
                self.say(Command::Report);
            }
            if self.rng.percent(10) {
                self.tick();
            }
            if self.rng.percent(15) {
                self.say(Command::Outputs);
            }
        }
        self.back_to_factory(2, &[1, 2, 3, 5, 8, 14, 15, 16]);
    }

    /// The outputs: accounts around their weights, buffers around their end,
    /// ticks, and sessions at both doors over their settings.
    fn boiler_house(&mut self, until: usize) {
        // Once full, a buffer is empty again only after many ticks, or a start.
        if self.rng.one_in(3) {
            self.start();
        }
        self.open_lock(1);
        let code = self.rng.pick(&[0, 0, 0, 0, 1, 1, 2, 3, 4]);
        self.plain_factor(code);
        self.turn_outputs_on();
        while self.lines.len() < until {
            match self.rng.below(100) {
                0..=21 => self.output_session(),
                22..=49 => self.account_cycle(),
                50..=56 => self.fill_a_buffer(),
                57..=62 => self.everyday_cycle(),
                63..=76 => self.tick(),
                77..=88 => self.say(Command::Outputs),
                89 | 90 => self.readout(),
                91 | 92 => {
                    let index = self.rng.below(6);
                    self.say(Command::Log { index });
                }
                93 => self.ask(),
                94 => {
                    let index = self.rng.below(6);
                    self.say(Command::Audit { index });
                }
                95 => self.say(Command::Report),
                96 => self.small_weights(),
                97 => {
                    // Rights count at the commit.
                    self.say(Command::Shut { lock: 1 });
                    self.say(Command::Shut { lock: 2 });
                    self.output_session();
                    let lock = 1 + self.rng.below(2);
                    self.open_lock(lock);
                }
                98 => {
                    self.open_lock(1);
                    self.full_turn();
                    self.plain_factor(code);
                }
                _ => self.open_lock(1),
            }
        }
        if self.rng.percent(70) {
            self.open_lock(1);
            self.back_to_factory(1, &[1, 2, 5, 6, 7, 8, 15, 16]);
        }
    }

    /// VbT lands on its modulus exactly while Vb and VbD are about half way.
    fn vb_total_lands(&mut self) {
        self.open_lock(1);
        self.put_in_force(
            1,
            &[
                (1, Value::Whole(4)),
                (2, Value::Whole(100_000)),
                (5, Value::Whole(0)),
                (8, Value::Whole(10_000_000)),
                (14, Value::Whole(10_000_000)),
                (15, Value::Whole(0)),
                (16, Value::Whole(5_000)),
                // The outputs follow VbT, Vb, VbD and VmT.
                (22, Value::Whole(6)),
                (23, Value::Whole(4)),
                (24, Value::Whole(5)),
                (25, Value::Whole(3)),
                (26, Value::Whole(highest(26))),
            ],
        );
        // The factor is 200, measured or not, so that a pulse of 100,000 litres
        // is 2 x 10^12 and 50,000 pulses are 10^17. Every second cycle is
        // disturbed, and so is the one that lands, the 84th. Each large cycle
        // makes 12,000 pulses due at output 1.
        let mut left = 50_000;
        let mut disturbed = false;
        while left > 0 {
            let n = N_LIMIT.min(left);
            left -= n;
            self.pressure_cycle(n, |_| (!disturbed).then_some(10_000_000));
            self.good_readout();
            self.say(Command::Report);
            self.say(Command::Outputs);
            disturbed = !disturbed;
        }
    }

    /// Factors that are exactly a half before rounding: p is then counted in
    /// half hundred-thousandths.
    fn halves(&mut self) {
        self.open_lock(1);
        self.put_in_force(
            1,
            &[
                (2, Value::Whole(100_000)),
                (3, Value::Whole(27_315)),
                (4, Value::Whole(1)),
                (5, Value::Whole(0)),
                (6, Value::Whole(0)),
                (7, Value::Whole(lowest(7))),
                (8, Value::Whole(highest(8))),
                (15, Value::Whole(0)),
                (16, Value::Whole(20_000)),
            ],
        );
        for _ in 0..5 + self.rng.below(20) {
            self.pressure_cycle(1, |rng| Some(rng.between(lowest(7), 200_000) as u64));
            if self.rng.percent(15) {
                self.readout();
            }
            self.say(Command::Report);
        }
        self.back_to_factory(2, &[2, 5, 7, 8, 15, 16]);
    }

    /// Any command with any arguments.
    fn anything(&mut self) {
        let command = match self.rng.below(142) {
            0 => {
                self.start();
                return;
            }
            137..=141 => {
                self.ask();
                return;
            }
            132..=136 => {
                self.readout();
                return;
            }
            120..=127 => {
                self.tick();
                return;
            }
            1..=20 => {
                let mut cycle = self.edge_cycle();
                cycle.time = self.any_time();
                if self.rng.one_in(12) {
                    cycle.n = self.rng.pick(&[601, 602, 65_536, 1 << 32, u64::MAX]);
                }
                Command::Cycle(cycle)
            }
            21..=30 => Command::Begin { door: self.door() },
            31..=42 => Command::Read { door: self.door(), setting: self.setting() },
            43..=60 => {
                let setting = self.setting();
                let kind = setting.clamp(1, SETTINGS as u64) as usize;
                let value =
                    if self.rng.percent(60) { self.good_value(kind) } else { self.any_value(kind) };
                Command::Write { door: self.door(), setting, value }
            }
            61..=70 => Command::Commit { door: self.door() },
            71..=74 => Command::Abandon { door: self.door() },
            75..=84 => {
                let lock = self.lock();
                let code = match self.rng.below(4) {
                    0 => self.rng.pick(&[0, 1, u32::MAX]),
                    // The other lock's code, and a bit beside the right one.
                    1 => self.model.codes[self.rng.below(2) as usize],
                    2 => self.code_of(lock) ^ 1 << self.rng.below(32),
                    _ => self.code_of(lock),
                };
                Command::Open { lock, code }
            }
            85..=89 => Command::Shut { lock: self.lock() },
            90..=93 => Command::Clear,
            94..=101 => Command::Report,
            102..=107 => {
                Command::Archive { index: self.index(self.model.archive.held, ARCHIVE_LINES) }
            }
            108..=113 => Command::Log { index: self.index(self.model.log.held, LOG_LINES) },
            114..=119 => Command::Audit { index: self.index(self.model.audit_held(), AUDIT_LINES) },
            _ => Command::Outputs,
        };
        self.say(command);
    }

    // ---- a few lines ----

    fn start(&mut self) {
        let time = match self.rng.below(16) {
            0..=2 => 0,
            3..=6 => self.rng.below(TIME_LIMIT),
            7..=10 => {
                let month = self.rng.below(1_200) as u32;
                self.edge(month)
            }
            11 => self.rng.below(SIX_O_CLOCK),
            12 => self.rng.pick(&[1, SIX_O_CLOCK - 1, SIX_O_CLOCK, SIX_O_CLOCK + 1]),
            13 => TIME_LIMIT - 1 - self.rng.below(4_000_000),
            14 => TIME_LIMIT - self.rng.below(2),
            _ => self.rng.pick(&[TIME_LIMIT, TIME_LIMIT + 1, 1 << 32, u64::MAX]),
        };
        let code2 = self.code();
        let code3 = if self.rng.one_in(4) { code2 } else { self.code() };
        self.say(Command::Start { time, code2, code3 });
        if self.rng.percent(10) {
            self.readout();
        }
        if self.rng.percent(15) {
            self.ask();
        }
    }

    fn everyday_cycle(&mut self) {
        let cycle = if self.rng.percent(80) { self.good_cycle() } else { self.edge_cycle() };
        self.say(Command::Cycle(cycle));
        if self.rng.percent(3) {
            self.readout();
        }
    }

    fn cycle_at(&mut self, time: u64) {
        let mut cycle = self.good_cycle();
        cycle.time = time;
        self.say(Command::Cycle(cycle));
    }

    fn odd_cycle(&mut self) {
        let cycle = self.edge_cycle();
        self.say(Command::Cycle(cycle));
    }

    /// A look into one of the books.
    fn look(&mut self) {
        let command = match self.rng.below(3) {
            0 => Command::Archive { index: self.index(self.model.archive.held, ARCHIVE_LINES) },
            1 => Command::Log { index: self.index(self.model.log.held, LOG_LINES) },
            _ => Command::Audit { index: self.index(self.model.audit_held(), AUDIT_LINES) },
        };
        self.say(command);
    }

    /// A question for the newest line with a code, or a line that is none.
    fn ask(&mut self) {
        if self.rng.percent(10) {
            let line = self.malformed_last();
            self.push(line);
        } else {
            let code = self.asked_code();
            self.say(Command::Last { code });
        }
    }

    /// Every code that a line can have, and a few that none can.
    fn ask_for_every_code(&mut self) {
        for code in CODES.map(u64::from).into_iter().chain([0, 256 + 11]) {
            self.say(Command::Last { code });
        }
    }

    fn everyday_session(&mut self) {
        let door = 1 + self.rng.below(2);
        self.say(Command::Begin { door });
        for _ in 0..self.rng.below(4) {
            let setting = 1 + self.rng.below(SETTINGS as u64);
            self.read_or_write(door, setting);
            if self.rng.percent(4) {
                self.readout();
            }
        }
        match self.rng.below(10) {
            0 => {}
            1 | 2 => self.say(Command::Abandon { door }),
            _ => self.say(Command::Commit { door }),
        }
    }

    fn read_or_write(&mut self, door: u64, setting: u64) {
        if self.rng.percent(50) {
            self.say(Command::Read { door, setting });
        } else {
            let value = self.good_value(setting as usize);
            self.say(Command::Write { door, setting, value });
        }
    }

    /// A cycle soon after the last, of which the pressure alone is measured.
    fn pressure_cycle(&mut self, n: u64, p: impl FnOnce(&mut Rng) -> Option<u64>) {
        let time = self.model.time + self.rng.below(100);
        let p = p(self.rng);
        self.say(Command::Cycle(Cycle { time, n, raw: None, p, k: None }));
    }

    /// A cycle some minutes after the last, seldom with an alarm.
    fn day_cycle(&mut self) {
        let edge = self.rng.one_in(50);
        let mut cycle = if edge { self.edge_cycle() } else { self.good_cycle() };
        cycle.time = self.model.time + self.rng.below(600);
        self.say(Command::Cycle(cycle));
    }

    /// A session that leaves the measuring itself alone.
    fn day_session(&mut self) {
        let door = 1 + self.rng.below(2);
        if !self.model.sessions[door as usize - 1].open {
            self.say(Command::Begin { door });
        }
        for _ in 0..self.rng.below(4) {
            let setting = self.rng.pick(&[2, 3, 14, 15, 16, 17, 18, 19, 20, 21]);
            self.read_or_write(door, setting);
        }
        match self.rng.below(10) {
            0 => {}
            1 => self.say(Command::Abandon { door }),
            _ => self.say(Command::Commit { door }),
        }
    }

    /// With these settings the factor is p, so that a cycle's amount can be
    /// chosen to the last ten hundred-thousandths. A K not computed then makes a
    /// cycle disturbed and changes nothing else.
    fn plain_factor(&mut self, code: i64) {
        let door = 1 + self.rng.below(2);
        self.put_in_force(
            door,
            &[
                (1, Value::Whole(code)),
                (2, Value::Whole(100_000)),
                (3, Value::Whole(27_315)),
                (4, Value::Whole(1)),
                (5, Value::Whole(0)),
                (6, Value::Whole(1)),
                (7, Value::Whole(lowest(7))),
                (8, Value::Whole(highest(8))),
                (15, Value::Whole(0)),
                (16, Value::Whole(10_000)),
            ],
        );
    }

    /// Puts some choices and weights in force.
    fn turn_outputs_on(&mut self) {
        let lock = 1 + self.rng.below(2);
        self.open_lock(lock);
        let mut values = Vec::new();
        for output in 0..OUTPUTS {
            if self.rng.percent(80) {
                values.push((22 + output, Value::Whole(self.rng.between(1, highest(22)))));
                values.push((26 + output, Value::Whole(self.weight())));
            }
        }
        let door = 1 + self.rng.below(2);
        self.put_in_force(door, &values);
    }

    /// Weights at which any larger cycle fills a buffer. A total gains in every
    /// cycle, so that mostly all four fill together.
    fn small_weights(&mut self) {
        let totals = self.rng.percent(80);
        let mut values = Vec::new();
        for output in 0..OUTPUTS {
            let any = highest(22);
            let choice = if totals { self.rng.pick(&[3, 6]) } else { self.rng.between(0, any) };
            values.push((22 + output, Value::Whole(choice)));
            values.push((26 + output, Value::Whole(self.rng.pick(&[1, 1, 1, 2, 3, 10]))));
        }
        let door = 1 + self.rng.below(2);
        self.put_in_force(door, &values);
    }

    /// Cycles of 2^32 litres at base conditions, or a few more: 512 pulses of
    /// 100,000 litres at a factor of 83.88608. At a litre a pulse a lost counter
    /// comes round to where it stood.
    fn full_turn(&mut self) {
        self.plain_factor(4);
        self.small_weights();
        for _ in 0..3 {
            let more = self.rng.below(3);
            self.pressure_cycle(512, |_| Some(8_388_608 + more));
            self.say(Command::Outputs);
            self.say(Command::Log { index: 0 });
            if self.rng.percent(50) {
                self.tick();
            }
        }
    }

    /// A session over choices and weights: new ones, and those in force once
    /// more. Cycles and ticks come in between.
    fn output_session(&mut self) {
        let door = 1 + self.rng.below(2);
        if !self.model.sessions[door as usize - 1].open {
            self.say(Command::Begin { door });
        }
        for _ in 0..1 + self.rng.below(3) {
            let setting = 22 + self.rng.below(2 * OUTPUTS as u64) as usize;
            if self.rng.percent(15) {
                self.say(Command::Read { door, setting: setting as u64 });
            }
            let value = self.output_value(setting);
            self.say(Command::Write { door, setting: setting as u64, value });
            match self.rng.below(12) {
                0 => self.tick(),
                1 => self.account_cycle(),
                2 => self.say(Command::Outputs),
                _ => {}
            }
        }
        match self.rng.below(20) {
            0 => {}
            1 => self.say(Command::Abandon { door }),
            _ => self.say(Command::Commit { door }),
        }
        if self.rng.percent(50) {
            self.say(Command::Outputs);
        }
    }

    /// A cycle that brings an output's account to its weight or beside it, or
    /// a few weights further.
    fn account_cycle(&mut self) {
        let output = self.rng.below(OUTPUTS as u64) as usize;
        let weight = self.model.weight(output);
        let weights = if self.rng.percent(60) { 1 } else { 1 + self.rng.below(12) };
        let needed = weights * weight - self.model.outputs[output].account;
        // No cycle's gain ends in another digit than 0.
        let gain = match self.rng.below(10) {
            0..=4 => needed,
            5..=7 => needed.saturating_sub(10),
            8 => needed + 10,
            _ => self.rng.below(needed + 1),
        };
        self.cycle_that_gains(output, gain);
    }

    /// A cycle that fills what is left of a buffer, or misses that by a pulse.
    /// Where that is too much for one cycle, a large one.
    fn fill_a_buffer(&mut self) {
        let output = self.rng.below(OUTPUTS as u64) as usize;
        if self.rng.percent(50) {
            self.tick();
        }
        let Output { account, waiting, .. } = self.model.outputs[output];
        let room = BUFFER - waiting;
        let pulses = match self.rng.below(6) {
            0 => room.saturating_sub(1),
            1 => room + 1,
            _ => room,
        };
        let weight = self.model.weight(output);
        self.cycle_that_gains(output, (pulses * weight).saturating_sub(account));
        if self.rng.percent(50) {
            self.say(Command::Outputs);
        }
    }

    /// A cycle in which an output's counter gains this much, or as little more
    /// as there can be, where the settings are those of `plain_factor` and one
    /// cycle can bring it.
    fn cycle_that_gains(&mut self, output: usize, gain: u64) {
        let choice = self.model.choice(output);
        let disturbed = match choice {
            OFF | 3 | 6 => self.rng.percent(40),
            2 | 5 => !self.rng.one_in(12),
            _ => self.rng.one_in(12),
        };
        let pulse = PULSE[self.whole_in_force(1) as usize];
        let pulses = gain.div_ceil(pulse);
        let (least, most) = (lowest(7) as u64, highest(8) as u64);
        let (n, p) = if choice <= 3 {
            (pulses, self.rng.between(lowest(7), highest(8)) as u64)
        } else {
            // What is called pulses here is n times the factor.
            let n = pulses.div_ceil(most).max(1);
            (n, pulses.div_ceil(n).max(least))
        };
        let time = self.model.time + self.rng.below(100);
        self.say(Command::Cycle(Cycle {
            time: time.min(TIME_LIMIT - 1),
            n: n.min(N_LIMIT),
            raw: None,
            p: Some(p.min(most)),
            k: (!disturbed).then_some(10_000),
        }));
    }

    fn tick(&mut self) {
        let waiting = self.rng.pick(&self.model.outputs).waiting;
        let named = match self.rng.below(20) {
            0 => 0,
            1 | 2 => 1,
            3..=5 => self.rng.below(12),
            6 => TICK_LIMIT - 1,
            7 | 8 => TICK_LIMIT,
            9 => TICK_LIMIT + 1,
            10 => self.rng.pick(&[602, 1_000, 65_535, 65_536, 1 << 32, (1 << 32) + 5, u64::MAX]),
            11..=13 => waiting.min(TICK_LIMIT),
            14 => (waiting + 1).min(TICK_LIMIT),
            15 => waiting.saturating_sub(1).min(TICK_LIMIT),
            // Tens, as the cycles bring them.
            16 => 10 * self.rng.below(61),
            _ => self.rng.below(TICK_LIMIT + 1),
        };
        self.say(Command::Tick { named });
    }

    /// A readout: mostly into a buffer that just holds the message or just
    /// misses it, now and then of a length that is not lent.
    fn readout(&mut self) {
        let (message, most) = (MESSAGE_LENGTH as u64, MOST_LENT as u64);
        let enough = message + self.rng.below(most - message + 1);
        let length = match self.rng.below(40) {
            0 => 0,
            1 => 1,
            2..=4 => message - 1,
            5..=14 => message,
            15..=17 => message + 1,
            18 => most - 1,
            19..=23 => most,
            24 | 25 => most + 1,
            // Good when only its lower bits are looked at.
            26 => enough + self.rng.pick(&[1 << 8, 1 << 16, 1 << 32, 1 << 32, 1 << 63]),
            27 => self.rng.pick(&[255, 256, 1_000, 65_535, 1 << 32, u64::MAX]),
            28..=31 => self.rng.below(message),
            _ => enough,
        };
        self.readout_into(length);
    }

    /// A readout that is done.
    fn good_readout(&mut self) {
        let lengths = [MESSAGE_LENGTH, MESSAGE_LENGTH, MESSAGE_LENGTH + 1, MOST_LENT];
        let length = self.rng.pick(&lengths);
        self.say(Command::Readout { length });
    }

    /// Every length that is lent, and one more.
    fn every_length(&mut self) {
        for length in 0..=MOST_LENT as u64 + 1 {
            self.readout_into(length);
        }
    }

    /// A readout into any length. One that is not lent makes no command.
    fn readout_into(&mut self, length: u64) {
        if length <= MOST_LENT as u64 {
            self.say(Command::Readout { length: length as usize });
        } else {
            self.push(format!("readout {length}").into_bytes());
        }
    }

    /// Begins afresh at a door and puts values in force there, if the locks
    /// that stand open allow it.
    fn put_in_force(&mut self, door: u64, values: &[(usize, Value)]) {
        if self.model.sessions[door as usize - 1].open {
            self.say(Command::Abandon { door });
        }
        self.say(Command::Begin { door });
        for &(setting, value) in values {
            self.say(Command::Write { door, setting: setting as u64, value });
        }
        self.say(Command::Commit { door });
    }

    fn back_to_factory(&mut self, door: u64, settings: &[usize]) {
        let factory: Vec<(usize, Value)> =
            settings.iter().map(|setting| (*setting, PAGE.settings[setting - 1].factory)).collect();
        self.put_in_force(door, &factory);
    }

    fn factory_coefficients(&mut self) {
        self.open_lock(1);
        self.back_to_factory(1, &[9, 10, 11, 12, 13]);
    }

    /// Opens the lock if it is shut, and shuts it if it is open: one line.
    fn turn_lock(&mut self, lock: u64) {
        if self.model.locks[lock as usize - 1] {
            self.say(Command::Shut { lock });
        } else {
            self.open_lock(lock);
        }
    }

    fn open_lock(&mut self, lock: u64) {
        let code = self.code_of(lock);
        self.say(Command::Open { lock, code });
    }

    /// All that can be seen of the device.
    fn dump(&mut self) {
        self.say(Command::Report);
        self.say(Command::Outputs);
        self.good_readout();
        self.whole_archive();
        for index in 0..=LOG_LINES as u64 {
            self.say(Command::Log { index });
        }
        self.ask_for_every_code();
        for index in 0..=AUDIT_LINES as u64 {
            self.say(Command::Audit { index });
        }
        self.read_all();
    }

    /// Every line of the archive, and one that it cannot hold.
    fn whole_archive(&mut self) {
        for index in 0..=ARCHIVE_LINES as u64 {
            self.say(Command::Archive { index });
        }
    }

    /// Most of what can be seen, in a few lines.
    fn glance(&mut self) {
        self.say(Command::Report);
        self.say(Command::Outputs);
        self.readout();
        for _ in 0..6 {
            self.look();
        }
        for _ in 0..2 {
            self.ask();
        }
        self.read_all();
    }

    fn read_all(&mut self) {
        let door = 1 + self.rng.below(2);
        if !self.model.sessions[door as usize - 1].open {
            self.say(Command::Begin { door });
        }
        for setting in 1..=SETTINGS as u64 {
            self.say(Command::Read { door, setting });
        }
        self.say(Command::Abandon { door });
    }

    // ---- messages for the reader ----

    /// A line for the reader: a good message, a spoilt one, or no command at all.
    fn parse(&mut self) {
        let line = if self.rng.percent(12) { self.malformed_parse() } else { self.parse_line() };
        self.push(line);
    }

    fn parse_line(&mut self) -> Vec<u8> {
        let message = self.any_message();
        let mut line = Vec::new();
        write_command(&Command::Parse { message }, &mut line);
        line
    }

    /// What a readout of this moment would write goes to the reader.
    fn read_back(&mut self) {
        let message = self.own_message();
        self.say(Command::Parse { message });
    }

    fn own_message(&self) -> Vec<u8> {
        message(&self.model.counters, &self.model.totals)
    }

    /// A good message, or one that is spoilt. A check character that fits may
    /// stand at the end of anything, and so may any other.
    fn any_message(&mut self) -> Vec<u8> {
        let good = self.good_message();
        if self.rng.percent(25) {
            return good;
        }
        let spoilt = self.spoilt(&good);
        match self.rng.below(6) {
            0 | 1 => mended(&spoilt),
            2 => self.with_any_check(&spoilt),
            _ => spoilt,
        }
    }

    fn good_message(&mut self) -> Vec<u8> {
        if self.rng.percent(40) {
            return self.own_message();
        }
        let values = self.values();
        message_of(&values)
    }

    /// Six values, mostly such as no device would have together.
    fn values(&mut self) -> Values {
        let mut values = [0; LINES];
        if self.rng.one_in(12) {
            return values;
        }
        for value in &mut values {
            *value = self.litres();
        }
        if self.rng.one_in(3) {
            for total in [2, 5] {
                values[total] = (values[total - 2] + values[total - 1]) % VM_MODULUS;
            }
        }
        values
    }

    /// A value of a message, of any number of digits.
    fn litres(&mut self) -> u64 {
        if self.rng.percent(40) {
            self.rng.pick(&[0, 1, 999, 1_000, VM_MODULUS - 1])
        } else {
            let digits = 1 + self.rng.below(12) as u32;
            self.rng.below(10_u64.pow(digits))
        }
    }

    /// A good message with one thing wrong.
    fn spoilt(&mut self, good: &[u8]) -> Vec<u8> {
        match self.rng.below(20) {
            0..=7 => self.spoilt_line(good),
            8 | 9 => self.with_any_check(good),
            10 | 11 => {
                let place = self.place(good.len());
                with_byte(good, place, self.rng.any() as u8)
            }
            // Still of the form.
            12 => {
                let place = self.rng.pick(&digit_places());
                with_byte(good, place, b'0' + self.rng.below(10) as u8)
            }
            13 => without_byte(good, self.place(good.len())),
            14 => with_byte_doubled(good, self.place(good.len())),
            15 => of_length(good, 1 + self.place(good.len())),
            16 => of_length(good, good.len() - 1),
            17 => {
                let any = self.rng.any() as u8;
                let after = self.rng.pick(&[0, b'\r', b'\n', good[good.len() - 1], any]);
                [good, &[after]].concat()
            }
            18 => {
                let longer = good.len() + 1 + self.place(LONGEST_MESSAGE - good.len());
                let length = self.rng.pick(&[longer, LONGEST_MESSAGE]);
                of_length(good, length)
            }
            _ => self.random_message(),
        }
    }

    /// A good message with one thing wrong that is more than a slip of a byte.
    fn spoilt_line(&mut self, good: &[u8]) -> Vec<u8> {
        let line = self.place(LINES);
        match self.rng.below(7) {
            0 => exchanged(good, line, (line + 1 + self.place(LINES - 1)) % LINES),
            1 => left_out(good, line),
            2 => doubled(good, line),
            3 => with_byte(good, self.rng.pick(&unit_places()), b'M'),
            4 => end_reversed(good, self.rng.pick(&end_places())),
            5 => with_byte(good, self.rng.pick(&digit_places()), b' '),
            _ => {
                let to = (POINT + 1 + self.place(VALUE_LENGTH - 1)) % VALUE_LENGTH;
                point_moved(good, line, POINT, to)
            }
        }
    }

    /// Random bytes, or random ones of those that a message is made of.
    fn random_message(&mut self) -> Vec<u8> {
        let any = 1 + self.place(LONGEST_MESSAGE);
        let length = self.rng.pick(&[1, 1, 2, 155, 156, 156, 156, 157, any, any]);
        let mut bytes = Vec::new();
        let plain = self.rng.percent(40);
        for _ in 0..length {
            let byte = self.rng.any() as u8;
            let known = self.rng.pick(b"0123456789:.()*m!\r\n\x02\x03");
            bytes.push(if plain { known } else { byte });
        }
        if self.rng.percent(40) {
            bytes[0] = self.rng.pick(&[STX, ETX]);
        }
        bytes
    }

    /// The same with any other byte at its end, often one bit away.
    fn with_any_check(&mut self, message: &[u8]) -> Vec<u8> {
        let last = message.len() - 1;
        let other = if self.rng.percent(50) {
            1 << self.rng.below(8)
        } else {
            1 + self.rng.below(255) as u8
        };
        with_byte(message, last, message[last] ^ other)
    }

    /// A place among so many.
    fn place(&mut self, count: usize) -> usize {
        self.rng.below(count as u64) as usize
    }

    /// A line of the reader that is no command, or the longest that is one.
    fn malformed_parse(&mut self) -> Vec<u8> {
        let mut line = self.parse_line();
        let digit = PARSE.len() + self.place(line.len() - PARSE.len());
        match self.rng.below(11) {
            0 => line = b"parse".to_vec(),
            1 => line = PARSE.to_vec(),
            // An odd number of digits.
            2 => line.truncate(line.len() - 1),
            3 => line.push(self.rng.pick(b"0af")),
            4 => line[digit] = self.rng.pick(b"ABCDEF"),
            5 => line[PARSE.len()..].make_ascii_uppercase(),
            6 => line[digit] = self.byte(),
            7 => {
                let second = self.rng.pick(&[" 02", " 00", " 2f", " 0", " "]);
                line.extend_from_slice(second.as_bytes());
            }
            8 => line.insert(digit, b' '),
            _ => line = self.longest_parse(),
        }
        line
    }

    /// Around the longest line there is. Two bytes too many are the fewest that
    /// leave an even number of digits.
    fn longest_parse(&mut self) -> Vec<u8> {
        let good = self.good_message();
        let message = of_length(&good, LONGEST_MESSAGE + 1);
        let mut line = Vec::new();
        write_command(&Command::Parse { message }, &mut line);
        line.truncate(LONGEST_LINE + self.place(3));
        line
    }

    /// A question with one thing wrong, so that it is mostly no command.
    fn malformed_last(&mut self) -> Vec<u8> {
        let code = self.asked_code();
        let line = match self.rng.below(12) {
            0 => "last".to_string(),
            1 => "last ".to_string(),
            2 => format!("last  {code}"),
            3 => format!("last {code} {}", self.rng.below(60)),
            4 => format!("last -{code}"),
            5 => format!("last +{code}"),
            // Past 64 bits, and the code itself in the lower ones.
            6 => format!("last {}", (1_u128 << 64) + u128::from(code)),
            7 => format!("last {code}{}", "0".repeat(20)),
            8 => {
                let word = self.rng.pick(&["x", "-", "p", "1.1", "0x0b", "1e1", "11,", "#"]);
                format!("last {word}")
            }
            9 => format!("last {code} "),
            10 => format!("last\t{code}"),
            _ => format!("{} {code}", self.rng.pick(&["Last", "LAST", "lasts", "las", "last11"])),
        };
        line.into_bytes()
    }

    // ---- arguments ----

    fn good_cycle(&mut self) -> Cycle {
        let p = self.rng.between(self.whole_in_force(7), self.whole_in_force(8)) as u64;
        let t = self.rng.between(self.whole_in_force(9), self.whole_in_force(10));
        Cycle {
            time: self.near_time(),
            n: self.pulses(),
            raw: Some(self.raw_near(t)),
            p: Some(p),
            k: Some(self.rng.between(5_000, 20_000) as u64),
        }
    }

    /// A cycle with readings at and beside their limits, and failures.
    fn edge_cycle(&mut self) -> Cycle {
        let p_min = self.whole_in_force(7) as u64;
        let p_max = self.whole_in_force(8) as u64;
        let mut cycle = self.good_cycle();
        if self.rng.percent(60) {
            cycle.p = match self.rng.below(10) {
                0 | 1 => None,
                2 => Some(p_min),
                3 => Some(p_min - 1),
                4 => Some(p_max),
                5 => Some(p_max + 1),
                6 => {
                    let (least, most) = (lowest(7) as u64, highest(8) as u64);
                    let odd = [0, least - 1, least, most + 1, u64::MAX, (1 << 32) + p_min];
                    Some(self.rng.pick(&odd))
                }
                _ => Some(self.rng.between(lowest(7), highest(8)) as u64),
            };
        }
        if self.rng.percent(60) {
            cycle.raw = if self.rng.one_in(6) { None } else { Some(self.raw()) };
        }
        if self.rng.percent(60) {
            cycle.k = match self.rng.below(8) {
                0 | 1 => None,
                2 => Some(5_000),
                3 => Some(4_999),
                4 => Some(20_000),
                5 => Some(20_001),
                6 => Some(self.rng.pick(&[0, 1, 65_536, (1 << 32) + 10_000, u64::MAX])),
                _ => Some(self.rng.between(5_000, 20_000) as u64),
            };
        }
        if self.rng.one_in(60) {
            cycle.n = self.rng.pick(&[601, 1_000, u64::MAX]);
        }
        cycle
    }

    fn pulses(&mut self) -> u64 {
        match self.rng.below(10) {
            0 => 0,
            1 => 1,
            2 | 3 => N_LIMIT,
            _ => self.rng.below(N_LIMIT + 1),
        }
    }

    fn near_time(&mut self) -> u64 {
        let now = self.model.time;
        let month = month_of_time(now) + 1;
        // One draw chooses the edge of a month too. The commands for the
        // measure of speed are drawn through here as well, and a second draw
        // would change all that follow it.
        let time = match self.rng.below(120) {
            0..=29 => now,
            30..=101 => now + self.rng.below(4_000),
            102..=107 => now + self.rng.below(100_000),
            108..=113 => now + self.rng.below(700_000),
            114 | 115 => first_second(month),
            116 => first_second(month) - 1,
            117 => first_midnight(month),
            118 => first_midnight(month) - 1,
            // Somewhere between midnight and six.
            _ => first_midnight(month) + now % SIX_O_CLOCK,
        };
        time.clamp(now, TIME_LIMIT - 1)
    }

    /// The month whose first day comes to its six o'clock next. The first day
    /// of all has one too, although no month begins there.
    fn next_six(&self) -> u32 {
        let now = self.model.time;
        if now < SIX_O_CLOCK {
            0
        } else {
            month_of_time(now) + 1
        }
    }

    /// A time at which a month may be thought to begin: six or midnight of its
    /// first day, the seconds beside them, and the hours in between.
    fn edge(&mut self, month: u32) -> u64 {
        let midnight = first_midnight(month);
        let six = midnight + SIX_O_CLOCK;
        match self.rng.below(13) {
            0..=2 => six,
            3..=5 => six - 1,
            6 => six + 1,
            7 | 8 => midnight,
            9 | 10 => midnight.saturating_sub(1),
            _ => midnight + self.rng.below(SIX_O_CLOCK),
        }
    }

    fn any_time(&mut self) -> u64 {
        let now = self.model.time;
        match self.rng.below(40) {
            0 | 1 => now.saturating_sub(1),
            2 => self.rng.below(now + 1),
            3 => 0,
            4 => self.rng.pick(&[
                TIME_LIMIT,
                TIME_LIMIT + 1,
                u64::from(u32::MAX),
                (1 << 32) + now,
                1 << 63,
                u64::MAX,
            ]),
            _ => self.near_time(),
        }
    }

    fn door(&mut self) -> u64 {
        match self.rng.below(30) {
            0 => 0,
            1 => self.rng.pick(&[3, 4, 255, 256, 257, 1 << 32 | 1, u64::MAX]),
            _ => 1 + self.rng.below(2),
        }
    }

    fn setting(&mut self) -> u64 {
        match self.rng.below(30) {
            0 => 0,
            1 => self.rng.pick(&[30, 31, 255, 257, 1 << 32 | 5, u64::MAX]),
            _ => 1 + self.rng.below(SETTINGS as u64),
        }
    }

    fn lock(&mut self) -> u64 {
        match self.rng.below(20) {
            0 => 0,
            1 => self.rng.pick(&[4, 5, 256, 258, 1 << 32 | 2, u64::MAX]),
            _ => 1 + self.rng.below(3),
        }
    }

    fn code(&mut self) -> u32 {
        match self.rng.below(4) {
            0 => 0,
            1 => self.rng.pick(&[1, 9_999, 1 << 31, u32::MAX]),
            _ => self.rng.any() as u32,
        }
    }

    /// The right code; any for lock 1, which ignores it.
    fn code_of(&mut self, lock: u64) -> u32 {
        match lock {
            2 => self.model.codes[0],
            3 => self.model.codes[1],
            _ => self.rng.any() as u32,
        }
    }

    /// A place in a book: held, at the end of what is held, or beyond.
    fn index(&mut self, held: usize, size: usize) -> u64 {
        let (held, size) = (held as u64, size as u64);
        match self.rng.below(20) {
            0..=3 => 0,
            4..=12 => self.rng.below(held.max(1)),
            13 | 14 => held.max(1) - 1,
            15 => held,
            16 => size - 1,
            17 => size,
            18 => self.rng.below(size),
            _ => self.rng.pick(&[held + 1, size + 1, 256, 1 << 32, 1 << 63, u64::MAX]),
        }
    }

    /// A code to ask for: mostly one that a line can have. Of these the ones are
    /// drawn more often that lead far into the book, or that no line has any more.
    fn asked_code(&mut self) -> u64 {
        let any = u64::from(self.rng.pick(&CODES));
        let held: Vec<u64> = self.model.log.newest_first().map(|line| line.code.into()).collect();
        let (Some(newest), Some(oldest)) = (held.first(), held.last()) else {
            return self.rng.pick(&[any, any, any, 0, 1, u64::MAX]);
        };
        match self.rng.below(20) {
            0 | 1 => *newest,
            2 | 3 => *oldest,
            4..=6 => self.rng.pick(&held),
            7..=9 => self.deepest_code().unwrap_or(any),
            10..=12 => self.code_of_no_line().unwrap_or(any),
            // The code of a line when only its lower bits are looked at.
            13 | 14 => {
                let more = self.rng.pick(&[1 << 8, 1 << 16, 1 << 32, 1 << 32, 1 << 63]);
                self.rng.pick(&held) + more
            }
            15 | 16 => self.rng.pick(&NO_CODES),
            _ => any,
        }
    }

    /// The code whose newest line stands furthest back.
    fn deepest_code(&self) -> Option<u64> {
        let held = CODES.map(u64::from).into_iter().filter(|code| self.place_of(*code).is_some());
        held.max_by_key(|code| self.place_of(*code))
    }

    /// A code that a line can have and that none has, be it lost or not.
    fn code_of_no_line(&mut self) -> Option<u64> {
        let is_absent = |code: &u64| self.place_of(*code).is_none();
        let absent: Vec<u64> = CODES.map(u64::from).into_iter().filter(is_absent).collect();
        (!absent.is_empty()).then(|| self.rng.pick(&absent))
    }

    /// The place of the newest line with a code.
    fn place_of(&self, code: u64) -> Option<usize> {
        self.model.log.newest_first().position(|line| u64::from(line.code) == code)
    }

    fn whole_in_force(&self, setting: usize) -> i64 {
        match self.model.in_force(setting) {
            Value::Whole(value) => value,
            Value::Coefficient(_) => 0,
        }
    }

    fn staged_whole(&self, door: u64, setting: usize) -> i64 {
        self.model.sessions[door as usize - 1].cells[setting - 1] as i64
    }

    /// Whether a counter or a total is within two large cycles of a rollover,
    /// at a factor of about 1. They are seen in a report and a readout.
    fn near_rollover(&self) -> bool {
        let (counters, totals) = (&self.model.counters, &self.model.totals);
        let step = 120_000_000;
        let near = |sum: u64, step: u64, modulus: u64| sum < step || sum + step >= modulus;
        near(counters.vm, step, VM_MODULUS)
            || near(counters.vm_disturbed, step, VM_MODULUS)
            || near(totals.vm, step, VM_MODULUS)
            || near(totals.vb, UNITS_A_LITRE * step, VB_MODULUS)
    }

    /// Whether the largest amount there is would roll Vb, VbD or VbT over, or
    /// has just done so.
    fn near_base_rollover(&self) -> bool {
        let (counters, totals) = (&self.model.counters, &self.model.totals);
        // A little more than that amount.
        let step = VB_MODULUS / 40;
        let before = |sum: u64| sum + step >= VB_MODULUS;
        before(counters.vb)
            || before(counters.vb_disturbed)
            || before(totals.vb)
            || totals.vb < step
    }

    /// A value that the setting takes.
    fn good_value(&mut self, setting: usize) -> Value {
        let row = &PAGE.settings[setting - 1];
        match row.range {
            Range::Whole { low, high } => match self.rng.below(10) {
                0 => Value::Whole(low),
                1 => Value::Whole(high),
                2 => {
                    let near = self.whole_in_force(setting) + self.rng.between(-1, 1);
                    Value::Whole(near.clamp(low, high))
                }
                3 | 4 => row.factory,
                _ => Value::Whole(self.rng.between(low, high)),
            },
            Range::Finite => {
                let set = self.coefficient_set();
                Value::Coefficient(set[setting - 1 - EQ1])
            }
        }
    }

    /// A value that the setting may refuse.
    fn any_value(&mut self, setting: usize) -> Value {
        // Good when only its lower half is looked at.
        let half_good = (1 << 32) + self.whole_in_force(setting);
        let odd_whole = |rng: &mut Rng| {
            let shift = rng.below(64);
            let wide = rng.any() as i64 >> shift;
            let ends = [i64::MIN, i64::MAX, -1, 0, 1, half_good, half_good, wide, wide, wide];
            Value::Whole(rng.pick(&ends))
        };
        let odd_float = |rng: &mut Rng| {
            let random = f64::from_bits(rng.any());
            let payload = f64::from_bits(0x7ff0_0000_0000_0000 | rng.any() >> 12);
            let negative = f64::from_bits(0xfff0_0000_0000_0000 | rng.any() >> 12);
            let floats = [
                f64::INFINITY,
                f64::NEG_INFINITY,
                f64::NAN,
                payload,
                negative,
                f64::MAX,
                f64::MIN,
                random,
                f64::from_bits(0x7ff0_0000_0000_0001),
            ];
            Value::Coefficient(rng.pick(&floats))
        };
        match (PAGE.settings[setting - 1].range, self.rng.below(10)) {
            (Range::Whole { low, .. }, 0..=2) => Value::Whole(low - 1),
            (Range::Whole { high, .. }, 3..=5) => Value::Whole(high + 1),
            (Range::Whole { .. }, 6 | 7) => odd_whole(self.rng),
            (Range::Whole { low, .. }, 8) => Value::Coefficient(low as f64),
            (Range::Finite, 0..=6) => odd_float(self.rng),
            (Range::Finite, 7 | 8) => odd_whole(self.rng),
            _ if self.rng.percent(50) => odd_float(self.rng),
            _ => odd_whole(self.rng),
        }
    }

    /// A value for a choice or a weight.
    fn output_value(&mut self, setting: usize) -> Value {
        let is_choice = setting - 1 < FIRST_WEIGHT;
        match self.rng.below(20) {
            0..=6 => self.model.in_force(setting),
            7 => self.good_value(setting),
            8 => self.any_value(setting),
            9 | 10 if is_choice => Value::Whole(OFF as i64),
            _ if is_choice => Value::Whole(self.rng.between(1, highest(setting))),
            _ => Value::Whole(self.weight()),
        }
    }

    /// A weight that a cycle or two can fill; now and then any.
    fn weight(&mut self) -> i64 {
        match self.rng.below(12) {
            0 | 1 => 1,
            2..=4 => self.rng.pick(&[10, 100, 1_000, 10_000, 100_000]),
            5..=7 => self.rng.pick(&[11, 21, 101, 1_001, 10_001, 100_001]),
            8 => self.rng.between(1, 20),
            9 | 10 => self.rng.between(1, 1_000),
            _ => self.rng.pick(&[highest(26) - 1, highest(26)]),
        }
    }

    /// Three finite coefficients that lead somewhere near a limit or a half.
    fn coefficient_set(&mut self) -> [f64; 3] {
        let step = |x: f64, up: bool| {
            let bits = x.to_bits();
            f64::from_bits(if up { bits.wrapping_add(1) } else { bits.saturating_sub(1) })
        };
        match self.rng.below(12) {
            // Eq1 alone: x is Eq1 times 100, at a half and beside it.
            0..=3 => {
                let half = self.rng.between(-10_001, 20_000) as f64 + 0.5;
                let eq1 = half / 100.0;
                let up = self.rng.percent(50);
                let near = if self.rng.percent(50) { eq1 } else { step(eq1, up) };
                [if near.is_finite() { near } else { eq1 }, 0.0, 0.0]
            }
            // The ends of the range, and the floats beside them.
            4 => {
                let end = self.rng.pick(&[-100.0, 200.0]);
                let up = self.rng.percent(50);
                [if self.rng.percent(40) { end } else { step(end, up) }, 0.0, 0.0]
            }
            // Zeros of either sign, and the smallest floats.
            5 => {
                let small = [
                    0.0,
                    -0.0,
                    5e-324,
                    -5e-324,
                    f64::MIN_POSITIVE,
                    0.005,
                    -0.005,
                    -0.0025,
                    0.004999999999999999,
                ];
                [self.rng.pick(&small), self.rng.pick(&small), 0.0]
            }
            // Overflow, and infinity less infinity.
            6 => {
                let large = [f64::MAX, f64::MIN, 1e300, -1e300, 1e306, 1e305, -1e306];
                [self.rng.pick(&large), self.rng.pick(&large), self.rng.pick(&large)]
            }
            7 => {
                // Any finite bits at all.
                let mut set = [0.0; 3];
                for x in &mut set {
                    let any = f64::from_bits(self.rng.any());
                    *x = if any.is_finite() { any } else { 1.0 };
                }
                set
            }
            8 | 9 => {
                // A real sensor: a slope and a slight bend, rounded anyhow.
                let eq1 = self.rng.between(-60_000, 60_000) as f64 / 1_000.0;
                let eq2 = self.rng.between(-10_000, 10_000) as f64 / 1_000_000.0;
                let eq3 = self.rng.between(-1_000, 1_000) as f64 / 1e11;
                [eq1, eq2, eq3]
            }
            10 => {
                // Halves through the slope: b counts half hundredths.
                let eq1 = self.rng.between(-100, 100) as f64;
                [eq1, self.rng.pick(&[0.005, -0.005, 0.0025, 0.00125]), 0.0]
            }
            _ => [-40.0, 0.0078125, 0.0],
        }
    }

    /// A slope and a bend with a raw temperature at which all of them together
    /// come to a half, or to the float beside one. Only there does the order
    /// of the six operations show: in a whole number of hundredths a last
    /// digit of the float is lost everywhere else.
    fn half_set(&mut self) -> ([f64; 3], u16) {
        let raw = 1 + self.rng.below(65_535) as u16;
        let b = f64::from(raw);
        let half = self.rng.between(-10_000, 19_999) as f64 + 0.5;
        // Terms of about the size of their sum, so that each has a last digit
        // that counts.
        let mut share = || self.rng.between(-1_500_000, 1_500_000) as f64 / 1e6;
        let eq2 = half / 100.0 * share() / b;
        let eq3 = half / 100.0 * share() / (b * b);
        let eq1 = half / 100.0 - eq2 * b - eq3 * (b * b);
        let mut set = [eq1, eq2, eq3];
        for _ in 0..8 {
            let bits = eq1.to_bits().wrapping_add_signed(self.rng.between(-6, 6));
            let near = f64::from_bits(bits);
            if near.is_finite() {
                set[0] = near;
            }
            if temperature_float(set[0], eq2, eq3, raw) == half {
                break;
            }
        }
        (set, raw)
    }

    /// A raw temperature near every place where something changes.
    fn raw(&mut self) -> u16 {
        match self.rng.below(8) {
            0 => self.rng.pick(&[0, 1, 2, 32_767, 32_768, 65_534, 65_535]),
            1 => self.rng.any() as u16,
            2 | 3 => self.raw_near(self.whole_in_force(9)),
            4 | 5 => self.raw_near(self.whole_in_force(10)),
            _ => {
                let t = self.rng.between(self.whole_in_force(9), self.whole_in_force(10));
                self.raw_near(t)
            }
        }
    }

    /// A raw temperature that gives about t, as far as the line of the first
    /// two coefficients tells.
    fn raw_near(&mut self, t: i64) -> u16 {
        let [eq1, eq2, _] = self.model.coefficients();
        let b = (t as f64 / 100.0 - eq1) / eq2;
        // A cast from a float saturates, and takes a NaN to 0.
        (b as i32).saturating_add(self.rng.between(-1, 1) as i32).clamp(0, 65_535) as u16
    }

    // ---- lines that are not commands ----

    fn remark(&mut self) -> Vec<u8> {
        match self.rng.below(5) {
            0 | 1 => Vec::new(),
            2 => b"#".to_vec(),
            3 => b"# report".to_vec(),
            _ => {
                let mut line = vec![b'#'];
                for _ in 0..self.rng.below(2 * LONGEST_LINE as u64) {
                    line.push(self.byte());
                }
                line
            }
        }
    }

    /// Any byte but the line feed.
    fn byte(&mut self) -> u8 {
        loop {
            let byte = self.rng.any() as u8;
            if byte != b'\n' {
                return byte;
            }
        }
    }

    fn random_line(&mut self) {
        let most = self.rng.pick(&[4, 30, LONGEST_LINE as u64 + 100]);
        let length = self.rng.below(most);
        let line = (0..length).map(|_| self.byte()).collect();
        self.push(line);
    }

    /// Random letters of those that commands are made of.
    fn alphabet_line(&mut self) {
        const WORDS: [&str; 47] = [
            "start",
            "cycle",
            "begin",
            "commit",
            "abandon",
            "read",
            "write",
            "open",
            "shut",
            "clear",
            "tick",
            "report",
            "outputs",
            "readout",
            "archive",
            "log",
            "audit",
            "last",
            "parse",
            "w",
            "c",
            "-",
            "#",
            "?",
            "0",
            "1",
            "2",
            "3",
            "11",
            "21",
            "22",
            "29",
            "30",
            "31",
            "155",
            "156",
            "200",
            "201",
            "600",
            "601",
            "65535",
            "65536",
            "4294967296",
            "7ff0000000000000",
            "3FF0000000000000",
            "18446744073709551615",
            "18446744073709551616",
        ];
        let mut line = Vec::new();
        if self.rng.percent(70) {
            for _ in 0..self.rng.below(8) {
                if !line.is_empty() {
                    line.push(b' ');
                }
                line.extend_from_slice(self.rng.pick(&WORDS).as_bytes());
            }
        } else {
            for _ in 0..self.rng.below(20) {
                line.push(self.rng.pick(b"0123456789abcdefw -#+\t\rloga"));
            }
        }
        self.push(line);
    }

    /// A line longer than any buffer one would think of.
    fn long_line(&mut self) {
        let length = 1_000 + self.rng.below(100_000) as usize;
        let mut line = self.well_formed();
        let filler = self.rng.pick(b" 0x#\0");
        line.resize(length, filler);
        self.push(line);
    }

    fn with_leading_zeros(&mut self, line: Vec<u8>) -> Vec<u8> {
        let mut words: Vec<Vec<u8>> =
            line.split(|byte| *byte == b' ').map(<[u8]>::to_vec).collect();
        let place = self.rng.below(words.len() as u64) as usize;
        let word = &mut words[place];
        // Not into a coefficient: its digits are counted.
        let digits = usize::from(word[0] == b'-');
        if word.len() > digits && word.len() < 16 && word[digits..].iter().all(u8::is_ascii_digit) {
            let zeros = if self.rng.percent(80) {
                1 + self.rng.below(4)
            } else {
                // About as many as the longest line takes, or too many; or any
                // number up to that.
                let room = (LONGEST_LINE - line.len()) as u64;
                if self.rng.percent(50) {
                    room - 1 + self.rng.below(3)
                } else {
                    self.rng.below(room)
                }
            };
            for _ in 0..zeros {
                word.insert(digits, b'0');
            }
        } else if word == b"0" {
            word.insert(0, b'-');
        }
        words.join(&b' ')
    }

    /// A good command's line, to be spoiled.
    fn well_formed(&mut self) -> Vec<u8> {
        let time = self.model.time;
        let command = match self.rng.below(19) {
            0 => Command::Start { time, code2: self.code(), code3: self.code() },
            1..=3 => Command::Cycle(self.edge_cycle()),
            4 => Command::Begin { door: self.door() },
            5 => Command::Commit { door: self.door() },
            6 => Command::Read { door: self.door(), setting: self.setting() },
            7 | 8 => {
                let setting = 1 + self.rng.below(SETTINGS as u64);
                let value = self.any_value(setting as usize);
                Command::Write { door: self.door(), setting, value }
            }
            9 => Command::Open { lock: self.lock(), code: self.code() },
            10 => Command::Shut { lock: self.lock() },
            11 => self.rng.pick(&[Command::Clear, Command::Report, Command::Abandon { door: 1 }]),
            12 => Command::Archive { index: self.rng.below(16) },
            13 => Command::Tick { named: self.rng.below(TICK_LIMIT + 2) },
            14 => Command::Outputs,
            15 => Command::Readout { length: self.rng.below(MOST_LENT as u64 + 2) as usize },
            16 => Command::Parse { message: self.any_message() },
            17 => Command::Last { code: self.asked_code() },
            _ => self.rng.pick(&[Command::Log { index: 0 }, Command::Audit { index: 3 }]),
        };
        let mut line = Vec::new();
        write_command(&command, &mut line);
        line
    }

    /// A good line with one thing wrong. Some of these are good lines still;
    /// the reader decides.
    fn malformed_line(&mut self) {
        let line = self.well_formed();
        let mut words: Vec<Vec<u8>> =
            line.split(|byte| *byte == b' ').map(<[u8]>::to_vec).collect();
        let count = words.len() as u64;
        let place = self.rng.below(count) as usize;
        let last = words.len() - 1;
        let mut line = match self.rng.below(26) {
            0 => {
                words.remove(place);
                words.join(&b' ')
            }
            1 => {
                let extra = self.rng.pick(&["0", "1", "-", "w", "report"]);
                words.insert(place + 1, extra.as_bytes().to_vec());
                words.join(&b' ')
            }
            2 => {
                words.insert(place, Vec::new());
                words.join(&b' ')
            }
            3 => [line, b" ".to_vec()].concat(),
            4 => [b" ".to_vec(), line].concat(),
            5 => [line, b"\r".to_vec()].concat(),
            6 => line.to_ascii_uppercase(),
            7 => {
                let big = self.rng.pick(&[
                    "18446744073709551616",
                    "18446744073709551620",
                    "28446744073709551615",
                    "99999999999999999999",
                    "184467440737095516150",
                    "340282366920938463463374607431768211456",
                ]);
                words[last] = big.as_bytes().to_vec();
                words.join(&b' ')
            }
            8 => {
                words[last].insert(0, b'+');
                words.join(&b' ')
            }
            9 => {
                words[last].insert(0, b'-');
                words.join(&b' ')
            }
            10 => {
                words[place] =
                    self.rng.pick(&["-", "--", "-1", "+1", "0x1", "1.0", "1e3", "1_000"]).into();
                words.join(&b' ')
            }
            11 => {
                words[0] = self
                    .rng
                    .pick(&[
                        "Start", "cycles", "cycl", "beginn", "?", "help", "0", "ticks", "output",
                        "readouts", "parses", "Parse", "lasts", "Last",
                    ])
                    .into();
                words.join(&b' ')
            }
            12 => {
                let separator = self.rng.pick(b"\t\r\x0b\0,;");
                words.join(&separator)
            }
            13 => {
                let at = self.rng.below(line.len() as u64) as usize;
                let mut line = line;
                line[at] = self.byte();
                line
            }
            14 => {
                let at = self.rng.below(line.len() as u64 + 1) as usize;
                let mut line = line;
                let byte = self.byte();
                line.insert(at, byte);
                line
            }
            15 => {
                let mut line = line;
                line.truncate(self.rng.below(line.len() as u64) as usize);
                line
            }
            16 => {
                let hex = self.rng.pick(&[
                    "3ff000000000000",
                    "3ff00000000000000",
                    "3FF0000000000000",
                    "0x3ff00000000000",
                    "3ff000000000000g",
                    "-3ff000000000000",
                    "3ff00000 0000000",
                    "",
                ]);
                format!("write {} 11 c {hex}", self.door()).into()
            }
            17 => {
                let value = self.rng.pick(&[
                    "9223372036854775808",
                    "-9223372036854775809",
                    "-9223372036854775808",
                    "9223372036854775807",
                    "-18446744073709551616",
                    "18446744073709551615",
                    "--1",
                    "-",
                    "+0",
                    "-0",
                    "- 1",
                    "1-",
                ]);
                format!("write {} 21 w {value}", self.door()).into()
            }
            18 => {
                let raw = self.rng.pick(&["65536", "65535", "-1", "100000", "00065535", "--"]);
                format!("cycle {} 0 {raw} - -", self.model.time).into()
            }
            19 => {
                let code =
                    self.rng.pick(&["4294967296", "4294967295", "-1", "-", "", "8589934592"]);
                format!("open 1 {code}").into()
            }
            20 => {
                let kind = self.rng.pick(&["W", "C", "x", "wc", "-", "0", "w w"]);
                format!("write 1 16 {kind} 10000").into()
            }
            21 => vec![b' '; 1 + self.rng.below(LONGEST_LINE as u64 + 100) as usize],
            22 => {
                // Around the longest line there is.
                let mut line = b"report".to_vec();
                let length = LONGEST_LINE - 1 + self.rng.below(3) as usize;
                if self.rng.percent(50) {
                    line = self.rng.pick(&["log ", "last "]).into();
                    line.resize(length, b'0');
                } else {
                    line.resize(length, b' ');
                }
                line
            }
            23 => self.malformed_parse(),
            24 => self.malformed_last(),
            _ => {
                // Two commands on one line.
                let second = self.well_formed();
                [line, b" ".to_vec(), second].concat()
            }
        };
        line.retain(|byte| *byte != b'\n');
        self.push(line);
    }
}
