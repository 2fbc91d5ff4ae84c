//! What the scripts have reached: each command with each answer, and the
//! events that the rules are about.

use std::fmt::Write;

use crate::calendar::{first_day, month_of_day, SECONDS_A_DAY, SIX_O_CLOCK};
use crate::command::{obey, Command, Done, MOST_LENT};
use crate::device::{
    factor, measured_temperature, temperature_float, Cells, Counters, Device, Refusal, Totals,
    Value, ALARM_K, ALARM_P, ALARM_T, ARCHIVE_LINES, AUDIT_LINES, FIRST_CHOICE, FIRST_WEIGHT,
    KELVIN, K_F, LOG_LINES, MD_K, MD_P, MD_T, OUTPUT_ROWS, PB, SETTINGS, TB, T_F, UNITS_A_LITRE,
    VB_MODULUS, VM_MODULUS,
};
use crate::last::{Last, CODES};
use crate::lines::{read_line, read_words, unsigned, write_answer, Line, LONGEST_LINE};
use crate::output::{Output, BUFFER, CHOICES, LOST_MODULUS, OFF, OUTPUTS, TICK_LIMIT};
use crate::reader::parse;
use crate::readout::{litres, Values, MESSAGE_LENGTH};
use crate::script::Script;
use crate::spoilt;
use crate::table::{Range, Setting, LOCKS, LOCK_SETS, PAGE};

/// The commands, with the answers that can be reached through lines. Refusals
/// 1 and 14 are not among them: a device that is only given commands stays
/// whole, and within the ranges of the settings no cycle's amount is a tenth
/// of 10^17.
const COMMANDS: [(&str, &[u8]); 19] = [
    ("start", &[0, 6]),
    ("cycle", &[0, 5, 6, 7]),
    ("begin", &[0, 2, 3]),
    ("read", &[0, 3, 4]),
    ("write", &[0, 3, 4, 9]),
    ("commit", &[0, 3, 4, 10, 11, 12]),
    ("abandon", &[0, 3, 4]),
    ("open", &[0, 3, 8]),
    ("shut", &[0, 3]),
    ("clear", &[0, 10]),
    ("report", &[0]),
    ("archive", &[0, 13]),
    ("log", &[0, 13]),
    ("audit", &[0, 13]),
    ("tick", &[0, 15]),
    ("outputs", &[0]),
    ("readout", &[0, 16]),
    ("parse", &[0, 17, 18]),
    ("last", &[0]),
];
const NUMBERS: usize = 19;

fn row_of(command: &Command) -> usize {
    match command {
        Command::Start { .. } => 0,
        Command::Cycle(_) => 1,
        Command::Begin { .. } => 2,
        Command::Read { .. } => 3,
        Command::Write { .. } => 4,
        Command::Commit { .. } => 5,
        Command::Abandon { .. } => 6,
        Command::Open { .. } => 7,
        Command::Shut { .. } => 8,
        Command::Clear => 9,
        Command::Report => 10,
        Command::Archive { .. } => 11,
        Command::Log { .. } => 12,
        Command::Audit { .. } => 13,
        Command::Tick { .. } => 14,
        Command::Outputs => 15,
        Command::Readout { .. } => 16,
        Command::Parse { .. } => 17,
        Command::Last { .. } => 18,
    }
}

#[derive(Clone, Copy)]
enum Event {
    PressureCame,
    TemperatureCame,
    CompressibilityCame,
    PressureWent,
    TemperatureWent,
    CompressibilityWent,
    SensorFailedInModeZero,
    TemperatureNotANumber,
    TemperatureOutside,
    TemperatureHalf,
    FactorHalf,
    LatchCleared,
    LatchKept,
    VmRollover,
    VmDisturbedRollover,
    VbRollover,
    VbDisturbedRollover,
    VmTotalRollover,
    VbTotalRollover,
    OneMonth,
    FewMonths,
    ManyMonths,
    ThousandMonths,
    CycleAtSix,
    CycleSecondBeforeSix,
    CycleBeforeSix,
    CycleBeforeSixCrossing,
    CycleAtMidnight,
    CycleSecondBeforeMidnight,
    MonthWithinADay,
    CycleInFirstHours,
    CycleAtFirstSix,
    StartAtSix,
    StartSecondBeforeSix,
    StartBeforeSix,
    StartAtMidnight,
    StartSecondBeforeMidnight,
    StartInFirstHours,
    ArchiveFull,
    LogFull,
    AuditFull,
    LogNumberWrapped,
    AuditNumberWrapped,
    LockOpened,
    LockShut,
    LockAsItStood,
    CodeWrongThoughOpen,
    BothSessionsOpen,
    StagedValueRead,
    CoefficientRead,
    CommitSeveral,
    CommitNothing,
    CommitEqualValue,
    CommitMarksOther,
    StaleWithNothingStaged,
    StaleAndLockMissing,
    StaleAndPair,
    LockMissingAndPair,
    StartRefusedInUse,
    // These are of request Three.
    VmFollowed,
    VmDisturbedFollowed,
    VmTotalFollowed,
    VbFollowed,
    VbDisturbedFollowed,
    VbTotalFollowed,
    OtherSideGained,
    LitresAtWeight,
    BaseAtWeight,
    LitreShort,
    BaseShort,
    ManyDue,
    BufferJustFull,
    OneLost,
    FirstOverflow,
    SecondOverflow,
    ThirdOverflow,
    FourthOverflow,
    FourOverflows,
    OverflowWithAlarmLine,
    OverflowIntoFullLog,
    LostInOneCycle,
    LostExactTurn,
    DueWithSmallLowerHalf,
    LostRollover,
    FollowedLitresRollover,
    FollowedBaseRollover,
    DroppedByChoice,
    DroppedByWeight,
    DroppedAndOtherKept,
    KeptAtSameChoice,
    KeptAtSameWeight,
    OffWithPulsesWaiting,
    OffWithPulsesLost,
    StartWithPulsesWaiting,
    TickOfNone,
    TickOfMost,
    TickTookNamed,
    TickTookFewer,
    TickTookLast,
    TickFromOff,
    TickInSession,
    TickRefusedByOne,
    StaleByOutput,
    LockMissingForOutput,
    ChoiceRefused,
    WeightRefused,
    // These are of request Five.
    ReadoutExact,
    ReadoutByteShort,
    ReadoutIntoNothing,
    ReadoutIntoMore,
    ReadoutIntoMost,
    LengthOneTooLarge,
    LengthOfGoodLowerHalf,
    ReadoutBeforeAnyStart,
    ReadoutAfterCycle,
    ReadoutInFirstSession,
    ReadoutInSecondSession,
    ReadoutOfZeros,
    ReadoutAllDiffer,
    ReadoutSumDiffers,
    ReadoutCutOff,
    ReadoutOfAMillion,
    ReadoutOfNineDigits,
    ReadoutBeforeRollover,
    ReadoutAfterRollover,
    CommandOnLongestLine,
    LineOneTooLong,
    // These are of request Six.
    ParsedZeros,
    ParsedNineDigits,
    ParsedLargest,
    ParsedVmSumDiffers,
    ParsedVbSumDiffers,
    ParsedOwnReadout,
    ParseBeforeAnyStart,
    ParseInFirstSession,
    ParseInSecondSession,
    CheckWrong,
    CheckWrongByOneBit,
    FormAndCheckWrong,
    FormWrongCheckRight,
    ByteChanged,
    ByteLeftOut,
    ByteDoubled,
    LinesExchanged,
    LineLeftOut,
    LineDoubled,
    LargeUnit,
    EndReversed,
    BlankForDigit,
    PointMoved,
    ByteAfter,
    BytesAfter,
    LongestMessage,
    CutShort,
    EndsInEtx,
    SingleByte,
    RandomBytes,
    ParseOfNoWord,
    ParseOfEmptyWord,
    ParseOfOddDigits,
    ParseOfLargeDigit,
    ParseOfOtherCharacter,
    ParseOfTwoWords,
    ParseOfByteTooMany,
    // These are of request Seven.
    FoundAtLineZero,
    FoundAtLastOfSome,
    FoundAtLastOfFull,
    FoundPastTheEnd,
    FoundAtLastPlace,
    FoundAtFirstPlace,
    FoundNewerOfTwo,
    FoundAfterWrap,
    NoneInEmptyBook,
    NoneInPartOfBook,
    NoneInFullBook,
    CodeOfNoLine,
    CodeOfLowerByte,
    CodeOfLowerTwoBytes,
    CodeOfLowerHalf,
    OnlyLineLost,
    SeveralLinesLost,
    LineOfBeforeStart,
    AskedBeforeAnyStart,
    AskedInFirstSession,
    AskedInSecondSession,
    LastOfNoWord,
    LastOfEmptyWord,
    LastAfterTwoSpaces,
    LastOfTwoWords,
    LastOfSign,
    LastPast64Bits,
    LastOfOtherWord,
}

const EVENTS: [&str; 192] = [
    "pressure alarm came",
    "temperature alarm came",
    "K alarm came",
    "pressure alarm went",
    "temperature alarm went",
    "K alarm went",
    "failed reading with the mode at 0",
    "temperature not a number",
    "temperature outside -10,000..20,000",
    "temperature at a half",
    "factor at a half",
    "latch cleared",
    "latch kept by a clear",
    "Vm rolled over",
    "VmD rolled over",
    "Vb rolled over",
    "VbD rolled over",
    "VmT rolled over while neither part did",
    "VbT rolled over while neither part did",
    "one month crossed",
    "2 to 15 months crossed at once",
    "16 to 999 months crossed at once",
    "1,000 months or more crossed at once",
    "cycle at six on a first, a month crossed",
    "cycle one second before six on a first, no month crossed",
    "cycle between midnight and six on a first, no month crossed",
    "cycle between midnight and six on a first, earlier months crossed",
    "cycle at midnight of a first, no month crossed",
    "cycle one second before midnight of a first",
    "month crossed within one day",
    "cycle below 21,600 and not at 0",
    "cycle at 21,600 from below, no month crossed",
    "start at six on a first",
    "start one second before six on a first",
    "start between midnight and six on a first",
    "start at midnight of a first",
    "start one second before midnight of a first",
    "start below 21,600 and not at 0",
    "line into a full archive",
    "line into a full logbook",
    "line into a full audit trail",
    "logbook number back to 0",
    "audit number back to 0",
    "lock opened",
    "lock shut",
    "lock turned to where it stood",
    "wrong code for an open lock",
    "both sessions open",
    "staged value read back",
    "coefficient read",
    "commit of several settings",
    "commit of none",
    "commit of an equal value",
    "commit of what the other door has read",
    "stale with nothing staged",
    "stale, and a lock missing",
    "stale, and a pair out of order",
    "a lock missing, and a pair out of order",
    "refused start of a device in use",
    "output on Vm gained",
    "output on VmD gained",
    "output on VmT gained",
    "output on Vb gained",
    "output on VbD gained",
    "output on VbT gained",
    "gain on the other side than an output follows",
    "account in litres exactly at its weight: one pulse, nothing left",
    "account at base conditions exactly at its weight: one pulse, nothing left",
    "account one litre short of its weight",
    "account ten hundred-thousandths short of its weight, the least there is",
    "1,000 pulses or more due at once",
    "buffer filled to exactly 65,535, none lost",
    "one pulse lost",
    "output 1 overflowed, line 51",
    "output 2 overflowed, line 52",
    "output 3 overflowed, line 53",
    "output 4 overflowed, line 54",
    "all four overflowed in one cycle",
    "overflow in a cycle with an alarm line",
    "overflow with a full logbook",
    "more than 2^32 pulses lost in one cycle",
    "exactly 2^32 pulses lost in one cycle",
    "more than 2^32 pulses due, whose lower 32 bits alone would find room",
    "lost counter rolled over",
    "output followed a counter in litres through its rollover",
    "output followed a counter at base conditions through its rollover",
    "commit of a new choice dropped an account",
    "commit of a new weight dropped an account",
    "commit dropped one account and kept another",
    "commit of the same choice kept an account",
    "commit of the same weight kept an account",
    "output switched off with pulses waiting",
    "output switched off with pulses lost",
    "start with pulses waiting",
    "tick of 0 with pulses waiting",
    "tick of 600 took 600",
    "tick took what it named",
    "tick took fewer than it named",
    "tick took the very last pulse that waited",
    "tick took from an output that is off",
    "tick in the middle of a session",
    "tick of 601 refused",
    "stale by a setting of an output",
    "lock missing for settings of outputs alone",
    "choice refused as out of range or of the wrong kind",
    "weight refused as out of range or of the wrong kind",
    "readout into exactly as many bytes as the message has",
    "readout into one byte less, refused",
    "readout into no byte at all, refused",
    "readout into more",
    "readout into 200 bytes, the most that is lent",
    "readout of a length of 201 answered ?",
    "readout of a length above 2^32, whose lower half alone would be lent, answered ?",
    "readout before any start",
    "readout directly after an accepted cycle",
    "readout while a session is open at door 1",
    "readout while a session is open at door 2",
    "readout of six values of 0",
    "readout of six values of which no two are equal",
    "readout whose VbT in litres is not the sum of Vb and VbD in litres",
    "readout of a value that is cut off and would be rounded up",
    "readout of a value of 1,000,000 cubic metres or more",
    "readout of a value without a leading zero",
    "readout directly before a rollover",
    "readout directly after a rollover",
    "command on a line of 500 bytes",
    "line of 501 bytes, a command but for its length, answered ?",
    "message of six zeros read",
    "message of a value without a leading zero read",
    "message of the largest value read",
    "message read whose VmT is not the sum of Vm and VmD",
    "message read whose VbT is not the sum of Vb and VbD, nor a litre more",
    "the device's own readout of that moment read back, not six zeros",
    "message before any start",
    "message while a session is open at door 1",
    "message while a session is open at door 2",
    "wrong check character, all else right, 18",
    "check character wrong by one bit, all else right, 18",
    "156 bytes, form and check wrong, 17",
    "156 bytes, form wrong and check right, 17",
    "one byte changed, 17",
    "one byte left out, 17",
    "one byte doubled, 17",
    "two lines exchanged, 17",
    "a line left out, 17",
    "a line doubled, 17",
    "an upper-case M in m3, 17",
    "LF CR for CR LF, 17",
    "a blank for a digit, 17",
    "the point moved, 17",
    "a byte after the check character, 17",
    "more bytes after the check character, 17",
    "message of 247 bytes, the most a line has room for, 17",
    "the front of a message, 17",
    "155 bytes that end in ETX, 17",
    "a single byte, 17",
    "156 random bytes, 17",
    "parse of no word answered ?",
    "parse of an empty word answered ?",
    "parse of an odd number of digits answered ?",
    "parse of an upper-case digit answered ?",
    "parse of another character answered ?",
    "parse of two words answered ?",
    "parse of 248 bytes, on a line of 502, answered ?",
    "code found at line 0, one line looked at",
    "code found at the last line held, not line 0, of a book that is not full",
    "code found at the last line held of a full book, 250 lines looked at",
    "code found past the end of the store, where the walk has gone round",
    "code found at the last place of the store, just after the walk has gone round",
    "code found at the first place of a full store, just before the walk goes round",
    "code found with an older line of the same code held",
    "code found at a line whose number comes after the wrap at 65,535",
    "no line with a code in an empty book",
    "no line with a code in a book that has lines and is not full",
    "no line with a code in a full book, 250 lines looked at",
    "code that no line can have, asked of a book with lines",
    "code whose lower 8 bits alone are those of a held line",
    "code whose lower 16 bits alone are those of a held line",
    "code whose lower 32 bits alone are those of a held line",
    "code whose only line was lost to a full book",
    "code whose lines, several of them, were all lost to a full book",
    "code of a line from before a start, which the store still has and the book does not hold",
    "code asked for before any start",
    "code asked for while a session is open at door 1",
    "code asked for while a session is open at door 2",
    "last of no word answered ?",
    "last of an empty word answered ?",
    "last of a number after two spaces answered ?",
    "last of two numbers answered ?",
    "last of a number with a sign answered ?",
    "last of a number past 64 bits answered ?",
    "last of a word that is no number answered ?",
];

/// The event of a gain, by choice; an output that is off has none.
const FOLLOWED: [Option<Event>; CHOICES] = [
    None,
    Some(Event::VmFollowed),
    Some(Event::VmDisturbedFollowed),
    Some(Event::VmTotalFollowed),
    Some(Event::VbFollowed),
    Some(Event::VbDisturbedFollowed),
    Some(Event::VbTotalFollowed),
];
const OVERFLOW: [Event; OUTPUTS] =
    [Event::FirstOverflow, Event::SecondOverflow, Event::ThirdOverflow, Event::FourthOverflow];

/// Events of request Four, each for every row of the settings page, and at a
/// commit for every set of open locks. So many would fill the table: a family
/// has one line there.
#[derive(Clone, Copy)]
enum Family {
    LowestAccepted,
    HighestAccepted,
    BelowRefused,
    AboveRefused,
    WrongKindRefused,
    NotFiniteRefused,
    AloneAccepted,
    AloneRefused,
}

const FAMILIES: [(Family, &str); 8] = [
    (Family::LowestAccepted, "lowest value accepted"),
    (Family::HighestAccepted, "highest value accepted"),
    (Family::BelowRefused, "one below the lowest refused"),
    (Family::AboveRefused, "one above the highest refused"),
    (Family::WrongKindRefused, "wrong kind refused"),
    (Family::NotFiniteRefused, "float that is not finite refused"),
    (Family::AloneAccepted, "commit of a setting alone accepted, by setting and open locks"),
    (Family::AloneRefused, "commit of a setting alone refused by 10, by setting and open locks"),
];

impl Family {
    /// Whether the row lets a script come there. The families of values are
    /// counted at no open lock, because a write does not ask for any.
    fn can_be_reached(self, setting: &Setting, open: u8) -> bool {
        let whole = setting.range != Range::Finite;
        let right = setting.lock.gives_right(open);
        match self {
            Family::LowestAccepted | Family::HighestAccepted | Family::WrongKindRefused => {
                open == 0
            }
            Family::BelowRefused | Family::AboveRefused => open == 0 && whole,
            Family::NotFiniteRefused => open == 0 && !whole,
            Family::AloneAccepted => right,
            Family::AloneRefused => !right,
        }
    }

    /// All that can be reached: rows with their sets of open locks.
    fn members(self) -> Vec<(usize, usize)> {
        let all = (0..SETTINGS).flat_map(|row| (0..LOCK_SETS).map(move |open| (row, open)));
        all.filter(|(row, open)| self.can_be_reached(&PAGE.settings[*row], *open as u8)).collect()
    }

    fn is_of_commits(self) -> bool {
        matches!(self, Family::AloneAccepted | Family::AloneRefused)
    }

    fn name_of(self, (row, open): (usize, usize)) -> String {
        let setting = PAGE.settings[row].number;
        if !self.is_of_commits() {
            return format!("setting {setting}");
        }
        let is_open = |lock: &usize| open >> (lock - 1) & 1 == 1;
        let locks: Vec<usize> = (1..=LOCKS).filter(is_open).collect();
        format!("setting {setting} with locks {locks:?} open")
    }
}

/// Counts by row and set of open locks.
type Counts = [[u64; LOCK_SETS]; SETTINGS];

/// The event of request Seven that is counted for every code. It has one line in
/// the table too.
const FOUND: &str = "newest line with a code found";

#[derive(Clone)]
pub struct Coverage {
    answers: [[u64; NUMBERS]; COMMANDS.len()],
    malformed: u64,
    nothing: u64,
    events: [u64; EVENTS.len()],
    families: [Counts; FAMILIES.len()],
    /// How often each code was found.
    found: [u64; CODES.len()],
}

impl Default for Coverage {
    fn default() -> Self {
        Coverage {
            answers: [[0; NUMBERS]; COMMANDS.len()],
            malformed: 0,
            nothing: 0,
            events: [0; EVENTS.len()],
            families: [[[0; LOCK_SETS]; SETTINGS]; FAMILIES.len()],
            found: [0; CODES.len()],
        }
    }
}

impl Coverage {
    pub fn new() -> Coverage {
        Coverage::default()
    }

    pub fn malformed(&self) -> u64 {
        self.malformed
    }

    /// Lines that had an answer.
    pub fn answered(&self) -> u64 {
        self.malformed + self.answers.iter().flatten().sum::<u64>()
    }

    /// Answers a script by the reference and counts what it reached. Each
    /// answer comes with the place of its line in the script.
    pub fn answer(&mut self, script: &Script) -> Vec<(usize, Vec<u8>)> {
        let mut device = Device::new();
        let mut last = Link::default();
        let mut written = Written::new();
        let mut answers = Vec::with_capacity(script.lines.len());
        for (place, line) in script.lines.iter().enumerate() {
            match read_line(line) {
                Line::Nothing => self.nothing += 1,
                Line::Malformed => {
                    self.malformed += 1;
                    self.observe_malformed(line);
                    answers.push((place, b"?".to_vec()));
                }
                Line::Command(command) => {
                    let before = Before::of(&device, &command);
                    let answer = obey(&mut device, &command);
                    let number = answer.as_ref().map_or_else(|refusal| refusal.number(), |_| 0);
                    self.answers[row_of(&command)][usize::from(number)] += 1;
                    self.observe(&command, number, &before, &device);
                    let next = last.then(&command, number, &before, &device);
                    self.observe_order(&last, &next);
                    last = next;
                    written.follow(&command, &before, &device);
                    if let (Command::Last { code }, Ok(Done::Last(found))) = (&command, &answer) {
                        self.observe_last(*code, found, &written, &device);
                    }
                    self.saw_if(line.len() == LONGEST_LINE, Event::CommandOnLongestLine);
                    let mut text = Vec::new();
                    write_answer(&answer, &mut text);
                    answers.push((place, text));
                }
            }
        }
        answers
    }

    fn saw(&mut self, event: Event) {
        self.events[event as usize] += 1;
    }

    fn saw_if(&mut self, condition: bool, event: Event) {
        if condition {
            self.saw(event);
        }
    }

    fn saw_row_if(&mut self, condition: bool, family: Family, row: usize, open: usize) {
        if condition {
            self.families[family as usize][row][open] += 1;
        }
    }

    fn observe(&mut self, command: &Command, number: u8, before: &Before, after: &Device) {
        self.saw_if(after.sessions[0].open && after.sessions[1].open, Event::BothSessionsOpen);
        // Line numbers fall only when they wrap; a start sets them to 0.
        if !matches!(command, Command::Start { .. }) {
            self.saw_if(after.log_number < before.log_number, Event::LogNumberWrapped);
            self.saw_if(after.audit_number < before.audit_number, Event::AuditNumberWrapped);
            let logged = after.log_number != before.log_number;
            self.saw_if(logged && before.log_held == LOG_LINES, Event::LogFull);
            let audited = after.audit_number != before.audit_number;
            self.saw_if(audited && before.audit_held == AUDIT_LINES, Event::AuditFull);
        }
        match *command {
            Command::Start { .. } => {
                let waiting = before.outputs.iter().any(|output| output.waiting > 0);
                self.saw_if(waiting, Event::StartWithPulsesWaiting);
                self.saw_if(number == 6 && before.in_use, Event::StartRefusedInUse);
                if number == 0 {
                    self.observe_start(after);
                }
            }
            Command::Cycle(ref cycle) if number == 0 => {
                self.observe_alarms(before, after);
                self.observe_counters(before, after);
                self.observe_months(before, after);
                self.observe_six(before, after);
                self.observe_outputs(before, after);
                let mode = |row: usize| after.settings[row] == 1;
                let failed = [
                    (MD_P, cycle.p.is_none()),
                    (MD_T, cycle.raw.is_none()),
                    (MD_K, cycle.k.is_none()),
                ];
                self.saw_if(
                    failed.into_iter().any(|(row, failed)| failed && !mode(row)),
                    Event::SensorFailedInModeZero,
                );
                if let (true, Some(raw)) = (mode(MD_T), cycle.raw) {
                    let [eq1, eq2, eq3] = after.coefficients();
                    let x = temperature_float(eq1, eq2, eq3, raw);
                    self.saw_if(x.is_nan(), Event::TemperatureNotANumber);
                    let measured = measured_temperature(x);
                    self.saw_if(!x.is_nan() && measured.is_none(), Event::TemperatureOutside);
                    self.saw_if(
                        measured.is_some() && x.fract().abs() == 0.5,
                        Event::TemperatureHalf,
                    );
                }
                self.saw_if(half_factor(after, cycle.p), Event::FactorHalf);
            }
            Command::Clear if number == 0 => {
                self.saw_if(after.latched != before.latched, Event::LatchCleared);
                self.saw_if(after.latched & after.present != 0, Event::LatchKept);
            }
            Command::Open { lock, .. } => {
                let stood = (1..=3).contains(&lock) && before.locks[lock as usize - 1];
                self.saw_if(number == 0 && !stood, Event::LockOpened);
                self.saw_if(number == 0 && stood, Event::LockAsItStood);
                self.saw_if(number == 8 && stood, Event::CodeWrongThoughOpen);
            }
            Command::Shut { lock } if number == 0 => {
                let stood = !before.locks[lock as usize - 1];
                self.saw_if(!stood, Event::LockShut);
                self.saw_if(stood, Event::LockAsItStood);
            }
            Command::Read { setting, .. } if number == 0 => {
                let row = setting as usize - 1;
                self.saw_if(before.staged >> row & 1 == 1, Event::StagedValueRead);
                self.saw_if(PAGE.settings[row].range == Range::Finite, Event::CoefficientRead);
            }
            Command::Write { setting, value, .. } if number == 0 || number == 9 => {
                let row = setting as usize - 1;
                self.observe_write(row, value, number == 0);
                let refused = number == 9;
                let choice = (FIRST_CHOICE..FIRST_WEIGHT).contains(&row);
                self.saw_if(refused && choice, Event::ChoiceRefused);
                self.saw_if(refused && row >= FIRST_WEIGHT, Event::WeightRefused);
            }
            Command::Tick { named } => self.observe_tick(named, number, before, after),
            Command::Readout { length } => self.observe_readout(length, number, after),
            Command::Parse { ref message } => self.observe_parse(message, after),
            Command::Commit { door } => {
                if before.staged.count_ones() == 1 {
                    let row = before.staged.trailing_zeros() as usize;
                    let open = usize::from(after.open_locks());
                    self.saw_row_if(number == 0, Family::AloneAccepted, row, open);
                    self.saw_row_if(number == 10, Family::AloneRefused, row, open);
                }
                if number == 0 {
                    self.observe_new_settings(before, after);
                    self.saw_if(before.staged.count_ones() > 1, Event::CommitSeveral);
                    self.saw_if(before.staged == 0, Event::CommitNothing);
                    self.saw_if(before.equal_value, Event::CommitEqualValue);
                    let other = &after.sessions[2 - door as usize];
                    self.saw_if(other.moved & before.staged != 0, Event::CommitMarksOther);
                }
                let stale = before.moved != 0;
                self.saw_if(number == 11 && before.staged == 0, Event::StaleWithNothingStaged);
                self.saw_if(number == 10 && stale, Event::StaleAndLockMissing);
                self.saw_if(number == 11 && before.pair, Event::StaleAndPair);
                self.saw_if(number == 10 && before.pair, Event::LockMissingAndPair);
                self.saw_if(number == 11 && before.moved & OUTPUT_ROWS != 0, Event::StaleByOutput);
                let others = before.staged & !OUTPUT_ROWS != 0;
                self.saw_if(number == 10 && !others, Event::LockMissingForOutput);
            }
            _ => {}
        }
    }

    /// A value that was accepted or refused, by the row of its setting.
    fn observe_write(&mut self, row: usize, value: Value, accepted: bool) {
        let mut saw = |condition, family| self.saw_row_if(condition, family, row, 0);
        match (PAGE.settings[row].range, value) {
            (Range::Whole { low, high }, Value::Whole(value)) => {
                saw(accepted && value == low, Family::LowestAccepted);
                saw(accepted && value == high, Family::HighestAccepted);
                saw(!accepted && value == low - 1, Family::BelowRefused);
                saw(!accepted && value == high + 1, Family::AboveRefused);
            }
            (Range::Finite, Value::Coefficient(value)) => {
                saw(accepted && value == f64::MIN, Family::LowestAccepted);
                saw(accepted && value == f64::MAX, Family::HighestAccepted);
                saw(!accepted && !value.is_finite(), Family::NotFiniteRefused);
            }
            _ => saw(!accepted, Family::WrongKindRefused),
        }
    }

    /// What an accepted cycle did to the outputs. The gains are read off the
    /// counters: each is below its modulus.
    fn observe_outputs(&mut self, before: &Before, after: &Device) {
        let gains = Steps::between(before, after);
        let alarm_line = after.present != before.present;
        let mut overflows = 0;
        for (place, (old, new)) in before.outputs.iter().zip(&after.outputs).enumerate() {
            let choice = after.choice(place);
            let Some(followed) = FOLLOWED[choice] else { continue };
            let Step { gain, rolled } = gains.0[choice];
            let litres = choice <= 3;
            self.saw_if(gain > 0, followed);
            self.saw_if(gain == 0 && gains.0[3].gain > 0, Event::OtherSideGained);
            let rollover =
                if litres { Event::FollowedLitresRollover } else { Event::FollowedBaseRollover };
            self.saw_if(rolled, rollover);

            let weight = after.weight(place);
            let sum = old.account + gain;
            let exact = if litres { Event::LitresAtWeight } else { Event::BaseAtWeight };
            self.saw_if(gain > 0 && sum == weight, exact);
            self.saw_if(gain > 0 && litres && sum == weight - 1, Event::LitreShort);
            self.saw_if(gain > 0 && !litres && sum == weight - 10, Event::BaseShort);

            let due = sum / weight;
            let excess = due - (new.waiting - old.waiting);
            self.saw_if(due >= 1_000, Event::ManyDue);
            let just_full = due > 0 && excess == 0 && new.waiting == BUFFER;
            self.saw_if(just_full, Event::BufferJustFull);
            if excess > 0 {
                overflows += 1;
                self.saw(OVERFLOW[place]);
                self.saw_if(excess == 1, Event::OneLost);
                self.saw_if(alarm_line, Event::OverflowWithAlarmLine);
                self.saw_if(before.log_held == LOG_LINES, Event::OverflowIntoFullLog);
                self.saw_if(excess > LOST_MODULUS, Event::LostInOneCycle);
                self.saw_if(excess == LOST_MODULUS, Event::LostExactTurn);
                let lower = due > LOST_MODULUS && due % LOST_MODULUS <= BUFFER - old.waiting;
                self.saw_if(lower, Event::DueWithSmallLowerHalf);
                self.saw_if(old.lost + excess >= LOST_MODULUS, Event::LostRollover);
            }
        }
        self.saw_if(overflows == OUTPUTS, Event::FourOverflows);
    }

    /// What a commit that was done did to the accounts.
    fn observe_new_settings(&mut self, before: &Before, after: &Device) {
        let (mut dropped, mut kept) = (false, false);
        for (place, old) in before.outputs.iter().enumerate() {
            let rows = [FIRST_CHOICE + place, FIRST_WEIGHT + place];
            let [choice_staged, weight_staged] = rows.map(|row| before.staged >> row & 1 == 1);
            let [choice_differs, weight_differs] =
                rows.map(|row| before.settings[row] != after.settings[row]);
            if old.account > 0 {
                self.saw_if(choice_differs && !weight_differs, Event::DroppedByChoice);
                self.saw_if(weight_differs && !choice_differs, Event::DroppedByWeight);
                let differs = choice_differs || weight_differs;
                dropped |= differs;
                kept |= !differs;
                self.saw_if(choice_staged && !differs, Event::KeptAtSameChoice);
                self.saw_if(weight_staged && !differs, Event::KeptAtSameWeight);
            }
            if choice_differs && after.choice(place) == OFF {
                self.saw_if(old.waiting > 0, Event::OffWithPulsesWaiting);
                self.saw_if(old.lost > 0, Event::OffWithPulsesLost);
            }
        }
        self.saw_if(dropped && kept, Event::DroppedAndOtherKept);
    }

    fn observe_tick(&mut self, named: u64, number: u8, before: &Before, after: &Device) {
        if number != 0 {
            self.saw_if(named == TICK_LIMIT + 1, Event::TickRefusedByOne);
            return;
        }
        let open = after.sessions.iter().any(|session| session.open);
        self.saw_if(open, Event::TickInSession);
        for (place, (old, new)) in before.outputs.iter().zip(&after.outputs).enumerate() {
            let emitted = old.waiting - new.waiting;
            self.saw_if(named == 0 && old.waiting > 0, Event::TickOfNone);
            self.saw_if(emitted == TICK_LIMIT, Event::TickOfMost);
            self.saw_if(emitted > 0 && new.waiting > 0, Event::TickTookNamed);
            self.saw_if(emitted > 0 && emitted < named, Event::TickTookFewer);
            self.saw_if(emitted > 0 && emitted == named && new.waiting == 0, Event::TickTookLast);
            self.saw_if(emitted > 0 && after.choice(place) == OFF, Event::TickFromOff);
        }
    }

    fn observe_readout(&mut self, length: usize, number: u8, after: &Device) {
        if number != 0 {
            self.saw_if(length == MESSAGE_LENGTH - 1, Event::ReadoutByteShort);
            self.saw_if(length == 0, Event::ReadoutIntoNothing);
            return;
        }
        self.saw_if(length == MESSAGE_LENGTH, Event::ReadoutExact);
        self.saw_if(length > MESSAGE_LENGTH, Event::ReadoutIntoMore);
        self.saw_if(length == MOST_LENT, Event::ReadoutIntoMost);
        self.saw_if(after.sessions[0].open, Event::ReadoutInFirstSession);
        self.saw_if(after.sessions[1].open, Event::ReadoutInSecondSession);
        self.observe_values(&after.counters, &after.totals);
    }

    /// What a readout that was done says.
    fn observe_values(&mut self, counters: &Counters, totals: &Totals) {
        let values = litres(counters, totals);
        self.saw_if(values == [0; 6], Event::ReadoutOfZeros);
        let mut in_order = values;
        in_order.sort_unstable();
        self.saw_if(in_order.windows(2).all(|two| two[0] != two[1]), Event::ReadoutAllDiffer);
        let [vb, vb_disturbed, vb_total, ..] = values;
        let sum = (vb + vb_disturbed) % (VB_MODULUS / UNITS_A_LITRE);
        self.saw_if(sum != vb_total, Event::ReadoutSumDiffers);
        let amounts = [counters.vb, counters.vb_disturbed, totals.vb];
        let upper_half = |amount: &u64| 2 * (amount % UNITS_A_LITRE) >= UNITS_A_LITRE;
        self.saw_if(amounts.iter().any(upper_half), Event::ReadoutCutOff);
        let largest = in_order[in_order.len() - 1];
        self.saw_if(largest >= 1_000_000_000, Event::ReadoutOfAMillion);
        self.saw_if(largest >= VM_MODULUS / 10, Event::ReadoutOfNineDigits);
    }

    fn observe_parse(&mut self, message: &[u8], after: &Device) {
        self.saw_if(after.sessions[0].open, Event::ParseInFirstSession);
        self.saw_if(after.sessions[1].open, Event::ParseInSecondSession);
        match parse(message) {
            Ok(values) => self.observe_parsed(&values, after),
            Err(Refusal::WrongCheck) => {
                self.saw(Event::CheckWrong);
                self.saw_if(spoilt::check_differs_by_one_bit(message), Event::CheckWrongByOneBit);
            }
            Err(_) => {
                self.observe_wrong_form(message);
                self.observe_wrong_length(message);
            }
        }
    }

    /// What a message that was accepted says.
    fn observe_parsed(&mut self, values: &Values, after: &Device) {
        let zeros = *values == [0; 6];
        self.saw_if(zeros, Event::ParsedZeros);
        let largest = values.iter().max().unwrap_or(&0);
        self.saw_if(*largest >= VM_MODULUS / 10, Event::ParsedNineDigits);
        self.saw_if(*largest == VM_MODULUS - 1, Event::ParsedLargest);
        let [vb, vb_disturbed, vb_total, vm, vm_disturbed, vm_total] = *values;
        let sum_differs = (vm + vm_disturbed) % VM_MODULUS != vm_total;
        self.saw_if(sum_differs, Event::ParsedVmSumDiffers);
        let sums = [vb + vb_disturbed, vb + vb_disturbed + 1].map(|sum| sum % VM_MODULUS);
        self.saw_if(!sums.contains(&vb_total), Event::ParsedVbSumDiffers);
        let own = *values == litres(&after.counters, &after.totals);
        self.saw_if(own && !zeros, Event::ParsedOwnReadout);
    }

    /// As many bytes as a message has, and not of the form.
    fn observe_wrong_form(&mut self, message: &[u8]) {
        if message.len() != MESSAGE_LENGTH {
            return;
        }
        let fits = spoilt::check_fits(message);
        self.saw_if(fits, Event::FormWrongCheckRight);
        self.saw_if(!fits, Event::FormAndCheckWrong);
        self.saw_if(spoilt::has_byte_changed(message), Event::ByteChanged);
        self.saw_if(spoilt::has_lines_exchanged(message), Event::LinesExchanged);
        self.saw_if(spoilt::has_large_unit(message), Event::LargeUnit);
        self.saw_if(spoilt::has_end_reversed(message), Event::EndReversed);
        self.saw_if(spoilt::has_blank_for_digit(message), Event::BlankForDigit);
        self.saw_if(spoilt::has_point_moved(message), Event::PointMoved);
        self.saw_if(spoilt::is_random(message), Event::RandomBytes);
    }

    /// More bytes than a message has, or fewer.
    fn observe_wrong_length(&mut self, message: &[u8]) {
        self.saw_if(spoilt::has_byte_left_out(message), Event::ByteLeftOut);
        self.saw_if(spoilt::has_byte_doubled(message), Event::ByteDoubled);
        self.saw_if(spoilt::has_line_left_out(message), Event::LineLeftOut);
        self.saw_if(spoilt::has_line_doubled(message), Event::LineDoubled);
        self.saw_if(spoilt::bytes_after(message) == 1, Event::ByteAfter);
        self.saw_if(spoilt::bytes_after(message) > 1, Event::BytesAfter);
        self.saw_if(message.len() == spoilt::LONGEST_MESSAGE, Event::LongestMessage);
        self.saw_if(spoilt::is_cut_short(message), Event::CutShort);
        self.saw_if(spoilt::ends_in_etx(message), Event::EndsInEtx);
        self.saw_if(message.len() == 1, Event::SingleByte);
    }

    /// A question for the newest line with a code.
    fn observe_last(&mut self, code: u64, found: &Last, written: &Written, device: &Device) {
        self.saw_if(device.sessions[0].open, Event::AskedInFirstSession);
        self.saw_if(device.sessions[1].open, Event::AskedInSecondSession);
        match found.line {
            Some(line) => {
                self.found[CODES.partition_point(|before| *before < line.code)] += 1;
                self.observe_found(line.code, found.looked as usize, written, device);
            }
            None => self.observe_none(code, written, device),
        }
    }

    /// So many lines were looked at, and the last of them matched.
    fn observe_found(&mut self, code: u8, looked: usize, written: &Written, device: &Device) {
        let (held, next) = (device.log.held, device.log.next);
        let full = held == LOG_LINES;
        self.saw_if(looked == 1, Event::FoundAtLineZero);
        self.saw_if(looked == held && held > 1 && !full, Event::FoundAtLastOfSome);
        self.saw_if(looked == held && full, Event::FoundAtLastOfFull);
        // Line 0 stands just before the next place. The walk goes from there back
        // to the beginning of the store, which are as many lines as the place says,
        // and then on from the end. From a next place of 0 it begins at the end.
        let past = next > 0 && looked > next;
        self.saw_if(past, Event::FoundPastTheEnd);
        self.saw_if(past && looked == next + 1, Event::FoundAtLastPlace);
        self.saw_if(full && looked == next, Event::FoundAtFirstPlace);
        let mut older = device.log.newest_first().skip(looked);
        self.saw_if(older.any(|line| line.code == code), Event::FoundNewerOfTwo);
        let after_it = looked as u64 - 1;
        let from_the_first = written.lines - 1 - after_it;
        self.saw_if(from_the_first > u64::from(u16::MAX), Event::FoundAfterWrap);
    }

    /// No held line has the code.
    fn observe_none(&mut self, code: u64, written: &Written, device: &Device) {
        let held = device.log.held;
        self.saw_if(held == 0, Event::NoneInEmptyBook);
        self.saw_if(0 < held && held < LOG_LINES, Event::NoneInPartOfBook);
        self.saw_if(held == LOG_LINES, Event::NoneInFullBook);
        let code = match u8::try_from(code) {
            Ok(code) if CODES.contains(&code) => code,
            _ => return self.observe_no_such_code(code, device),
        };
        let lines = written.by_code[usize::from(code)];
        self.saw_if(lines == 1, Event::OnlyLineLost);
        self.saw_if(lines > 1, Event::SeveralLinesLost);
        let left = &device.log.lines[held..];
        self.saw_if(left.iter().any(|line| line.code == code), Event::LineOfBeforeStart);
    }

    /// No line can have the code.
    fn observe_no_such_code(&mut self, code: u64, device: &Device) {
        self.saw_if(device.log.held > 0, Event::CodeOfNoLine);
        for (bits, event) in [
            (8, Event::CodeOfLowerByte),
            (16, Event::CodeOfLowerTwoBytes),
            (32, Event::CodeOfLowerHalf),
        ] {
            let lower = code % (1 << bits);
            let mut held = device.log.newest_first();
            self.saw_if(held.any(|line| u64::from(line.code) == lower), event);
        }
    }

    /// Events of two commands, one directly after the other.
    fn observe_order(&mut self, last: &Link, next: &Link) {
        self.saw_if(last.readout && next.rolled, Event::ReadoutBeforeRollover);
        self.saw_if(last.rolled && next.readout, Event::ReadoutAfterRollover);
        self.saw_if(last.cycle && next.readout, Event::ReadoutAfterCycle);
        self.saw_if(next.readout && !next.started, Event::ReadoutBeforeAnyStart);
        self.saw_if(next.parse && !next.started, Event::ParseBeforeAnyStart);
        self.saw_if(next.question && !next.started, Event::AskedBeforeAnyStart);
    }

    /// Lines that are no command only because a length or the line itself is
    /// too long.
    fn observe_malformed(&mut self, line: &[u8]) {
        let by_one = line.len() == LONGEST_LINE + 1;
        self.saw_if(by_one && read_words(line).is_some(), Event::LineOneTooLong);
        if let Some(length) = line.strip_prefix(b"readout ").and_then(unsigned) {
            self.saw_if(length == MOST_LENT as u64 + 1, Event::LengthOneTooLarge);
            let lower_half = length % (1 << 32);
            let good = (MESSAGE_LENGTH as u64..=MOST_LENT as u64).contains(&lower_half);
            self.saw_if(length >> 32 > 0 && good, Event::LengthOfGoodLowerHalf);
        }
        self.saw_if(line == b"parse", Event::ParseOfNoWord);
        if let Some(word) = line.strip_prefix(b"parse ") {
            self.observe_no_message(word, line.len());
        }
        self.saw_if(line == b"last", Event::LastOfNoWord);
        if let Some(word) = line.strip_prefix(b"last ") {
            self.observe_no_code(word);
        }
    }

    /// What came after `last` and is no number.
    fn observe_no_code(&mut self, word: &[u8]) {
        let is_number = |word: &[u8]| unsigned(word).is_some();
        self.saw_if(word.is_empty(), Event::LastOfEmptyWord);
        self.saw_if(word.strip_prefix(b" ").is_some_and(is_number), Event::LastAfterTwoSpaces);
        let mut words = word.split(|byte| *byte == b' ');
        let two = words.clone().count() == 2 && words.all(is_number);
        self.saw_if(two, Event::LastOfTwoWords);
        let without_sign = word.strip_prefix(b"+").or(word.strip_prefix(b"-"));
        self.saw_if(without_sign.is_some_and(is_number), Event::LastOfSign);
        let digits = !word.is_empty() && word.iter().all(u8::is_ascii_digit);
        self.saw_if(digits && !is_number(word), Event::LastPast64Bits);
        let one_word = !word.is_empty() && !word.contains(&b' ');
        self.saw_if(one_word && !digits && without_sign.is_none(), Event::LastOfOtherWord);
    }

    /// What came after `parse` and is no message.
    fn observe_no_message(&mut self, word: &[u8], line_length: usize) {
        let is_digit = |byte: &u8| matches!(byte, b'0'..=b'9' | b'a'..=b'f');
        let digits = word.iter().all(is_digit);
        let odd = word.len() % 2 == 1;
        if line_length > LONGEST_LINE {
            let by_a_byte = line_length == LONGEST_LINE + 2;
            self.saw_if(digits && !odd && by_a_byte, Event::ParseOfByteTooMany);
            return;
        }
        self.saw_if(word.is_empty(), Event::ParseOfEmptyWord);
        self.saw_if(digits && odd, Event::ParseOfOddDigits);
        let hexadecimal = word.iter().all(u8::is_ascii_hexdigit);
        self.saw_if(!odd && hexadecimal && !digits, Event::ParseOfLargeDigit);
        let one_word = !word.contains(&b' ');
        self.saw_if(!odd && one_word && !hexadecimal, Event::ParseOfOtherCharacter);
        // Either would be a message if it stood alone.
        let alone = |word: &[u8]| read_words(&[b"parse ", word].concat()).is_some();
        let mut words = word.split(|byte| *byte == b' ');
        let two = words.clone().count() == 2 && words.all(alone);
        self.saw_if(two, Event::ParseOfTwoWords);
    }

    fn observe_alarms(&mut self, before: &Before, after: &Device) {
        let came = after.present & !before.present;
        let went = before.present & !after.present;
        for (bit, came_event, went_event) in [
            (ALARM_P, Event::PressureCame, Event::PressureWent),
            (ALARM_T, Event::TemperatureCame, Event::TemperatureWent),
            (ALARM_K, Event::CompressibilityCame, Event::CompressibilityWent),
        ] {
            self.saw_if(came & bit != 0, came_event);
            self.saw_if(went & bit != 0, went_event);
        }
    }

    fn observe_counters(&mut self, before: &Before, after: &Device) {
        // An amount is below the modulus, so that a number falls only when it
        // rolls over.
        let (old, new) = (&before.counters, &after.counters);
        let vm = new.vm < old.vm;
        let vm_disturbed = new.vm_disturbed < old.vm_disturbed;
        let vb = new.vb < old.vb;
        let vb_disturbed = new.vb_disturbed < old.vb_disturbed;
        self.saw_if(vm, Event::VmRollover);
        self.saw_if(vm_disturbed, Event::VmDisturbedRollover);
        self.saw_if(vb, Event::VbRollover);
        self.saw_if(vb_disturbed, Event::VbDisturbedRollover);
        let (old, new) = (&before.totals, &after.totals);
        self.saw_if(new.vm < old.vm && !vm && !vm_disturbed, Event::VmTotalRollover);
        self.saw_if(new.vb < old.vb && !vb && !vb_disturbed, Event::VbTotalRollover);
    }

    fn observe_months(&mut self, before: &Before, after: &Device) {
        match after.month - before.month {
            0 => return,
            1 => self.saw(Event::OneMonth),
            2..=15 => self.saw(Event::FewMonths),
            16..=999 => self.saw(Event::ManyMonths),
            _ => self.saw(Event::ThousandMonths),
        }
        self.saw_if(before.archive_held == ARCHIVE_LINES, Event::ArchiveFull);
    }

    /// Cycles around the hour at which a month begins.
    fn observe_six(&mut self, before: &Before, after: &Device) {
        let (old, time) = (before.time, after.time);
        let crossed = after.month != before.month;
        if let Some(second) = on_a_first(time) {
            self.saw_if(second == SIX_O_CLOCK && crossed, Event::CycleAtSix);
            self.saw_if(second == SIX_O_CLOCK - 1 && !crossed, Event::CycleSecondBeforeSix);
            self.saw_if(second < SIX_O_CLOCK && !crossed, Event::CycleBeforeSix);
            self.saw_if(second < SIX_O_CLOCK && crossed, Event::CycleBeforeSixCrossing);
            self.saw_if(second == 0 && !crossed, Event::CycleAtMidnight);
        }
        self.saw_if(on_a_first(time + 1) == Some(0), Event::CycleSecondBeforeMidnight);
        let same_day = old / SECONDS_A_DAY == time / SECONDS_A_DAY;
        self.saw_if(crossed && same_day, Event::MonthWithinADay);
        self.saw_if(0 < time && time < SIX_O_CLOCK, Event::CycleInFirstHours);
        let first_six = old < SIX_O_CLOCK && time == SIX_O_CLOCK;
        self.saw_if(first_six && !crossed, Event::CycleAtFirstSix);
    }

    fn observe_start(&mut self, after: &Device) {
        let time = after.time;
        if let Some(second) = on_a_first(time) {
            self.saw_if(second == SIX_O_CLOCK, Event::StartAtSix);
            self.saw_if(second == SIX_O_CLOCK - 1, Event::StartSecondBeforeSix);
            self.saw_if(second < SIX_O_CLOCK, Event::StartBeforeSix);
            self.saw_if(second == 0, Event::StartAtMidnight);
        }
        self.saw_if(on_a_first(time + 1) == Some(0), Event::StartSecondBeforeMidnight);
        self.saw_if(0 < time && time < SIX_O_CLOCK, Event::StartInFirstHours);
    }

    /// What can be reached and was not.
    pub fn missing(&self) -> Vec<String> {
        let mut missing = Vec::new();
        for ((name, numbers), counts) in COMMANDS.iter().zip(&self.answers) {
            for number in *numbers {
                if counts[usize::from(*number)] == 0 {
                    missing.push(format!("{name} answered {number}"));
                }
            }
        }
        for (name, count) in EVENTS.iter().zip(&self.events) {
            if *count == 0 {
                missing.push((*name).to_string());
            }
        }
        for ((family, name), counts) in FAMILIES.iter().zip(&self.families) {
            let members = family.members();
            let all = members.len();
            let mut left = members.into_iter().filter(|&(row, open)| counts[row][open] == 0);
            if let Some(first) = left.next() {
                let (first, others) = (family.name_of(first), left.count());
                missing.push(format!("{name}: {} of {all}, the first {first}", 1 + others));
            }
        }
        let mut left = CODES.iter().zip(&self.found).filter(|(_, count)| **count == 0);
        if let Some((first, _)) = left.next() {
            let count = 1 + left.count();
            missing.push(format!("{FOUND}: {count} of {}, the first {first}", CODES.len()));
        }
        if self.malformed == 0 {
            missing.push("malformed line".to_string());
        }
        if self.nothing == 0 {
            missing.push("line that answers nothing".to_string());
        }
        missing
    }

    /// The table for a person. A dot stands for what cannot be reached.
    pub fn table(&self) -> String {
        let mut text = String::new();
        let _ = writeln!(text, "How often each command had each answer:");
        let used: Vec<u8> = (0..NUMBERS as u8)
            .filter(|number| COMMANDS.iter().any(|(_, numbers)| numbers.contains(number)))
            .collect();
        let _ = write!(text, "{:9}", "");
        for number in &used {
            let _ = write!(text, "{number:>9}");
        }
        text.push('\n');
        for ((name, numbers), counts) in COMMANDS.iter().zip(&self.answers) {
            let _ = write!(text, "{name:9}");
            for number in &used {
                let count = counts[usize::from(*number)];
                if numbers.contains(number) || count != 0 {
                    let _ = write!(text, "{count:>9}");
                } else {
                    let _ = write!(text, "{:>9}", ".");
                }
            }
            text.push('\n');
        }
        let _ = writeln!(text, "malformed lines: {}", self.malformed);
        let _ = writeln!(text, "lines that answer nothing: {}", self.nothing);
        let _ = writeln!(text, "How often each event was reached:");
        for (name, count) in EVENTS.iter().zip(&self.events) {
            let _ = writeln!(text, "{count:>9}  {name}");
        }
        let _ = writeln!(text, "The same for every row of the settings page, the least count:");
        for ((family, name), counts) in FAMILIES.iter().zip(&self.families) {
            let counts: Vec<u64> =
                family.members().into_iter().map(|(row, open)| counts[row][open]).collect();
            let least = counts.iter().min().unwrap_or(&0);
            let reached = counts.iter().filter(|count| **count > 0).count();
            let _ = writeln!(text, "{least:>9}  {name}: {reached} of {}", counts.len());
        }
        let _ = writeln!(text, "And for every code of a logbook line, the least count:");
        let least = self.found.iter().min().unwrap_or(&0);
        let reached = self.found.iter().filter(|count| **count > 0).count();
        let _ = writeln!(text, "{least:>9}  {FOUND}: {reached} of {}", CODES.len());
        let missing = self.missing();
        if missing.is_empty() {
            let _ = writeln!(text, "Everything that can be reached was reached.");
        } else {
            let _ = writeln!(text, "Not reached: {}.", missing.join("; "));
        }
        text
    }
}

/// What a command is to the one before it and to the one after it.
#[derive(Clone, Copy, Default)]
struct Link {
    /// A start has come, this one or an earlier one.
    started: bool,
    /// A readout that was done.
    readout: bool,
    /// A message for the reader.
    parse: bool,
    /// A question for the newest line with a code.
    question: bool,
    /// An accepted cycle.
    cycle: bool,
    /// An accepted cycle in which a counter or a total rolled over.
    rolled: bool,
}

impl Link {
    /// The link of the command that comes after this one.
    fn then(&self, command: &Command, number: u8, before: &Before, after: &Device) -> Link {
        let done = number == 0;
        let cycle = done && matches!(command, Command::Cycle(_));
        Link {
            started: self.started || matches!(command, Command::Start { .. }),
            readout: done && matches!(command, Command::Readout { .. }),
            parse: matches!(command, Command::Parse { .. }),
            question: matches!(command, Command::Last { .. }),
            cycle,
            rolled: cycle && Steps::between(before, after).0.iter().any(|step| step.rolled),
        }
    }
}

/// How many lines of the logbook were written since the last start, be they held
/// or lost.
struct Written {
    lines: u64,
    by_code: [u64; 256],
}

impl Written {
    fn new() -> Written {
        Written { lines: 0, by_code: [0; 256] }
    }

    /// Adds the lines of a command. The numbers of the lines tell how many there
    /// are: a command has a few, and never as many as the book holds.
    fn follow(&mut self, command: &Command, before: &Before, after: &Device) {
        if matches!(command, Command::Start { .. }) {
            *self = Written::new();
            return;
        }
        let new = after.log_number.wrapping_sub(before.log_number);
        self.lines += u64::from(new);
        for line in after.log.newest_first().take(new.into()) {
            self.by_code[usize::from(line.code)] += 1;
        }
    }
}

/// What a counter gained in a cycle, and whether it rolled over.
#[derive(Clone, Copy, Default)]
struct Step {
    gain: u64,
    rolled: bool,
}

impl Step {
    fn between(old: u64, new: u64, modulus: u64) -> Step {
        Step { gain: (new + modulus - old) % modulus, rolled: new < old }
    }
}

/// The same of all counters, by the choice that follows them.
struct Steps([Step; CHOICES]);

impl Steps {
    fn between(before: &Before, after: &Device) -> Steps {
        let vm = |old, new| Step::between(old, new, VM_MODULUS);
        let vb = |old, new| Step::between(old, new, VB_MODULUS);
        let (old, new) = (&before.counters, &after.counters);
        Steps([
            Step::default(),
            vm(old.vm, new.vm),
            vm(old.vm_disturbed, new.vm_disturbed),
            vm(before.totals.vm, after.totals.vm),
            vb(old.vb, new.vb),
            vb(old.vb_disturbed, new.vb_disturbed),
            vb(before.totals.vb, after.totals.vb),
        ])
    }
}

/// The seconds since midnight, if the time lies on a first: the first day of a
/// month. The first day of all is none, because no month is before it.
fn on_a_first(time: u64) -> Option<u64> {
    let day = (time / SECONDS_A_DAY) as u32;
    let first = day > 0 && first_day(month_of_day(day)) == day;
    first.then_some(time % SECONDS_A_DAY)
}

/// Whether the factor of the cycle just done was exactly a half before
/// rounding. Only seen where temperature and K are fixed, which is where the
/// generator brings it about.
fn half_factor(device: &Device, p: Option<u64>) -> bool {
    let settings = &device.settings;
    let Some(p) = p else { return false };
    let fixed = settings[MD_T] == 0 && settings[MD_K] == 0;
    if !fixed || settings[MD_P] != 1 || device.present != 0 {
        return false;
    }
    let (pb, tb, k) = (settings[PB], settings[TB], settings[K_F]);
    let t = (settings[T_F] as i64 + KELVIN) as u64;
    let denominator = u128::from(pb) * u128::from(t) * u128::from(k);
    let numerator = u128::from(p) * u128::from(tb) * 1_000_000_000;
    2 * (factor(p, pb, t, tb, k) * denominator).abs_diff(numerator) == denominator
}

/// What a command may change or depend on, as it was before.
struct Before {
    time: u64,
    month: u32,
    counters: Counters,
    totals: Totals,
    outputs: [Output; OUTPUTS],
    settings: Cells,
    present: u8,
    latched: u8,
    locks: [bool; 3],
    log_number: u16,
    audit_number: u16,
    archive_held: usize,
    log_held: usize,
    audit_held: usize,
    in_use: bool,
    /// Of the session at the command's door.
    staged: u32,
    moved: u32,
    /// A staged value is the one in force.
    equal_value: bool,
    /// A pair would be out of order.
    pair: bool,
}

impl Before {
    fn of(device: &Device, command: &Command) -> Before {
        let door = match *command {
            Command::Read { door, .. } | Command::Commit { door } => door,
            _ => 0,
        };
        let session =
            if (1..=2).contains(&door) { Some(&device.sessions[door as usize - 1]) } else { None };
        let staged = session.map_or(0, |session| session.staged);
        let after = |row: usize| match session {
            Some(session) if staged >> row & 1 == 1 => session.cells[row] as i64,
            _ => device.settings[row] as i64,
        };
        let equal_value = session.is_some_and(|session| {
            (0..session.cells.len())
                .any(|row| staged >> row & 1 == 1 && session.cells[row] == device.settings[row])
        });
        Before {
            time: device.time,
            month: device.month,
            counters: device.counters,
            totals: device.totals,
            outputs: device.outputs,
            settings: device.settings,
            present: device.present,
            latched: device.latched,
            locks: device.locks,
            log_number: device.log_number,
            audit_number: device.audit_number,
            archive_held: device.archive.held,
            log_held: device.log.held,
            audit_held: device.audit_held(),
            in_use: device.time != 0 && device.codes != [0, 0],
            staged,
            moved: session.map_or(0, |session| session.moved),
            equal_value,
            pair: PAGE.pairs.iter().any(|pair| after(pair.lower) > after(pair.upper)),
        }
    }
}

#[cfg(test)]
mod tests {
    use super::*;
    use crate::generate::{long_script, random_script, Rng};
    use crate::walk::walk_script;

    /// The generator must reach everything within the steps of one run of the
    /// gate, whatever the seed.
    #[test]
    fn the_generator_reaches_everything() {
        for seed in [1, 2, 3] {
            let mut rng = Rng::new(seed);
            let mut coverage = Coverage::new();
            coverage.answer(&walk_script());
            coverage.answer(&long_script(&mut rng));
            let long = coverage.answered();
            while coverage.answered() < long + 200_000 {
                coverage.answer(&random_script(&mut rng));
            }
            assert_eq!(coverage.missing(), Vec::<String>::new(), "seed {seed}");
        }
    }

    /// The walk alone, which has no seed, reaches each member of each family:
    /// each end at both doors, each commit once. No script comes where the
    /// rows do not let it.
    #[test]
    fn the_walk_reaches_every_row() {
        let mut coverage = Coverage::new();
        coverage.answer(&walk_script());
        let mut commits = 0;
        for (place, (family, name)) in FAMILIES.iter().enumerate() {
            assert_eq!(*family as usize, place);
            let members = family.members();
            let least = if family.is_of_commits() { 1 } else { 2 };
            commits += if family.is_of_commits() { members.len() } else { 0 };
            for (row, counts) in coverage.families[place].iter().enumerate() {
                for (open, count) in counts.iter().enumerate() {
                    let good =
                        if members.contains(&(row, open)) { *count >= least } else { *count == 0 };
                    assert!(good, "{name}: row {row}, locks {open}, {count} times");
                }
            }
        }
        assert_eq!(commits, SETTINGS * LOCK_SETS);
    }

    /// A family that was not reached is named once, whatever its size.
    #[test]
    fn missing_rows_are_named_by_family() {
        let named = |coverage: &Coverage| -> Vec<String> {
            let family = |text: &String| FAMILIES.iter().any(|(_, name)| text.starts_with(name));
            coverage.missing().into_iter().filter(family).collect()
        };
        let mut coverage = Coverage::new();
        let missing = named(&coverage);
        assert_eq!(missing.len(), FAMILIES.len());
        let all = PAGE.settings.len();
        let first = format!("lowest value accepted: {all} of {all}, the first setting 1");
        assert_eq!(missing[0], first);
        let last = missing.last().expect("a family");
        assert!(last.ends_with("the first setting 1 with locks [] open"), "{last}");
        coverage.answer(&walk_script());
        assert_eq!(named(&coverage), Vec::<String>::new());
    }

    /// The long script alone brings each total to its modulus exactly, with
    /// both parts in between, and asks for a report there. Its counts do not
    /// hang on the seed.
    #[test]
    fn the_long_script_lands_both_totals_on_their_modulus() {
        for seed in [0, 1, 2, 3, 1_000_003, u64::MAX] {
            let mut coverage = Coverage::new();
            let script = long_script(&mut Rng::new(seed));
            let (mut vm_landed, mut vb_landed) = (false, false);
            for (place, answer) in coverage.answer(&script) {
                if script.lines[place] != b"report" {
                    continue;
                }
                let answer = String::from_utf8(answer).expect("an answer of plain characters");
                let numbers: Vec<u64> =
                    answer.split(' ').map(|word| word.parse().expect("a number")).collect();
                let [vm, vm_disturbed, vb, vb_disturbed, vm_total, vb_total] = numbers[2..8] else {
                    panic!("seed {seed}: {answer}");
                };
                vm_landed |= vm_total == 0 && vm > 0 && vm_disturbed > 0;
                vb_landed |= vb_total == 0 && vb > 0 && vb_disturbed > 0;
            }
            assert!(vm_landed && vb_landed, "seed {seed}");
            for event in [Event::VmTotalRollover, Event::VbTotalRollover] {
                assert_ne!(coverage.events[event as usize], 0, "seed {seed}");
            }
        }
    }

    const SEEDS: [u64; 6] = [0, 1, 2, 3, 1_000_003, u64::MAX];

    /// What random scripts reach in as many steps as one run of the gate has,
    /// without the long script.
    fn random_coverage(seed: u64) -> Coverage {
        let mut rng = Rng::new(seed);
        let mut coverage = Coverage::new();
        while coverage.answered() < 200_000 {
            coverage.answer(&random_script(&mut rng));
        }
        coverage
    }

    /// Of the events of one request, which stand together, those that were not
    /// reached again and again.
    fn seldom(coverage: &Coverage, first: Event, last: Event) -> Vec<&'static str> {
        let counted = EVENTS.iter().zip(&coverage.events);
        let of_request = counted.take(last as usize + 1).skip(first as usize);
        of_request.filter(|(_, count)| **count < 10).map(|(name, _)| *name).collect()
    }

    /// The random scripts must come to the hour at which a month begins again
    /// and again, without the long script and whatever the seed.
    #[test]
    fn random_scripts_come_to_six_often() {
        for seed in SEEDS {
            let seldom =
                seldom(&random_coverage(seed), Event::CycleAtSix, Event::StartInFirstHours);
            assert_eq!(seldom, [""; 0], "seed {seed}");
        }
    }

    /// The same of everything of the outputs. No counter in litres comes to its
    /// rollover in a random script.
    #[test]
    fn random_scripts_come_to_the_outputs_often() {
        for seed in SEEDS {
            let seldom = seldom(&random_coverage(seed), Event::VmFollowed, Event::WeightRefused);
            let never = EVENTS[Event::FollowedLitresRollover as usize];
            assert_eq!(seldom, [never], "seed {seed}");
        }
    }

    /// The same of the readouts and of the longest lines.
    #[test]
    fn random_scripts_come_to_readouts_often() {
        for seed in SEEDS {
            let coverage = random_coverage(seed);
            let seldom = seldom(&coverage, Event::ReadoutExact, Event::LineOneTooLong);
            assert_eq!(seldom, [""; 0], "seed {seed}");
            // An answer is long, and many would slow a comparison down.
            let row = row_of(&Command::Readout { length: 0 });
            let readouts: u64 = coverage.answers[row].iter().sum();
            let percent = 100 * readouts / coverage.answered();
            assert!((1..=5).contains(&percent), "seed {seed}: {readouts} readouts");
        }
    }

    /// The same of the reader.
    #[test]
    fn random_scripts_come_to_the_reader_often() {
        for seed in SEEDS {
            let coverage = random_coverage(seed);
            let seldom = seldom(&coverage, Event::ParsedZeros, Event::ParseOfByteTooMany);
            assert_eq!(seldom, [""; 0], "seed {seed}");
            let row = row_of(&Command::Parse { message: Vec::new() });
            let messages: u64 = coverage.answers[row].iter().sum();
            let percent = 100 * messages / coverage.answered();
            assert!((1..=4).contains(&percent), "seed {seed}: {messages} messages");
        }
    }

    /// The same of the questions for a code, each code of which is found often
    /// too. The line numbers do not come to their wrap in a random script.
    #[test]
    fn random_scripts_ask_for_codes_often() {
        for seed in SEEDS {
            let coverage = random_coverage(seed);
            let seldom = seldom(&coverage, Event::FoundAtLineZero, Event::LastOfOtherWord);
            let never = EVENTS[Event::FoundAfterWrap as usize];
            assert_eq!(seldom, [never], "seed {seed}");
            let least = coverage.found.iter().min();
            assert!(least.is_some_and(|count| *count >= 10), "seed {seed}: {:?}", coverage.found);
            let row = row_of(&Command::Last { code: 0 });
            let questions: u64 = coverage.answers[row].iter().sum();
            let percent = 100 * questions / coverage.answered();
            assert!((1..=4).contains(&percent), "seed {seed}: {questions} questions");
        }
    }

    /// The long script alone finds lines on both sides of the wrap, the last
    /// before it and the first after it among them, and follows one line to the
    /// end of a full book.
    #[test]
    fn the_long_script_asks_around_the_wrap() {
        for seed in [0, 1, u64::MAX] {
            let mut coverage = Coverage::new();
            let script = long_script(&mut Rng::new(seed));
            let answers = coverage.answer(&script);
            let count = |event: Event| coverage.events[event as usize];
            assert!(count(Event::FoundAfterWrap) >= 100, "seed {seed}");
            assert!(count(Event::FoundPastTheEnd) >= 1, "seed {seed}");
            assert!(count(Event::NoneInFullBook) >= 100, "seed {seed}");
            assert_eq!(count(Event::FoundAtLastOfFull), 1, "seed {seed}");
            assert!(count(Event::OnlyLineLost) >= 7, "seed {seed}");
            // What was answered to a question, without the time in the middle.
            let mut found: Vec<(u64, u64, u64)> = Vec::new();
            for (place, answer) in answers {
                let answer = String::from_utf8(answer).expect("an answer of plain characters");
                let words: Vec<&str> = answer.split(' ').collect();
                if let (true, [_, number, _, code, looked]) =
                    (script.lines[place].starts_with(b"last "), &words[..])
                {
                    let [number, code, looked] =
                        [number, code, looked].map(|word| word.parse().expect("a number"));
                    found.push((number, code, looked));
                }
            }
            // All three alarms came in round 21,845 and went in the next.
            for line in [(65_535, 13, 1), (65_535, 13, 4), (0, 21, 3), (0, 21, 6)] {
                assert!(found.contains(&line), "seed {seed}: {line:?}");
            }
        }
    }

    /// A code that was not found is named with how many there are.
    #[test]
    fn missing_codes_are_named() {
        let mut coverage = Coverage::new();
        let named = |coverage: &Coverage| -> Vec<String> {
            coverage.missing().into_iter().filter(|text| text.starts_with(FOUND)).collect()
        };
        assert_eq!(named(&coverage), ["newest line with a code found: 16 of 16, the first 11"]);
        coverage.answer(&Script::from_bytes(b"cycle 0 0 - - -\nlast 11\nlast 12\nlast 13\n"));
        assert_eq!(named(&coverage), ["newest line with a code found: 14 of 16, the first 13"]);
        assert!(coverage.table().contains("        0  newest line with a code found: 2 of 16\n"));
    }

    /// The script of spoilt messages, which has no seed, reaches every kind that
    /// is a message. Random bytes are none of its kinds.
    #[test]
    fn the_spoilt_script_reaches_every_kind() {
        let mut coverage = Coverage::new();
        coverage.answer(&spoilt::spoilt_script());
        let count = |event: Event| coverage.events[event as usize];
        for event in [
            Event::ParseBeforeAnyStart,
            Event::ParseInFirstSession,
            Event::ParseInSecondSession,
            Event::ParsedNineDigits,
            Event::ParsedVmSumDiffers,
            Event::ParsedVbSumDiffers,
            Event::CheckWrong,
            Event::CheckWrongByOneBit,
            Event::SingleByte,
            Event::EndsInEtx,
            Event::ParseOfNoWord,
            Event::ParseOfEmptyWord,
        ] {
            assert!(count(event) >= 1, "{}", EVENTS[event as usize]);
        }
        // Everywhere, and with a check character that fits and one that does not.
        for (event, least) in [
            (Event::LinesExchanged, 2 * 15),
            (Event::LineLeftOut, 2 * 6),
            (Event::LineDoubled, 2 * 6),
            (Event::PointMoved, 2 * 6 * 12),
            (Event::EndReversed, 2 * 7),
            (Event::LargeUnit, 2 * 6),
            (Event::BlankForDigit, 2 * 72),
            (Event::ByteLeftOut, 2 * 155),
            // An ETX doubled is a check character and a byte after it.
            (Event::ByteDoubled, 2 * 154),
            (Event::ByteAfter, 3),
            (Event::BytesAfter, 3),
            (Event::CutShort, 154),
            // All 255 other values of each byte, less the other digits of a digit.
            (Event::ByteChanged, 155 * 255 - 72 * 9),
        ] {
            assert!(count(event) >= least, "{} {}", count(event), EVENTS[event as usize]);
        }
    }

    /// The long script alone asks for a readout on either side of a rollover,
    /// and into every length that is lent. What is large is read back.
    #[test]
    fn the_long_script_reads_out_everywhere() {
        for seed in [0, 1, u64::MAX] {
            let mut coverage = Coverage::new();
            let script = long_script(&mut Rng::new(seed));
            coverage.answer(&script);
            let count = |event: Event| coverage.events[event as usize];
            // VmT, VbT, Vm together with Vb, VmD; and after VbT has landed.
            assert!(count(Event::ReadoutBeforeRollover) >= 4, "seed {seed}");
            assert!(count(Event::ReadoutAfterRollover) >= 5, "seed {seed}");
            assert!(count(Event::ParsedOwnReadout) >= 10, "seed {seed}");
            assert!(count(Event::ParsedNineDigits) >= 10, "seed {seed}");
            for length in 0..=MOST_LENT + 1 {
                let line = format!("readout {length}").into_bytes();
                assert!(script.lines.contains(&line), "seed {seed}: {length}");
            }
        }
    }

    /// The long script alone leads an output through each rollover.
    #[test]
    fn the_long_script_follows_counters_through_their_rollover() {
        for seed in [0, 1, u64::MAX] {
            let mut coverage = Coverage::new();
            coverage.answer(&long_script(&mut Rng::new(seed)));
            // Vm, VmD, and VmT twice; VbT and Vb.
            let count = |event: Event| coverage.events[event as usize];
            assert!(count(Event::FollowedLitresRollover) >= 4, "seed {seed}");
            assert!(count(Event::FollowedBaseRollover) >= 2, "seed {seed}");
        }
    }

    /// The long script comes to the two seconds around midnight and to the two
    /// around six of a first, each of them as often as there are months to begin.
    /// (That these are all firsts of the century is `every_month_begins`.)
    #[test]
    fn the_long_script_comes_to_as_many_firsts_as_there_are() {
        for seed in [0, 1, u64::MAX] {
            let mut coverage = Coverage::new();
            coverage.answer(&long_script(&mut Rng::new(seed)));
            for event in [
                Event::CycleSecondBeforeMidnight,
                Event::CycleAtMidnight,
                Event::CycleSecondBeforeSix,
                Event::CycleAtSix,
                Event::MonthWithinADay,
            ] {
                let count = coverage.events[event as usize];
                assert!(count >= 1_199, "seed {seed}: {count} {}", EVENTS[event as usize]);
            }
        }
    }

    #[test]
    fn no_command_has_an_answer_outside_the_table() {
        let mut rng = Rng::new(7);
        let mut coverage = Coverage::new();
        for _ in 0..50 {
            coverage.answer(&random_script(&mut rng));
        }
        for ((name, numbers), counts) in COMMANDS.iter().zip(&coverage.answers) {
            for (number, count) in counts.iter().enumerate() {
                assert!(*count == 0 || numbers.contains(&(number as u8)), "{name} {number}");
            }
        }
    }
}
