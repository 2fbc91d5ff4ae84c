//! The commands and answers of the bench as values, without their text.

use crate::device::{ArchiveLine, AuditLine, Cycle, Device, LogLine, Refusal, Report, Value};
use crate::last::Last;
use crate::output::{OutputReport, OUTPUTS};
use crate::reader::parse;
use crate::readout::Values;

/// The longest buffer that is lent to a readout.
pub const MOST_LENT: usize = 200;
/// Every byte of a lent buffer before the readout. No message has this byte,
/// so that what was written can be told from what was not.
const LENT_BYTE: u8 = 0xaa;

/// What a line asks for. The length of a readout is that of the lent buffer, and
/// the message of a parse is any bytes.
#[derive(Clone, Debug, PartialEq)]
pub enum Command {
    Start { time: u64, code2: u32, code3: u32 },
    Cycle(Cycle),
    Begin { door: u64 },
    Read { door: u64, setting: u64 },
    Write { door: u64, setting: u64, value: Value },
    Commit { door: u64 },
    Abandon { door: u64 },
    Open { lock: u64, code: u32 },
    Shut { lock: u64 },
    Clear,
    Tick { named: u64 },
    Report,
    Outputs,
    Readout { length: usize },
    Archive { index: u64 },
    Log { index: u64 },
    Audit { index: u64 },
    Last { code: u64 },
    Parse { message: Vec<u8> },
}

/// What a command that was done gives back.
#[derive(Clone, Debug, PartialEq)]
pub enum Done {
    Nothing,
    Value(Value),
    /// The pulses that a tick took from each output.
    Emitted([u64; OUTPUTS]),
    Report(Report),
    Outputs([OutputReport; OUTPUTS]),
    /// The whole lent buffer, with the message in it.
    Readout(Vec<u8>),
    Archive(ArchiveLine),
    Log(LogLine),
    Audit(AuditLine),
    Last(Last),
    /// What the reader found in a message.
    Parsed(Values),
}

pub type Answer = Result<Done, Refusal>;

/// Puts one command to the device, or to the reader, which needs no device.
pub fn obey(device: &mut Device, command: &Command) -> Answer {
    let nothing = |()| Done::Nothing;
    match *command {
        Command::Start { time, code2, code3 } => device.start(time, code2, code3).map(nothing),
        Command::Cycle(ref cycle) => device.cycle(cycle).map(nothing),
        Command::Begin { door } => device.begin(door).map(nothing),
        Command::Read { door, setting } => device.read(door, setting).map(Done::Value),
        Command::Write { door, setting, value } => device.write(door, setting, value).map(nothing),
        Command::Commit { door } => device.commit(door).map(nothing),
        Command::Abandon { door } => device.abandon(door).map(nothing),
        Command::Open { lock, code } => device.open(lock, code).map(nothing),
        Command::Shut { lock } => device.shut(lock).map(nothing),
        Command::Clear => device.clear().map(nothing),
        Command::Tick { named } => device.tick(named).map(Done::Emitted),
        Command::Report => device.report().map(Done::Report),
        Command::Outputs => device.outputs().map(Done::Outputs),
        Command::Readout { length } => {
            let mut buffer = vec![LENT_BYTE; length];
            device.readout(&mut buffer).map(|()| Done::Readout(buffer))
        }
        Command::Archive { index } => device.archive(index).map(Done::Archive),
        Command::Log { index } => device.log(index).map(Done::Log),
        Command::Audit { index } => device.audit(index).map(Done::Audit),
        Command::Last { code } => device.last(code).map(Done::Last),
        Command::Parse { ref message } => parse(message).map(Done::Parsed),
    }
}
