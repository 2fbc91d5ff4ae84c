//! Each refusal of each command, which of several comes first, and that a
//! refusal changes nothing. Ranges, factory values and rights are walked over
//! the rows of the settings page. Refusals 1 and 14 cannot be had through
//! commands; the tests beside the device make states for the first.

mod common;

use common::{shown, tell, Teller};
use corrector_reference::device::Value;
use corrector_reference::table::{Range, Setting, LOCKS, LOCK_SETS, PAGE};

#[test]
fn start() {
    tell(&[
        ("start 3155759999 0 0", "0"),
        ("start 3155760000 0 0", "6"),
        ("start 18446744073709551615 0 0", "6"),
        ("start 0 4294967295 4294967295", "0"),
    ]);
}

#[test]
fn a_start_makes_all_fresh_and_a_refused_one_too() {
    for (start, time, code, answer) in
        [("start 50 5 6", 50, "5", "0"), ("start 3155760000 5 6", 0, "0", "6")]
    {
        let mut teller = Teller::new();
        teller.done(&["start 10 1 2", "open 1 0", "open 2 1", "begin 1", "begin 2"]);
        teller.done(&["write 1 4 w 0", "commit 1", "begin 1", "write 1 3 w 28000"]);
        teller.done(&["cycle 9999999 5 - - -", "cycle 9999999 5 - - -"]);
        assert_eq!(teller.say(start), answer);
        assert_eq!(teller.say("report"), format!("0 {time} 0 0 0 0 0 0 0 0 0 0 0 0 0 0 0"));
        for book in ["archive 0", "log 0", "audit 0"] {
            assert_eq!(teller.say(book), "13");
        }
        teller.tell(&[("commit 1", "4"), ("commit 2", "4"), ("begin 1", "0")]);
        teller.tell(&[("read 1 4", "0 w 1"), ("read 1 3", "0 w 27315")]);
        teller.tell(&[("open 2 1", "8"), (&format!("open 2 {code}"), "0")]);
        // Numbers begin at 0 again, with the start time.
        assert_eq!(teller.say("log 0"), format!("0 0 {time} 32"));
    }
}

#[test]
fn cycle() {
    tell(&[
        ("start 1000 0 0", "0"),
        ("cycle 999 0 - - -", "5"),
        ("cycle 999 601 - - -", "5"),
        ("cycle 3155760000 0 - - -", "6"),
        ("cycle 3155760000 601 - - -", "6"),
        ("cycle 1000 601 - - -", "7"),
        ("cycle 1000 18446744073709551615 - - -", "7"),
        ("cycle 1000 600 - - -", "0"),
        ("cycle 3155759999 600 - - -", "0"),
        ("cycle 3155759998 0 - - -", "5"),
    ]);
}

#[test]
fn begin() {
    tell(&[
        ("begin 0", "3"),
        ("begin 3", "3"),
        ("begin 18446744073709551615", "3"),
        ("begin 1", "0"),
        ("begin 1", "2"),
        ("begin 2", "0"),
        ("begin 2", "2"),
        ("begin 3", "3"),
    ]);
}

#[test]
fn read() {
    tell(&[
        ("read 0 1", "3"),
        ("read 3 1", "3"),
        ("read 1 0", "3"),
        ("read 1 30", "3"),
        ("read 1 29", "4"),
        ("read 1 1", "4"),
        ("begin 2", "0"),
        ("read 1 1", "4"),
        ("read 2 30", "3"),
        ("read 2 29", "0 w 100"),
        ("read 2 1", "0 w 1"),
        ("read 2 12", "0 c 3f80000000000000"),
    ]);
}

#[test]
fn write() {
    tell(&[
        // 3 before 4 and 9.
        ("write 0 1 w 9", "3"),
        ("write 3 1 w 1", "3"),
        ("write 1 0 w 9", "3"),
        ("write 1 30 w 9", "3"),
        // 4 before 9.
        ("write 1 1 w 9", "4"),
        ("write 1 1 w 1", "4"),
        ("write 1 22 w 9", "4"),
        ("write 1 29 w 0", "4"),
        ("begin 1", "0"),
        ("write 1 30 w 9", "3"),
        ("write 1 22 w 9", "9"),
        ("write 1 29 c 4059000000000000", "9"),
        ("write 1 1 w 9", "9"),
        ("write 1 1 c 0000000000000000", "9"),
        ("write 1 12 w 0", "9"),
        ("write 1 12 c 7ff0000000000000", "9"),
        ("write 1 12 c fff8000000000001", "9"),
        ("write 1 1 w 3", "0"),
        ("write 1 12 c 0000000000000001", "0"),
        // A refused write leaves the staged value.
        ("write 1 1 w 9", "9"),
        ("read 1 1", "0 w 3"),
    ]);
}

/// Values to try of a setting, in this order, with the answers they must have.
fn tried(setting: &Setting) -> Vec<(Value, &'static str)> {
    match setting.range {
        Range::Whole { low, high } => vec![
            (Value::Whole(low - 1), "9"),
            (Value::Whole(low), "0"),
            (Value::Whole(high), "0"),
            (Value::Whole(high + 1), "9"),
            (Value::Whole(i64::MIN), "9"),
            (Value::Whole(i64::MAX), "9"),
            (Value::Coefficient(high as f64), "9"),
            (Value::Coefficient(f64::from_bits(high as u64)), "9"),
        ],
        Range::Finite => vec![
            (Value::Coefficient(f64::MIN), "0"),
            (Value::Coefficient(f64::MAX), "0"),
            (Value::Coefficient(f64::from_bits(1)), "0"),
            (Value::Coefficient(-0.0), "0"),
            (Value::Coefficient(f64::INFINITY), "9"),
            (Value::Coefficient(f64::NEG_INFINITY), "9"),
            (Value::Coefficient(f64::NAN), "9"),
            (Value::Coefficient(f64::from_bits(0x7ff0_0000_0000_0001)), "9"),
            (Value::Coefficient(f64::from_bits(u64::MAX)), "9"),
            (Value::Whole(0), "9"),
            (Value::Whole(i64::MAX), "9"),
        ],
    }
}

/// Every row of the settings page: both ends, the numbers beside them, the
/// wrong kind, and floats that are not finite. What was accepted last is staged.
#[test]
fn ranges() {
    for door in [1, 2] {
        let mut teller = Teller::new();
        teller.done(&[&format!("begin {door}")]);
        for setting in &PAGE.settings {
            let number = setting.number;
            let mut staged = setting.factory;
            for (value, answer) in tried(setting) {
                let line = format!("write {door} {number} {}", shown(value));
                assert_eq!(teller.say(&line), answer, "{line}");
                staged = if answer == "0" { value } else { staged };
                let read = teller.say(&format!("read {door} {number}"));
                assert_eq!(read, format!("0 {}", shown(staged)), "after {line}");
            }
        }
    }
}

#[test]
fn factory_settings() {
    let mut teller = Teller::new();
    teller.done(&["begin 1"]);
    for setting in &PAGE.settings {
        let answer = teller.say(&format!("read 1 {}", setting.number));
        assert_eq!(answer, format!("0 {}", shown(setting.factory)), "{}", setting.name);
    }
}

/// A device on which these locks are open; bit l - 1 is lock l.
fn with_open_locks(open: u8) -> Teller {
    let mut teller = Teller::new();
    for lock in (1..=LOCKS).filter(|lock| open >> (lock - 1) & 1 == 1) {
        teller.done(&[&format!("open {lock} 0")]);
    }
    teller
}

/// Every setting alone with every set of open locks: it is put in force exactly
/// if one of the locks in its lock's row is open.
#[test]
fn rights() {
    for setting in &PAGE.settings {
        for open in 0..LOCK_SETS as u8 {
            let mut teller = with_open_locks(open);
            let value = shown(setting.factory);
            teller.done(&["begin 1", &format!("write 1 {} {value}", setting.number)]);
            let right = setting.lock.any_of & open != 0;
            let answer = if right { "0" } else { "10" };
            assert_eq!(teller.say("commit 1"), answer, "{}, locks {open}", setting.name);
            assert_eq!(teller.say("audit 0") == "13", !right);
        }
    }
}

/// A clear needs what its own row among the locks says.
#[test]
fn right_to_clear() {
    let clear = PAGE.lock("Clear").expect("a row of locks");
    for open in 0..LOCK_SETS as u8 {
        let answer = if clear.any_of & open != 0 { "0" } else { "10" };
        assert_eq!(with_open_locks(open).say("clear"), answer, "locks {open}");
    }
}

#[test]
fn commit() {
    tell(&[
        ("commit 0", "3"),
        ("commit 3", "3"),
        ("commit 1", "4"),
        ("begin 1", "0"),
        ("commit 2", "4"),
        ("commit 1", "0"),
        ("commit 1", "4"),
    ]);
    // 10, 11 and 12 alone, and each of them ends the session.
    let mut teller = Teller::new();
    teller.done(&["begin 1", "write 1 1 w 1"]);
    teller.tell(&[("commit 1", "10"), ("commit 1", "4")]);
    teller.done(&["open 1 0", "begin 1"]);
    teller.tell(&[("read 1 1", "0 w 1")]);
    teller.done(&["begin 2", "write 2 1 w 1", "commit 2"]);
    teller.tell(&[("commit 1", "11"), ("commit 1", "4")]);
    teller.done(&["begin 1", "write 1 7 w 700001"]);
    teller.tell(&[("commit 1", "12"), ("commit 1", "4")]);
    teller.tell(&[("audit 0", "0 0 0 2 1 w 1 w 1"), ("audit 1", "13")]);
}

/// A session in which any of a lock missing, a stale commit and a pair out of
/// order apply: the smallest number is given.
#[test]
fn commit_with_several_reasons() {
    for bits in 0..8 {
        let (missing, stale, pair) = (bits & 1 != 0, bits & 2 != 0, bits & 4 != 0);
        let mut teller = Teller::new();
        teller.done(&["open 1 0", "begin 1"]);
        teller.tell(&[("read 1 21", "0 w 0")]);
        teller.done(&["write 1 2 w 100000"]);
        if pair {
            teller.done(&["write 1 9 w 6001"]);
        }
        if stale {
            teller.done(&["begin 2", "write 2 21 w 1", "commit 2"]);
        }
        if missing {
            teller.done(&["shut 1"]);
        }
        let answer = match (missing, stale, pair) {
            (true, _, _) => "10",
            (_, true, _) => "11",
            (_, _, true) => "12",
            _ => "0",
        };
        assert_eq!(teller.say("commit 1"), answer, "{missing} {stale} {pair}");
        assert_eq!(teller.say("commit 1"), "4");
    }
}

#[test]
fn abandon() {
    tell(&[
        ("abandon 0", "3"),
        ("abandon 3", "3"),
        ("abandon 1", "4"),
        ("begin 1", "0"),
        ("abandon 2", "4"),
        ("abandon 1", "0"),
        ("abandon 1", "4"),
    ]);
}

#[test]
fn open_and_shut() {
    tell(&[
        ("start 0 11 12", "0"),
        ("open 0 11", "3"),
        ("open 4 11", "3"),
        ("shut 0", "3"),
        ("shut 4", "3"),
        ("open 1 99", "0"),
        ("open 1 98", "0"),
        ("open 2 12", "8"),
        ("open 2 11", "0"),
        ("open 2 12", "8"),
        ("open 2 11", "0"),
        ("open 3 11", "8"),
        ("open 3 12", "0"),
        ("open 3 0", "8"),
        ("shut 1", "0"),
        ("shut 1", "0"),
        ("shut 2", "0"),
        ("shut 3", "0"),
        // Only turns are logged: 1, 2, 3 opened, 1, 2, 3 shut.
        ("log 0", "0 5 0 43"),
        ("log 1", "0 4 0 42"),
        ("log 2", "0 3 0 41"),
        ("log 3", "0 2 0 33"),
        ("log 4", "0 1 0 32"),
        ("log 5", "0 0 0 31"),
        ("log 6", "13"),
    ]);
}

#[test]
fn clear() {
    let with_lock = |open: &str| {
        let mut teller = Teller::new();
        teller.done(&["cycle 0 0 - 101325 -", "cycle 0 0 5120 - -"]);
        if !open.is_empty() {
            teller.done(&[open]);
        }
        let answer = teller.say("clear");
        let report = teller.say("report");
        // Alarms and latches only.
        let words: Vec<&str> = report.split(' ').collect();
        (answer, words[8..14].join(" "))
    };
    // T went and is dropped, p is present and stays.
    assert_eq!(with_lock("open 1 0"), ("0".into(), "1 0 0 1 0 0".into()));
    assert_eq!(with_lock("open 2 0"), ("0".into(), "1 0 0 1 0 0".into()));
    assert_eq!(with_lock("open 3 0"), ("10".into(), "1 0 0 1 1 0".into()));
    assert_eq!(with_lock(""), ("10".into(), "1 0 0 1 1 0".into()));
}

#[test]
fn tick() {
    tell(&[
        ("tick 0", "0 0 0 0 0"),
        ("tick 599", "0 0 0 0 0"),
        ("tick 600", "0 0 0 0 0"),
        ("tick 601", "15"),
        ("tick 65536", "15"),
        ("tick 4294967296", "15"),
        ("tick 18446744073709551615", "15"),
        // No session, door, lock or setting has a say in it.
        ("begin 1", "0"),
        ("begin 2", "0"),
        ("tick 601", "15"),
        ("tick 600", "0 0 0 0 0"),
    ]);
}

#[test]
fn readout() {
    for length in ["0", "1", "100", "155", "0000155"] {
        tell(&[(&format!("readout {length}"), "16")]);
    }
    // No session, door, lock or setting has a say in it.
    tell(&[("begin 1", "0"), ("begin 2", "0"), ("open 1 0", "0"), ("readout 155", "16")]);
}

/// What is no message. `tests/reader.rs` has what is nearly one.
#[test]
fn parse() {
    for bytes in ["00", "02", "03", "0203", "ffff", "000000"] {
        tell(&[(&format!("parse {bytes}"), "17")]);
    }
    tell(&[("begin 1", "0"), ("begin 2", "0"), ("open 1 0", "0"), ("parse 02", "17")]);
}

#[test]
fn books() {
    for book in ["archive", "log", "audit"] {
        for index in ["0", "1", "14", "15", "199", "200", "249", "250", "18446744073709551615"] {
            tell(&[(&format!("{book} {index}"), "13")]);
        }
    }
}

/// Every refusal in one device in use, with all that can be seen unchanged.
#[test]
fn a_refusal_changes_nothing() {
    let mut teller = Teller::new();
    teller.done(&["start 100 11 12", "open 1 0", "open 2 11", "begin 1", "write 1 16 w 9000"]);
    teller.done(&["write 1 22 w 2", "write 1 26 w 30", "commit 1"]);
    teller.done(&["cycle 9999999 7 - - -", "begin 1", "write 1 21 w 5"]);
    let before = teller.everything();
    // 700 litres: 23 times 30, and ten.
    assert_eq!(teller.say("outputs"), "0 1000000 23 0 0 0 0 0 0 0 0 0 0");
    for (line, answer) in [
        ("cycle 9999998 1 5120 101325 -", "5"),
        ("cycle 3155760000 1 5120 101325 -", "6"),
        ("cycle 99999999 601 5120 101325 -", "7"),
        ("begin 1", "2"),
        ("begin 3", "3"),
        ("read 2 1", "4"),
        ("read 1 30", "3"),
        ("write 2 1 w 0", "4"),
        ("write 1 1 w 9", "9"),
        ("write 1 99 w 9", "3"),
        ("write 1 25 w 99", "9"),
        ("write 1 26 w -5", "9"),
        ("commit 2", "4"),
        ("commit 9", "3"),
        ("abandon 2", "4"),
        ("open 2 12", "8"),
        ("open 3 11", "8"),
        ("open 7 0", "3"),
        ("shut 7", "3"),
        ("tick 601", "15"),
        ("readout 155", "16"),
        ("readout 201", "?"),
        ("parse 02", "17"),
        ("parse 0", "?"),
        ("archive 99", "13"),
        ("log 999", "13"),
        ("audit 999", "13"),
        ("nonsense", "?"),
    ] {
        assert_eq!(teller.say(line), answer, "{line}");
        assert_eq!(teller.everything(), before, "{line}");
    }
    // The session with its staged value is still there.
    teller.tell(&[("read 1 21", "0 w 5"), ("read 1 1", "0 w 1"), ("commit 1", "0")]);
}
