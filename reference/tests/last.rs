//! The question of request Seven: the newest held line of the logbook with a code,
//! and how many lines were looked at.
//!
//! The answers are worked out from the lines that a story writes. A line has the
//! time of the last accepted cycle, or of the start, and the numbers begin at 0.

mod common;

use common::{tell, Teller};
use corrector_reference::device::Device;
use corrector_reference::generate::{random_script, Rng};
use corrector_reference::lines::{answer_line, read_line, Line};

/// Alarms p, T and K came and went, locks 1 to 3 opened and shut, and pulses of
/// outputs 1 to 4 lost.
const CODES: [u64; 16] = [11, 12, 13, 21, 22, 23, 31, 32, 33, 41, 42, 43, 51, 52, 53, 54];

/// What no line can have: numbers beside these, and such as have one of them in
/// their lower bits.
const NO_CODES: [u64; 17] = [
    0,
    1,
    10,
    14,
    30,
    34,
    50,
    55,
    99,
    255,
    256,
    256 + 31,
    65_536,
    65_536 + 31,
    (1 << 32) + 31,
    (1 << 63) + 31,
    u64::MAX,
];

/// Turns lock 1 so many times, from where it stands: a line each time, of code 31
/// or 41.
fn turn(teller: &mut Teller, times: usize) {
    for _ in 0..times {
        let report = teller.say("report");
        let open = report.split(' ').nth(14) == Some("1");
        teller.done(&[if open { "shut 1" } else { "open 1 0" }]);
    }
}

fn asked(teller: &mut Teller, code: u64) -> String {
    teller.say(&format!("last {code}"))
}

/// When did the pressure alarm last come?
#[test]
fn a_member_telephones() {
    tell(&[
        ("start 1000 1 2", "0"),
        ("last 11", "0 - 0"),
        ("cycle 1060 10 7680 202650 -", "0"),
        ("last 11", "0 - 0"),
        ("cycle 1120 10 7680 89999 -", "0"),
        ("last 11", "0 0 1120 11 1"),
        ("last 21", "0 - 1"),
        ("cycle 1180 10 7680 202650 -", "0"),
        ("last 11", "0 0 1120 11 2"),
        ("last 21", "0 1 1180 21 1"),
        // It came again, and the newer line is answered.
        ("cycle 1240 10 7680 89999 -", "0"),
        ("last 11", "0 2 1240 11 1"),
        ("log 2", "0 0 1120 11"),
        // A cycle in which it stays has no line.
        ("cycle 1300 10 7680 89999 -", "0"),
        ("last 11", "0 2 1240 11 1"),
        ("open 2 1", "0"),
        ("last 11", "0 2 1240 11 2"),
        ("last 32", "0 3 1300 32 1"),
        ("last 21", "0 1 1180 21 3"),
        ("last 42", "0 - 4"),
    ]);
}

/// Lines of one cycle stand in their order: p, T, K, the last one newest.
#[test]
fn lines_of_one_cycle() {
    tell(&[
        ("open 1 0", "0"),
        ("begin 1", "0"),
        ("write 1 6 w 1", "0"),
        ("commit 1", "0"),
        ("cycle 5 0 - - -", "0"),
        ("last 13", "0 3 5 13 1"),
        ("last 12", "0 2 5 12 2"),
        ("last 11", "0 1 5 11 3"),
        ("last 31", "0 0 0 31 4"),
        // p went, and T and K stay.
        ("cycle 6 0 - 101325 -", "0"),
        ("last 21", "0 4 6 21 1"),
        ("last 13", "0 3 5 13 2"),
        ("last 22", "0 - 5"),
    ]);
}

/// Every code in turn is that of line 0, with the number and the time of that line.
#[test]
fn each_code_at_line_0() {
    let mut teller = Teller::new();
    teller.done(&["start 100 7 8", "open 1 0"]);
    let mut number = 0;
    let mut newest = |teller: &mut Teller, time: u64, code: u64| {
        assert_eq!(asked(teller, code), format!("0 {number} {time} {code} 1"));
        assert_eq!(teller.say("log 0"), format!("0 {number} {time} {code}"));
        number += 1;
    };
    newest(&mut teller, 100, 31);
    teller.done(&["begin 1", "write 1 1 w 4", "write 1 6 w 1", "commit 1"]);
    // One alarm more in each cycle, and then one less.
    for (time, readings, code) in [
        (101, "5120 - 10000", 11),
        (102, "- - 10000", 12),
        (103, "- - -", 13),
        (104, "- 101325 -", 21),
        (105, "5120 101325 -", 22),
        (106, "5120 101325 10000", 23),
    ] {
        teller.done(&[&format!("cycle {time} 0 {readings}")]);
        newest(&mut teller, time, code);
    }
    for (line, code) in
        [("open 2 7", 32), ("open 3 8", 33), ("shut 1", 41), ("shut 3", 43), ("shut 2", 42)]
    {
        teller.done(&[line]);
        newest(&mut teller, 106, code);
    }
    // 100,000 litres are as many pulses at a litre, and no more than 65,535 wait.
    // One output after the other is on VmT, and the others are off.
    teller.done(&["open 2 7"]);
    newest(&mut teller, 106, 32);
    for output in 0..4 {
        let time = 110 + output;
        teller.done(&["begin 2", &format!("write 2 {} w 3", 22 + output)]);
        teller.done(&[&format!("write 2 {} w 1", 26 + output), "commit 2"]);
        teller.done(&[&format!("cycle {time} 1 5120 101325 10000")]);
        newest(&mut teller, time, 51 + output);
        teller.done(&["begin 2", &format!("write 2 {} w 0", 22 + output), "commit 2"]);
    }
    // 17 lines in all, and 32 is the only code that came twice: its newer line stands
    // before those of the outputs. The others have one line each.
    let looked = [16, 15, 14, 13, 12, 11, 17, 5, 9, 8, 6, 7, 4, 3, 2, 1];
    for (code, looked) in CODES.into_iter().zip(looked) {
        let line = teller.say(&format!("log {}", looked - 1));
        assert_eq!(asked(&mut teller, code), format!("{line} {looked}"));
        assert!(line.ends_with(&format!(" {code}")), "{line}");
    }
}

/// One line grows old. It is the last one of a book that fills up, then the last
/// one of a full book, and then it is lost.
#[test]
fn a_line_grows_old_and_is_lost() {
    let mut teller = Teller::new();
    teller.done(&["start 77 0 0", "open 3 0"]);
    for lines in 1..=249 {
        assert_eq!(asked(&mut teller, 33), format!("0 0 77 33 {lines}"));
        assert_eq!(asked(&mut teller, 43), format!("0 - {lines}"));
        turn(&mut teller, 1);
    }
    teller.tell(&[("last 33", "0 0 77 33 250"), ("log 249", "0 0 77 33"), ("log 250", "13")]);
    turn(&mut teller, 1);
    teller.tell(&[("last 33", "0 - 250"), ("log 249", "0 1 77 31"), ("log 250", "13")]);
    for _ in 0..300 {
        turn(&mut teller, 1);
        assert_eq!(asked(&mut teller, 33), "0 - 250");
    }
    // Once more: the new line is answered, with nothing of the old one.
    teller.done(&["shut 3", "open 3 0"]);
    teller.tell(&[("last 33", "0 552 77 33 1"), ("last 43", "0 551 77 43 2")]);
}

/// The oldest line gives way, and a newer one of the same code is answered still.
#[test]
fn the_older_of_two_is_lost() {
    let mut teller = Teller::new();
    teller.done(&["open 3 0", "shut 3"]);
    turn(&mut teller, 100);
    teller.done(&["open 3 0"]);
    teller.tell(&[("last 33", "0 102 0 33 1"), ("last 43", "0 1 0 43 102")]);
    turn(&mut teller, 147);
    teller.tell(&[("log 249", "0 0 0 33"), ("last 33", "0 102 0 33 148")]);
    turn(&mut teller, 1);
    teller.tell(&[("log 249", "0 1 0 43"), ("last 33", "0 102 0 33 149")]);
    teller.tell(&[("last 43", "0 1 0 43 250")]);
    turn(&mut teller, 1);
    teller.tell(&[("last 43", "0 - 250"), ("last 33", "0 102 0 33 150")]);
}

/// A line at any place around where the store begins again, with a few lines after
/// it: the match stands on this side and on that.
#[test]
fn across_the_end_of_the_store() {
    for first in [230, 480, 730] {
        for number in first..first + 40 {
            let mut teller = Teller::new();
            turn(&mut teller, number);
            teller.done(&["open 3 0"]);
            for after in 0..30 {
                let looked = after + 1;
                assert_eq!(asked(&mut teller, 33), format!("0 {number} 0 33 {looked}"));
                turn(&mut teller, 1);
            }
        }
    }
}

/// 254 lines. Those of the last cycle stand at the first places of the store, before
/// that of lock 2; those of the cycle before at the last ones.
#[test]
fn both_sides_of_the_end_of_the_store() {
    let mut teller = Teller::new();
    teller.done(&["open 1 0", "begin 1", "write 1 6 w 1", "commit 1"]);
    for time in 1..=84 {
        let readings = if time % 2 == 1 { "- - -" } else { "5120 101325 10000" };
        teller.done(&[&format!("cycle {time} 0 {readings}")]);
    }
    teller.done(&["open 2 0"]);
    teller.tell(&[
        ("last 32", "0 253 84 32 1"),
        ("last 23", "0 252 84 23 2"),
        ("last 22", "0 251 84 22 3"),
        ("last 21", "0 250 84 21 4"),
        ("last 13", "0 249 83 13 5"),
        ("last 12", "0 248 83 12 6"),
        ("last 11", "0 247 83 11 7"),
        ("last 31", "0 - 250"),
    ]);
}

#[test]
fn none_in_an_empty_book() {
    let mut teller = Teller::new();
    teller.done(&["start 5 1 2"]);
    for code in CODES.into_iter().chain(NO_CODES) {
        assert_eq!(asked(&mut teller, code), "0 - 0", "{code}");
    }
    teller.tell(&[("log 0", "13")]);
}

#[test]
fn none_in_a_full_book() {
    let mut teller = Teller::new();
    turn(&mut teller, 250);
    for lines in 250..255 {
        for code in CODES.into_iter().chain(NO_CODES).filter(|code| ![31, 41].contains(code)) {
            assert_eq!(asked(&mut teller, code), "0 - 250", "{code} of {lines}");
        }
        turn(&mut teller, 1);
    }
}

/// Any number may be asked for, and all that is held is then looked at.
#[test]
fn codes_that_no_line_can_have() {
    let mut teller = Teller::new();
    turn(&mut teller, 3);
    for code in ["0", "1", "99", "65536", "18446744073709551615"] {
        assert_eq!(teller.say(&format!("last {code}")), "0 - 3", "{code}");
    }
    for code in (0..=70_000).filter(|code| ![31, 41].contains(code)).chain(NO_CODES) {
        assert_eq!(asked(&mut teller, code), "0 - 3", "{code}");
    }
}

/// Before any start the device is that of start time 0: the logbook is empty, as
/// `log` says too, and nothing is refused. So it is after a refused start.
#[test]
fn before_a_start() {
    tell(&[
        ("report", "0 0 0 0 0 0 0 0 0 0 0 0 0 0 0 0 0"),
        ("log 0", "13"),
        ("last 11", "0 - 0"),
        ("last 0", "0 - 0"),
        ("cycle 9 0 5120 - -", "0"),
        ("last 11", "0 0 9 11 1"),
        ("start 3155760000 1 2", "6"),
        ("log 0", "13"),
        ("last 11", "0 - 0"),
        ("open 1 0", "0"),
        ("last 11", "0 - 1"),
        ("last 31", "0 0 0 31 1"),
    ]);
}

/// A start writes nothing into the store, and yet no line of before is held. The
/// lines after it come over the old ones one by one.
#[test]
fn a_start_leaves_nothing_to_be_found() {
    for lines in [1, 2, 100, 249, 250, 251, 300] {
        let mut teller = Teller::new();
        turn(&mut teller, lines);
        teller.done(&["start 60 0 0"]);
        for code in CODES {
            assert_eq!(asked(&mut teller, code), "0 - 0", "{code} after {lines}");
        }
        for held in 1..=20 {
            let (line, code) = if held % 2 == 1 { ("open 2 0", 32) } else { ("shut 2", 42) };
            teller.done(&[line]);
            assert_eq!(asked(&mut teller, code), format!("0 {} 60 {code} 1", held - 1));
            for code in [31, 41] {
                assert_eq!(asked(&mut teller, code), format!("0 - {held}"), "after {lines}");
            }
        }
    }
}

/// Numbers come to 65,535 and begin again. One line just there, and one after it.
#[test]
fn past_the_last_number() {
    let mut teller = Teller::new();
    turn(&mut teller, 65_535);
    teller.tell(&[("last 31", "0 65534 0 31 1"), ("last 41", "0 65533 0 41 2")]);
    teller.done(&["open 3 0"]);
    teller.tell(&[("last 33", "0 65535 0 33 1"), ("last 31", "0 65534 0 31 2")]);
    teller.done(&["shut 3"]);
    teller.tell(&[("last 43", "0 0 0 43 1"), ("last 33", "0 65535 0 33 2")]);
    for lines in 2..=249 {
        turn(&mut teller, 1);
        assert_eq!(asked(&mut teller, 43), format!("0 0 0 43 {lines}"));
        // The number does not say which of two lines is newer.
        let answer = asked(&mut teller, 33);
        assert_eq!(answer, format!("0 65535 0 33 {}", lines + 1));
    }
    turn(&mut teller, 1);
    teller.tell(&[("last 33", "0 - 250"), ("last 43", "0 0 0 43 250")]);
    turn(&mut teller, 1);
    teller.tell(&[("last 43", "0 - 250")]);
}

/// The locks have no say in it.
#[test]
fn whatever_the_locks() {
    for open in 0..8_u32 {
        let mut teller = Teller::new();
        teller.done(&["cycle 5 0 5120 - -"]);
        for lock in (1..=3).filter(|lock| open >> (lock - 1) & 1 == 1) {
            teller.done(&[&format!("open {lock} 0")]);
        }
        let looked = 1 + open.count_ones();
        assert_eq!(asked(&mut teller, 11), format!("0 0 5 11 {looked}"), "locks {open}");
        assert_eq!(asked(&mut teller, 12), format!("0 - {looked}"), "locks {open}");
    }
}

fn answer(device: &mut Device, line: &str) -> String {
    let mut answer = Vec::new();
    let _ = answer_line(device, line.as_bytes(), &mut answer);
    String::from_utf8(answer).expect("an answer of plain characters")
}

/// Nothing at all of the device, with a session open at each door.
#[test]
fn a_question_changes_nothing() {
    let mut device = Device::new();
    for line in [
        "start 100 11 12",
        "open 2 11",
        "begin 1",
        "write 1 22 w 3",
        "write 1 26 w 30",
        "commit 1",
        "cycle 9999999 7 - 101325 -",
        "begin 1",
        "begin 2",
        "write 2 16 w 9000",
    ] {
        assert_eq!(answer(&mut device, line), "0", "{line}");
    }
    assert_eq!(answer(&mut device, "read 1 16"), "0 w 10000");
    let before = format!("{device:?}");
    for code in CODES.into_iter().chain(NO_CODES) {
        let expected = match code {
            12 => "0 1 9999999 12 1",
            32 => "0 0 100 32 2",
            _ => "0 - 2",
        };
        assert_eq!(answer(&mut device, &format!("last {code}")), expected, "{code}");
        assert_eq!(format!("{device:?}"), before, "{code}");
    }
    for line in ["last", "last -1", "last 1 2", "last x", "last 18446744073709551616"] {
        assert_eq!(answer(&mut device, line), "?", "{line}");
        assert_eq!(format!("{device:?}"), before, "{line}");
    }
    // It is no step of a session: what door 1 has read is stale, as without it.
    for (line, expected) in [
        ("read 2 16", "0 w 9000"),
        ("commit 2", "0"),
        ("last 12", "0 1 9999999 12 1"),
        ("commit 1", "11"),
        ("commit 1", "4"),
        ("last 12", "0 1 9999999 12 1"),
    ] {
        assert_eq!(answer(&mut device, line), expected, "{line}");
    }
}

/// The code is read as the place of `log` is.
#[test]
fn lines_that_are_no_question() {
    for line in [
        "last",
        "last ",
        "last  11",
        " last 11",
        "last 11 ",
        "last 1 2",
        "last 11 11",
        "last -1",
        "last -11",
        "last -0",
        "last +11",
        "last -",
        "last x",
        "last p",
        "last 1x",
        "last 0x0b",
        "last 11.0",
        "last 1,1",
        "last 18446744073709551616",
        "last 18446744073709551627",
        "last 99999999999999999999999999999999",
        "last\t11",
        "last 11\r",
        "last11",
        "Last 11",
        "LAST 11",
        "lasts 11",
        "las 11",
        "last w 11",
        "last log 11",
    ] {
        tell(&[("cycle 3 0 5120 - -", "0"), (line, "?"), ("last 11", "0 0 3 11 1")]);
        // Whatever is wrong with it is wrong with `log` too.
        let log = line.replacen("last", "log", 1);
        assert_eq!(read_line(log.as_bytes()), Line::Malformed, "{log}");
    }
    let [longest, too_long] = [500, 501].map(|length| format!("last {:0>1$}", 11, length - 5));
    for (line, answer) in [
        ("last 11", "0 0 3 11 1"),
        ("last 011", "0 0 3 11 1"),
        ("last 18446744073709551615", "0 - 1"),
        ("last 00018446744073709551615", "0 - 1"),
        (longest.as_str(), "0 0 3 11 1"),
        (too_long.as_str(), "?"),
    ] {
        tell(&[("cycle 3 0 5120 - -", "0"), (line, answer)]);
    }
}

/// The book as `log 0`, `log 1` and so on show it, up to 13.
fn looked_through(device: &mut Device) -> Vec<String> {
    let lines = (0..).map(|index| answer(device, &format!("log {index}")));
    lines.take_while(|line| line != "13").collect()
}

/// The answer of looking at every line: the newest of all that match.
fn found_among(book: &[String], code: u64) -> String {
    let mut found = format!("0 - {}", book.len());
    for (place, line) in book.iter().enumerate().rev() {
        if line.split(' ').nth(3) == Some(&code.to_string()) {
            found = format!("{line} {}", place + 1);
        }
    }
    found
}

/// The question against a search through the whole book, all along random scripts.
#[test]
fn as_looking_at_every_held_line() {
    let mut rng = Rng::new(71);
    let (mut found, mut none, mut full) = (0, 0, 0);
    for _ in 0..40 {
        let script = random_script(&mut rng);
        let mut device = Device::new();
        for (place, line) in script.lines.iter().enumerate() {
            let _ = answer_line(&mut device, line, &mut Vec::new());
            if place % 50 != 0 {
                continue;
            }
            let book = looked_through(&mut device);
            full += usize::from(book.len() == 250);
            for code in CODES.into_iter().chain(NO_CODES) {
                let expected = found_among(&book, code);
                assert_eq!(answer(&mut device, &format!("last {code}")), expected, "{code}");
                if expected.starts_with("0 -") {
                    none += 1;
                } else {
                    found += 1;
                }
            }
        }
    }
    assert!(found > 1_000 && none > 1_000 && full > 100, "{found} {none} {full}");
}

/// The question against a book that is kept here, of every line that was written.
/// Locks turn and the pressure alarm comes and goes, and `log` plays no part.
#[test]
fn as_the_lines_that_were_written() {
    let mut rng = Rng::new(72);
    for _ in 0..12 {
        let mut teller = Teller::new();
        let mut written: Vec<(usize, u64, u64)> = Vec::new();
        let (mut time, mut alarm, mut open) = (0, false, [false; 3]);
        for _ in 0..900 {
            // Lock 3 seldom, so that its lines grow old.
            let code = match rng.below(60) {
                0 => 3,
                1..=20 => 1,
                21..=29 => 2,
                _ => 0,
            };
            let code = if code == 0 {
                time += rng.below(100);
                alarm = !alarm;
                let p = if alarm { "-" } else { "101325" };
                teller.done(&[&format!("cycle {time} 0 5120 {p} -")]);
                if alarm {
                    11
                } else {
                    21
                }
            } else {
                let is_open = &mut open[code - 1];
                *is_open = !*is_open;
                let line = if *is_open { format!("open {code} 0") } else { format!("shut {code}") };
                teller.done(&[&line]);
                code as u64 + if *is_open { 30 } else { 40 }
            };
            written.push((written.len(), time, code));
            let held: Vec<&(usize, u64, u64)> = written.iter().rev().take(250).collect();
            for code in [11, 21, 31, 32, 33, 41, 42, 43, 51, 0] {
                let mut places = (0..held.len()).filter(|place| held[*place].2 == code);
                let expected = match places.next() {
                    Some(place) => {
                        let (number, time, code) = held[place];
                        format!("0 {number} {time} {code} {}", place + 1)
                    }
                    None => format!("0 - {}", held.len()),
                };
                assert_eq!(asked(&mut teller, code), expected);
            }
        }
    }
}
