//! The archive, the logbook and the audit trail, full and past their numbers.

mod common;

use common::{tell, Teller};

#[test]
fn months_one_by_one() {
    let mut teller = Teller::new();
    // Three years, the first a leap year, one cycle at the first second and
    // one at the last of each month. A month ends at six on the first of the
    // next, so month 0 is six hours longer than its days.
    let days = [31, 29, 31, 30, 31, 30, 31, 31, 30, 31, 30, 31];
    let (mut first, mut midnight) = (0, 0);
    for month in 0..36_u64 {
        let length = if month % 12 == 1 && month > 12 { 28 } else { days[month as usize % 12] };
        midnight += length * 86_400;
        let last = midnight + 21_600 - 1;
        teller.done(&[&format!("cycle {first} 1 5120 101325 -")]);
        if month > 0 {
            let litres = 200 * month;
            let line = format!("0 {} {litres} 0 {}00000 0", month - 1, litres);
            assert_eq!(teller.say("archive 0"), line);
        }
        teller.done(&[&format!("cycle {last} 1 5120 101325 -")]);
        let held = month.min(15);
        assert_eq!(teller.say(&format!("archive {held}")), "13", "month {month}");
        if held > 0 {
            let oldest = month - held;
            let answer = teller.say(&format!("archive {}", held - 1));
            assert!(answer.starts_with(&format!("0 {oldest} ")), "month {month}: {answer}");
        }
        first = last + 1;
    }
}

/// All 1,199 firsts of the century: at midnight and a second before six no line
/// is written, and at six that of the month before.
#[test]
fn every_first_of_the_century() {
    let mut teller = Teller::new();
    let (mut midnight, mut litres) = (0_u64, 0_u64);
    let mut newest = "13".to_string();
    for month in 0..1_199_u64 {
        // February has 29 days every fourth year. 2000 is such a year, and no
        // other full century comes up.
        midnight += 86_400
            * match (month / 12 % 4, month % 12) {
                (0, 1) => 29,
                (_, 1) => 28,
                (_, 3 | 5 | 8 | 10) => 30,
                _ => 31,
            };
        for time in [midnight - 1, midnight, midnight + 10_800, midnight + 21_599] {
            teller.done(&[&format!("cycle {time} 1 5120 101325 -")]);
            assert_eq!(teller.say("archive 0"), newest, "time {time}");
        }
        litres += 400;
        newest = format!("0 {month} {litres} 0 {litres}00000 0");
        for time in [midnight + 21_600, midnight + 21_601] {
            teller.done(&[&format!("cycle {time} 1 5120 101325 -")]);
            assert_eq!(teller.say("archive 0"), newest, "time {time}");
        }
        litres += 200;
    }
    // December 2099 is left.
    assert_eq!(midnight + 31 * 86_400, 3_155_760_000);
    teller.done(&["cycle 3155759999 1 5120 101325 -"]);
    assert_eq!(teller.say("archive 0"), newest);
}

#[test]
fn several_months_in_one_cycle() {
    // From 15 February 2000 (day 45) to 2 July 2000 (day 183).
    tell(&[
        ("start 3888000 0 0", "0"),
        ("cycle 3888000 1 5120 101325 -", "0"),
        ("cycle 15811200 1 5120 101325 -", "0"),
        ("archive 0", "0 5 100 0 10000000 0"),
        ("archive 1", "0 4 100 0 10000000 0"),
        ("archive 2", "0 3 100 0 10000000 0"),
        ("archive 3", "0 2 100 0 10000000 0"),
        ("archive 4", "0 1 100 0 10000000 0"),
        ("archive 5", "13"),
    ]);
}

/// Jumps of every length, each checked against the months themselves. (When a
/// month begins is tested above; here only how many lines are written.)
#[test]
fn jumps_of_any_length() {
    use corrector_reference::calendar::first_second;
    for jump in [1, 2, 13, 14, 15, 16, 17, 29, 30, 31, 500, 1_100] {
        let mut teller = Teller::new();
        teller.done(&["cycle 0 1 5120 101325 -"]);
        // Three months first, so that the archive does not begin at its place 0.
        teller.done(&[&format!("cycle {} 1 5120 101325 -", first_second(3))]);
        teller.done(&[&format!("cycle {} 1 5120 101325 -", first_second(3 + jump))]);
        let closed = 3 + jump;
        for index in 0..16 {
            let answer = teller.say(&format!("archive {index}"));
            if index < closed && index < 15 {
                let month = closed - 1 - index;
                let litres = if month < 3 { 100 } else { 200 };
                assert_eq!(answer, format!("0 {month} {litres} 0 {litres}00000 0"), "{jump}");
            } else {
                assert_eq!(answer, "13", "{jump}");
            }
        }
    }
}

/// A refused cycle closes no month.
#[test]
fn a_refused_cycle_closes_no_month() {
    tell(&[
        ("cycle 3000000 601 - - -", "7"),
        ("archive 0", "13"),
        ("cycle 0 0 - - -", "0"),
        ("archive 0", "13"),
    ]);
}

#[test]
fn the_logbook_keeps_the_last_250_and_counts_past_65535() {
    let mut teller = Teller::new();
    for turn in 0..65_800_u32 {
        let line = if turn % 2 == 0 { "open 1 0" } else { "shut 1" };
        assert_eq!(teller.say(line), "0");
        let number = turn % 65_536;
        let code = if turn % 2 == 0 { 31 } else { 41 };
        if !(600..=65_500).contains(&turn) {
            assert_eq!(teller.say("log 0"), format!("0 {number} 0 {code}"));
            let held = (turn + 1).min(250);
            assert_eq!(teller.say(&format!("log {held}")), "13");
            let oldest = turn + 1 - held;
            let code = if oldest % 2 == 0 { 31 } else { 41 };
            let line = format!("0 {} 0 {code}", oldest % 65_536);
            assert_eq!(teller.say(&format!("log {}", held - 1)), line);
        }
    }
}

#[test]
fn the_audit_trail_keeps_the_last_200_and_counts_past_65535() {
    let mut teller = Teller::new();
    teller.done(&["open 3 0"]);
    for turn in 0..65_700_u32 {
        teller.done(&["begin 2", &format!("write 2 21 w {turn}"), "commit 2"]);
        let old = turn.saturating_sub(1);
        if !(500..=65_500).contains(&turn) {
            let line = format!("0 {} 0 2 21 w {old} w {turn}", turn % 65_536);
            assert_eq!(teller.say("audit 0"), line);
            let held = (turn + 1).min(200);
            assert_eq!(teller.say(&format!("audit {held}")), "13");
            let oldest = turn + 1 - held;
            let line =
                format!("0 {} 0 2 21 w {} w {oldest}", oldest % 65_536, oldest.saturating_sub(1));
            assert_eq!(teller.say(&format!("audit {}", held - 1)), line);
        }
    }
    // The two books number separately.
    assert_eq!(teller.say("log 0"), "0 0 0 33");
}

/// Every change from one set of alarms to another, in the order of the paper.
#[test]
fn alarm_lines_of_one_cycle() {
    let mut teller = Teller::new();
    teller.done(&["open 1 0", "begin 1", "write 1 6 w 1", "commit 1"]);
    let readings = |alarms: u32| {
        format!(
            "{} {} {}",
            if alarms & 2 != 0 { "-" } else { "5120" },
            if alarms & 1 != 0 { "-" } else { "101325" },
            if alarms & 4 != 0 { "-" } else { "10000" },
        )
    };
    let mut number = 1;
    for before in 0..8 {
        for after in 0..8 {
            let time = u64::from(before * 8 + after + 1);
            number += first_to(&mut teller, &readings(before), time);
            teller.done(&[&format!("cycle {time} 0 {}", readings(after))]);
            let mut codes = Vec::new();
            for (bit, code) in [(1, 11), (2, 12), (4, 13)] {
                if after & bit != 0 && before & bit == 0 {
                    codes.push(code);
                }
            }
            for (bit, code) in [(1, 21), (2, 22), (4, 23)] {
                if before & bit != 0 && after & bit == 0 {
                    codes.push(code);
                }
            }
            for (index, code) in codes.iter().rev().enumerate() {
                let line = format!("0 {} {time} {code}", number + codes.len() - 1 - index);
                assert_eq!(teller.say(&format!("log {index}")), line, "{before} to {after}");
            }
            number += codes.len();
        }
    }
}

/// Brings the alarms to a set and gives the number of lines that took.
fn first_to(teller: &mut Teller, readings: &str, time: u64) -> usize {
    let number = |teller: &mut Teller| -> usize {
        teller.say("log 0").split(' ').nth(1).expect("a line").parse().expect("a number")
    };
    let before = number(teller);
    teller.done(&[&format!("cycle {time} 0 {readings}")]);
    number(teller) - before
}

#[test]
fn limits_of_the_readings() {
    // Alarms p, T, K of a report.
    let alarms = |setup: &[&str], readings: &str| {
        let mut teller = Teller::new();
        teller.done(&["open 1 0", "begin 1", "write 1 6 w 1"]);
        for write in setup {
            teller.done(&[&format!("write 1 {write}")]);
        }
        teller.done(&["commit 1", &format!("cycle 0 1 {readings}")]);
        let report = teller.say("report");
        report.split(' ').skip(8).take(3).collect::<Vec<_>>().join(" ")
    };
    assert_eq!(alarms(&[], "5120 90000 5000"), "0 0 0");
    assert_eq!(alarms(&[], "5120 700000 20000"), "0 0 0");
    assert_eq!(alarms(&[], "5120 89999 4999"), "1 0 1");
    assert_eq!(alarms(&[], "5120 700001 20001"), "1 0 1");
    assert_eq!(alarms(&[], "5120 18446744073709551615 18446744073709551615"), "1 0 1");
    assert_eq!(alarms(&[], "- - -"), "1 1 1");
    // -20 degrees is raw 2,560 and 60 degrees raw 12,800. One raw unit less or
    // more is 0.78 hundredths, which is 1 when taken to the nearest.
    assert_eq!(alarms(&[], "2560 101325 10000"), "0 0 0");
    assert_eq!(alarms(&[], "2559 101325 10000"), "0 1 0");
    assert_eq!(alarms(&[], "12800 101325 10000"), "0 0 0");
    assert_eq!(alarms(&[], "12801 101325 10000"), "0 1 0");
    // Modes of 0 never alarm.
    assert_eq!(alarms(&["4 w 0"], "- - -"), "0 1 1");
    assert_eq!(alarms(&["5 w 0"], "- - -"), "1 0 1");
    assert_eq!(alarms(&["6 w 0"], "- - -"), "1 1 0");
    assert_eq!(alarms(&["4 w 0", "5 w 0", "6 w 0"], "- - -"), "0 0 0");
    // Infinity less infinity is no temperature, nor is infinity.
    let max = "c 7fefffffffffffff";
    let min = "c ffefffffffffffff";
    assert_eq!(alarms(&[&format!("12 {max}"), &format!("13 {min}")], "9 101325 10000"), "0 1 0");
    assert_eq!(alarms(&[&format!("11 {max}")], "5120 101325 10000"), "0 1 0");
    assert_eq!(alarms(&[&format!("13 {max}")], "0 101325 10000"), "0 1 0");
}

/// An alarm sends the whole of both amounts to the disturbed counters.
#[test]
fn disturbed_amounts() {
    tell(&[
        ("cycle 0 1 5120 101325 -", "0"),
        ("cycle 0 2 - 101325 -", "0"),
        ("report", "0 0 100 200 10000000 18958800 300 28958800 0 1 0 0 1 0 0 0 0"),
        ("cycle 0 3 5120 101325 -", "0"),
        ("report", "0 0 400 200 40000000 18958800 600 58958800 0 0 0 0 1 0 0 0 0"),
    ]);
}

/// An archive line has the four counters and no total, although the state
/// keeps both beside them.
#[test]
fn no_total_in_an_archive_line() {
    tell(&[
        ("cycle 0 1 5120 101325 -", "0"),
        ("cycle 0 2 - 101325 -", "0"),
        ("cycle 2700000 0 5120 101325 -", "0"),
        ("archive 0", "0 0 100 200 10000000 18958800"),
        ("report", "0 2700000 100 200 10000000 18958800 300 28958800 0 0 0 0 1 0 0 0 0"),
    ]);
}
