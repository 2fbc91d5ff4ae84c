//! The twelve cases by hand, H1 to H12, H8 as request Two moved it, the
//! rollover of the totals, and the gas months.

mod common;

use common::{tell, Teller};
use corrector_reference::device::{
    factor, measured_temperature, temperature_float, Counters, Cycle, Device, Totals, KELVIN,
};

fn kelvin(t: i64) -> u64 {
    (t + KELVIN) as u64
}

#[test]
fn h1_all_as_at_base_conditions() {
    assert_eq!(factor(101_325, 101_325, 27_315, 27_315, 10_000), 100_000);
    assert_eq!(factor(90_000, 90_000, 29_815, 29_815, 10_000), 100_000);
}

#[test]
fn h2_twice_the_pressure_at_twenty_degrees() {
    assert_eq!(factor(202_650, 101_325, kelvin(2_000), 27_315, 10_000), 186_355);
}

#[test]
fn h3_a_half_goes_up() {
    assert_eq!(factor(100_001, 100_000, 27_315, 27_315, 20_000), 50_001);
}

#[test]
fn h4_factory_device() {
    assert_eq!(measured_temperature(temperature_float(-40.0, 0.0078125, 0.0, 7_680)), Some(2_000));
    tell(&[
        ("cycle 0 10 7680 202650 -", "0"),
        ("report", "0 0 1000 0 186355000 0 1000 186355000 0 0 0 0 0 0 0 0 0"),
    ]);
}

#[test]
fn h5_pressure_below_its_limit() {
    tell(&[
        ("cycle 0 10 7680 89999 -", "0"),
        // With p.F of 101,325 the factor is 93,178.
        ("report", "0 0 0 1000 0 93178000 1000 93178000 1 0 0 1 0 0 0 0 0"),
    ]);
    tell(&[
        ("cycle 0 10 7680 90000 -", "0"),
        ("report", "0 0 1000 0 82763000 0 1000 82763000 0 0 0 0 0 0 0 0 0"),
    ]);
}

/// H5 again with the totals as the state keeps them.
#[test]
fn h5_with_its_totals() {
    let after = |p: u64| {
        let mut device = Device::new();
        let cycle = Cycle { time: 60, n: 10, raw: Some(7_680), p: Some(p), k: None };
        device.cycle(&cycle).expect("an accepted cycle");
        let report = device.report().expect("a report");
        (report.counters, report.totals)
    };
    // One side gains all, and the totals gain the same.
    let disturbed =
        Counters { vm_disturbed: 1_000, vb_disturbed: 93_178_000, ..Counters::default() };
    assert_eq!(after(89_999), (disturbed, Totals { vm: 1_000, vb: 93_178_000 }));
    let main = Counters { vm: 1_000, vb: 82_763_000, ..Counters::default() };
    assert_eq!(after(90_000), (main, Totals { vm: 1_000, vb: 82_763_000 }));
}

#[test]
fn h6_nearest_and_limits() {
    assert_eq!(measured_temperature(-0.5), Some(-1));
    assert_eq!(measured_temperature(2_000.5), Some(2_001));
    assert_eq!(measured_temperature(-0.25), Some(0));
    assert_eq!(measured_temperature(20_000.0), Some(20_000));
    assert_eq!(measured_temperature(f64::from_bits(20_000_f64.to_bits() + 1)), None);
    assert_eq!(measured_temperature(-10_000.0), Some(-10_000));
    assert_eq!(measured_temperature(f64::from_bits((-10_000_f64).to_bits() + 1)), None);
    assert_eq!(measured_temperature(-2_000.5), Some(-2_001));
    assert_eq!(measured_temperature(f64::NAN), None);
    assert_eq!(measured_temperature(f64::INFINITY), None);
    assert_eq!(measured_temperature(f64::NEG_INFINITY), None);
    assert_eq!(measured_temperature(-0.0), Some(0));
}

/// The way to 999,999,999,900 litres through the front door.
#[test]
fn h7_rollover() {
    let mut teller = Teller::new();
    teller.done(&["open 1 0", "begin 1", "write 1 1 w 4", "commit 1"]);
    for _ in 0..16_666 {
        teller.done(&["cycle 0 600 5120 101325 -"]);
    }
    teller.done(&["cycle 0 399 5120 101325 -"]);
    teller.done(&["begin 1", "write 1 1 w 1", "commit 1"]);
    teller.done(&["cycle 0 600 5120 101325 -", "cycle 0 399 5120 101325 -"]);
    // The factor is 1 throughout, so Vb has the same digits and five more.
    teller.tell(&[
        (
            "report",
            "0 0 999999999900 0 99999999990000000 0 999999999900 99999999990000000 \
             0 0 0 0 0 0 1 0 0",
        ),
        ("cycle 0 1 5120 101325 -", "0"),
        ("report", "0 0 0 0 0 0 0 0 0 0 0 0 0 0 1 0 0"),
    ]);
}

/// Vm at 600,000,000,000 and VmD one pulse short of 400,000,000,000, through
/// the front door. The factor is 1 throughout, so the base counters have the
/// same digits and five more. One pulse then rolls both totals over while none
/// of the four counters does.
#[test]
fn totals_roll_over_while_neither_part_does() {
    for (last, report) in [
        (
            "cycle 0 1 5120 101325 -",
            "0 0 600000000100 399999999900 60000000010000000 39999999990000000 0 0 \
             0 0 0 1 0 0 1 0 0",
        ),
        (
            "cycle 0 1 5120 - -",
            "0 0 600000000000 400000000000 60000000000000000 40000000000000000 0 0 \
             1 0 0 1 0 0 1 0 0",
        ),
    ] {
        let mut teller = Teller::new();
        teller.done(&["open 1 0", "begin 1", "write 1 1 w 4", "commit 1"]);
        for _ in 0..10_000 {
            teller.done(&["cycle 0 600 5120 101325 -"]);
        }
        for _ in 0..6_666 {
            teller.done(&["cycle 0 600 5120 - -"]);
        }
        teller.done(&["cycle 0 399 5120 - -"]);
        teller.done(&["begin 1", "write 1 1 w 1", "commit 1"]);
        teller.done(&["cycle 0 600 5120 - -", "cycle 0 399 5120 - -"]);
        teller.tell(&[
            (
                "report",
                "0 0 600000000000 399999999900 60000000000000000 39999999990000000 \
                 999999999900 99999999990000000 1 0 0 1 0 0 1 0 0",
            ),
            (last, "0"),
            ("report", report),
        ]);
    }
}

#[test]
fn h8_the_first_month() {
    // 31 days are 2,678,400 seconds, and six hours are 21,600 more.
    tell(&[
        ("cycle 2699999 10 5120 101325 -", "0"),
        ("archive 0", "13"),
        ("cycle 2700000 10 5120 101325 -", "0"),
        ("archive 0", "0 0 1000 0 100000000 0"),
        ("archive 1", "13"),
    ]);
}

#[test]
fn h9_the_whole_century() {
    let mut teller = Teller::new();
    teller.done(&["cycle 0 1 5120 101325 -", "cycle 3155759999 0 5120 101325 -"]);
    for index in 0..15 {
        let line = format!("0 {} 100 0 10000000 0", 1_198 - index);
        assert_eq!(teller.say(&format!("archive {index}")), line);
    }
    teller.tell(&[("archive 15", "13"), ("cycle 3155760000 0 - - -", "6")]);
}

// The gas months of request Two. At 0 degrees, p of pb and K of 1 the factor is
// 1: one pulse is 100 litres, and 10,000,000 of Vb.

#[test]
fn gas_month_after_a_leap_february() {
    // 2000 has 366 days and 2001 to 2003 have 365 each, so 1 January 2004 is
    // day 1,461. February begins on day 1,492 and has 29 days; 1 March is day
    // 1,521. Times 86,400: 128,908,800 for 1 February, 131,328,000 for the
    // 29th, 131,414,400 for 1 March; six is 21,600 later. January 2004 is month
    // 4 x 12 = 48, February month 49.
    tell(&[
        ("start 128908800 0 0", "0"),
        // 1 February, 05:59:59, is January still.
        ("cycle 128930399 1 5120 101325 -", "0"),
        ("archive 0", "13"),
        ("cycle 128930400 1 5120 101325 -", "0"),
        ("archive 0", "0 48 100 0 10000000 0"),
        // 29 February is a day like any other, at midnight and at six.
        ("cycle 131328000 1 5120 101325 -", "0"),
        ("cycle 131349599 1 5120 101325 -", "0"),
        ("cycle 131349600 1 5120 101325 -", "0"),
        ("archive 1", "13"),
        // 1 March: midnight, 05:59:59, six.
        ("cycle 131414400 1 5120 101325 -", "0"),
        ("archive 1", "13"),
        ("cycle 131435999 1 5120 101325 -", "0"),
        ("archive 1", "13"),
        ("cycle 131436000 1 5120 101325 -", "0"),
        ("archive 0", "0 49 700 0 70000000 0"),
        ("archive 1", "0 48 100 0 10000000 0"),
        ("archive 2", "13"),
    ]);
}

#[test]
fn gas_month_after_a_short_february() {
    // 1 January 2003 is day 366 + 365 + 365 = 1,096, and 1 March is 31 + 28 days
    // later, day 1,155. Times 86,400: 99,792,000; six is 99,813,600. February
    // 2003 is month 3 x 12 + 1 = 37. The start is 28 February, 06:00, a day
    // before.
    tell(&[
        ("start 99727200 0 0", "0"),
        ("cycle 99813599 1 5120 101325 -", "0"),
        ("archive 0", "13"),
        ("cycle 99813600 1 5120 101325 -", "0"),
        ("archive 0", "0 37 100 0 10000000 0"),
        ("archive 1", "13"),
    ]);
}

#[test]
fn gas_month_at_the_turn_of_the_year() {
    // 2000 has 366 days: 1 January 2001 begins at 366 x 86,400 = 31,622,400, and
    // January's gas month, number 12, at 31,644,000. December 2000 is month 11.
    tell(&[
        ("start 31622399 0 0", "0"),
        ("cycle 31622399 1 5120 101325 -", "0"),
        ("cycle 31622400 1 5120 101325 -", "0"),
        ("archive 0", "13"),
        ("cycle 31643999 1 5120 101325 -", "0"),
        ("archive 0", "13"),
        ("cycle 31644000 1 5120 101325 -", "0"),
        ("archive 0", "0 11 300 0 30000000 0"),
        ("archive 1", "13"),
    ]);
}

#[test]
fn gas_month_of_the_first_six_hours_of_all() {
    // From the first time to six and beyond there is one month, number 0.
    tell(&[
        ("cycle 0 1 5120 101325 -", "0"),
        ("cycle 21599 1 5120 101325 -", "0"),
        ("cycle 21600 1 5120 101325 -", "0"),
        ("archive 0", "13"),
        ("cycle 2700000 1 5120 101325 -", "0"),
        ("archive 0", "0 0 300 0 30000000 0"),
        ("archive 1", "13"),
    ]);
    // The same from a start at each of these times.
    for time in [0, 1, 21_599, 21_600, 21_601] {
        let mut teller = Teller::new();
        teller.done(&[&format!("start {time} 0 0"), "cycle 2699999 1 5120 101325 -"]);
        assert_eq!(teller.say("archive 0"), "13", "start at {time}");
        teller.done(&["cycle 2700000 1 5120 101325 -"]);
        assert_eq!(teller.say("archive 0"), "0 0 100 0 10000000 0", "start at {time}");
        assert_eq!(teller.say("archive 1"), "13", "start at {time}");
    }
}

#[test]
fn gas_month_of_a_start_before_six() {
    // 1 February 2000, 03:00, is 2,678,400 + 3 x 3,600 = 2,689,200: month 0.
    tell(&[
        ("start 2689200 0 0", "0"),
        ("archive 0", "13"),
        ("cycle 2700000 1 5120 101325 -", "0"),
        ("archive 0", "0 0 0 0 0 0"),
        ("archive 1", "13"),
    ]);
    // A start at six is in month 1. That ends on 1 March at six: 60 days are
    // 5,184,000 seconds, and six hours later it is 5,205,600.
    tell(&[
        ("start 2700000 0 0", "0"),
        ("cycle 5205599 1 5120 101325 -", "0"),
        ("archive 0", "13"),
        ("cycle 5205600 1 5120 101325 -", "0"),
        ("archive 0", "0 1 100 0 10000000 0"),
        ("archive 1", "13"),
    ]);
}

#[test]
fn gas_months_crossed_into_the_hours_before_six() {
    // 1 July 2000 is day 31 + 29 + 31 + 30 + 31 + 30 = 182 and begins at
    // 15,724,800. At 05:59:59, 15,746,399, June, month 5, is not over yet.
    tell(&[
        ("cycle 0 1 5120 101325 -", "0"),
        ("cycle 15746399 1 5120 101325 -", "0"),
        ("archive 0", "0 4 100 0 10000000 0"),
        ("archive 4", "0 0 100 0 10000000 0"),
        ("archive 5", "13"),
        ("cycle 15746400 1 5120 101325 -", "0"),
        ("archive 0", "0 5 200 0 20000000 0"),
        ("archive 1", "0 4 100 0 10000000 0"),
        ("archive 6", "13"),
    ]);
}

#[test]
fn h10_pulses() {
    tell(&[
        ("cycle 0 600 5120 101325 -", "0"),
        ("cycle 0 601 5120 101325 -", "7"),
        ("report", "0 0 60000 0 6000000000 0 60000 6000000000 0 0 0 0 0 0 0 0 0"),
    ]);
}

#[test]
fn h11_stale() {
    let with_read = |read: bool| {
        let mut teller = Teller::new();
        teller.done(&["start 0 5 6", "open 2 5", "begin 1"]);
        if read {
            teller.tell(&[("read 1 16", "0 w 10000")]);
        }
        teller.done(&["begin 2", "write 2 16 w 9000", "commit 2", "write 1 14 w 100000"]);
        teller.say("commit 1")
    };
    assert_eq!(with_read(true), "11");
    assert_eq!(with_read(false), "0");
}

#[test]
fn h12_pairs() {
    let mut teller = Teller::new();
    teller.done(&["open 1 0", "begin 1", "write 1 8 w 80000"]);
    assert_eq!(teller.say("commit 1"), "12");
    teller.done(&["begin 1", "write 1 8 w 80000", "write 1 7 w 80000"]);
    assert_eq!(teller.say("commit 1"), "0");
}
