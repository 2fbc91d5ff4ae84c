//! The readout of request Five: the message byte by byte, what is cut off, the
//! lent buffer, and that a readout changes nothing.
//!
//! The check character is 23 (hexadecimal) xor the values of the 72 digits;
//! `src/readout.rs` works out why.

mod common;

use common::{tell, Teller};

/// The six values of a device that has counted nothing.
const ZEROS: [&str; 6] = ["000000000.000"; 6];

/// The answer to a readout into so many bytes: the six values as they must be
/// shown, in the order of the lines, and the check character.
fn answer(length: usize, values: [&str; 6], check: char) -> String {
    let [vb, vb_disturbed, vb_total, vm, vm_disturbed, vm_total] = values;
    let message = format!(
        "\x02\
         2:300({vb}*m3)\r\n\
         2:301({vb_disturbed}*m3)\r\n\
         2:302({vb_total}*m3)\r\n\
         4:300({vm}*m3)\r\n\
         4:301({vm_disturbed}*m3)\r\n\
         4:302({vm_total}*m3)\r\n\
         !\r\n\x03{check}"
    );
    assert_eq!(message.len(), 156);
    let digits: String = message.bytes().map(|byte| format!("{byte:02x}")).collect();
    format!("0 {digits}{}", "aa".repeat(length - 156))
}

/// A device on which the factor is p. One pulse is 10 litres. A cycle without K
/// is disturbed and counts the same.
fn plain_factor() -> Teller {
    let mut teller = Teller::new();
    teller.done(&["open 1 0", "begin 1", "write 1 1 w 0", "write 1 2 w 100000"]);
    teller.done(&["write 1 5 w 0", "write 1 6 w 1", "write 1 7 w 10000"]);
    teller.done(&["write 1 8 w 10000000", "write 1 15 w 0", "commit 1"]);
    teller
}

/// Every digit of an answer. Nothing was started yet.
#[test]
fn a_fresh_device() {
    let expected = concat!(
        "0 02",
        "323a333030283030303030303030302e3030302a6d33290d0a",
        "323a333031283030303030303030302e3030302a6d33290d0a",
        "323a333032283030303030303030302e3030302a6d33290d0a",
        "343a333030283030303030303030302e3030302a6d33290d0a",
        "343a333031283030303030303030302e3030302a6d33290d0a",
        "343a333032283030303030303030302e3030302a6d33290d0a",
        "210d0a03",
        "23",
    );
    assert_eq!(answer(156, ZEROS, '#'), expected);
    tell(&[("readout 156", expected), ("start 99 1 2", "0"), ("readout 156", expected)]);
}

/// H4 brings Vm 1,000 litres and Vb 186,355,000. With three times its pulses H5
/// brings VmD 3,000 litres and VbD 279,534,000, so that VbT is 465,889,000: no
/// two of the six values are the same.
#[test]
fn each_value_at_its_address() {
    let mut teller = Teller::new();
    teller.done(&["cycle 0 10 7680 202650 -"]);
    // 1 8 6 3 twice and 1 twice leave nothing.
    let (vb, vm, zero) = ("000000001.863", "000000001.000", "000000000.000");
    let expected = answer(156, [vb, zero, vb, vm, zero, vm], '#');
    assert_eq!(teller.say("readout 156"), expected);
    teller.done(&["cycle 0 30 7680 89999 -"]);
    // 1 8 6 3 is c, 2 7 9 5 is 9, 4 6 5 8 is f, and 1 3 4 is 6. Together they
    // are c, and 23 xor 0c is 2f.
    let (vb_disturbed, vb_total) = ("000000002.795", "000000004.658");
    let (vm_disturbed, vm_total) = ("000000003.000", "000000004.000");
    let values = [vb, vb_disturbed, vb_total, vm, vm_disturbed, vm_total];
    assert_eq!(teller.say("readout 156"), answer(156, values, '/'));
}

/// Every length that is lent, and what is not lent.
#[test]
fn every_length() {
    let mut teller = Teller::new();
    teller.done(&["cycle 0 10 7680 202650 -"]);
    let (vb, vm, zero) = ("000000001.863", "000000001.000", "000000000.000");
    let values = [vb, zero, vb, vm, zero, vm];
    for length in 0..=300 {
        let expected = match length {
            0..=155 => "16".to_string(),
            156..=200 => answer(length, values, '#'),
            _ => "?".to_string(),
        };
        assert_eq!(teller.say(&format!("readout {length}")), expected, "{length}");
    }
}

/// Amounts around a whole litre and around a cubic metre: never up. Main and
/// total are the same, so that their digits cancel.
#[test]
fn cut_off_and_not_rounded() {
    for (p, shown) in [
        (10_000, "000000000.001"),
        (14_999, "000000000.001"),
        (15_000, "000000000.001"),
        (19_999, "000000000.001"),
        (20_000, "000000000.002"),
        (99_999, "000000000.009"),
        (9_995_000, "000000000.999"),
        (9_999_999, "000000000.999"),
        (10_000_000, "000000001.000"),
    ] {
        let mut teller = plain_factor();
        teller.done(&[&format!("cycle 0 1 - {p} 10000")]);
        let (zero, litres) = ("000000000.000", "000000000.010");
        let expected = answer(156, [shown, zero, shown, litres, zero, litres], '#');
        assert_eq!(teller.say("readout 156"), expected, "{p}");
    }
}

/// 1.6 litres on either side: one litre each when cut off, and three together.
#[test]
fn the_total_is_the_kept_one() {
    let mut teller = plain_factor();
    teller.done(&["cycle 0 1 - 16000 10000", "cycle 0 1 - 16000 -"]);
    let (part, total) = ("000000000.001", "000000000.003");
    let (litres, both) = ("000000000.010", "000000000.020");
    // 1 1 3 is 3, and 1 1 2 is 2: 23 xor 01 is 22.
    let expected = answer(156, [part, part, total, litres, litres, both], '"');
    assert_eq!(teller.say("readout 156"), expected);
}

/// What is cut off in a readout is not lost to the next: 1.6, 3.2, 4.8, 6.4 and
/// 8 litres.
#[test]
fn nothing_is_taken_away() {
    let mut teller = plain_factor();
    for (litres, vb) in [(10, 1), (20, 3), (30, 4), (40, 6), (50, 8)] {
        teller.done(&["cycle 0 1 - 16000 10000"]);
        let (vb, vm) = (format!("000000000.00{vb}"), format!("000000000.0{litres}"));
        let zero = "000000000.000";
        let expected = answer(157, [&vb, zero, &vb, &vm, zero, &vm], '#');
        assert_eq!(teller.say("readout 157"), expected);
    }
}

/// Vm, VmT, Vb and VbT one pulse of ten litres before their rollover, and after
/// it. The nines are 44.
#[test]
fn through_the_rollover() {
    let mut teller = Teller::new();
    let set_code = |teller: &mut Teller, code: u32| {
        teller.done(&["begin 1", &format!("write 1 1 w {code}"), "commit 1"]);
    };
    let cycle = |teller: &mut Teller, n: u32| {
        teller.done(&[&format!("cycle 0 {n} 5120 101325 -")]);
    };
    teller.done(&["open 1 0"]);
    // 16,666 x 60,000,000 and 39,900,000 are 100,000 short of 10^12.
    set_code(&mut teller, 4);
    for _ in 0..16_666 {
        cycle(&mut teller, 600);
    }
    cycle(&mut teller, 399);
    // 16 x 6,000 and 3,990 are ten short of that.
    set_code(&mut teller, 0);
    for _ in 0..16 {
        cycle(&mut teller, 600);
    }
    cycle(&mut teller, 399);
    let (most, zero) = ("999999999.990", "000000000.000");
    let expected = answer(200, [most, zero, most, most, zero, most], '#');
    assert_eq!(teller.say("readout 200"), expected);
    cycle(&mut teller, 1);
    assert_eq!(teller.say("readout 200"), answer(200, ZEROS, '#'));
}

/// Sessions, locks and alarms have no say in it, and it has none in theirs.
#[test]
fn a_readout_changes_nothing() {
    let mut teller = Teller::new();
    teller.done(&["start 100 11 12", "open 2 11", "begin 1", "write 1 22 w 3"]);
    teller.done(&["write 1 26 w 30", "commit 1", "cycle 9999999 7 - 101325 -"]);
    // Seven pulses at T.F, a factor of 94,794: 66,355,800, all disturbed.
    let (zero, base, litres) = ("000000000.000", "000000000.663", "000000000.700");
    let expected = answer(156, [zero, base, base, zero, litres, litres], '#');
    assert_eq!(teller.say("readout 156"), expected);
    // One door has read a setting, the other has staged it.
    teller.done(&["begin 1", "begin 2", "write 2 16 w 9000"]);
    teller.tell(&[("read 1 16", "0 w 10000")]);
    let before = teller.everything();
    for (line, answer) in [
        ("readout 156", expected.as_str()),
        ("readout 155", "16"),
        ("readout 0", "16"),
        ("readout 201", "?"),
        ("readout 156", expected.as_str()),
    ] {
        assert_eq!(teller.say(line), answer, "{line}");
        assert_eq!(teller.everything(), before, "{line}");
    }
    teller.tell(&[("read 2 16", "0 w 9000"), ("commit 2", "0"), ("commit 1", "11")]);
    // A setting put in force does not touch what was counted.
    assert_eq!(teller.say("readout 156"), expected);
    teller.tell(&[("tick 600", "0 23 0 0 0"), ("readout 156", &expected)]);
}

/// A refused cycle brings nothing, and a start leaves nothing, refused or not.
#[test]
fn after_a_refused_cycle_and_after_a_start() {
    for start in ["start 50 5 6", "start 3155760000 5 6"] {
        let mut teller = Teller::new();
        teller.done(&["cycle 60 10 7680 202650 -"]);
        let counted = teller.say("readout 200");
        teller.tell(&[("cycle 59 10 7680 202650 -", "5"), ("readout 200", &counted)]);
        teller.tell(&[("cycle 60 601 7680 202650 -", "7"), ("readout 200", &counted)]);
        teller.say(start);
        assert_eq!(teller.say("readout 200"), answer(200, ZEROS, '#'));
    }
}
