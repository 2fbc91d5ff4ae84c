//! The reader of request Six: what is read back, what is refused and by which
//! number, and the line of the bench.
//!
//! The messages are put together here from their pieces, and not by the writer.

mod common;

use common::{tell, Teller};
use corrector_reference::command::{obey, Done};
use corrector_reference::device::{Device, Refusal};
use corrector_reference::generate::{random_script, Rng};
use corrector_reference::lines::{read_line, Line};
use corrector_reference::reader::parse;
use corrector_reference::readout::message_of;

const FORM: Result<[u64; 6], Refusal> = Err(Refusal::NotOfTheForm);
const CHECK: Result<[u64; 6], Refusal> = Err(Refusal::WrongCheck);

const ADDRESSES: [&str; 6] = ["2:300", "2:301", "2:302", "4:300", "4:301", "4:302"];
const LARGEST: u64 = 999_999_999_999;
/// The two cycles H4 and H5.
const H4_AND_H5: [u64; 6] = [1_863, 931, 2_795, 1_000, 1_000, 2_000];

/// A line in which each `#` is a digit.
fn empty_line(address: &str) -> Vec<u8> {
    format!("{address}(#########.###*m3)\r\n").into_bytes()
}

/// A line with its digits, from the last one to the first.
fn line(address: &str, litres: u64) -> Vec<u8> {
    let mut line = empty_line(address);
    let mut left = litres;
    for byte in line.iter_mut().rev().filter(|byte| **byte == b'#') {
        *byte = b'0' + (left % 10) as u8;
        left /= 10;
    }
    assert_eq!(left, 0, "{litres} has no such line");
    line
}

fn lines(values: [u64; 6]) -> Vec<Vec<u8>> {
    ADDRESSES.iter().zip(values).map(|(address, litres)| line(address, litres)).collect()
}

/// What is checked of these lines: all from after STX to ETX.
fn checked(lines: &[Vec<u8>]) -> Vec<u8> {
    [&lines.concat()[..], b"!\r\n\x03"].concat()
}

fn xor(bytes: &[u8]) -> u8 {
    bytes.iter().fold(0, |sum, byte| sum ^ byte)
}

/// A message of these lines, with a check character that fits.
fn whole(lines: &[Vec<u8>]) -> Vec<u8> {
    let checked = checked(lines);
    [&b"\x02"[..], &checked, &[xor(&checked)]].concat()
}

fn message(values: [u64; 6]) -> Vec<u8> {
    whole(&lines(values))
}

/// The places of the 72 digits. STX comes before what is checked.
fn digit_places() -> Vec<usize> {
    let empty = checked(&ADDRESSES.map(empty_line));
    (1..=empty.len()).filter(|place| empty[place - 1] == b'#').collect()
}

/// The same with another last byte.
fn with_check(message: &[u8], check: u8) -> Vec<u8> {
    let mut message = message.to_vec();
    *message.last_mut().expect("a last byte") = check;
    message
}

/// The same with a last byte that fits.
fn mended(message: &[u8]) -> Vec<u8> {
    with_check(message, xor(&message[1..message.len() - 1]))
}

/// The line of the bench.
fn parse_line(message: &[u8]) -> String {
    let digits: String = message.iter().map(|byte| format!("{byte:02x}")).collect();
    format!("parse {digits}")
}

/// Values of any number of digits, the ends among them.
fn random_values(rng: &mut Rng) -> [u64; 6] {
    [(); 6].map(|()| match rng.below(8) {
        0 => rng.pick(&[0, 1, 999, 1_000, LARGEST - 1, LARGEST]),
        _ => {
            let digits = 1 + rng.below(12) as u32;
            rng.below(10_u64.pow(digits))
        }
    })
}

/// Every byte of the example, so that the pieces above are held to the document.
/// The check character is 23 xor the digits, as `src/readout.rs` works out.
#[test]
fn a_message_by_hand() {
    let expected = concat!(
        "parse 02",
        "323a333030283030303030303030312e3836332a6d33290d0a",
        "323a333031283030303030303030302e3933312a6d33290d0a",
        "323a333032283030303030303030322e3739352a6d33290d0a",
        "343a333030283030303030303030312e3030302a6d33290d0a",
        "343a333031283030303030303030312e3030302a6d33290d0a",
        "343a333032283030303030303030322e3030302a6d33290d0a",
        "210d0a03",
        "2f",
    );
    let message = message(H4_AND_H5);
    assert_eq!(message.len(), 156);
    assert_eq!(parse_line(&message), expected);
    assert_eq!(parse(&message), Ok(H4_AND_H5));
    tell(&[(expected, "0 1863 931 2795 1000 1000 2000")]);
    assert_eq!(digit_places().len(), 72);
    let digits = digit_places().into_iter().fold(0, |sum, place| sum ^ message[place] & 15);
    assert_eq!(digits, 0x0c);
}

/// Each value at its own place in the answer, and each decimal in its own.
#[test]
fn each_value_at_its_place() {
    for place in 0..6 {
        for power in 0..12 {
            for digit in [1, 9] {
                let mut values = [0; 6];
                values[place] = digit * 10_u64.pow(power);
                assert_eq!(parse(&message(values)), Ok(values));
            }
        }
    }
    for value in [0, LARGEST] {
        assert_eq!(parse(&message([value; 6])), Ok([value; 6]));
    }
    assert_eq!(parse(&message([1, 2, 3, 4, 5, 6])), Ok([1, 2, 3, 4, 5, 6]));
}

#[test]
fn what_is_put_together_reads_back() {
    let mut rng = Rng::new(61);
    for _ in 0..20_000 {
        let values = random_values(&mut rng);
        assert_eq!(parse(&message(values)), Ok(values));
    }
}

/// What Five writes reads back to the cut-off values. They are those of the
/// report, a hundred thousand units to the litre.
#[test]
fn what_the_device_writes_reads_back() {
    let mut rng = Rng::new(62);
    let (mut read, mut differing) = (0, 0);
    for _ in 0..60 {
        let mut device = Device::new();
        for line in random_script(&mut rng).lines {
            let Line::Command(command) = read_line(&line) else { continue };
            let Ok(Done::Readout(buffer)) = obey(&mut device, &command) else { continue };
            let report = device.report().expect("a report");
            let (counters, totals) = (report.counters, report.totals);
            let base = [counters.vb, counters.vb_disturbed, totals.vb].map(|vb| vb / 100_000);
            let [vb, vb_disturbed, vb_total] = base;
            let [vm, vm_disturbed] = [counters.vm, counters.vm_disturbed];
            let values = [vb, vb_disturbed, vb_total, vm, vm_disturbed, totals.vm];
            assert_eq!(parse(&buffer[..156]), Ok(values));
            read += 1;
            differing += usize::from(vb + vb_disturbed != vb_total);
        }
    }
    assert!(read > 1_000, "{read} readouts");
    assert!(differing > 100, "{differing} whose cut-off parts are not the total");
}

/// One to three bytes of a message changed, one left out or one put in; with a
/// check character that fits as often as not. What is accepted all the same is
/// what is written for its values.
#[test]
fn what_is_accepted_is_what_is_written() {
    let mut rng = Rng::new(63);
    let digits = digit_places();
    let (mut accepted, mut wrong_form, mut wrong_check) = (0, 0, 0);
    for _ in 0..60_000 {
        let mut bytes = message(random_values(&mut rng));
        for _ in 0..1 + rng.below(3) {
            let place = rng.below(bytes.len() as u64 - 3) as usize;
            let any = rng.any() as u8;
            match rng.below(12) {
                0..=7 => bytes[rng.pick(&digits)] = b'0' + rng.below(10) as u8,
                8 => bytes[place] = any,
                9 => bytes[place] = bytes[place + 1],
                10 => {
                    bytes.remove(place);
                }
                _ => bytes.insert(place, any),
            }
        }
        if rng.percent(50) {
            bytes = mended(&bytes);
        }
        match parse(&bytes) {
            Ok(values) => {
                accepted += 1;
                assert!(values.iter().all(|value| *value <= LARGEST), "{values:?}");
                assert_eq!(message_of(&values), bytes);
                assert_eq!(message(values), bytes);
            }
            Err(Refusal::NotOfTheForm) => wrong_form += 1,
            Err(Refusal::WrongCheck) => wrong_check += 1,
            Err(refusal) => panic!("{refusal:?}"),
        }
    }
    let counts = [accepted, wrong_form, wrong_check];
    assert!(counts.iter().all(|count| *count > 5_000), "{counts:?}");
}

/// Each byte changed to each other value. A digit may become any other digit,
/// and the check character anything, and the form is right still: 18. Nothing
/// is accepted.
#[test]
fn every_byte_changed_to_every_other_value() {
    let good = message([123_456_789_012, 3, 45, 678_901, 0, LARGEST]);
    let digits = digit_places();
    let (mut wrong_form, mut wrong_check) = (0, 0);
    for place in 0..156 {
        for byte in (0..=255).filter(|byte| *byte != good[place]) {
            let mut bytes = good.clone();
            bytes[place] = byte;
            let of_form = place == 155 || digits.contains(&place) && byte.is_ascii_digit();
            let expected = if of_form { CHECK } else { FORM };
            assert_eq!(parse(&bytes), expected, "byte {place} changed to {byte:02x}");
            wrong_check += usize::from(of_form);
            wrong_form += usize::from(!of_form);
            // Every byte counts in the check but the first, which is STX.
            let fits = xor(&bytes[1..155]) == bytes[155];
            assert_eq!(fits, place == 0, "byte {place} changed to {byte:02x}");
        }
    }
    assert_eq!(wrong_check, 72 * 9 + 255);
    assert_eq!(wrong_form, 156 * 255 - (72 * 9 + 255));
}

/// A digit changed, and the check character with it: another value.
#[test]
fn a_digit_and_its_check_changed() {
    let good = message(H4_AND_H5);
    for (index, place) in digit_places().into_iter().enumerate() {
        let mut bytes = good.clone();
        bytes[place] = b'9';
        let mut values = H4_AND_H5;
        let weight = 10_u64.pow(11 - index as u32 % 12);
        let old = u64::from(good[place] - b'0');
        values[index / 12] += (9 - old) * weight;
        assert_eq!(parse(&mended(&bytes)), Ok(values), "digit {index}");
    }
}

/// Only 156 bytes are of the form. 155 of them end in ETX, and one after the
/// check character is one too many.
#[test]
fn every_length() {
    let good = message(H4_AND_H5);
    assert_eq!(good[154], 0x03);
    for length in 0..156 {
        assert_eq!(parse(&good[..length]), FORM, "{length}");
        // The end of it, and the front with a check character that fits.
        assert_eq!(parse(&good[156 - length..]), FORM, "{length}");
        if length >= 2 {
            assert_eq!(parse(&mended(&good[..length])), FORM, "{length}");
        }
    }
    for more in 1..=400 {
        for after in [&[0][..], b"\r", b"\n", b" ", b"/", &good, &[0x03]] {
            let after: Vec<u8> = after.iter().copied().cycle().take(more).collect();
            let longer = [&good[..], &after].concat();
            assert_eq!(parse(&longer), FORM, "{more} more");
            assert_eq!(parse(&mended(&longer)), FORM, "{more} more");
            assert_eq!(parse(&[&after[..], &good].concat()), FORM, "{more} before");
        }
    }
    assert_eq!(parse(b""), FORM);
}

/// A byte alone, and every two.
#[test]
fn a_byte_or_two() {
    for first in 0..=255 {
        assert_eq!(parse(&[first]), FORM);
        for second in 0..=255 {
            assert_eq!(parse(&[first, second]), FORM);
        }
    }
}

/// The lines of a message that are not the six in their order, each time with a
/// check character that fits, and with every other.
#[track_caller]
fn not_these(lines: &[Vec<u8>]) {
    let message = whole(lines);
    let shown = String::from_utf8_lossy(&message);
    for check in 0..=255 {
        assert_eq!(parse(&with_check(&message, check)), FORM, "{shown} with {check:02x}");
    }
}

#[test]
fn the_six_lines_in_their_order_and_nothing_else() {
    // The same value everywhere, so that the addresses alone tell.
    for values in [[5; 6], H4_AND_H5] {
        let good = lines(values);
        assert_eq!(parse(&whole(&good)), Ok(values));
        for one in 0..6 {
            for other in (0..6).filter(|other| *other != one) {
                let mut exchanged = good.clone();
                exchanged.swap(one, other);
                not_these(&exchanged);
                // One line twice, in the place of another.
                let mut twice = good.clone();
                twice[other] = good[one].clone();
                not_these(&twice);
            }
            let mut without = good.clone();
            without.remove(one);
            not_these(&without);
            for place in 0..=6 {
                let mut doubled = good.clone();
                doubled.insert(place, good[one].clone());
                not_these(&doubled);
            }
        }
        for foreign in ["2:303", "4:303", "1:300", "3:300", "5:300", "0:300", "2:310", "12:300"] {
            let mut seventh = good.clone();
            seventh.push(line(foreign, 5));
            not_these(&seventh);
            seventh.remove(0);
            not_these(&seventh);
        }
    }
    not_these(&[]);
}

/// One line written in another way than Five's. The value is the same to a
/// person in most of them.
#[test]
fn one_form_only() {
    let good = lines([1_000; 6]);
    assert_eq!(good[1], b"2:301(000000001.000*m3)\r\n");
    assert_eq!(parse(&whole(&good)), Ok([1_000; 6]));
    for other in [
        "2:301(1.000*m3)\r\n",
        "2:301(00000001.000*m3)\r\n",
        "2:301(0000000001.000*m3)\r\n",
        "2:301(000000001.00*m3)\r\n",
        "2:301(000000001.0000*m3)\r\n",
        "2:301(000000001*m3)\r\n",
        "2:301(000000001,000*m3)\r\n",
        "2:301(00000000.1000*m3)\r\n",
        "2:301(0000000010.00*m3)\r\n",
        "2:301(.000000001000*m3)\r\n",
        "2:301(000000001000.*m3)\r\n",
        "2:301(        1.000*m3)\r\n",
        "2:301(000000001.00 *m3)\r\n",
        "2:301(+00000001.000*m3)\r\n",
        "2:301(-00000001.000*m3)\r\n",
        "2:301(00000000A.000*m3)\r\n",
        "2:301(000000001.000*M3)\r\n",
        "2:301(000000001.000*m\u{b3})\r\n",
        "2:301(000000001.000 m3)\r\n",
        "2:301(000000001.000m3)\r\n",
        "2:301(000000001.000*m3)\n\r",
        "2:301(000000001.000*m3)\n",
        "2:301(000000001.000*m3)\r",
        "2:301(000000001.000*m3)",
        "2:301(000000001.000*m3)\r\n\r\n",
        "2:301 (000000001.000*m3)\r\n",
        " 2:301(000000001.000*m3)\r\n",
        "2:301(000000001.000*m3) \r\n",
        "2:301 000000001.000*m3 \r\n",
        "2;301(000000001.000*m3)\r\n",
        "2:3O1(000000001.000*m3)\r\n",
        "02:301(000000001.000*m3)\r\n",
        "",
    ] {
        let mut lines = good.clone();
        lines[1] = other.as_bytes().to_vec();
        not_these(&lines);
    }
}

/// The beginning and the end: STX, `!`, CR LF and ETX, with what is between them
/// as it should be and a check character that fits.
#[test]
fn one_frame_only() {
    let lines = lines(H4_AND_H5).concat();
    let framed = |begin: &[u8], end: &[u8]| {
        let mut bytes = [begin, &lines, end, &[0]].concat();
        let from = bytes.iter().position(|byte| *byte == b'2').expect("the first address");
        let check = xor(&bytes[from..bytes.len() - 1]);
        *bytes.last_mut().expect("a last byte") = check;
        parse(&bytes)
    };
    assert_eq!(framed(b"\x02", b"!\r\n\x03"), Ok(H4_AND_H5));
    for begin in [&b""[..], b"\x01", b"\x03", b"\x02\x02", b"\x02\n", b"\x02 ", b"/\r\n\x02"] {
        assert_eq!(framed(begin, b"!\r\n\x03"), FORM, "{begin:?}");
    }
    for end in [
        &b""[..],
        b"\x03",
        b"!\x03",
        b"!\r\n",
        b"\r\n\x03",
        b"!\n\r\x03",
        b"!\n\x03",
        b"!\r\x03",
        b"!\r\n\x02",
        b"!\r\n\x04",
        b"!\r\n\x03\x03",
        b"!!\r\n\x03",
        b"?\r\n\x03",
        b"!\r\n\r\n\x03",
        b"!\r\n\x03\r\n",
    ] {
        assert_eq!(framed(b"\x02", end), FORM, "{end:?}");
    }
}

/// The last byte alone decides between accepted and 18, and only where the form
/// is right.
#[test]
fn every_last_byte() {
    let good = message(H4_AND_H5);
    let mut spoilt = good.clone();
    spoilt[1] = b'3';
    for check in 0..=255 {
        let expected = if check == b'/' { Ok(H4_AND_H5) } else { CHECK };
        assert_eq!(parse(&with_check(&good, check)), expected, "{check:02x}");
        assert_eq!(parse(&with_check(&spoilt, check)), FORM, "{check:02x}");
    }
}

/// Not STX, but ETX. And a sum is no exclusive-or.
#[test]
fn what_is_checked() {
    let mut rng = Rng::new(64);
    for _ in 0..1_000 {
        let values = random_values(&mut rng);
        let good = message(values);
        let check = xor(&good[1..155]);
        assert_eq!(parse(&with_check(&good, check)), Ok(values));
        for other in [check ^ 0x02, check ^ 0x03, check ^ 0x02 ^ 0x03, check | 0x80, 0] {
            assert_eq!(parse(&with_check(&good, other)), CHECK, "{other:02x}");
        }
        let sum = good[1..155].iter().fold(0_u8, |sum, byte| sum.wrapping_add(*byte));
        let expected = if sum == check { Ok(values) } else { CHECK };
        assert_eq!(parse(&with_check(&good, sum)), expected);
    }
}

/// Totals are not tested against their parts.
#[test]
fn totals_are_as_they_stand() {
    for values in [
        // As the cut off decimals of a device may be: a litre more.
        [1, 1, 3, 0, 0, 0],
        [0, 0, 1, 0, 0, 0],
        // As no device would have them.
        [0, 0, 0, 0, 0, 1],
        [0, 0, LARGEST, 0, 0, LARGEST],
        [LARGEST, LARGEST, 0, LARGEST, LARGEST, 0],
        [LARGEST; 6],
        [7, 8, 1, 7, 8, 1],
    ] {
        assert_eq!(parse(&message(values)), Ok(values));
    }
}

/// It touches no device: it works before any start, in the middle of sessions, and
/// whatever it answers, nothing is changed.
#[test]
fn a_message_changes_nothing() {
    let mut teller = Teller::new();
    let good = parse_line(&message(H4_AND_H5));
    let read = "0 1863 931 2795 1000 1000 2000";
    teller.tell(&[(&good, read)]);
    teller.done(&["start 100 11 12", "open 2 11", "begin 1", "write 1 22 w 3", "commit 1"]);
    teller.done(&["cycle 9999999 7 - 101325 -", "begin 1", "begin 2", "write 2 16 w 9000"]);
    teller.tell(&[("read 1 16", "0 w 10000")]);
    let before = teller.everything();
    let own = teller.say("readout 156").replacen("0 ", "parse ", 1);
    let wrong_check = parse_line(&with_check(&message(H4_AND_H5), b'.'));
    for (line, answer) in [
        (good.as_str(), read),
        ("parse 02", "17"),
        (wrong_check.as_str(), "18"),
        // Seven pulses of 100 litres at a factor of 94,794, all disturbed.
        (own.as_str(), "0 0 663 663 0 700 700"),
        ("parse", "?"),
        ("parse 0", "?"),
    ] {
        assert_eq!(teller.say(line), answer, "{line}");
        assert_eq!(teller.everything(), before, "{line}");
    }
    teller.tell(&[("read 2 16", "0 w 9000"), ("commit 2", "0"), ("commit 1", "11")]);
    teller.tell(&[("start 3155760000 1 2", "6"), (&good, read)]);
}

/// What comes after `parse`: one word of lower-case digits, two for each byte.
#[test]
fn the_line_of_the_bench() {
    let good = parse_line(&message([LARGEST; 6]));
    assert_eq!(good.len(), 318);
    let most = ["999999999999"; 6].join(" ");
    tell(&[(&good, &format!("0 {most}"))]);
    let digits = &good["parse ".len()..];
    for line in [
        "parse".to_string(),
        "parse ".to_string(),
        // An odd number of digits.
        good[..317].to_string(),
        format!("{good}0"),
        // Upper-case digits: all of them, or that of the last CR LF alone.
        format!("parse {}", digits.to_uppercase()),
        good.replacen("210d0a03", "210d0A03", 1),
        // Something else among them.
        format!("parse 0x{digits}"),
        good.replacen("210d0a03", "210d0g03", 1),
        good.replacen("210d0a03", "210d 0a03", 1),
        format!("{good} "),
        format!("{good} {digits}"),
        format!(" {good}"),
        format!("parse  {digits}"),
        format!("{good}\r"),
        format!("PARSE {digits}"),
        format!("parse{digits}"),
        // 248 bytes take 502, and the first 501 of these are too many as well.
        format!("{good}{}", "00".repeat(92)),
        format!("{good}{}0", "00".repeat(91)),
    ] {
        tell(&[(&line, "?")]);
    }
    let longest = format!("{good}{}", "00".repeat(91));
    assert_eq!(longest.len(), 500);
    tell(&[(&longest, "17")]);
}
