//! The reader and the writer of lines.

mod common;

use common::Teller;
use corrector_reference::command::Command;
use corrector_reference::coverage::Coverage;
use corrector_reference::device::{Cycle, Value};
use corrector_reference::generate::{fuzz_script, random_script, Rng};
use corrector_reference::lines::{read_line, write_command, Answerer, Line};

fn is_command(line: &[u8]) -> bool {
    matches!(read_line(line), Line::Command(_))
}

/// A command with as many leading zeros as it takes.
fn long_line(length: usize) -> Vec<u8> {
    let mut line = b"log ".to_vec();
    line.resize(length, b'0');
    line
}

#[test]
fn every_command_is_read() {
    let cycle = |raw, p, k| Command::Cycle(Cycle { time: 1, n: 2, raw, p, k });
    let whole = |value| Command::Write { door: 1, setting: 2, value: Value::Whole(value) };
    let coefficient = |bits| {
        let value = Value::Coefficient(f64::from_bits(bits));
        Command::Write { door: 1, setting: 11, value }
    };
    let every_digit = vec![0x01, 0x23, 0x45, 0x67, 0x89, 0xab, 0xcd, 0xef];
    let commands: Vec<(&str, Command)> = vec![
        ("start 1 2 3", Command::Start { time: 1, code2: 2, code3: 3 }),
        ("cycle 1 2 3 4 5", cycle(Some(3), Some(4), Some(5))),
        ("cycle 1 2 - - -", cycle(None, None, None)),
        ("cycle 1 2 - 4 -", cycle(None, Some(4), None)),
        ("begin 1", Command::Begin { door: 1 }),
        ("commit 2", Command::Commit { door: 2 }),
        ("abandon 3", Command::Abandon { door: 3 }),
        ("read 1 2", Command::Read { door: 1, setting: 2 }),
        ("write 1 2 w 3", whole(3)),
        ("write 1 2 w -3", whole(-3)),
        ("write 1 2 w 9223372036854775807", whole(i64::MAX)),
        ("write 1 2 w -9223372036854775808", whole(i64::MIN)),
        ("write 1 11 c 0123456789abcdef", coefficient(0x0123_4567_89ab_cdef)),
        ("write 1 11 c fff0000000000001", coefficient(0xfff0_0000_0000_0001)),
        ("open 2 4294967295", Command::Open { lock: 2, code: u32::MAX }),
        ("shut 2", Command::Shut { lock: 2 }),
        ("clear", Command::Clear),
        ("tick 5", Command::Tick { named: 5 }),
        ("tick 18446744073709551615", Command::Tick { named: u64::MAX }),
        ("report", Command::Report),
        ("outputs", Command::Outputs),
        ("readout 0", Command::Readout { length: 0 }),
        ("readout 156", Command::Readout { length: 156 }),
        ("readout 200", Command::Readout { length: 200 }),
        ("archive 4", Command::Archive { index: 4 }),
        ("log 18446744073709551615", Command::Log { index: u64::MAX }),
        ("audit 0", Command::Audit { index: 0 }),
        ("last 11", Command::Last { code: 11 }),
        ("last 0", Command::Last { code: 0 }),
        ("last 18446744073709551615", Command::Last { code: u64::MAX }),
        ("parse 00", Command::Parse { message: vec![0] }),
        ("parse 0123456789abcdef", Command::Parse { message: every_digit }),
        ("parse ff00ff", Command::Parse { message: vec![255, 0, 255] }),
    ];
    for (line, command) in commands {
        let mut written = Vec::new();
        write_command(&command, &mut written);
        assert_eq!(String::from_utf8(written).unwrap(), line);
        assert_eq!(read_line(line.as_bytes()), Line::Command(command), "{line}");
    }
}

#[test]
fn nothing_and_malformed() {
    for line in [&b""[..], b"#", b"# report", b"#\xff\0", b"#report"] {
        assert_eq!(read_line(line), Line::Nothing, "{line:?}");
    }
    for line in [
        &b" "[..],
        b" #",
        b"\r",
        b"\0",
        b"report\r",
        b"report ",
        b" report",
        b"REPORT",
        b"repor",
        b"reports",
        b"report 1",
        b"clear clear",
        b"begin",
        b"begin ",
        b"begin  1",
        b"begin 1 ",
        b"begin 1 2",
        b"begin +1",
        b"begin -1",
        b"begin -0",
        b"begin -",
        b"begin 1.",
        b"begin 0x1",
        b"begin 1,000",
        b"begin \xd9\xa1",
        b"begin\t1",
        b"begin 18446744073709551616",
        b"begin 99999999999999999999999999999999999999999999",
        b"cycle 1 2 3 4",
        b"cycle 1 2 3 4 5 6",
        b"cycle - 2 3 4 5",
        b"cycle 1 - 3 4 5",
        b"cycle 1 2 65536 4 5",
        b"cycle 1 2 -3 4 5",
        b"cycle 1 2 -- 4 5",
        b"start 1 2",
        b"start 1 2 4294967296",
        b"start 1 4294967296 3",
        b"open 1",
        b"open 1 4294967296",
        b"open 1 -",
        b"tick",
        b"tick ",
        b"tick -",
        b"tick -1",
        b"tick +1",
        b"tick 1 2",
        b"tick 1.5",
        b"tick 18446744073709551616",
        b"Tick 1",
        b"ticks 1",
        b"outputs 1",
        b"outputs ",
        b"output",
        b"Outputs",
        b"readout",
        b"readout ",
        b"readout -",
        b"readout -1",
        b"readout -0",
        b"readout +156",
        b"readout 201",
        b"readout 256",
        // 256 and 156, 65,536 and 156, 2^32 and 156.
        b"readout 412",
        b"readout 65692",
        b"readout 4294967452",
        b"readout 18446744073709551615",
        b"readout 18446744073709551616",
        b"readout 156 1",
        b"readout  156",
        b"readout 156 ",
        b"readout 15.6",
        b"readout 0x9c",
        b"readout156",
        b"Readout 156",
        b"readouts 156",
        b"last",
        b"last ",
        b"last  11",
        b"last 11 ",
        b"last 11 12",
        b"last -",
        b"last -11",
        b"last -0",
        b"last +11",
        b"last 1.1",
        b"last 0xb",
        b"last x",
        b"last 18446744073709551616",
        b"last\t11",
        b"last 11\r",
        b"last11",
        b"Last 11",
        b"lasts 11",
        b"parse",
        b"parse ",
        b"parse  ",
        b"parse 0",
        b"parse 000",
        b"parse 0A",
        b"parse A0",
        b"parse AB",
        b"parse 0g",
        b"parse 0x",
        b"parse 0x02",
        b"parse -0",
        b"parse +0",
        b"parse 0:",
        b"parse 0/",
        b"parse 0`",
        b"parse 00 00",
        b"parse 00 ",
        b"parse  00",
        b" parse 00",
        b"parse\t00",
        b"parse 00\r",
        b"parse 0\x00",
        b"parse \xd9\xa0",
        b"parse00",
        b"Parse 00",
        b"parses 00",
        b"write 1 2 3",
        b"write 1 2 w",
        b"write 1 2 w ",
        b"write 1 2 W 3",
        b"write 1 2 w +3",
        b"write 1 2 w --3",
        b"write 1 2 w -",
        b"write 1 2 w 9223372036854775808",
        b"write 1 2 w -9223372036854775809",
        b"write 1 2 w 3 4",
        b"write 1 11 c 0123456789abcde",
        b"write 1 11 c 0123456789abcdef0",
        b"write 1 11 c 0123456789ABCDEF",
        b"write 1 11 c 0123456789abcdeg",
        b"write 1 11 c -123456789abcdef",
        b"write 1 11 x 0123456789abcdef",
    ] {
        assert_eq!(read_line(line), Line::Malformed, "{line:?}");
    }
}

#[test]
fn open_points() {
    // Leading zeros change nothing, and minus nought is nought.
    assert_eq!(read_line(b"log 007"), read_line(b"log 7"));
    assert_eq!(read_line(b"tick 0600"), read_line(b"tick 600"));
    assert_eq!(read_line(b"last 00011"), read_line(b"last 11"));
    assert_eq!(read_line(b"readout 000200"), read_line(b"readout 200"));
    assert_eq!(read_line(b"readout 000201"), Line::Malformed);
    assert_eq!(read_line(b"cycle 0 0 00065535 - -"), read_line(b"cycle 0 0 65535 - -"));
    assert_eq!(read_line(b"write 1 2 w -0"), read_line(b"write 1 2 w 0"));
    assert_eq!(read_line(b"write 1 2 w -003"), read_line(b"write 1 2 w -3"));
    assert_eq!(
        read_line(b"log 000000000000000000000000018446744073709551615"),
        Line::Command(Command::Log { index: u64::MAX })
    );
    // But in a message each digit counts.
    assert_ne!(read_line(b"parse 0000"), read_line(b"parse 00"));
    // A line of 500 bytes is the longest.
    for length in [200, 201, 499, 500] {
        assert!(is_command(&long_line(length)), "{length}");
    }
    assert_eq!(read_line(&long_line(501)), Line::Malformed);
    // It has room for 247 bytes of a message.
    let message = |count: usize| format!("parse {}", "a5".repeat(count)).into_bytes();
    let read = Line::Command(Command::Parse { message: vec![0xa5; 247] });
    assert_eq!(message(247).len(), 500);
    assert_eq!(read_line(&message(247)), read);
    assert_eq!(read_line(&message(248)[..501]), Line::Malformed);
    assert_eq!(read_line(&message(248)), Line::Malformed);
    let remark = [b'#'; 5_000];
    assert_eq!(read_line(&remark), Line::Nothing);
}

#[test]
fn a_last_line_without_line_feed() {
    let answers = |input: &[u8]| {
        let mut answerer = Answerer::new();
        let mut out = Vec::new();
        answerer.take(input, &mut out);
        answerer.end(&mut out);
        String::from_utf8(out).unwrap()
    };
    assert_eq!(answers(b""), "");
    assert_eq!(answers(b"\n\n#\n"), "");
    assert_eq!(answers(b"log 0"), "13\n");
    assert_eq!(answers(b"log 0\n"), "13\n");
    assert_eq!(answers(b"log 0\n\nbegin 1\nx"), "13\n0\n?\n");
    assert_eq!(answers(b"log 0\r\n"), "?\n");
}

/// The longest line in a stream, one that is too long, and one that is far too
/// long, byte by byte and at once. The line after it is answered as ever.
#[test]
fn the_longest_line_of_a_stream() {
    for (length, answers) in
        [(499, "13\n0\n"), (500, "13\n0\n"), (501, "?\n0\n"), (502, "?\n0\n"), (5_000, "?\n0\n")]
    {
        let input = [long_line(length), b"\nbegin 1\n".to_vec()].concat();
        for size in [1, input.len()] {
            let mut answerer = Answerer::new();
            let mut out = Vec::new();
            for piece in input.chunks(size) {
                answerer.take(piece, &mut out);
            }
            answerer.end(&mut out);
            assert_eq!(String::from_utf8(out).unwrap(), answers, "{length}");
        }
    }
}

/// The pieces in which the bytes come do not matter.
#[test]
fn pieces_of_any_size() {
    let mut rng = Rng::new(21);
    for round in 0..20 {
        let script = if round % 2 == 0 { random_script(&mut rng) } else { fuzz_script(&mut rng) };
        let bytes = script.bytes();
        let mut whole = Vec::new();
        for (_, answer) in Coverage::new().answer(&script) {
            whole.extend_from_slice(&answer);
            whole.push(b'\n');
        }
        let mut answerer = Answerer::new();
        let mut out = Vec::new();
        let mut rest = &bytes[..];
        while !rest.is_empty() {
            let size = (1 + rng.below(700) as usize).min(rest.len());
            answerer.take(&rest[..size], &mut out);
            rest = &rest[size..];
        }
        answerer.end(&mut out);
        assert!(out == whole);
    }
}

#[test]
fn answers_have_the_form_of_the_table() {
    let mut teller = Teller::new();
    teller.tell(&[
        ("", ""),
        ("# a remark", ""),
        ("nonsense", "?"),
        ("start 5 0 0", "0"),
        ("open 1 0", "0"),
        ("begin 2", "0"),
        ("read 2 9", "0 w -2000"),
        ("read 2 11", "0 c c044000000000000"),
        ("write 2 9 w -2001", "0"),
        ("write 2 13 c 8000000000000000", "0"),
        ("commit 2", "0"),
        ("cycle 2700000 1 5120 - -", "0"),
        ("report", "0 2700000 0 100 0 10000000 100 10000000 1 0 0 1 0 0 1 0 0"),
        ("archive 0", "0 0 0 0 0 0"),
        ("log 0", "0 1 2700000 11"),
        ("last 11", "0 1 2700000 11 1"),
        ("last 31", "0 0 5 31 2"),
        ("last 12", "0 - 2"),
        ("audit 0", "0 1 5 2 13 c 0000000000000000 c 8000000000000000"),
        ("audit 1", "0 0 5 2 9 w -2000 w -2001"),
        ("audit 2", "13"),
        ("begin 1", "0"),
        ("write 1 24 w 6", "0"),
        ("write 1 28 w 3", "0"),
        ("commit 1", "0"),
        ("cycle 2700000 1 5120 101325 -", "0"),
        // 100 litres at a factor of 1: 33 times 3, and one litre.
        ("outputs", "0 0 0 0 0 0 0 100000 33 0 0 0 0"),
        ("tick 4", "0 0 0 4 0"),
        ("tick 601", "15"),
        ("parse 02", "17"),
    ]);
}
