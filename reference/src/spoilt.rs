//! Messages with something wrong, for the reader of request Six: how they are
//! made and how they are known again. And the script that puts every one of them
//! to the reader, which is the same at every run.

use std::sync::LazyLock;

use crate::command::Command;
use crate::device::{Cycle, Refusal, Value};
use crate::lines::{write_command, LONGEST_LINE};
use crate::reader::parse;
use crate::readout::{check_character, message_of, Values, ADDRESSES, MESSAGE_LENGTH};
use crate::script::Script;

/// How many lines of values a message has, and how many bytes such a line has
/// with its CR LF.
pub(crate) const LINES: usize = ADDRESSES.len();
const LINE_LENGTH: usize = 25;

// Where things are in a line: `2:300(000000000.000*m3)` CR LF.
const VALUE: usize = 6;
const UNIT: usize = 20;
const LINE_END: usize = 23;
/// A value's bytes, and the place of the point among them.
pub(crate) const VALUE_LENGTH: usize = 13;
pub(crate) const POINT: usize = 9;
/// The CR after `!`.
const LAST_END: usize = 152;

/// The most bytes of a message that a line has room for.
pub(crate) const LONGEST_MESSAGE: usize = (LONGEST_LINE - "parse ".len()) / 2;

/// The longest length that the script tries.
const LONGEST_TRIED: usize = 160;

/// The values of the message that the script spoils. It has every digit, and a
/// value with leading zeros.
const VALUES: Values =
    [123_456_789_012, 45_678_901_234, 169_135_690_246, 987_654_321_098, 7, 987_654_321_105];

static ZEROS: LazyLock<Vec<u8>> = LazyLock::new(|| message_of(&[0; LINES]));

/// What the form has at each place before the check character. None is any digit.
static FORM: LazyLock<Vec<Option<u8>>> = LazyLock::new(|| {
    let mut form: Vec<Option<u8>> = ZEROS.iter().copied().map(Some).collect();
    form.pop();
    for place in digit_places() {
        form[place] = None;
    }
    form
});

// ---- places ----

fn start_of(line: usize) -> usize {
    1 + LINE_LENGTH * line
}

/// The digits of the values.
pub(crate) fn digit_places() -> Vec<usize> {
    let of_value = (0..VALUE_LENGTH).filter(|place| *place != POINT);
    let of_value: Vec<usize> = of_value.map(|place| VALUE + place).collect();
    (0..LINES).flat_map(|line| of_value.iter().map(move |place| start_of(line) + place)).collect()
}

/// Each `m` of an m3.
pub(crate) fn unit_places() -> Vec<usize> {
    (0..LINES).map(|line| start_of(line) + UNIT).collect()
}

/// Each CR, with a LF after it.
pub(crate) fn end_places() -> Vec<usize> {
    (0..LINES).map(|line| start_of(line) + LINE_END).chain([LAST_END]).collect()
}

fn pairs_of_lines() -> Vec<(usize, usize)> {
    (0..LINES).flat_map(|other| (0..other).map(move |one| (one, other))).collect()
}

// ---- how a message is spoilt ----

/// Another byte at a place.
pub(crate) fn with_byte(message: &[u8], place: usize, byte: u8) -> Vec<u8> {
    let mut spoilt = message.to_vec();
    spoilt[place] = byte;
    spoilt
}

pub(crate) fn without_byte(message: &[u8], place: usize) -> Vec<u8> {
    [&message[..place], &message[place + 1..]].concat()
}

pub(crate) fn with_byte_doubled(message: &[u8], place: usize) -> Vec<u8> {
    [&message[..=place], &message[place..]].concat()
}

/// So many bytes: the message's front, or the message and its front behind it.
pub(crate) fn of_length(message: &[u8], length: usize) -> Vec<u8> {
    message.iter().copied().cycle().take(length).collect()
}

/// Two lines, each in the place of the other.
pub(crate) fn exchanged(message: &[u8], one: usize, other: usize) -> Vec<u8> {
    let mut spoilt = message.to_vec();
    for byte in 0..LINE_LENGTH {
        spoilt.swap(start_of(one) + byte, start_of(other) + byte);
    }
    spoilt
}

pub(crate) fn left_out(message: &[u8], line: usize) -> Vec<u8> {
    [&message[..start_of(line)], &message[start_of(line + 1)..]].concat()
}

/// A line and the same again.
pub(crate) fn doubled(message: &[u8], line: usize) -> Vec<u8> {
    [&message[..start_of(line + 1)], &message[start_of(line)..]].concat()
}

/// The byte of a value, its point as a rule, taken to another place in it.
pub(crate) fn point_moved(message: &[u8], line: usize, from: usize, to: usize) -> Vec<u8> {
    let value = start_of(line) + VALUE;
    let mut spoilt = without_byte(message, value + from);
    spoilt.insert(value + to, message[value + from]);
    spoilt
}

/// LF CR for CR LF, or the other way round.
pub(crate) fn end_reversed(message: &[u8], place: usize) -> Vec<u8> {
    let mut spoilt = message.to_vec();
    spoilt.swap(place, place + 1);
    spoilt
}

/// The character that would fit at the end, if there are two bytes or more:
/// STX is not checked.
fn fitting_check(message: &[u8]) -> Option<u8> {
    let [_, checked @ .., _] = message else { return None };
    Some(check_character(checked))
}

pub(crate) fn check_fits(message: &[u8]) -> bool {
    fitting_check(message).is_some_and(|check| message.last() == Some(&check))
}

pub(crate) fn check_differs_by_one_bit(message: &[u8]) -> bool {
    let bits = |check: u8| message.last().map(|last| (last ^ check).count_ones());
    fitting_check(message).and_then(bits) == Some(1)
}

/// The same with a last byte that fits.
pub(crate) fn mended(message: &[u8]) -> Vec<u8> {
    match fitting_check(message) {
        Some(check) => with_byte(message, message.len() - 1, check),
        None => message.to_vec(),
    }
}

/// The same with a last byte that does not fit where it did, and one that does
/// where it did not.
fn with_other_check(message: &[u8]) -> Vec<u8> {
    if check_fits(message) {
        let last = message.len() - 1;
        with_byte(message, last, message[last] ^ 1)
    } else {
        mended(message)
    }
}

// ---- how it is known again ----

/// Of the form, whatever the last byte is.
fn is_of_form(message: &[u8]) -> bool {
    parse(message) != Err(Refusal::NotOfTheForm)
}

/// How many bytes are not what the form has at their places, the check character
/// and all after it left aside.
fn misfits(message: &[u8]) -> usize {
    let fits = |byte: &u8, wanted: &Option<u8>| match wanted {
        Some(wanted) => byte == wanted,
        None => byte.is_ascii_digit(),
    };
    message.iter().zip(FORM.iter()).filter(|(byte, wanted)| !fits(byte, wanted)).count()
}

pub(crate) fn has_byte_changed(message: &[u8]) -> bool {
    message.len() == MESSAGE_LENGTH && misfits(message) == 1
}

/// The front of a message, which ends before its ETX.
pub(crate) fn is_cut_short(message: &[u8]) -> bool {
    message.len() < MESSAGE_LENGTH - 1 && misfits(message) == 0
}

/// All but the check character, so that the last byte is ETX.
pub(crate) fn ends_in_etx(message: &[u8]) -> bool {
    message.len() == MESSAGE_LENGTH - 1 && misfits(message) == 0
}

/// How many bytes come after a message of the form.
pub(crate) fn bytes_after(message: &[u8]) -> usize {
    match message.get(..MESSAGE_LENGTH) {
        Some(front) if is_of_form(front) => message.len() - MESSAGE_LENGTH,
        _ => 0,
    }
}

/// Most bytes of so many are not where they belong.
pub(crate) fn is_random(message: &[u8]) -> bool {
    message.len() == MESSAGE_LENGTH && misfits(message) > 100
}

pub(crate) fn has_lines_exchanged(message: &[u8]) -> bool {
    let is_good = |&(one, other): &(usize, usize)| is_of_form(&exchanged(message, one, other));
    message.len() == MESSAGE_LENGTH && pairs_of_lines().iter().any(is_good)
}

pub(crate) fn has_line_left_out(message: &[u8]) -> bool {
    let is_good = |line: usize| {
        let (front, back) = message.split_at(start_of(line));
        let missing = &ZEROS[start_of(line)..start_of(line + 1)];
        is_of_form(&[front, missing, back].concat())
    };
    message.len() == MESSAGE_LENGTH - LINE_LENGTH && (0..LINES).any(is_good)
}

pub(crate) fn has_line_doubled(message: &[u8]) -> bool {
    let line_of = |line: usize| &message[start_of(line)..start_of(line + 1)];
    let is_good =
        |line: usize| line_of(line) == line_of(line + 1) && is_of_form(&left_out(message, line));
    message.len() == MESSAGE_LENGTH + LINE_LENGTH && (0..LINES).any(is_good)
}

pub(crate) fn has_byte_left_out(message: &[u8]) -> bool {
    let is_good = |place: usize| {
        let (front, back) = message.split_at(place);
        is_of_form(&[front, &ZEROS[place..=place], back].concat())
    };
    // Without its last byte it is a front.
    message.len() == MESSAGE_LENGTH - 1
        && !ends_in_etx(message)
        && (0..MESSAGE_LENGTH - 1).any(is_good)
}

pub(crate) fn has_byte_doubled(message: &[u8]) -> bool {
    let is_good = |place: usize| {
        message[place] == message[place + 1] && is_of_form(&without_byte(message, place))
    };
    // With its last byte twice it has a byte after it.
    message.len() == MESSAGE_LENGTH + 1
        && bytes_after(message) == 0
        && (0..MESSAGE_LENGTH).any(is_good)
}

/// One of these places has the byte that was found there, and the byte wanted
/// would make it good.
fn has_instead(message: &[u8], places: &[usize], found: u8, wanted: u8) -> bool {
    let is_good =
        |place: &usize| message[*place] == found && is_of_form(&with_byte(message, *place, wanted));
    message.len() == MESSAGE_LENGTH && places.iter().any(is_good)
}

pub(crate) fn has_large_unit(message: &[u8]) -> bool {
    has_instead(message, &unit_places(), b'M', b'm')
}

pub(crate) fn has_blank_for_digit(message: &[u8]) -> bool {
    has_instead(message, &digit_places(), b' ', b'0')
}

pub(crate) fn has_end_reversed(message: &[u8]) -> bool {
    let is_good = |place: &usize| is_of_form(&end_reversed(message, *place));
    message.len() == MESSAGE_LENGTH && end_places().iter().any(is_good)
}

pub(crate) fn has_point_moved(message: &[u8]) -> bool {
    let is_good = |line: usize| {
        let value = &message[start_of(line) + VALUE..][..VALUE_LENGTH];
        let point = value.iter().position(|byte| *byte == b'.');
        let moved = point.filter(|from| *from != POINT);
        moved.is_some_and(|from| is_of_form(&point_moved(message, line, from, POINT)))
    };
    message.len() == MESSAGE_LENGTH && (0..LINES).any(is_good)
}

// ---- the script ----

/// Every byte of a good message changed to every other value, every length, and
/// all that can be done to its lines, bytes and points. It begins before any
/// start, and goes on in the middle of two sessions, which must not mind.
pub fn spoilt_script() -> Script {
    let good = message_of(&VALUES);
    let mut script = Script::default();
    say(&mut script, Command::Parse { message: good.clone() });
    for command in sessions_begun() {
        say(&mut script, command);
    }
    script.lines.push(b"parse".to_vec());
    // The many come last: what a few find is cut down sooner.
    let all = [lengths(&good), spoilt_lines(&good), other_values(&good), changed_bytes(&good)];
    for message in all.into_iter().flatten() {
        // The one of length 0 leaves an empty word.
        say(&mut script, Command::Parse { message });
    }
    for command in sessions_ended() {
        say(&mut script, command);
    }
    script
}

fn say(script: &mut Script, command: Command) {
    let mut line = Vec::new();
    write_command(&command, &mut line);
    script.lines.push(line);
}

/// The cycle of H4. Then one door has read a setting, and the other has staged it.
fn sessions_begun() -> Vec<Command> {
    let cycle = Cycle { time: 1_060, n: 10, raw: Some(7_680), p: Some(202_650), k: None };
    vec![
        Command::Start { time: 1_000, code2: 1, code3: 2 },
        Command::Cycle(cycle),
        Command::Open { lock: 2, code: 1 },
        Command::Begin { door: 1 },
        Command::Read { door: 1, setting: 16 },
        Command::Begin { door: 2 },
        Command::Write { door: 2, setting: 16, value: Value::Whole(8_000) },
    ]
}

/// All that can be seen, and the second commit stale.
fn sessions_ended() -> Vec<Command> {
    vec![
        Command::Report,
        Command::Outputs,
        Command::Readout { length: MESSAGE_LENGTH },
        Command::Read { door: 2, setting: 16 },
        Command::Commit { door: 2 },
        Command::Commit { door: 1 },
        Command::Log { index: 0 },
        Command::Audit { index: 0 },
    ]
}

/// Each byte changed to each other value. The check character stays, so that
/// what is wrong in the form is wrong in the check too, STX aside.
fn changed_bytes(good: &[u8]) -> Vec<Vec<u8>> {
    let mut all = Vec::new();
    for (place, right) in good.iter().enumerate() {
        for byte in (0..=u8::MAX).filter(|byte| byte != right) {
            all.push(with_byte(good, place, byte));
        }
    }
    all
}

fn lengths(good: &[u8]) -> Vec<Vec<u8>> {
    (0..=LONGEST_TRIED).map(|length| of_length(good, length)).collect()
}

/// Each digit changed to each other digit, with a check character that fits:
/// good messages of other values.
fn other_values(good: &[u8]) -> Vec<Vec<u8>> {
    let mut all = Vec::new();
    for place in digit_places() {
        for digit in (b'0'..=b'9').filter(|digit| *digit != good[place]) {
            all.push(mended(&with_byte(good, place, digit)));
        }
    }
    all
}

/// What can be done to more than a byte, with a check character that fits and
/// with one that does not. What can be done to one byte, with one that fits: the
/// others are among the changed bytes.
fn spoilt_lines(good: &[u8]) -> Vec<Vec<u8>> {
    let mut all = Vec::new();
    for spoilt in spoilt_in_pieces(good) {
        all.push(with_other_check(&spoilt));
        all.push(spoilt);
    }
    for place in 0..good.len() - 1 {
        for bit in [0x01, 0x20, 0x80] {
            all.push(mended(&with_byte(good, place, good[place] ^ bit)));
        }
    }
    all.extend(digit_places().iter().map(|place| mended(&with_byte(good, *place, b' '))));
    all
}

fn spoilt_in_pieces(good: &[u8]) -> Vec<Vec<u8>> {
    let mut all = Vec::new();
    for (one, other) in pairs_of_lines() {
        all.push(exchanged(good, one, other));
    }
    for line in 0..LINES {
        all.push(left_out(good, line));
        all.push(doubled(good, line));
        for to in (0..VALUE_LENGTH).filter(|to| *to != POINT) {
            all.push(point_moved(good, line, POINT, to));
        }
    }
    for place in end_places() {
        all.push(end_reversed(good, place));
    }
    for place in 0..good.len() - 1 {
        all.push(without_byte(good, place));
        all.push(with_byte_doubled(good, place));
    }
    all
}

#[cfg(test)]
mod tests {
    use super::*;
    use crate::coverage::Coverage;
    use crate::lines::{read_line, Line};
    use std::collections::HashSet;

    /// The messages of the script's lines, in their order.
    fn messages(script: &Script) -> Vec<Vec<u8>> {
        let message = |line: &Vec<u8>| match read_line(line) {
            Line::Command(Command::Parse { message }) => Some(message),
            _ => None,
        };
        script.lines.iter().filter_map(message).collect()
    }

    /// It hangs on no seed, and it stays short. All lines are commands but the
    /// two that have no message.
    #[test]
    fn the_script_is_the_same_every_time() {
        let script = spoilt_script();
        assert_eq!(script, spoilt_script());
        assert!((41_000..=42_000).contains(&script.lines.len()), "{}", script.lines.len());
        let malformed = script.lines.iter().filter(|line| read_line(line) == Line::Malformed);
        assert_eq!(malformed.collect::<Vec<_>>(), [&b"parse"[..], b"parse "]);
    }

    /// 156 bytes and 255 other values of each.
    #[test]
    fn every_byte_is_changed_to_every_other_value() {
        let good = message_of(&VALUES);
        let differs_once = |message: &&Vec<u8>| {
            let differing = message.iter().zip(&good).filter(|(byte, right)| byte != right);
            message.len() == good.len() && differing.count() == 1
        };
        let all = messages(&spoilt_script());
        let once: HashSet<&Vec<u8>> = all.iter().filter(differs_once).collect();
        assert_eq!(once.len(), 156 * 255);
    }

    /// The message itself, its fronts and what is longer, up to 160 bytes.
    #[test]
    fn every_length_is_there() {
        let good = message_of(&VALUES);
        let all: HashSet<Vec<u8>> = messages(&spoilt_script()).into_iter().collect();
        for length in 1..=160 {
            let wanted = if length <= 156 {
                good[..length].to_vec()
            } else {
                [&good[..], &good[..length - 156]].concat()
            };
            assert!(all.contains(&wanted), "{length}");
        }
    }

    /// What is read and what is refused, counted by hand. A digit changed to one
    /// of nine others is still of the form, and so is a check character that is
    /// one of 255 others: 72 x 9 and 255 are 18. With a check that fits, those 648
    /// are read, and the 72 in which a bit makes another digit once more; so is
    /// the good message, before the start and at its own length.
    #[test]
    fn the_answers_are_counted() {
        let script = spoilt_script();
        let (mut read, mut wrong_check, mut wrong_form) = (0, 0, 0);
        for message in messages(&script) {
            match parse(&message) {
                Ok(values) => {
                    assert_eq!(message_of(&values), message);
                    read += 1;
                }
                Err(Refusal::WrongCheck) => wrong_check += 1,
                Err(Refusal::NotOfTheForm) => wrong_form += 1,
                Err(refusal) => panic!("{refusal:?}"),
            }
        }
        assert_eq!(read, 648 + 72 + 2);
        assert_eq!(wrong_check, 648 + 255);
        let others = sessions_begun().len() + sessions_ended().len() + 2;
        assert_eq!(wrong_form, script.lines.len() - others - read - wrong_check);
    }

    /// Neither session minds, and the device is as it was.
    #[test]
    fn the_sessions_do_not_mind() {
        let script = spoilt_script();
        let answers = Coverage::new().answer(&script);
        let last = &answers[answers.len() - sessions_ended().len()..];
        let last: Vec<String> =
            last.iter().map(|(_, answer)| String::from_utf8_lossy(answer).into_owned()).collect();
        assert_eq!(last[0], "0 1060 1000 0 186355000 0 1000 186355000 0 0 0 0 0 0 0 1 0");
        assert_eq!(last[1], "0 0 0 0 0 0 0 0 0 0 0 0 0");
        assert_eq!(last[3..6], ["0 w 8000", "0", "11"]);
        assert_eq!(last[6..], ["0 0 1060 32", "0 0 1060 2 16 w 10000 w 8000"]);
    }

    type Known = fn(&[u8]) -> bool;
    const KINDS: [(&str, Known); 14] = [
        ("byte changed", has_byte_changed),
        ("cut short", is_cut_short),
        ("ends in ETX", ends_in_etx),
        ("byte after", |message| bytes_after(message) == 1),
        ("random", is_random),
        ("exchanged", has_lines_exchanged),
        ("left out", has_line_left_out),
        ("doubled", has_line_doubled),
        ("byte left out", has_byte_left_out),
        ("byte doubled", has_byte_doubled),
        ("large unit", has_large_unit),
        ("blank", has_blank_for_digit),
        ("end reversed", has_end_reversed),
        ("point moved", has_point_moved),
    ];

    /// The kinds that a message is known as.
    fn known_as(message: &[u8]) -> Vec<&'static str> {
        KINDS.iter().filter(|(_, known)| known(message)).map(|(name, _)| *name).collect()
    }

    /// What was done to a message is known again, and nothing else is seen in it,
    /// whatever its check character is.
    #[test]
    fn each_kind_is_known_again() {
        for values in [[0; LINES], VALUES, [999_999_999_999; LINES]] {
            let good = message_of(&values);
            let is = |message: Vec<u8>, kinds: &[&str]| {
                for message in [with_other_check(&message), message] {
                    assert_eq!(known_as(&message), kinds, "{message:?}");
                    assert_eq!(parse(&message), Err(Refusal::NotOfTheForm), "{message:?}");
                }
            };
            for (one, other) in pairs_of_lines() {
                is(exchanged(&good, one, other), &["exchanged"]);
            }
            for line in 0..LINES {
                is(left_out(&good, line), &["left out"]);
                is(doubled(&good, line), &["doubled"]);
                for to in (0..VALUE_LENGTH).filter(|to| *to != POINT) {
                    is(point_moved(&good, line, POINT, to), &["point moved"]);
                }
            }
            for place in unit_places() {
                assert_eq!(good[place], b'm');
                is(with_byte(&good, place, b'M'), &["byte changed", "large unit"]);
            }
            for place in digit_places() {
                assert!(good[place].is_ascii_digit());
                is(with_byte(&good, place, b' '), &["byte changed", "blank"]);
                is(with_byte(&good, place, b'a'), &["byte changed"]);
            }
            for place in end_places() {
                assert_eq!(good[place..place + 2], *b"\r\n");
                is(end_reversed(&good, place), &["end reversed"]);
            }
            for length in 1..155 {
                // With another last byte it is no front any more.
                assert_eq!(known_as(&good[..length]), ["cut short"]);
            }
            assert_eq!(known_as(&good[..155]), ["ends in ETX"]);
            is(of_length(&good, 157), &["byte after"]);
            is(with_byte_doubled(&good, 155), &["byte after"]);
            is(vec![0xff; 156], &["random"]);
            for place in 1..150 {
                is(without_byte(&good, place), &["byte left out"]);
                is(with_byte_doubled(&good, place), &["byte doubled"]);
            }
        }
    }

    /// Nothing is seen in a good message, nor where the check alone is wrong.
    #[test]
    fn a_good_message_is_of_no_kind() {
        for values in [[0; LINES], VALUES] {
            let good = message_of(&values);
            assert!(check_fits(&good));
            assert_eq!(parse(&good), Ok(values));
            assert_eq!(known_as(&good), [""; 0]);
            let wrong = with_other_check(&good);
            assert!(!check_fits(&wrong));
            assert_eq!(parse(&wrong), Err(Refusal::WrongCheck));
            assert_eq!(known_as(&wrong), [""; 0]);
            assert_eq!(mended(&wrong), good);
            assert_eq!(with_other_check(&wrong), good);
        }
    }

    /// A byte alone is not its own check, and nothing has none.
    #[test]
    fn what_is_too_short_has_no_check() {
        for message in [&b""[..], b"\x02", b"\0"] {
            assert!(!check_fits(message));
            assert_eq!(mended(message), message);
        }
        assert_eq!(mended(b"\x02\x07"), b"\x02\0");
        assert_eq!(mended(b"\x02\x07\xff"), b"\x02\x07\x07");
    }
}
