//! The reader of data messages, by request Six of document 02: what the office
//! has typed in is read back into six values in litres.
//!
//! It takes any bytes of any number. It reads them from the first to the last,
//! piece by piece, and no piece may be missing, differ or come twice.

use crate::device::Refusal;
use crate::readout::{check_character, Values, ADDRESSES, ETX, STX};

/// The digits of a value before its point, cubic metres, and after it, litres.
const DIGITS: usize = 9;
const DECIMALS: usize = 3;

/// Reads a message. All but its last byte must be of the form, 17, before the
/// last byte is held against the others, 18.
pub fn parse(message: &[u8]) -> Result<Values, Refusal> {
    let (values, check) = form(message).ok_or(Refusal::NotOfTheForm)?;
    // All after STX, up to and with ETX.
    let checked = &message[1..message.len() - 1];
    if check != check_character(checked) {
        return Err(Refusal::WrongCheck);
    }
    Ok(values)
}

/// The values of a message of the form, and its check character, which may be
/// any byte.
fn form(message: &[u8]) -> Option<(Values, u8)> {
    let mut reader = Reader { rest: message };
    reader.expect(&[STX])?;
    let mut values = [0; ADDRESSES.len()];
    for (value, address) in values.iter_mut().zip(ADDRESSES) {
        *value = reader.line(address)?;
    }
    reader.expect(b"!\r\n")?;
    reader.expect(&[ETX])?;
    // One byte is left, and no second one.
    match *reader.rest {
        [check] => Some((values, check)),
        _ => None,
    }
}

/// What has not been read yet.
struct Reader<'a> {
    rest: &'a [u8],
}

impl Reader<'_> {
    /// Exactly these bytes.
    fn expect(&mut self, bytes: &[u8]) -> Option<()> {
        self.rest = self.rest.strip_prefix(bytes)?;
        Some(())
    }

    /// One line with its CR LF: the value at this address, in litres.
    fn line(&mut self, address: &str) -> Option<u64> {
        self.expect(address.as_bytes())?;
        self.expect(b"(")?;
        let cubic_metres = self.number(DIGITS)?;
        self.expect(b".")?;
        let litres = self.number(DECIMALS)?;
        self.expect(b"*m3)\r\n")?;
        Some(1_000 * cubic_metres + litres)
    }

    /// So many digits, no fewer. Leading zeros are digits like any others.
    fn number(&mut self, count: usize) -> Option<u64> {
        let digits = self.rest.get(..count)?;
        self.rest = &self.rest[count..];
        let mut number = 0;
        for digit in digits {
            if !digit.is_ascii_digit() {
                return None;
            }
            number = 10 * number + u64::from(digit - b'0');
        }
        Some(number)
    }
}

#[cfg(test)]
mod tests {
    use super::*;

    fn reader(rest: &str) -> Reader<'_> {
        Reader { rest: rest.as_bytes() }
    }

    /// The bytes of the two cycles H4 and H5; `readout.rs` works them out.
    #[test]
    fn a_whole_message_by_hand() {
        let message = b"\x02\
            2:300(000000001.863*m3)\r\n\
            2:301(000000000.931*m3)\r\n\
            2:302(000000002.795*m3)\r\n\
            4:300(000000001.000*m3)\r\n\
            4:301(000000001.000*m3)\r\n\
            4:302(000000002.000*m3)\r\n\
            !\r\n\x03/";
        assert_eq!(parse(message), Ok([1_863, 931, 2_795, 1_000, 1_000, 2_000]));
        // A `.` is one bit from a `/`.
        let spoilt = [&message[..155], b"."].concat();
        assert_eq!(parse(&spoilt), Err(Refusal::WrongCheck));
    }

    #[test]
    fn lines_by_hand() {
        for (line, litres) in [
            ("2:301(000000000.000*m3)\r\n", Some(0)),
            ("2:301(000000000.001*m3)\r\n", Some(1)),
            ("2:301(000000001.000*m3)\r\n", Some(1_000)),
            ("2:301(123456789.012*m3)\r\n", Some(123_456_789_012)),
            ("2:301(999999999.999*m3)\r\n", Some(999_999_999_999)),
            // Another address, of another line or of none.
            ("2:300(000000000.000*m3)\r\n", None),
            ("4:301(000000000.000*m3)\r\n", None),
            ("2.301(000000000.000*m3)\r\n", None),
            // A digit too few or too many, and what is no digit.
            ("2:301(00000000.000*m3)\r\n", None),
            ("2:301(0000000000.000*m3)\r\n", None),
            ("2:301(000000000.00*m3)\r\n", None),
            ("2:301(000000000.0000*m3)\r\n", None),
            ("2:301(+00000000.000*m3)\r\n", None),
            ("2:301(-00000001.000*m3)\r\n", None),
            ("2:301(        0.000*m3)\r\n", None),
            ("2:301(00000000a.000*m3)\r\n", None),
            ("2:301(000000000.00:*m3)\r\n", None),
            ("2:301(000000000.00/*m3)\r\n", None),
            // Other signs between them.
            ("2:301(000000000,000*m3)\r\n", None),
            ("2:301[000000000.000*m3)\r\n", None),
            ("2:301(000000000.000 m3)\r\n", None),
            ("2:301(000000000.000*M3)\r\n", None),
            ("2:301(000000000.000*m2)\r\n", None),
            ("2:301(000000000.000*m3]\r\n", None),
            // The end of the line.
            ("2:301(000000000.000*m3)\n\r", None),
            ("2:301(000000000.000*m3)\r", None),
            ("2:301(000000000.000*m3)\n", None),
            ("2:301(000000000.000*m3) \r\n", None),
            ("", None),
        ] {
            let mut reader = reader(line);
            assert_eq!(reader.line("2:301"), litres, "{line:?}");
            assert!(litres.is_none() || reader.rest.is_empty(), "{line:?}");
        }
    }

    /// What follows a line is left for the next.
    #[test]
    fn a_line_and_no_more() {
        let mut reader = reader("4:302(000000000.007*m3)\r\n!\r\n");
        assert_eq!(reader.line("4:302"), Some(7));
        assert_eq!(reader.rest, b"!\r\n");
    }

    #[test]
    fn numbers_by_hand() {
        for (text, count, number, rest) in [
            ("000", 3, Some(0), ""),
            ("012x", 3, Some(12), "x"),
            ("0123", 3, Some(12), "3"),
            ("999999999.", 9, Some(999_999_999), "."),
        ] {
            let mut reader = reader(text);
            assert_eq!(reader.number(count), number, "{text}");
            assert_eq!(reader.rest, rest.as_bytes(), "{text}");
        }
        for text in ["", "12", "1 2", " 12", "12 ", "1.2", "-12", "+12", "1\u{663}"] {
            assert_eq!(reader(text).number(3), None, "{text}");
        }
    }
}
