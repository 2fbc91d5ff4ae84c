//! The data message of one moment, by request Five of document 02: what an
//! optical head reads (IEC 62056-21).
//!
//! STX, a line for each of the six counters and totals, an end, ETX, and a
//! character by which the reader finds a spoilt byte.

use crate::device::{Counters, Totals, UNITS_A_LITRE};

/// How many bytes a message has, whatever it says.
pub const MESSAGE_LENGTH: usize = 156;

pub(crate) const STX: u8 = 0x02;
pub(crate) const ETX: u8 = 0x03;

/// The addresses of Vb, VbD, VbT, Vm, VmD and VmT, as the manual numbers them.
pub(crate) const ADDRESSES: [&str; 6] = ["2:300", "2:301", "2:302", "4:300", "4:301", "4:302"];

/// Six values in litres, in the order of their addresses.
pub type Values = [u64; ADDRESSES.len()];

/// The message of counters and totals that are in range.
pub fn message(counters: &Counters, totals: &Totals) -> Vec<u8> {
    message_of(&litres(counters, totals))
}

/// The message of six values, each below 10^12.
pub fn message_of(values: &Values) -> Vec<u8> {
    let checked = checked_part(values);
    let mut message = vec![STX];
    message.extend_from_slice(&checked);
    message.push(check_character(&checked));
    message
}

/// The six values in the order of their addresses, cut off downwards to litres.
/// VbT is the kept total cut off: two parts cut off before they are added may
/// be a litre short of it.
pub(crate) fn litres(counters: &Counters, totals: &Totals) -> Values {
    let cut_off = |amount: u64| amount / UNITS_A_LITRE;
    [
        cut_off(counters.vb),
        cut_off(counters.vb_disturbed),
        cut_off(totals.vb),
        counters.vm,
        counters.vm_disturbed,
        totals.vm,
    ]
}

/// The bytes that the check character is taken over: all after STX, up to and
/// with ETX.
fn checked_part(values: &Values) -> Vec<u8> {
    let mut text = String::new();
    for (address, litres) in ADDRESSES.iter().zip(values) {
        text.push_str(&format!("{address}({}*m3)\r\n", cubic_metres(*litres)));
    }
    text.push_str("!\r\n");
    let mut bytes = text.into_bytes();
    bytes.push(ETX);
    bytes
}

/// Nine digits with leading zeros, a point, and the litres as three decimals.
fn cubic_metres(litres: u64) -> String {
    format!("{:09}.{:03}", litres / 1_000, litres % 1_000)
}

/// The exclusive-or of all bytes.
pub(crate) fn check_character(bytes: &[u8]) -> u8 {
    bytes.iter().fold(0, |sum, byte| sum ^ byte)
}

#[cfg(test)]
mod tests {
    use super::*;

    /// The cycles of H4 and H5, one after the other: Vb 186,355,000, VbD
    /// 93,178,000, VbT 279,533,000, and 1,000 litres on either side.
    fn h4_and_h5() -> (Counters, Totals) {
        let counters =
            Counters { vm: 1_000, vm_disturbed: 1_000, vb: 186_355_000, vb_disturbed: 93_178_000 };
        (counters, Totals { vm: 2_000, vb: 279_533_000 })
    }

    /// The check character by hand. There are six lines, so that of the bytes
    /// which every line has the pairs cancel: `:`, `3`, `0`, `(`, `.`, `*`,
    /// `m`, `3`, `)`, CR and LF. The last digits of the addresses are each
    /// there twice. What is left of the addresses is `2` and `4` three times
    /// each: 32 xor 34 is 06. A digit is 30 and its value, and the 72 of them
    /// leave their values alone. The end is `!` CR LF ETX: 21 xor 0d xor 0a
    /// xor 03 is 25. So the character is 23, which is 06 xor 25, xor the values
    /// of all digits.
    ///
    /// Here they are 1 8 6 3, that is c; 9 3 1, that is b; 2 7 9 5, that is 9;
    /// 1; 1; 2. All together they are c, and 23 xor 0c is 2f, a `/`.
    #[test]
    fn a_whole_message_by_hand() {
        let (counters, totals) = h4_and_h5();
        let expected = b"\x02\
            2:300(000000001.863*m3)\r\n\
            2:301(000000000.931*m3)\r\n\
            2:302(000000002.795*m3)\r\n\
            4:300(000000001.000*m3)\r\n\
            4:301(000000001.000*m3)\r\n\
            4:302(000000002.000*m3)\r\n\
            !\r\n\x03/";
        assert_eq!(expected.len(), 156);
        assert_eq!(message(&counters, &totals), expected);
    }

    /// No digit but 0 leaves 23, a `#`.
    #[test]
    fn a_fresh_message_by_hand() {
        let expected = b"\x02\
            2:300(000000000.000*m3)\r\n\
            2:301(000000000.000*m3)\r\n\
            2:302(000000000.000*m3)\r\n\
            4:300(000000000.000*m3)\r\n\
            4:301(000000000.000*m3)\r\n\
            4:302(000000000.000*m3)\r\n\
            !\r\n\x03#";
        assert_eq!(message(&Counters::default(), &Totals::default()), expected);
    }

    /// Each value has its own address. The digits are 1 to 6 once each, that
    /// is 7, and 23 xor 07 is 24, a `$`.
    #[test]
    fn each_value_at_its_address() {
        let counters = Counters { vm: 4, vm_disturbed: 5, vb: 100_000, vb_disturbed: 200_000 };
        // As no device would have them, so that each total is told from a sum.
        let totals = Totals { vm: 6, vb: 300_000 };
        let expected = b"\x02\
            2:300(000000000.001*m3)\r\n\
            2:301(000000000.002*m3)\r\n\
            2:302(000000000.003*m3)\r\n\
            4:300(000000000.004*m3)\r\n\
            4:301(000000000.005*m3)\r\n\
            4:302(000000000.006*m3)\r\n\
            !\r\n\x03$";
        assert_eq!(message(&counters, &totals), expected);
    }

    #[test]
    fn values_by_hand() {
        for (litres, shown) in [
            (0, "000000000.000"),
            (1, "000000000.001"),
            (10, "000000000.010"),
            (999, "000000000.999"),
            (1_000, "000000001.000"),
            (1_001, "000000001.001"),
            (999_999, "000000999.999"),
            (1_000_000, "000001000.000"),
            (123_456_789_012, "123456789.012"),
            (999_999_999_000, "999999999.000"),
            (999_999_999_999, "999999999.999"),
        ] {
            assert_eq!(cubic_metres(litres), shown);
        }
    }

    /// Amounts at base conditions around a litre: down, never to the nearest.
    #[test]
    fn less_than_a_litre_is_cut_off() {
        for (amount, cut_off) in [
            (0, 0),
            (1, 0),
            (49_999, 0),
            (50_000, 0),
            (99_999, 0),
            (100_000, 1),
            (199_999, 1),
            (99_999_999, 999),
            (100_000_000, 1_000),
            (99_999_999_999_900_000, 999_999_999_999),
            (99_999_999_999_999_999, 999_999_999_999),
        ] {
            let main = Counters { vb: amount, ..Counters::default() };
            let disturbed = Counters { vb_disturbed: amount, ..Counters::default() };
            let total = Totals { vm: 0, vb: amount };
            let nothing = (Counters::default(), Totals::default());
            assert_eq!(litres(&main, &nothing.1), [cut_off, 0, 0, 0, 0, 0]);
            assert_eq!(litres(&disturbed, &nothing.1), [0, cut_off, 0, 0, 0, 0]);
            assert_eq!(litres(&nothing.0, &total), [0, 0, cut_off, 0, 0, 0]);
        }
    }

    /// Vm, VmD and VmT are litres already.
    #[test]
    fn litres_are_litres() {
        for amount in [0, 1, 999, 1_000, 100_000, 999_999_999_999] {
            let counters = Counters { vm: amount, ..Counters::default() };
            assert_eq!(litres(&counters, &Totals::default()), [0, 0, 0, amount, 0, 0]);
            let counters = Counters { vm_disturbed: amount, ..Counters::default() };
            assert_eq!(litres(&counters, &Totals::default()), [0, 0, 0, 0, amount, 0]);
            let totals = Totals { vm: amount, vb: 0 };
            assert_eq!(litres(&Counters::default(), &totals), [0, 0, 0, 0, 0, amount]);
        }
    }

    /// The parts cut off are 1,863 and 931 litres, that is 2,794. The kept
    /// total has a litre more.
    #[test]
    fn the_total_is_cut_off_and_not_its_parts() {
        let (counters, totals) = h4_and_h5();
        assert_eq!(litres(&counters, &totals), [1_863, 931, 2_795, 1_000, 1_000, 2_000]);
    }

    /// The largest values have all their digits, and no message is longer. All
    /// 72 digits are 9, which is nothing, and the character is a `#` again.
    #[test]
    fn the_largest_values() {
        let (vm, vb) = (999_999_999_999, 99_999_999_999_999_999);
        let counters = Counters { vm, vm_disturbed: vm, vb, vb_disturbed: vb };
        let largest = message(&counters, &Totals { vm, vb });
        let expected = b"\x02\
            2:300(999999999.999*m3)\r\n\
            2:301(999999999.999*m3)\r\n\
            2:302(999999999.999*m3)\r\n\
            4:300(999999999.999*m3)\r\n\
            4:301(999999999.999*m3)\r\n\
            4:302(999999999.999*m3)\r\n\
            !\r\n\x03#";
        assert_eq!(largest, expected);
        for length in [largest.len(), message(&Counters::default(), &Totals::default()).len()] {
            assert_eq!(length, MESSAGE_LENGTH);
        }
    }

    /// A spoilt byte shows in the check character, wherever it is.
    #[test]
    fn every_byte_is_checked() {
        let (counters, totals) = h4_and_h5();
        let message = message(&counters, &totals);
        let (last, rest) = message.split_last().expect("a message");
        for place in 1..rest.len() {
            let mut spoilt = rest.to_vec();
            spoilt[place] ^= 0x11;
            assert_eq!(check_character(&spoilt[1..]), last ^ 0x11, "byte {place}");
        }
    }
}
