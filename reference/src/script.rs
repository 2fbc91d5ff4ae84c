//! Scripts: lines of any bytes, and how they are shown to a person.

use crate::lines::LONGEST_LINE;

/// A script, line by line and without the line feeds.
#[derive(Clone, Debug, Default, PartialEq, Eq)]
pub struct Script {
    pub lines: Vec<Vec<u8>>,
    /// The last line has no line feed.
    pub open_end: bool,
}

impl Script {
    pub fn from_bytes(bytes: &[u8]) -> Script {
        let mut lines: Vec<Vec<u8>> =
            bytes.split(|byte| *byte == b'\n').map(<[u8]>::to_vec).collect();
        let open_end = lines.last().is_some_and(|line| !line.is_empty());
        if !open_end {
            lines.pop();
        }
        Script { lines, open_end }
    }

    pub fn bytes(&self) -> Vec<u8> {
        let mut bytes = self.lines.join(&b'\n');
        if !self.lines.is_empty() && !self.open_end {
            bytes.push(b'\n');
        }
        bytes
    }
}

/// A line as a person can read it on any terminal: bytes that do not print
/// are shown by number, and a very long line by its beginning. A command or an
/// answer is shown whole: a readout has its check character near the end.
pub fn show(line: &[u8]) -> String {
    let mut text = String::new();
    for byte in line.iter().take(LONGEST_LINE) {
        match byte {
            b'\\' => text.push_str("\\\\"),
            b' '..=b'~' => text.push(char::from(*byte)),
            _ => text.push_str(&format!("\\x{byte:02x}")),
        }
    }
    if line.len() > LONGEST_LINE {
        text.push_str(&format!("... ({} bytes)", line.len()));
    }
    text
}

#[cfg(test)]
mod tests {
    use super::*;
    use crate::command::MOST_LENT;

    #[test]
    fn bytes_and_lines_are_the_same_script() {
        for bytes in
            [&b""[..], b"\n", b"report\n", b"report", b"a\n\nb\n", b"a\n\nb", b"\r\n\0", b"\n\n"]
        {
            assert_eq!(Script::from_bytes(bytes).bytes(), bytes);
        }
        assert_eq!(Script::from_bytes(b"a\nb").lines.len(), 2);
        assert_eq!(Script::from_bytes(b"a\nb\n").lines.len(), 2);
    }

    #[test]
    fn shown_lines_can_be_told_apart() {
        assert_eq!(show(b"log 1\r"), "log 1\\x0d");
        assert_eq!(show(b"\\x0d"), "\\\\x0d");
    }

    /// The longest answer is that of a readout into 200 bytes.
    #[test]
    fn only_a_line_too_long_is_cut() {
        for length in [2 + 2 * MOST_LENT, LONGEST_LINE] {
            let line = "0".repeat(length);
            assert_eq!(show(line.as_bytes()), line);
        }
        let shown = show("0".repeat(LONGEST_LINE + 1).as_bytes());
        assert!(shown.ends_with("0... (501 bytes)"), "{shown}");
    }
}
