//! Texts that are no grammar: bytes as UTF-8, and bytes in hexadecimal digits.

use std::str;

use route_record::{Position, TextError};

/// The error that something else was expected behind the first part of a text.
fn error(before: &str, expected: &str, found: String) -> TextError {
    TextError {
        position: Position::START.behind(before),
        expected: expected.to_string(),
        found,
    }
}

/// The text that these bytes are in UTF-8.
pub fn decode(bytes: &[u8]) -> Result<&str, TextError> {
    str::from_utf8(bytes).map_err(|fault| {
        let (text, rest) = bytes.split_at(fault.valid_up_to());
        let found = format!("byte 0x{:02x}", rest[0]);
        error(&String::from_utf8_lossy(text), "UTF-8 text", found)
    })
}

/// The bytes that a text gives by two hexadecimal digits each. White space is passed over.
pub fn parse_hex(text: &str) -> Result<Vec<u8>, TextError> {
    let mut bytes = Vec::new();
    let mut high = None;
    for (at, c) in text.char_indices().filter(|(_, c)| !c.is_whitespace()) {
        let missing = || error(&text[..at], "a hexadecimal digit", format!("{c:?}"));
        let digit = c.to_digit(16).ok_or_else(missing)? as u8;
        match high.take() {
            None => high = Some(digit),
            Some(high) => bytes.push(16 * high + digit),
        }
    }
    let end = || {
        error(
            text,
            "a hexadecimal digit",
            "the end of the text".to_string(),
        )
    };
    high.map_or(Ok(bytes), |_| Err(end()))
}

/// Bytes in hexadecimal digits, four bytes together and 32 to a line.
pub fn hex_lines(bytes: &[u8]) -> String {
    let digits = |bytes: &[u8]| -> String { bytes.iter().map(|b| format!("{b:02x}")).collect() };
    let line = |bytes: &[u8]| {
        let groups: Vec<String> = bytes.chunks(4).map(digits).collect();
        groups.join(" ") + "\n"
    };
    bytes.chunks(32).map(line).collect()
}

#[cfg(test)]
mod tests {
    use super::*;

    #[test]
    fn white_space_is_passed_over() {
        assert_eq!(parse_hex(" \n").unwrap(), []);
        assert_eq!(parse_hex("00fF\t0 7\r\n41").unwrap(), [0, 255, 7, 0x41]);
    }

    #[test]
    fn bytes_are_printed_by_lines_that_are_read_again() {
        assert_eq!(hex_lines(&[]), "");
        assert_eq!(hex_lines(&[0, 255, 7, 16, 0x4a]), "00ff0710 4a\n");
        let line = ["07070707"; 8].join(" ");
        assert_eq!(hex_lines(&[7; 32]), format!("{line}\n"));
        assert_eq!(hex_lines(&[7; 33]), format!("{line}\n07\n"));
        for length in 0..100 {
            let bytes: Vec<u8> = (0..length).map(|i| 2 * i + 1).collect();
            assert_eq!(parse_hex(&hex_lines(&bytes)).unwrap(), bytes);
        }
    }

    #[test]
    fn what_is_no_digit_has_a_position() {
        for (text, position, found) in [
            ("4g", "1:2", "'g'"),
            ("41\n0x42", "2:2", "'x'"),
            ("ä", "1:1", "'ä'"),
            ("41 4\n", "2:1", "the end of the text"),
        ] {
            let expected = format!("{position}: expected a hexadecimal digit, found {found}");
            assert_eq!(parse_hex(text).unwrap_err().to_string(), expected);
        }
    }

    #[test]
    fn bytes_that_are_no_text_have_a_position() {
        assert_eq!(decode("ä\n".as_bytes()), Ok("ä\n"));
        for (bytes, position, byte) in [
            (&b"u32 # \xc3\xa4\n \xff("[..], "2:2", "ff"),
            (b"\xc3", "1:1", "c3"),
        ] {
            let expected = format!("{position}: expected UTF-8 text, found byte 0x{byte}");
            assert_eq!(decode(bytes).unwrap_err().to_string(), expected);
        }
    }
}
