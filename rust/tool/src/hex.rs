//! Bytes as hexadecimal digits.

use std::fmt::Write;

/// Bytes of a line in a dump.
const LINE: usize = 16;

pub fn digits(bytes: &[u8]) -> String {
    let mut text = String::with_capacity(2 * bytes.len());
    for byte in bytes {
        let _ = write!(text, "{byte:02x}");
    }
    text
}

/// The bytes of a line of digits; nothing if it is none, or has another length.
pub fn bytes(digits: &str, into: &mut [u8]) -> Option<()> {
    if digits.len() != 2 * into.len() || !digits.bytes().all(|b| b.is_ascii_hexdigit()) {
        return None;
    }
    for (byte, pair) in into.iter_mut().zip(digits.as_bytes().chunks_exact(2)) {
        let pair = std::str::from_utf8(pair).ok()?;
        *byte = u8::from_str_radix(pair, 16).ok()?;
    }
    Some(())
}

/// Lines of offset, 16 bytes, and the letters among them. A star stands for lines like the one
/// before.
pub fn dump(bytes: &[u8]) -> String {
    let mut text = String::new();
    let mut before: Option<&[u8]> = None;
    let mut folded = false;
    for (i, line) in bytes.chunks(LINE).enumerate() {
        let last = (i + 1) * LINE >= bytes.len();
        if before == Some(line) && !last {
            if !folded {
                text.push_str("*\n");
            }
            folded = true;
            continue;
        }
        let _ = writeln!(text, "{}", dump_line(i * LINE, line));
        (before, folded) = (Some(line), false);
    }
    text
}

fn dump_line(at: usize, line: &[u8]) -> String {
    let pairs: Vec<String> = line.iter().map(|byte| format!("{byte:02x}")).collect();
    let letter = |byte: &u8| match byte {
        b' '..=b'~' => *byte as char,
        _ => '.',
    };
    let letters: String = line.iter().map(letter).collect();
    format!("{at:08x}: {}  {letters}", pairs.join(" "))
}

#[cfg(test)]
mod tests {
    use super::*;

    #[test]
    fn digits_are_read_back() {
        let all: Vec<u8> = (0..=255).collect();
        let mut again = [0; 256];
        bytes(&digits(&all), &mut again).unwrap();
        assert_eq!(again[..], all);
        for wrong in ["", "0", "000", "0g", "+1", " 1", "ä"] {
            assert_eq!(bytes(wrong, &mut [0]), None, "{wrong}");
        }
    }

    #[test]
    fn equal_lines_are_folded() {
        let mut page = [0; 512];
        page[..4].copy_from_slice(b"paid");
        let dump = dump(&page);
        let lines: Vec<&str> = dump.lines().collect();
        assert_eq!(lines.len(), 4, "{dump}");
        let first = "00000000: 70 61 69 64 00 00 00 00 00 00 00 00 00 00 00 00  paid............";
        assert_eq!(lines[0], first);
        assert!(lines[1].starts_with("00000010: 00"));
        assert_eq!(lines[2], "*");
        assert!(lines[3].starts_with("000001f0: 00"));
    }
}
