//! Bytes as text: two capitals each, blanks between.

/// `04 50 02`
pub fn text(bytes: &[u8]) -> String {
    bytes.iter().map(|byte| format!("{byte:02X}")).collect::<Vec<_>>().join(" ")
}

pub fn bytes(text: &str) -> Option<Vec<u8>> {
    text.split_whitespace().map(byte).collect()
}

/// Two hex digits.
pub fn byte(text: &str) -> Option<u8> {
    if text.len() != 2 || !text.bytes().all(|digit| digit.is_ascii_hexdigit()) {
        return None;
    }
    u8::from_str_radix(text, 16).ok()
}

#[cfg(test)]
mod tests {
    use super::*;

    #[test]
    fn there_and_back() {
        assert_eq!(text(&[0x04, 0x50, 0xFF]), "04 50 FF");
        assert_eq!(bytes("04 50 FF"), Some(vec![0x04, 0x50, 0xFF]));
        assert_eq!(bytes(""), Some(vec![]));
        for wrong in ["4", "04h", "+4", "0450", "zz"] {
            assert_eq!(bytes(wrong), None, "{wrong}");
        }
    }
}
