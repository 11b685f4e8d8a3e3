//! Text as it may stand in a page, and numbers as people read them.

/// The text with what is markup escaped. A character that no page may hold becomes U+FFFD.
pub fn escaped(text: &str) -> String {
    let mut safe = String::with_capacity(text.len());
    for c in text.chars() {
        match c {
            '&' => safe.push_str("&amp;"),
            '<' => safe.push_str("&lt;"),
            '>' => safe.push_str("&gt;"),
            '"' => safe.push_str("&quot;"),
            '\'' => safe.push_str("&#39;"),
            '\t' | '\n' => safe.push(c),
            c if c.is_control() || matches!(c, '\u{FFFE}' | '\u{FFFF}') => safe.push('\u{FFFD}'),
            c => safe.push(c),
        }
    }
    safe
}

/// 95200 as `95,200`.
pub fn grouped(number: u64) -> String {
    let digits = number.to_string();
    let mut text = String::new();
    for (i, digit) in digits.chars().enumerate() {
        if i > 0 && (digits.len() - i) % 3 == 0 {
            text.push(',');
        }
        text.push(digit);
    }
    text
}

/// `95,200` or `95200` as a number.
pub fn number(text: &str) -> Option<u64> {
    let plain = text.replace(',', "");
    if plain.is_empty() || !plain.bytes().all(|byte| byte.is_ascii_digit()) {
        return None;
    }
    plain.parse().ok()
}

/// The text in lines of at most `most` characters, broken between words where that can be. A number keeps to the word before it.
pub fn wrapped(text: &str, most: usize) -> Vec<String> {
    let mut lines: Vec<String> = Vec::new();
    for unit in units(text, most) {
        match lines.last_mut() {
            Some(line) if line.chars().count() + 1 + unit.chars().count() <= most => {
                line.push(' ');
                line.push_str(&unit);
            }
            _ => lines.push(unit),
        }
    }
    lines
}

/// What is not broken: words, each with a number behind it, where they are not longer than a line.
fn units(text: &str, most: usize) -> Vec<String> {
    let mut units: Vec<String> = Vec::new();
    for word in text.split_whitespace() {
        let is_number = word.trim_start_matches('-').starts_with(|c: char| c.is_ascii_digit());
        match units.last_mut() {
            Some(unit) if is_number && unit.chars().count() + 1 + word.chars().count() <= most => {
                unit.push(' ');
                unit.push_str(word);
            }
            _ => {
                let chars: Vec<char> = word.chars().collect();
                units.extend(chars.chunks(most).map(String::from_iter));
            }
        }
    }
    units
}

#[cfg(test)]
mod tests {
    use super::*;

    #[test]
    fn markup_is_escaped() {
        assert_eq!(escaped("a<b & \"c\" > 'd'"), "a&lt;b &amp; &quot;c&quot; &gt; &#39;d&#39;");
        assert_eq!(escaped("\u{0}\u{1b}[m\u{7f}"), "\u{FFFD}\u{FFFD}[m\u{FFFD}");
    }

    #[test]
    fn numbers_with_their_commas() {
        for (n, text) in [(0, "0"), (999, "999"), (1_000, "1,000"), (95_200, "95,200"), (1_234_567, "1,234,567")] {
            assert_eq!(grouped(n), text);
            assert_eq!(number(text), Some(n));
        }
        assert_eq!(number("95200"), Some(95_200));
        for text in ["", "x", "-1", "1.5", ","] {
            assert_eq!(number(text), None, "{text}");
        }
    }

    #[test]
    fn lines_keep_to_their_width() {
        assert_eq!(wrapped("quiet for 3,200 of 5,200 ms", 12), ["quiet", "for 3,200", "of 5,200 ms"]);
        assert_eq!(wrapped("booked lower unknown 1 open -1", 29), ["booked lower unknown 1", "open -1"]);
        assert_eq!(wrapped("abcdefgh ij", 3), ["abc", "def", "gh", "ij"]);
        assert!(wrapped("  ", 3).is_empty());
    }
}
