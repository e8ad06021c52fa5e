//! Words of others in a page: nothing of them is ever markup, and what cannot be seen is shown as an escape.

/// A piece of text, as content or within a quoted attribute.
pub fn escape(words: &str) -> String {
    let mut safe = String::with_capacity(words.len());
    for letter in words.chars() {
        match letter {
            '&' => safe.push_str("&amp;"),
            '<' => safe.push_str("&lt;"),
            '>' => safe.push_str("&gt;"),
            '"' => safe.push_str("&quot;"),
            '\'' => safe.push_str("&#39;"),
            ' '..='~' => safe.push(letter),
            // Letters and digits of any script; not what turns the direction of writing or has no width.
            _ if letter.is_alphanumeric() => safe.push(letter),
            _ => safe.extend(letter.escape_default()),
        }
    }
    safe
}

/// The first letters of a name that is too long for its place.
pub fn short(words: &str, most: usize) -> String {
    if words.chars().count() <= most {
        return escape(words);
    }
    format!("{}..", escape(&words.chars().take(most.saturating_sub(2)).collect::<String>()))
}

/// A text whole, line by line. Bytes that are no UTF-8 are shown as escapes too.
pub fn whole(text: &[u8]) -> String {
    let mut safe = String::with_capacity(text.len() + text.len() / 8);
    for line in text.split_inclusive(|&byte| byte == b'\n') {
        let (line, end) = match line.strip_suffix(b"\n") {
            Some(line) => (line.strip_suffix(b"\r").unwrap_or(line), "\n"),
            None => (line, ""),
        };
        for chunk in line.utf8_chunks() {
            safe += &escape(&chunk.valid().replace('\t', "    "));
            safe.extend(chunk.invalid().iter().map(|byte| format!("\\x{byte:02x}")));
        }
        safe += end;
    }
    safe
}

/// Bytes by their hexadecimal digits, 32 on a line.
pub fn bytes(text: &[u8]) -> String {
    let line = |(k, bytes): (usize, &[u8])| {
        let digits: String = bytes.iter().map(|byte| format!(" {byte:02x}")).collect();
        format!("{:6}: {digits}\n", 32 * k)
    };
    text.chunks(32).enumerate().map(line).collect()
}

/// A number with a comma before every three digits.
pub fn grouped(n: impl Into<u64>) -> String {
    let digits = n.into().to_string();
    let mut text = String::new();
    for (k, digit) in digits.chars().enumerate() {
        if k > 0 && (digits.len() - k) % 3 == 0 {
            text.push(',');
        }
        text.push(digit);
    }
    text
}

#[cfg(test)]
mod tests {
    use super::*;

    #[test]
    fn nothing_breaks_out() {
        assert_eq!(escape("<b a=\"1\" b='2'>&amp;"), "&lt;b a=&quot;1&quot; b=&#39;2&#39;&gt;&amp;amp;");
        assert_eq!(escape("a\u{202e}b\u{0}\u{200b}ü"), "a\\u{202e}b\\u{0}\\u{200b}ü");
        assert_eq!(short("abcdefgh", 6), "abcd..");
        assert_eq!(whole(b"a\r\n<\xff\tb"), "a\n&lt;\\xff    b");
        assert_eq!(bytes(b"\x01\xff"), "     0:  01 ff\n");
        assert_eq!(grouped(1_234_567u64), "1,234,567");
        assert_eq!(grouped(12u64), "12");
    }
}
