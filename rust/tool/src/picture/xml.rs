//! Text inside an XML element.

/// The text, on one line and without what XML 1.0 does not allow.
pub fn text(text: &str) -> String {
    let mut written = String::with_capacity(text.len());
    for letter in text.chars() {
        match letter {
            '&' => written.push_str("&amp;"),
            '<' => written.push_str("&lt;"),
            '>' => written.push_str("&gt;"),
            '"' => written.push_str("&quot;"),
            '\'' => written.push_str("&apos;"),
            '\t' | '\n' | '\r' => written.push(' '),
            '\u{fffe}' | '\u{ffff}' => {}
            _ if letter.is_control() => {}
            _ => written.push(letter),
        }
    }
    written
}

#[cfg(test)]
mod tests {
    use super::*;

    #[test]
    fn signs_of_the_language_stand_for_themselves() {
        assert_eq!(text(r#"<b> & "it's""#), "&lt;b&gt; &amp; &quot;it&apos;s&quot;");
        assert_eq!(text("&amp;"), "&amp;amp;");
    }

    #[test]
    fn one_line_of_what_is_allowed() {
        assert_eq!(text("a\tb\r\nc"), "a b  c");
        assert_eq!(text("\0a\u{1b}[31m\u{7f}\u{85}\u{fffe}\u{ffff}b"), "a[31mb");
        assert_eq!(text("Bacillus \u{3b2} \u{6c34} \u{1f9eb} \u{fffd}"), "Bacillus \u{3b2} \u{6c34} \u{1f9eb} \u{fffd}");
    }
}
