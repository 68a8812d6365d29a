//! The words of a line that a planner types, and the numbers among them.

/// Words have one or more spaces, tabs or carriage returns between them.
pub fn words(line: &str) -> Vec<&str> {
    let words = line.split([' ', '\t', '\r']);
    words.filter(|word| !word.is_empty()).collect()
}

/// A number of decimal digits alone. Zeros before the others do not count, so at most ten are left of one that fits.
pub fn number_up_to(word: &str, most: u64) -> Option<u64> {
    if word.is_empty() || !word.bytes().all(|byte| byte.is_ascii_digit()) {
        return None;
    }
    let digits = word.trim_start_matches('0');
    if digits.len() > 10 {
        return None;
    }
    let number = format!("0{digits}").parse().ok()?;
    (number <= most).then_some(number)
}

#[cfg(test)]
mod tests {
    use super::*;

    #[test]
    fn words_have_spaces_tabs_or_carriage_returns_between_them() {
        assert_eq!(words("\r a\tb \t\rc#\r"), ["a", "b", "c#"]);
        assert_eq!(words(" \t\r"), [""; 0]);
        let others = ["a\nb", "a\u{b}b", "a\u{c}b", "a\0b", "a\u{a0}b", "a,b"];
        for line in others {
            assert_eq!(words(line), [line]);
        }
    }

    #[test]
    fn numbers_are_digits_up_to_the_limit() {
        let zeros = "0".repeat(5000);
        for (word, value) in [("0", 0), ("00", 0), ("255", 255), ("0254", 254)] {
            assert_eq!(number_up_to(word, 255), Some(value));
            let longer = format!("{zeros}{word}");
            assert_eq!(number_up_to(&longer, 255), Some(value));
        }
        let no_numbers = [
            "", "256", "-1", "+1", "1.", "0x1", "1e1", "a", "\u{b2}", "\u{665}",
        ];
        // Numbers that would be 5 if 8, 16, 32 or 64 bits of them were kept.
        let wrapped = ["261", "65541", "4294967301", "18446744073709551621"];
        for word in no_numbers.into_iter().chain(wrapped) {
            assert_eq!(number_up_to(word, 255), None, "{word}");
        }
        assert_eq!(
            number_up_to("4294967295", 4_294_967_295),
            Some(4_294_967_295)
        );
        assert_eq!(number_up_to("4294967296", 4_294_967_295), None);
    }
}
