//! Two texts compared line by line.

/// The first line in which the texts differ, in words. A line without its newline is another line.
pub fn first_difference(found: &str, expected: &str) -> Option<String> {
    let mut found_lines = found.split_inclusive('\n');
    let mut expected_lines = expected.split_inclusive('\n');
    for number in 1.. {
        let pair = (found_lines.next(), expected_lines.next());
        if pair == (None, None) {
            break;
        }
        if pair.0 != pair.1 {
            let (found, expected) = (shown(pair.0), shown(pair.1));
            return Some(format!(
                "line {number}:\nfound:    {found}\nexpected: {expected}"
            ));
        }
    }
    None
}

fn shown(line: Option<&str>) -> String {
    match line {
        None => "(no line)".to_string(),
        Some(line) => match line.strip_suffix('\n') {
            Some(line) => line.to_string(),
            None => format!("{line} (without a newline)"),
        },
    }
}

#[cfg(test)]
mod tests {
    use super::*;

    #[test]
    fn the_first_differing_line_is_named() {
        assert_eq!(first_difference("a\nb\n", "a\nb\n"), None);
        let difference = first_difference("a\nb\n", "a\nc\n").unwrap();
        assert_eq!(difference, "line 2:\nfound:    b\nexpected: c");
        let difference = first_difference("a", "a\n").unwrap();
        assert!(difference.contains("without a newline"));
        let difference = first_difference("", "a\n").unwrap();
        assert!(difference.contains("(no line)"));
    }
}
