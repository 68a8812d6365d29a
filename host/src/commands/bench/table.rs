//! Times and tables as they are printed.

/// Three digits, as far as the clock has them.
pub fn shown_time(nanoseconds: f64) -> String {
    let (value, unit) = match nanoseconds.abs() {
        ..1e3 => (nanoseconds, "ns"),
        1e3..1e6 => (nanoseconds / 1e3, "µs"),
        _ => (nanoseconds / 1e6, "ms"),
    };
    let digits = match value.abs() {
        ..10.0 => 2,
        10.0..100.0 => 1,
        _ => 0,
    };
    format!("{value:.digits$} {unit}")
}

fn aligned(cells: &[String], widths: &[usize]) -> String {
    let cells = cells.iter().zip(widths);
    let cells: String = cells
        .map(|(cell, width)| format!(" {cell:<width$} |"))
        .collect();
    format!("|{cells}\n")
}

/// A table in Markdown whose columns stand below each other. The first row is the heading.
pub fn table(rows: &[Vec<String>]) -> String {
    let columns = 0..rows[0].len();
    let widths: Vec<usize> = columns
        .map(|column| {
            let lengths = rows.iter().map(|row| row[column].chars().count());
            lengths.max().unwrap_or(0)
        })
        .collect();
    let line: Vec<String> = widths.iter().map(|&width| "-".repeat(width)).collect();
    let mut text = aligned(&rows[0], &widths) + &aligned(&line, &widths);
    for row in &rows[1..] {
        text += &aligned(row, &widths);
    }
    text
}

#[cfg(test)]
mod tests {
    use super::*;

    #[test]
    fn times_have_three_digits_and_a_unit() {
        let times = [
            -20.04,
            0.5,
            12.34,
            999.0,
            1000.0,
            45_678.0,
            999_000.0,
            123_456_789.0,
        ];
        let shown = times.map(shown_time);
        let expected = [
            "-20.0 ns", "0.50 ns", "12.3 ns", "999 ns", "1.00 µs", "45.7 µs", "999 µs", "123 ms",
        ];
        assert_eq!(shown, expected);
    }

    #[test]
    fn columns_stand_below_each_other() {
        let rows = [["a", "bc"], ["µs", "d"]].map(|row| row.map(String::from).to_vec());
        assert_eq!(table(&rows), "| a  | bc |\n| -- | -- |\n| µs | d  |\n");
    }
}
