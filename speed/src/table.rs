//! Markdown tables, and numbers as they stand in them.

/// Rows of cells under their heads. The first column is text, the others are numbers.
pub struct Table {
    rows: Vec<Vec<String>>,
}

impl Table {
    pub fn new(heads: &[&str]) -> Self {
        let mut table = Table { rows: Vec::new() };
        table.row(heads.iter().map(ToString::to_string).collect());
        table
    }

    /// Adds a row with as many cells as there are heads.
    pub fn row(&mut self, cells: Vec<String>) {
        self.rows.push(cells);
    }

    /// The table as lines, each column as wide as its widest cell.
    pub fn lines(&self) -> Vec<String> {
        let widths: Vec<usize> = (0..self.rows[0].len())
            .map(|column| self.width(column))
            .collect();
        let mut lines: Vec<String> = self.rows.iter().map(|row| line(row, &widths)).collect();
        lines.insert(1, rule(&widths));
        lines
    }

    fn width(&self, column: usize) -> usize {
        let widths = self.rows.iter().map(|row| row[column].chars().count());
        widths.max().unwrap_or_default()
    }
}

fn line(cells: &[String], widths: &[usize]) -> String {
    let mut line = String::from("|");
    for (index, (cell, &width)) in cells.iter().zip(widths).enumerate() {
        line += &match index {
            0 => format!(" {cell:<width$} |"),
            _ => format!(" {cell:>width$} |"),
        };
    }
    line
}

/// The line under the heads; a colon stands on the side to which a column is set.
fn rule(widths: &[usize]) -> String {
    let mut line = String::from("|");
    for (index, &width) in widths.iter().enumerate() {
        let dashes = "-".repeat(width + 1);
        line += &match index {
            0 => format!(":{dashes}|"),
            _ => format!("{dashes}:|"),
        };
    }
    line
}

/// A time with three digits.
pub fn time(nanos: f64) -> String {
    if nanos < 999.5 {
        format!("{} ns", three_digits(nanos))
    } else {
        format!("{} µs", three_digits(nanos / 1_000.0))
    }
}

fn three_digits(number: f64) -> String {
    let decimals = match number {
        ..9.995 => 2,
        ..99.95 => 1,
        _ => 0,
    };
    format!("{number:.decimals$}")
}

/// A count with a comma before each group of three digits.
pub fn grouped(count: usize) -> String {
    let digits = count.to_string();
    let mut grouped = String::new();
    for (index, digit) in digits.chars().enumerate() {
        if index > 0 && (digits.len() - index).is_multiple_of(3) {
            grouped.push(',');
        }
        grouped.push(digit);
    }
    grouped
}

#[cfg(test)]
mod tests {
    use super::*;

    #[test]
    fn columns_are_as_wide_as_their_widest_cell() {
        let mut table = Table::new(&["Job", "Time"]);
        table.row(vec!["one".into(), "5 µs".into()]);
        table.row(vec!["a long one".into(), "1".into()]);
        let lines = [
            "| Job        | Time |",
            "|:-----------|-----:|",
            "| one        | 5 µs |",
            "| a long one |    1 |",
        ];
        assert_eq!(table.lines(), lines);
    }

    #[test]
    fn times_have_three_digits() {
        for (nanos, shown) in [
            (0.123, "0.12 ns"),
            (9.994, "9.99 ns"),
            (9.996, "10.0 ns"),
            (99.96, "100 ns"),
            (999.4, "999 ns"),
            (999.6, "1.00 µs"),
            (53_210.0, "53.2 µs"),
            (1_234_000.0, "1234 µs"),
        ] {
            assert_eq!(time(nanos), shown);
        }
    }

    #[test]
    fn counts_in_groups() {
        for (count, shown) in [
            (0, "0"),
            (129, "129"),
            (7_609, "7,609"),
            (1_048_576, "1,048,576"),
        ] {
            assert_eq!(grouped(count), shown);
        }
    }
}
