//! Tables in markdown, with columns as wide as their widest entry.

pub struct Table {
    title: String,
    rows: Vec<Vec<String>>,
}

impl Table {
    pub fn new(title: &str, header: &[&str]) -> Self {
        Self {
            title: title.to_string(),
            rows: vec![header.iter().map(ToString::to_string).collect()],
        }
    }

    pub fn add(&mut self, row: Vec<String>) {
        self.rows.push(row);
    }

    pub fn print(&self) {
        let columns = self.rows[0].len();
        let widths: Vec<usize> = (0..columns).map(|column| self.width(column)).collect();
        let rule: Vec<String> = widths
            .iter()
            .map(|width| "-".repeat(width - 1) + ":")
            .collect();
        println!("## {}\n", self.title);
        print_row(&self.rows[0], &widths);
        print_row(&rule, &widths);
        for row in &self.rows[1..] {
            print_row(row, &widths);
        }
        println!();
    }

    fn width(&self, column: usize) -> usize {
        let entries = self.rows.iter().map(|row| row[column].chars().count());
        entries.max().unwrap_or(0).max(2)
    }
}

fn print_row(row: &[String], widths: &[usize]) {
    for (entry, width) in row.iter().zip(widths) {
        print!("| {entry:>width$} ");
    }
    println!("|");
}

/// A count with a comma before each three digits.
pub fn count(number: usize) -> String {
    let digits = number.to_string();
    let mut text = String::new();
    for (at, digit) in digits.chars().enumerate() {
        if at > 0 && (digits.len() - at).is_multiple_of(3) {
            text.push(',');
        }
        text.push(digit);
    }
    text
}
