//! What is printed: a table in Markdown, or the times that it is made of.

/// A table on its way.
pub struct Section {
    name: &'static str,
    title: &'static str,
    text: String,
    head: Vec<&'static str>,
    lines: Vec<Vec<String>>,
    times: Vec<(String, &'static str, f64)>,
}

impl Section {
    /// A table with a heading, some text and the names of its columns, and no line yet.
    pub fn new(name: &'static str, title: &'static str, text: &str, head: &[&'static str]) -> Section {
        let (text, head) = (text.to_string(), head.to_vec());
        Section { name, title, text, head, lines: Vec::new(), times: Vec::new() }
    }

    /// Keeps the time, in seconds, of something in a line, and hands it on.
    pub fn time(&mut self, line: &str, what: &'static str, seconds: f64) -> f64 {
        self.times.push((line.to_string(), what, seconds));
        seconds
    }

    /// Adds a line.
    pub fn line<const N: usize>(&mut self, cells: [String; N]) {
        assert_eq!(N, self.head.len(), "a cell for each column");
        self.lines.push(cells.to_vec());
    }

    /// The table in Markdown.
    pub fn markdown(&self) -> String {
        let mut text = format!("### {}\n\n{}\n\n", self.title, self.text);
        text += &format!("| {} |\n|{}\n", self.head.join(" | "), "---|".repeat(self.head.len()));
        text.extend(self.lines.iter().map(|cells| format!("| {} |\n", cells.join(" | "))));
        text
    }

    /// Each time on a line: the table, the line, what was timed, and microseconds, parted by tabs.
    pub fn times(&self) -> String {
        let times = self.times.iter();
        times.map(|(line, what, time)| format!("{}\t{line}\t{what}\t{:.3}\n", self.name, time * 1e6)).collect()
    }
}

/// A time in microseconds.
pub fn micros(seconds: f64) -> String {
    digits(seconds * 1e6)
}

pub fn ratio(over: f64, under: f64) -> String {
    digits(over / under)
}

/// A number in two or three digits, or more where it is large.
fn digits(number: f64) -> String {
    if number < 0.1 {
        format!("{number:.3}")
    } else if number < 10.0 {
        format!("{number:.2}")
    } else if number < 100.0 {
        format!("{number:.1}")
    } else {
        format!("{number:.0}")
    }
}
