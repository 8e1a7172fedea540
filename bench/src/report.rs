//! What a run prints: tables and curves, as JSON. `bench/speed record` keeps it.

/// A column of ratios: its head, and the columns that are divided.
pub type Ratio = (&'static str, usize, usize);

/// A table: the heads of its columns, for each line its name and what was measured, and the ratios, whose columns follow.
pub struct Rows {
    pub key: &'static str,
    pub title: String,
    pub heads: Vec<&'static str>,
    pub ratios: Vec<Ratio>,
    pub lines: Vec<(String, Vec<f64>)>,
}

/// Numbers against a size, for a picture: the head of each column, and the lines.
pub struct Growth {
    pub key: &'static str,
    pub heads: Vec<&'static str>,
    pub lines: Vec<Vec<f64>>,
}

/// All that a run measured, and the libraries beside which it did, with their versions.
pub struct Report {
    pub beside: String,
    pub tables: Vec<Rows>,
    pub growth: Vec<Growth>,
}

fn quoted(text: &str) -> String {
    format!("\"{}\"", text.replace('\\', "\\\\").replace('"', "\\\""))
}

fn list<T>(items: &[T], write: impl Fn(&T) -> String) -> String {
    let parts: Vec<String> = items.iter().map(write).collect();
    format!("[{}]", parts.join(", "))
}

impl Rows {
    /// The ratios of a line.
    fn ratios_of(&self, measured: &[f64]) -> Vec<f64> {
        self.ratios.iter().map(|(_, of, to)| (measured[*of] / measured[*to] * 1e4).round() / 1e4).collect()
    }

    fn json(&self) -> String {
        let heads: Vec<_> = self.heads.iter().copied().chain(self.ratios.iter().map(|(head, ..)| *head)).collect();
        let lines = list(&self.lines, |(name, measured)| {
            let numbers = [&measured[..], &self.ratios_of(measured)].concat();
            format!("{{\"name\": {}, \"numbers\": {}}}", quoted(name), list(&numbers, |n| format!("{n:.4}")))
        });
        let heads = list(&heads, |head| quoted(head));
        format!("{{\"key\": {}, \"title\": {}, \"heads\": {heads}, \"lines\": {lines}}}", quoted(self.key), quoted(&self.title))
    }
}

impl Growth {
    fn json(&self) -> String {
        let lines = list(&self.lines, |line| list(line, |n| format!("{n:.4}")));
        format!("{{\"key\": {}, \"heads\": {}, \"lines\": {lines}}}", quoted(self.key), list(&self.heads, |head| quoted(head)))
    }
}

impl Report {
    pub fn json(&self) -> String {
        let (tables, growth) = (list(&self.tables, Rows::json), list(&self.growth, Growth::json));
        format!("{{\"beside\": {}, \"tables\": {tables}, \"growth\": {growth}}}", quoted(&self.beside))
    }
}
