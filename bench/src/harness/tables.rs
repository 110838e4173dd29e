//! The tables, each row as it is measured; at the end one line a row.

use crate::harness::measure::Comparison;

#[derive(Default)]
pub struct Tables {
    name: String,
    unit: &'static str,
    lines: Vec<String>,
}

impl Tables {
    /// A table begins: its name, what else there is to say above it, and the unit of its times.
    pub fn begin(&mut self, name: &str, more: &str, unit: &'static str) {
        (self.name, self.unit) = (name.to_string(), unit);
        println!("\n{name}{more}\n");
        println!("| {unit} | plain | ours | ours/plain | pair by pair |");
        println!("|---|---|---|---|---|");
    }

    pub fn row(&mut self, title: &str, Comparison { plain, ours, pairs }: &Comparison) {
        let Tables { name, unit, .. } = self;
        let ratio = ours.median / plain.median;
        println!("| {title} | {plain} | {ours} | {ratio:.2} | {} |", pairs.quartiles());
        let (plain, ours) = (plain.median, ours.median);
        self.lines.push(format!("{ratio:.2}  {name}: {title} ({ours:.2} {unit}, plain {plain:.2})"));
    }

    /// One line a row.
    pub fn summary(&self) {
        println!("\nours over plain, where 1.0 is the aim and more than 2.0 a defect:\n");
        self.lines.iter().for_each(|line| println!("{line}"));
    }
}
