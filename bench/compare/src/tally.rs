//! What was compared, by kind, call and answer, and the first differences.

use std::collections::BTreeMap;

const MOST_SHOWN: usize = 5;
const ANSWERS: usize = 15;

/// Counts of comparisons and the differences found.
#[derive(Default)]
pub struct Tally {
    rows: BTreeMap<String, [u64; ANSWERS + 1]>,
    differences: u64,
}

impl Tally {
    /// Counts one comparison; a difference among the first is printed at once, in full.
    pub fn count(&mut self, row: &str, answer: usize, name: &str, difference: Option<String>) {
        if !self.rows.contains_key(row) {
            self.rows.insert(row.to_string(), [0; ANSWERS + 1]);
        }
        if let Some(counts) = self.rows.get_mut(row) {
            counts[answer.min(ANSWERS)] += 1;
        }
        if let Some(text) = difference {
            self.differences += 1;
            if self.differences <= MOST_SHOWN as u64 {
                println!("difference {}: {name}\n{text}", self.differences);
            }
        }
    }

    /// Prints the counts; true if there was no difference.
    pub fn print(&self, problems: u64) -> bool {
        println!("{:<24}{:>11} | by answer", "compared", "in all");
        let mut all = 0;
        for (row, counts) in &self.rows {
            let sum: u64 = counts.iter().sum();
            all += sum;
            let by_answer = counts.iter().enumerate().filter(|(_, &count)| count > 0);
            let by_answer: Vec<String> = by_answer.map(|(answer, count)| format!("{answer}: {count}")).collect();
            println!("{row:<24}{sum:>11} | {}", by_answer.join(", "));
        }
        let tables = 2 * problems;
        print!("problems: {problems}, files: {problems}, tables: {tables}, ");
        println!("calls compared: {all}, differences: {}", self.differences);
        self.differences == 0
    }
}
