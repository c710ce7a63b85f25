//! Counts of the answers in the outputs, by the kind of event.

use std::collections::BTreeMap;
use std::fmt;

/// The columns: event 0, the kinds 1 to 5, and events whose kind is unread or
/// unknown. With each, the answers that a season file can bring about.
const COLUMNS: [(&str, &[u64]); 7] = [
    ("opening", &[0, 1, 2, 3, 4, 5, 6, 20, 21]),
    ("kind 1", &[0, 7, 8, 21]),
    ("kind 2", &[0, 7, 8, 9, 21]),
    ("kind 3", &[0, 7, 21]),
    ("kind 4", &[0, 7, 8, 21]),
    ("kind 5", &[0, 7, 8, 11, 12, 13, 14, 21]),
    ("other", &[21, 22, 23]),
];

#[derive(Default)]
pub struct Tally {
    pub files: usize,
    pub input_bytes: usize,
    pub output_bytes: usize,
    /// Readings that were tested against a ledger.
    pub promises: usize,
    /// By answer: a count for each column.
    answers: BTreeMap<u64, [usize; COLUMNS.len()]>,
    families: BTreeMap<String, usize>,
}

impl Tally {
    pub fn add(&mut self, family: &str, input: &[u8], output: &[u8]) {
        self.add_file(family, input);
        for line in output.split_inclusive(|&b| b == b'\n') {
            self.add_line(line);
        }
    }

    /// A file whose lines are counted one by one.
    pub fn add_file(&mut self, family: &str, input: &[u8]) {
        self.files += 1;
        self.input_bytes += input.len();
        *self.families.entry(family.to_string()).or_default() += 1;
    }

    pub fn add_line(&mut self, line: &[u8]) {
        self.output_bytes += line.len();
        let head = &line[..line.len().min(40)];
        let mut fields = head.split(|&b| b == b' ' || b == b'\n').map(value);
        let mut field = || fields.next().flatten().expect("three numbers");
        let (event, kind, answer) = (field(), field(), field());
        let column = match (event, kind) {
            (0, _) => 0,
            (_, 1..=5) => kind as usize,
            _ => 6,
        };
        self.answers.entry(answer).or_default()[column] += 1;
    }

    /// The answers that have not come up, each with its column.
    pub fn missing(&self) -> Vec<(&'static str, u64)> {
        let mut missing = Vec::new();
        for (index, (column, answers)) in COLUMNS.iter().enumerate() {
            let absent = |a: &&u64| self.answers.get(a).is_none_or(|counts| counts[index] == 0);
            missing.extend(answers.iter().filter(absent).map(|&a| (*column, a)));
        }
        missing
    }

    /// The answers that came up where no file can bring them about.
    pub fn foreign(&self) -> Vec<(&'static str, u64)> {
        let mut foreign = Vec::new();
        for (&answer, counts) in &self.answers {
            for ((column, answers), count) in COLUMNS.iter().zip(counts) {
                if *count > 0 && !answers.contains(&answer) {
                    foreign.push((*column, answer));
                }
            }
        }
        foreign
    }
}

impl fmt::Display for Tally {
    fn fmt(&self, f: &mut fmt::Formatter) -> fmt::Result {
        writeln!(f, "files by family:")?;
        for (family, count) in &self.families {
            writeln!(f, "  {family:<14} {count:>6}")?;
        }
        writeln!(
            f,
            "files {}, input bytes {}, output bytes {}",
            self.files, self.input_bytes, self.output_bytes
        )?;
        writeln!(
            f,
            "readings that agreed with their ledger {}",
            self.promises
        )?;
        writeln!(
            f,
            "lines by answer (20 to 23 are file faults) and kind of event:"
        )?;
        let names: String = COLUMNS
            .iter()
            .map(|(name, _)| format!(" {name:>7}"))
            .collect();
        writeln!(f, "answer     all{names}")?;
        for (answer, counts) in &self.answers {
            let sum: usize = counts.iter().sum();
            let columns: String = counts.iter().map(|c| format!(" {c:>7}")).collect();
            writeln!(f, "{answer:>6} {sum:>7}{columns}")?;
        }
        Ok(())
    }
}

fn value(field: &[u8]) -> Option<u64> {
    std::str::from_utf8(field).ok()?.parse().ok()
}
