//! What the runs counted, judged and printed.

use crate::run::Entry;
use std::collections::BTreeMap;

/// The last number that a refusal has.
const LAST: u32 = 27;

/// What the process of one entry said.
pub struct Report {
    pub entry: &'static Entry,
    /// How far it said that it was.
    pub at: u64,
    pub ended: bool,
    cases: u64,
    mismatches: u64,
    numbers: BTreeMap<(String, u32), u64>,
    edges: BTreeMap<String, u64>,
    pub faults: Vec<String>,
}

impl Report {
    pub fn new(entry: &'static Entry) -> Report {
        Report {
            entry,
            at: 0,
            ended: false,
            cases: 0,
            mismatches: 0,
            numbers: BTreeMap::new(),
            edges: BTreeMap::new(),
            faults: Vec::new(),
        }
    }

    /// Takes a line of the process's output.
    pub fn take(&mut self, line: &str) {
        let mut words = line.splitn(2, ' ');
        let (word, rest) = (words.next().unwrap_or(""), words.next().unwrap_or(""));
        let count = |text: &str| text.parse::<u64>().unwrap_or(0);
        match word {
            "at" => self.at = count(rest),
            "cases" => self.cases = count(rest),
            "mismatches" => self.mismatches = count(rest),
            "number" => {
                let mut parts = rest.splitn(3, ' ');
                let mut part = || parts.next().unwrap_or("");
                let (number, times, function) = (part(), part(), part());
                let number = number.parse().unwrap_or(u32::MAX);
                self.numbers
                    .insert((function.to_string(), number), count(times));
            }
            "edge" => {
                let (times, name) = rest.split_once(' ').unwrap_or(("", rest));
                self.edges.insert(name.to_string(), count(times));
            }
            "end" => self.ended = true,
            _ => {}
        }
    }

    /// Puts what is wrong to the faults. What was missed is wrong only if there was time
    /// enough.
    pub fn judge(&mut self, enough: bool) {
        if self.mismatches > 0 {
            self.faults.push(format!("{} mismatches", self.mismatches));
        }
        if !self.ended {
            return;
        }
        for (function, listed) in self.entry.numbers {
            for number in *listed {
                let hit = self.numbers.contains_key(&(function.to_string(), *number));
                if enough && !hit {
                    self.faults
                        .push(format!("{function} never answered {number}"));
                }
            }
            let others = self
                .numbers
                .keys()
                .filter(|key| key.0 == *function && !listed.contains(&key.1));
            for (_, number) in others {
                self.faults.push(format!(
                    "{function} answered {number}, which j8.h doesn't list"
                ));
            }
        }
        for edge in self.entry.edges {
            if enough && !self.edges.contains_key(*edge) {
                self.faults.push(format!("never reached: {edge}"));
            }
        }
    }
}

/// A number with commas.
fn commas(number: u64) -> String {
    let digits = number.to_string();
    let groups: Vec<&str> = digits
        .as_bytes()
        .rchunks(3)
        .rev()
        .map(|group| std::str::from_utf8(group).expect("digits"))
        .collect();
    groups.join(",")
}

/// Tables for docs/TESTING.md: the entries, the numbers by function, the edges.
pub fn print(reports: &[Report]) {
    println!("\n| entry | cases | calls | mismatches |\n|---|---|---|---|");
    for report in reports {
        let calls: u64 = report.numbers.values().sum();
        println!(
            "| `{}` | {} | {} | {} |",
            report.entry.name,
            commas(report.cases),
            commas(calls),
            report.mismatches
        );
    }

    // The functions of all entries, in their order, with what all entries counted.
    let mut functions: Vec<&str> = Vec::new();
    let mut counts: BTreeMap<(&str, u32), u64> = BTreeMap::new();
    for report in reports {
        for (function, _) in report.entry.numbers {
            if !functions.contains(function) {
                functions.push(function);
            }
        }
        for ((function, number), count) in &report.numbers {
            *counts.entry((function, *number)).or_default() += count;
        }
    }
    println!("\n| number | {} |", functions.join(" | "));
    println!("|---|{}", "---|".repeat(functions.len()));
    for number in 0..=LAST {
        let cell = |function: &&str| {
            counts
                .get(&(function, number))
                .map_or("".into(), |&n| commas(n))
        };
        let cells: Vec<String> = functions.iter().map(cell).collect();
        println!("| {number} | {} |", cells.join(" | "));
    }
    let other = |function: &&str| -> u64 {
        let over = counts
            .iter()
            .filter(|(key, _)| key.0 == *function && key.1 > LAST);
        over.map(|(_, count)| count).sum()
    };
    if functions.iter().any(|function| other(function) > 0) {
        let cells: Vec<String> = functions
            .iter()
            .map(|f| match other(f) {
                0 => String::new(),
                n => commas(n),
            })
            .collect();
        println!("| other | {} |", cells.join(" | "));
    }

    println!("\n| entry | edges reached |\n|---|---|");
    for report in reports {
        let edges: Vec<String> = report
            .edges
            .iter()
            .map(|(name, count)| format!("{name}: {}", commas(*count)))
            .collect();
        println!("| `{}` | {} |", report.entry.name, edges.join("; "));
    }
    println!();
    for report in reports {
        for fault in &report.faults {
            println!("{}: {fault}", report.entry.name);
        }
    }
}
