//! Compares every function of `j8.h` with the reference on random inputs, for a time.
//!
//! ```text
//! compare [ENTRY..]                         all of them, or these
//! compare --replay ENTRY SEED CASE [COUNT]  these cases again, with everything printed
//! ```
//!
//! J8_SECONDS is the time for each entry (20), J8_SEED the seed (1), J8_JOBS how many run
//! at once (as many as there are cores). A case is made from the seed and its number alone.
//! The status is 1 if the sides differed anywhere, if an entry's process died, or if a
//! run of 20 seconds or more missed a number that `j8.h` lists, or an edge.

mod json8;
mod lines_write;
mod run;
mod sides;
mod strings;
mod table;
mod tsv8;
mod uploads;

use run::{Entry, Run, STEP};
use std::io::{BufRead, BufReader};
use std::process::{exit, Command, Stdio};
use std::sync::atomic::{AtomicUsize, Ordering};
use std::time::Duration;
use table::Report;

const ENTRIES: [Entry; 9] = [
    strings::READ,
    strings::WRITE,
    uploads::CALLS,
    uploads::STATES,
    lines_write::WRITE,
    json8::READ,
    json8::SHOW,
    json8::WRITE,
    tsv8::READ,
];

/// A shorter run may miss something.
const ENOUGH: f64 = 20.0;

fn usage() -> ! {
    let names: Vec<&str> = ENTRIES.iter().map(|entry| entry.name).collect();
    eprintln!(
        "compare [ENTRY..]\ncompare --replay ENTRY SEED CASE [COUNT]\nentries: {}",
        names.join(" ")
    );
    exit(2);
}

fn entry(name: &str) -> &'static Entry {
    static ALL: [Entry; 9] = ENTRIES;
    ALL.iter()
        .find(|entry| entry.name == name)
        .unwrap_or_else(|| usage())
}

fn setting<T: std::str::FromStr>(name: &str, otherwise: T) -> T {
    match std::env::var(name) {
        Ok(value) => value.parse().unwrap_or_else(|_| {
            eprintln!("{name}={value} is no number");
            exit(2);
        }),
        Err(_) => otherwise,
    }
}

fn number(argument: Option<&String>) -> u64 {
    argument
        .and_then(|text| text.parse().ok())
        .unwrap_or_else(|| usage())
}

/// What a process of its own prints for the one that started it.
fn child(entry: &Entry, seed: u64, seconds: f64) {
    let run = Run::timed(entry, seed, Duration::from_secs_f64(seconds), |cases| {
        println!("at {cases}")
    });
    println!("cases {}", run.cases);
    println!("mismatches {}", run.mismatches);
    for ((function, number), count) in &run.numbers {
        println!("number {number} {count} {function}");
    }
    for (name, count) in &run.edges {
        println!("edge {count} {name}");
    }
    println!("end");
}

/// Runs an entry in a process of its own, so that a crash stops no other.
fn run_apart(entry: &'static Entry, seed: u64, seconds: f64) -> Report {
    let program = std::env::current_exe().expect("a path of this program");
    let mut process = Command::new(program)
        .args([
            "--child",
            entry.name,
            &seed.to_string(),
            &seconds.to_string(),
        ])
        .stdout(Stdio::piped())
        .spawn()
        .expect("a process for an entry");
    let mut report = Report::new(entry);
    let lines = BufReader::new(process.stdout.take().expect("its output"));
    for line in lines.lines().map_while(Result::ok) {
        report.take(&line);
    }
    let status = process.wait().expect("the end of a process");
    if !report.ended {
        report.faults.push(format!(
            "{status}, in case {} or up to {} cases later; the last that this prints is the one: compare --replay {} {seed} {} {}",
            report.at, STEP - 1, entry.name, report.at, STEP
        ));
    }
    report
}

fn main() {
    let arguments: Vec<String> = std::env::args().skip(1).collect();
    let seed = setting("J8_SEED", 1);
    let seconds: f64 = setting("J8_SECONDS", 20.0);
    match arguments.first().map(String::as_str) {
        Some("--replay") => {
            let (name, seed) = (
                arguments.get(1).unwrap_or_else(|| usage()),
                number(arguments.get(2)),
            );
            let count = arguments.get(4).map_or(1, |count| number(Some(count)));
            let run = Run::replay(entry(name), seed, number(arguments.get(3)), count);
            println!("mismatches: {}", run.mismatches);
            exit(i32::from(run.mismatches > 0));
        }
        Some("--child") => {
            let seconds = arguments[3].parse().expect("seconds");
            child(entry(&arguments[1]), number(arguments.get(2)), seconds);
            return;
        }
        Some(option) if option.starts_with('-') => usage(),
        _ => {}
    }

    let mut chosen: Vec<&'static Entry> = arguments.iter().map(|name| entry(name)).collect();
    if chosen.is_empty() {
        chosen = ENTRIES.iter().map(|e| entry(e.name)).collect();
    }
    let cores = std::thread::available_parallelism().map_or(1, usize::from);
    let jobs = setting("J8_JOBS", cores).clamp(1, chosen.len());
    println!("seed {seed}, {seconds} s an entry, {jobs} at once");

    let next = AtomicUsize::new(0);
    let work = || {
        let mut reports = Vec::new();
        while let Some(entry) = chosen.get(next.fetch_add(1, Ordering::SeqCst)) {
            reports.push(run_apart(entry, seed, seconds));
        }
        reports
    };
    let mut reports: Vec<Report> = std::thread::scope(|scope| {
        let workers: Vec<_> = (0..jobs).map(|_| scope.spawn(work)).collect();
        workers
            .into_iter()
            .flat_map(|worker| worker.join().expect("a worker"))
            .collect()
    });
    reports.sort_by_key(|report| {
        chosen
            .iter()
            .position(|entry| entry.name == report.entry.name)
    });
    for report in &mut reports {
        report.judge(seconds >= ENOUGH);
    }
    table::print(&reports);
    let bad = reports.iter().any(|report| !report.faults.is_empty());
    println!(
        "{}",
        if bad {
            "compare: FAILED"
        } else {
            "compare: all alike"
        }
    );
    exit(i32::from(bad));
}
