//! The benchmark: strings, uploads, JSON8 and TSV8 beside other libraries. The README
//! says how it is run, and docs/BENCHMARKS.md what is compared.

mod json8;
mod json8_write;
mod library;
mod plot;
mod race;
mod report;
mod strings;
mod texts;
mod tsv8;
mod upload;

use race::{race, race_case, Call, Case, Plan, OURS};
use std::path::Path;

/// The tables, by the words that name them on the command line.
const JOBS: [&str; 7] = [
    "read",
    "write",
    "upload",
    "json8",
    "json8_dense",
    "json8_write",
    "tsv8",
];

/// Calls before the counted ones, so that memory which is kept is there.
const WARM_CALLS: usize = 3;

/// Calls that are counted; what a call does may depend a little on the state of
/// the allocator.
const COUNTED_CALLS: usize = 4;

/// Bytes that a pass shifts the heap by: no divisor of a page.
const HEAP_SHIFT: usize = 1_360;

fn kinds(job: &str) -> Vec<&'static str> {
    match job {
        "read" | "write" => strings::KINDS.to_vec(),
        "upload" => upload::KINDS.to_vec(),
        "tsv8" => tsv8::KINDS.to_vec(),
        _ => texts::names(job == "json8_dense"),
    }
}

fn case(plan: Plan) -> Case {
    match plan.job {
        "read" | "write" => strings::case(plan),
        "upload" => upload::case(plan),
        "json8" | "json8_dense" => json8::case(plan),
        "tsv8" => tsv8::case(plan),
        _ => json8_write::case(plan),
    }
}

/// Plans of a job and kind, by size, piece and texts.
fn plans_of(
    job: &'static str,
    kind: &'static str,
    rows: impl IntoIterator<Item = (usize, usize, usize)>,
) -> Vec<Plan> {
    let plan = |(size, piece, texts)| Plan {
        job,
        kind,
        size,
        piece,
        texts,
    };
    rows.into_iter().map(plan).collect()
}

/// The rows of a kind in a job's table.
fn rows(job: &'static str, kind: &'static str) -> Vec<Plan> {
    match job {
        "read" | "write" => plans_of(job, kind, strings::SIZES.map(|size| (size, 0, 1))),
        "upload" => plans_of(
            job,
            kind,
            upload::PIECES.map(|(piece, size)| (size, piece, 1)),
        ),
        "json8_dense" => {
            let rows = texts::kind(kind).rows();
            plans_of(job, kind, rows.map(|(texts, size)| (size, 0, texts)))
        }
        "tsv8" => plans_of(job, kind, tsv8::SIZES.map(|size| (size, 0, 1))),
        _ => plans_of(job, kind, json8::SIZES.map(|size| (size, 0, 1))),
    }
}

/// The rows of a job's table.
fn plans(job: &'static str) -> Vec<Plan> {
    let rows_of = |kind| rows(job, kind);
    kinds(job).into_iter().flat_map(rows_of).collect()
}

/// The sizes of a kind's curve, up to the limit: each twice the one before it, or
/// of dense texts a KiB more, so that a step at any number of nodes shows.
fn curve(job: &'static str, kind: &'static str) -> Vec<Plan> {
    let (least, limit, piece) = match job {
        "read" | "write" => (16, strings::LIMIT, 0),
        "upload" => (4_096, j8::UPLOAD_MAX, upload::PACKET),
        "tsv8" => (1_024, tsv8::LIMIT, 0),
        _ => (1_024, texts::kind(kind).most, 0),
    };
    let next = |size: &usize| match job {
        "json8_dense" => Some(size + 1_024),
        _ => Some(2 * size),
    };
    let sizes = std::iter::successors(Some(least), next).take_while(|size| *size <= limit);
    plans_of(job, kind, sizes.map(|size| (size, piece, 1)))
}

/// The rows whose instructions are counted: one text of 1 KiB and more; of uploads
/// packets, of a short and of the longest text.
fn counted_plans() -> Vec<Plan> {
    let uploads = [16_384, j8::UPLOAD_MAX].map(|size| (size, upload::PACKET, 1));
    let counted = |plan: &Plan| plan.size >= 1_024 && plan.texts == 1;
    let mut rows = Vec::new();
    for job in JOBS {
        match job {
            "upload" => kinds(job)
                .into_iter()
                .for_each(|kind| rows.extend(plans_of(job, kind, uploads))),
            _ => rows.extend(plans(job).into_iter().filter(counted)),
        }
    }
    rows
}

fn rounds() -> usize {
    match std::env::var("J8_ROUNDS") {
        Ok(value) => value.parse().expect("J8_ROUNDS is a number"),
        Err(_) => 200,
    }
}

/// Tables for the eye, of this build alone.
fn tables(wanted: &[String]) {
    let rounds = rounds();
    println!("Least of {rounds} interleaved rounds. A ratio above 1 means that j8 is faster.");
    println!("One build only: where its code lies moves the times. `make bench` has several.");
    for job in JOBS {
        if !(wanted.is_empty() || wanted.iter().any(|word| word == job)) {
            continue;
        }
        for (row, plan) in plans(job).into_iter().enumerate() {
            let mut case = case(plan);
            let least = race_case(&mut case, rounds);
            if row == 0 {
                println!();
                println!("{job}: ns a call, ns a byte of the text, and how many times as long the others take");
                print!(
                    "{:<13} {:>7} {:>6} {:>6} {:>9} {:>7} ",
                    "kind", "bytes", "piece", "texts", OURS, "a byte"
                );
                for (name, _) in &case.contestants[1..] {
                    print!(" {name:>10}");
                }
                println!();
            }
            print!(
                "{:<13} {:>7} {:>6} {:>6} {:>9.1} {:>7.3} ",
                plan.kind,
                case.bytes,
                plan.piece,
                plan.texts,
                least[0],
                least[0] / case.bytes as f64
            );
            for ((name, _), time) in case.contestants.iter().zip(&least).skip(1) {
                print!(" {:>1$.2}", time / least[0], name.len().max(10));
            }
            println!();
        }
    }
}

fn line(series: &str, plan: Plan, bytes: usize, name: &str, value: f64) {
    let Plan {
        job,
        kind,
        size,
        piece,
        texts,
    } = plan;
    println!("{series}\t{job}\t{kind}\t{size}\t{piece}\t{texts}\t{bytes}\t{name}\t{value}");
}

/// All times of this build, a line each, for the report. Each pass has its heap
/// shifted: where buffers lie to each other in a page moves times too.
fn measure(pass: usize) {
    race::keep(std::hint::black_box([0u8; HEAP_SHIFT].repeat(pass)));
    let rounds = rounds();
    for job in JOBS {
        for plan in plans(job) {
            let mut case = case(plan);
            let least = race_case(&mut case, rounds);
            for ((name, _), time) in case.contestants.iter().zip(least) {
                line("table", plan, case.bytes, name, time);
            }
        }
        // A curve's sizes run against each other.
        for kind in kinds(job) {
            let mut cases: Vec<Case> = curve(job, kind).into_iter().map(case).collect();
            let mut ours: Vec<&mut Call> = cases
                .iter_mut()
                .map(|case| &mut case.contestants[0].1)
                .collect();
            let least = race(&mut ours, rounds);
            for (case, time) in cases.iter().zip(least) {
                line("curve", case.plan, case.bytes, OURS, time);
            }
        }
    }
}

/// The times of the archive and of the earlier one, a line each, raced alone.
fn beside(pass: usize, wanted: &[String]) {
    race::keep(std::hint::black_box([0u8; HEAP_SHIFT].repeat(pass)));
    let rounds = rounds();
    let among = |job: &&str| wanted.is_empty() || wanted.iter().any(|word| word == job);
    for plan in JOBS.into_iter().filter(among).flat_map(plans) {
        let mut case = case(plan);
        case.contestants
            .retain(|(name, _)| [OURS, library::BEFORE].contains(name));
        assert_eq!(case.contestants.len(), 2, "J8_BEFORE names an archive");
        let least = race_case(&mut case, rounds);
        for ((name, _), time) in case.contestants.iter().zip(least) {
            line("beside", plan, case.bytes, name, time);
        }
    }
}

/// Callgrind counts while this runs, and dumps what it counted when it ends.
#[no_mangle]
#[inline(never)]
fn j8_bench_counted(call: &mut Call) {
    for _ in 0..COUNTED_CALLS {
        call();
    }
}

/// Runs the contestants of the counted rows, one after another, and prints a line
/// for each; with words only those whose job, kind, size and name are among them. A
/// kind of two words is one word here.
fn count(words: &[String]) {
    let mut unknown: Vec<&String> = words.iter().collect();
    let named = |word: &str| words.iter().any(|w| w == word);
    let job_wanted = |job| !JOBS.into_iter().any(named) || named(job);
    for plan in counted_plans() {
        let size = plan.size.to_string();
        unknown.retain(|word| ![plan.job, plan.kind, &size].contains(&word.as_str()));
        let any_size = counted_plans().iter().any(|p| named(&p.size.to_string()));
        let any_kind = kinds(plan.job).into_iter().any(named);
        if !job_wanted(plan.job) || (any_kind && !named(plan.kind)) || (any_size && !named(&size)) {
            continue;
        }
        let mut case = case(plan);
        unknown.retain(|word| case.contestants.iter().all(|(name, _)| name != word));
        let any_name = case.contestants.iter().any(|(name, _)| named(name));
        for (name, call) in &mut case.contestants {
            if any_name && !named(name) {
                continue;
            }
            for _ in 0..WARM_CALLS {
                call();
            }
            j8_bench_counted(call);
            line("count", plan, case.bytes, name, COUNTED_CALLS as f64);
        }
    }
    // A word that names nothing would count more rows than were asked for.
    assert!(
        unknown.is_empty(),
        "no counted job, kind, size or contestant: {unknown:?}"
    );
}

fn main() {
    let words: Vec<String> = std::env::args().skip(1).collect();
    let pass = || words.get(1).map_or(0, |pass| pass.parse().expect("a pass"));
    match words.first().map(String::as_str) {
        Some("measure") => measure(pass()),
        Some("beside") => beside(pass(), words.get(2..).unwrap_or_default()),
        Some("count") => count(&words[1..]),
        Some("report") => report::write(Path::new(&words[1]), Path::new(&words[2])),
        _ => tables(&words),
    }
}
