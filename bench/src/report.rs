//! docs/BENCHMARKS.md and its plots, from the times of all layouts and the
//! counted instructions. No figure of the document stands anywhere else.

use super::library::BUILDS;
use super::plot::{self, bytes, Curve, Range, Row};
use super::race::OURS;
use super::upload::PACKET;
use std::collections::BTreeMap;
use std::fmt::Write;
use std::fs;
use std::path::Path;
use std::process::Command;

/// A job of the document: its table, its plot and what is asked of it.
struct Job {
    word: &'static str,
    title: &'static str,
    /// What a size is.
    rows: &'static str,
    /// What a row of the plot is.
    plotted: &'static str,
    peers: &'static [&'static str],
    /// The least ratio to each of these peers, and whether it must be above it.
    marks: &'static [(&'static str, f64, bool)],
}

/// The peers that read JSON8.
const READERS: &[&str] = &[
    "Value",
    "cJSON",
    "yajl",
    "RapidJSON",
    "RapidJSON+UTF-8",
    "simdjson",
    "IgnoredAny",
    "reference",
];

const JOBS: [Job; 7] = [
    Job {
        word: "read",
        title: "Strings, read",
        rows: "name's bytes",
        plotted: "a row: kind and bytes of the name",
        peers: &["serde_json", "reference"],
        marks: &[("serde_json", 1.0, false)],
    },
    Job {
        word: "write",
        title: "Strings, written",
        rows: "name's bytes",
        plotted: "a row: kind and bytes of the name",
        peers: &["serde_json", "reference"],
        marks: &[("serde_json", 1.0, false)],
    },
    Job {
        word: "upload",
        title: "Uploads",
        rows: "pieces of",
        plotted: "a row: bytes of a name, its form, and bytes of a piece",
        peers: &["loop", "reference"],
        marks: &[("loop", 0.7, false), ("reference", 1.0, false)],
    },
    Job {
        word: "json8",
        title: "JSON8, read",
        rows: "size",
        plotted: "a row: kind and size of the text",
        peers: READERS,
        marks: &[
            ("Value", 1.0, true),
            ("cJSON", 1.0, true),
            ("yajl", 1.0, true),
        ],
    },
    Job {
        word: "json8_dense",
        title: "JSON8, dense texts read",
        rows: "size",
        plotted: "a row: kind and size of the text, or of each text in turn",
        peers: READERS,
        marks: &[("RapidJSON", 1.5, false), ("yajl", 1.5, false)],
    },
    Job {
        word: "json8_write",
        title: "JSON8, written",
        rows: "size",
        plotted: "a row: kind and size of the text",
        peers: &[
            "Value",
            "cJSON",
            "RapidJSON",
            "RapidJSON+UTF-8",
            "reference",
            "j8 exact",
        ],
        marks: &[("Value", 1.0, true), ("cJSON", 1.0, true)],
    },
    Job {
        word: "tsv8",
        title: "TSV8, read",
        rows: "size",
        plotted: "a row: kind and size of the text",
        peers: &["csv", "reference"],
        marks: &[("csv", 1.0, false), ("reference", 1.0, false)],
    },
];

/// A row of a table, as its plan has it.
#[derive(PartialEq)]
struct Key {
    kind: String,
    size: usize,
    piece: usize,
    texts: usize,
}

/// The figures of a row: its text's bytes, and the contestants' by their names.
#[derive(Default)]
struct Figures {
    bytes: usize,
    /// By layout: the least time of its passes, or the instructions.
    values: BTreeMap<String, Vec<f64>>,
}

/// A job's rows in their order.
type Rows = Vec<(Key, Figures)>;

fn fields(line: &str) -> (String, String, Key, usize, String, f64) {
    let f: Vec<&str> = line.split('\t').collect();
    let number = |index: usize| f[index].parse::<usize>().expect("a number");
    let key = Key {
        kind: f[2].to_string(),
        size: number(3),
        piece: number(4),
        texts: number(5),
    };
    let value = f[8].parse().expect("a number");
    (f[0].into(), f[1].into(), key, number(6), f[7].into(), value)
}

/// All lines of a series, by job; the least of the passes for each layout.
fn gather(folder: &Path, series: &str, layouts: usize, passes: usize) -> BTreeMap<String, Rows> {
    let mut jobs: BTreeMap<String, Rows> = BTreeMap::new();
    for layout in 0..layouts {
        for pass in 1..=passes {
            let file = folder.join(format!("layout-{layout}.pass-{pass}.tsv"));
            for line in fs::read_to_string(file).expect("a pass's times").lines() {
                let (of, job, key, bytes, name, value) = fields(line);
                if of == series {
                    let rows = jobs.entry(job).or_default();
                    let values = slot(rows, key, bytes).entry(name);
                    let least = &mut values.or_insert_with(|| vec![f64::INFINITY; layouts])[layout];
                    *least = least.min(value);
                }
            }
        }
    }
    jobs
}

fn slot(rows: &mut Rows, key: Key, bytes: usize) -> &mut BTreeMap<String, Vec<f64>> {
    let at = rows
        .iter()
        .position(|(k, _)| *k == key)
        .unwrap_or(rows.len());
    if at == rows.len() {
        rows.push((key, Figures::default()));
    }
    rows[at].1.bytes = bytes;
    &mut rows[at].1.values
}

/// The instructions a call of each counted contestant: callgrind's dumps have the
/// numbers of the lines.
fn counts(folder: &Path) -> BTreeMap<String, Rows> {
    let mut jobs: BTreeMap<String, Rows> = BTreeMap::new();
    let lines = fs::read_to_string(folder.join("counts.tsv")).expect("the counted contestants");
    for (index, line) in lines.lines().enumerate() {
        let (_, job, key, bytes, name, calls) = fields(line);
        let file = folder.join(format!("counted.{}", index + 1));
        let dump = fs::read_to_string(&file).expect("a dump of callgrind");
        let total = |word| dump.lines().find_map(|line: &str| line.strip_prefix(word));
        let instructions = total("summary: ").or(total("totals: "));
        let instructions: f64 = instructions
            .and_then(|n| n.trim().parse().ok())
            .expect("a sum");
        slot(jobs.entry(job).or_default(), key, bytes).insert(name, vec![instructions / calls]);
    }
    jobs
}

// ----------------------------------------------------------------- ratios

/// Ours over a peer's as speed, over the layouts; none without the peer.
fn ratio(figures: &Figures, peer: &str) -> Option<Vec<f64>> {
    let (ours, theirs) = (figures.values.get(OURS)?, figures.values.get(peer)?);
    Some(theirs.iter().zip(ours).map(|(t, o)| t / o).collect())
}

fn range(figures: &Figures, peer: &str) -> Option<Range> {
    ratio(figures, peer).map(Range::of)
}

/// How many layouts meet all marks of a row; none if it has no mark.
fn met(job: &Job, key: &Key, figures: &Figures) -> Option<(usize, usize)> {
    // Uploads are held to their marks in packets.
    if job.word == "upload" && key.piece != PACKET {
        return None;
    }
    let mut all: Option<Vec<bool>> = None;
    for (peer, mark, above) in job.marks {
        if let Some(ratios) = ratio(figures, peer) {
            let good = ratios
                .iter()
                .map(|r| if *above { r > mark } else { r >= mark });
            all = Some(match all {
                None => good.collect(),
                Some(before) => before.iter().zip(good).map(|(a, b)| *a && b).collect(),
            });
        }
    }
    all.map(|all| (all.iter().filter(|good| **good).count(), all.len()))
}

/// The most that the C file may take by gcc -O2, as a multiple of the archive's time.
fn most(job: &Job, key: &Key) -> f64 {
    match (job.word, key.kind.as_str()) {
        ("read" | "write", "plain") => 4.0,
        _ => 2.0,
    }
}

/// The same as `met` of the C file by gcc -O2.
fn met_in_c(job: &Job, key: &Key, figures: &Figures) -> Option<(usize, usize)> {
    let ratios = ratio(figures, BUILDS[0])?;
    let good = |r: &&f64| **r <= most(job, key);
    Some((ratios.iter().filter(good).count(), ratios.len()))
}

fn verdict(met: Option<(usize, usize)>) -> String {
    match met {
        None => "-".into(),
        Some((good, all)) if good == all => "met".into(),
        Some((0, _)) => "**missed**".into(),
        Some((good, all)) => format!("**{good} of {all} layouts**"),
    }
}

/// Three digits, and not more than three behind the point.
fn short(value: f64) -> String {
    match value {
        v if v >= 99.5 => format!("{v:.0}"),
        v if v >= 9.95 => format!("{v:.1}"),
        v if v >= 0.995 => format!("{v:.2}"),
        v => format!("{v:.3}"),
    }
}

/// Ratios have two digits behind the point, ever cut and not rounded up: 0.999 is
/// not 1.00.
fn cut(value: f64) -> String {
    match value {
        v if v >= 10.0 => format!("{:.1}", (v * 10.0).floor() / 10.0),
        v => format!("{:.2}", (v * 100.0).floor() / 100.0),
    }
}

fn span(range: Range) -> String {
    format!(
        "{} ({}–{})",
        cut(range.median),
        cut(range.least),
        cut(range.greatest)
    )
}

/// The same of what may be at most so much: rounded up, so that 2.001 is not 2.00.
fn up(value: f64) -> String {
    match value {
        v if v >= 10.0 => format!("{:.1}", (v * 10.0).ceil() / 10.0),
        v => format!("{:.2}", (v * 100.0).ceil() / 100.0),
    }
}

fn span_up(range: Range) -> String {
    format!(
        "{} ({}–{})",
        up(range.median),
        up(range.least),
        up(range.greatest)
    )
}

/// What a table's second column says of a row.
fn row_size(key: &Key) -> String {
    match key {
        key if key.piece > 0 => bytes(key.piece),
        key if key.texts > 1 => format!("{} × {}", key.texts, bytes(key.size)),
        key => bytes(key.size),
    }
}

fn row_name(key: &Key) -> String {
    let of = if key.piece > 0 { "pieces of " } else { "" };
    format!("{}, {of}{}", key.kind, row_size(key))
}

// ----------------------------------------------------------------- tables

fn shown_name(name: &str) -> String {
    match name {
        "Value" => "serde_json `Value`".into(),
        "IgnoredAny" => "serde_json `IgnoredAny`".into(),
        "loop" => "plain loop".into(),
        "RapidJSON+UTF-8" => "RapidJSON with UTF-8".into(),
        "j8 exact" => "j8, exact room".into(),
        _ => name.into(),
    }
}

fn head(out: &mut String, columns: &[String]) {
    let _ = writeln!(out, "| {} |", columns.join(" | "));
    let _ = writeln!(out, "|{}", "---|".repeat(columns.len()));
}

fn ratio_table(out: &mut String, job: &Job, rows: &Rows) {
    let mut columns = vec!["text".to_string(), job.rows.into(), "j8, ns a byte".into()];
    columns.extend(job.peers.iter().map(|peer| shown_name(peer)));
    columns.push("mark".into());
    head(out, &columns);
    for (key, figures) in rows {
        let each = |times: &Vec<f64>| times.iter().map(|t| t / figures.bytes as f64).collect();
        let own = Range::of(each(&figures.values[OURS]));
        let mut cells = vec![
            key.kind.clone(),
            row_size(key),
            format!(
                "{} ({}–{})",
                short(own.median),
                short(own.least),
                short(own.greatest)
            ),
        ];
        for peer in job.peers {
            cells.push(range(figures, peer).map_or("-".into(), span));
        }
        cells.push(verdict(met(job, key, figures)));
        let _ = writeln!(out, "| {} |", cells.join(" | "));
    }
}

/// The C file's times as multiples of the archive's, and its instructions by gcc -O2.
fn c_tables(out: &mut String, tables: &BTreeMap<String, Rows>, counted: &BTreeMap<String, Rows>) {
    for job in &JOBS {
        let _ = writeln!(out, "\n{}:\n", job.title);
        let mut columns = vec!["text".to_string(), job.rows.into()];
        columns.extend(BUILDS.map(String::from));
        columns.push("mark, gcc -O2".into());
        columns.push("instructions, gcc -O2".into());
        head(out, &columns);
        for (key, figures) in &tables[job.word] {
            let mut cells = vec![key.kind.clone(), row_size(key)];
            let over = |name: &&str| range(figures, name).map_or("-".into(), span_up);
            cells.extend(BUILDS.iter().map(over));
            let met = verdict(met_in_c(job, key, figures));
            cells.push(format!("{:.0}: {met}", most(job, key)));
            let counted = counted.get(job.word).into_iter().flatten();
            let count = counted
                .filter(|(k, _)| k == key)
                .find_map(|(_, f)| ratio(f, BUILDS[0]));
            cells.push(count.map_or("-".into(), |count| up(count[0])));
            let _ = writeln!(out, "| {} |", cells.join(" | "));
        }
    }
}

/// A row for each job: how many of its rows keep the C file's mark.
fn c_marks(out: &mut String, tables: &BTreeMap<String, Rows>) {
    let columns = [
        "job",
        "rows",
        "kept in every layout",
        "in some",
        "in none",
        "most",
    ];
    head(out, &columns.map(String::from));
    for job in &JOBS {
        let (mut every, mut some, mut none, mut greatest) = (0, 0, 0, 0.0);
        for (key, figures) in &tables[job.word] {
            let Some((good, all)) = met_in_c(job, key, figures) else {
                continue;
            };
            match good {
                g if g == all => every += 1,
                0 => none += 1,
                _ => some += 1,
            }
            let range = range(figures, BUILDS[0]).expect("it was measured");
            greatest = range.greatest.max(greatest);
        }
        let _ = writeln!(
            out,
            "| {} | {} | {every} | {some} | {none} | {} |",
            job.title,
            every + some + none,
            up(greatest)
        );
    }
}

fn ratio_plot(job: &Job, rows: &Rows) -> String {
    let peers: Vec<&str> = job
        .peers
        .iter()
        .copied()
        .filter(|p| *p != "j8 exact")
        .collect();
    let lines: Vec<Row> = rows
        .iter()
        .map(|(key, figures)| Row {
            name: row_name(key),
            values: peers.iter().map(|peer| range(figures, peer)).collect(),
        })
        .collect();
    let names: Vec<String> = peers
        .iter()
        .map(|peer| shown_name(peer).replace('`', ""))
        .collect();
    let names: Vec<&str> = names.iter().map(String::as_str).collect();
    let title = format!("{}: j8 beside its peers", job.title);
    let axis = "speed of j8 over the peer's (times)";
    plot::ratios(&title, job.plotted, axis, &names, &lines)
}

/// How far the layouts move a contestant: the greatest time over the least.
fn spread_table(out: &mut String, tables: &BTreeMap<String, Rows>) {
    head(
        out,
        &["job", "contestant", "median row", "row moved most", "times"].map(String::from),
    );
    for job in &JOBS {
        let rows = &tables[job.word];
        for name in [OURS].iter().chain(job.peers).chain(&BUILDS) {
            let mut moved: Vec<(f64, String)> = Vec::new();
            for (key, figures) in rows {
                if let Some(times) = figures.values.get(*name) {
                    let range = Range::of(times.clone());
                    moved.push((range.greatest / range.least, row_name(key)));
                }
            }
            moved.sort_by(|a, b| a.0.total_cmp(&b.0));
            if let Some((most, row)) = moved.last() {
                let median = moved[moved.len() / 2].0;
                let _ = writeln!(
                    out,
                    "| {} | {} | {median:.2} | {row} | {most:.2} |",
                    job.title,
                    shown_name(name)
                );
            }
        }
    }
}

fn count_tables(out: &mut String, counted: &BTreeMap<String, Rows>) {
    for job in &JOBS {
        let Some(rows) = counted.get(job.word) else {
            continue;
        };
        let _ = writeln!(out, "\n{}:\n", job.title);
        let size_name = if job.word == "upload" {
            "size"
        } else {
            job.rows
        };
        let mut columns = vec!["text".to_string(), size_name.into(), "j8".into()];
        columns.extend(job.peers.iter().map(|peer| shown_name(peer)));
        head(out, &columns);
        for (key, figures) in rows {
            let mut cells = vec![key.kind.clone(), bytes(key.size)];
            for name in [OURS].iter().chain(job.peers) {
                let each = figures
                    .values
                    .get(*name)
                    .map(|v| v[0] / figures.bytes as f64);
                cells.push(each.map_or("-".into(), |each| format!("{each:.2}")));
            }
            let _ = writeln!(out, "| {} |", cells.join(" | "));
        }
    }
}

fn kinds_of(rows: &Rows) -> Vec<&str> {
    let mut kinds: Vec<&str> = Vec::new();
    for (key, _) in rows {
        if !kinds.contains(&key.kind.as_str()) {
            kinds.push(&key.kind);
        }
    }
    kinds
}

/// The median of the layouts' costs a byte.
fn cost(figures: &Figures) -> f64 {
    Range::of(figures.values[OURS].clone()).median / figures.bytes as f64
}

fn curve_table(out: &mut String, job: &Job, rows: &Rows) {
    let kinds = kinds_of(rows);
    let mut sizes: Vec<usize> = rows.iter().map(|(key, _)| key.size).collect();
    sizes.sort();
    sizes.dedup();
    let _ = writeln!(out, "\n{}:\n", job.title);
    let mut columns = vec!["size".to_string()];
    columns.extend(kinds.iter().map(|kind| kind.to_string()));
    head(out, &columns);
    for size in sizes {
        let mut cells = vec![bytes(size)];
        for kind in &kinds {
            let row = rows.iter().find(|(k, _)| k.kind == *kind && k.size == size);
            cells.push(row.map_or("-".into(), |(_, figures)| short(cost(figures))));
        }
        let _ = writeln!(out, "| {} |", cells.join(" | "));
    }
}

fn curve_plot(title: &str, jobs: &[(&str, &Rows)]) -> String {
    let mut curves = Vec::new();
    for (prefix, rows) in jobs {
        for kind in kinds_of(rows) {
            let of = rows.iter().filter(|(key, _)| key.kind == kind);
            curves.push(Curve {
                name: format!("{prefix}{kind}"),
                points: of.map(|(_, f)| (f.bytes as f64, cost(f))).collect(),
            });
        }
    }
    plot::curves(title, "bytes of the text", "nanoseconds a byte", &curves)
}

// -------------------------------------------------------------- the machine

/// The first line that a command prints.
fn said(command: &str, words: &[&str]) -> String {
    match Command::new(command).args(words).output() {
        Ok(done) if done.status.success() => {
            let text = String::from_utf8_lossy(&done.stdout).into_owned();
            text.lines().next().unwrap_or("").trim().to_string()
        }
        _ => "not there".into(),
    }
}

fn after(file: &str, word: &str) -> String {
    let text = fs::read_to_string(file).unwrap_or_default();
    let line = text.lines().find(|line| line.starts_with(word));
    line.and_then(|line| line.split_once(':'))
        .map_or("unknown".into(), |(_, value)| value.trim().to_string())
}

fn cache(index: u32) -> String {
    let file = format!("/sys/devices/system/cpu/cpu0/cache/index{index}/size");
    fs::read_to_string(file).map_or("unknown".into(), |size| size.trim().to_string())
}

fn own_version() -> String {
    let header = include_str!("../../include/j8.h");
    let line = header
        .lines()
        .find_map(|line| line.strip_prefix("#define J8_VERSION "));
    line.map_or("unknown".into(), |version| {
        version.trim_matches('"').to_string()
    })
}

fn machine(out: &mut String, facts: &BTreeMap<String, String>) {
    head(out, &["", ""].map(String::from));
    let version = |package| said("dpkg-query", &["-W", "-f", "${Version}", package]);
    let cores = std::thread::available_parallelism().map_or(0, |n| n.get());
    for (name, value) in [
        ("this library", own_version()),
        ("processor", after("/proc/cpuinfo", "model name")),
        ("cores", cores.to_string()),
        (
            "caches",
            format!("L1d {}, L2 {}, L3 {}", cache(0), cache(2), cache(3)),
        ),
        ("memory", after("/proc/meminfo", "MemTotal")),
        ("kernel", said("uname", &["-sr"])),
        ("Rust", said("rustc", &["--version"])),
        ("C and C++", said("g++", &["--version"])),
        ("clang", said("clang", &["--version"])),
        ("valgrind", said("valgrind", &["--version"])),
        ("serde_json", version("librust-serde-json-dev")),
        ("simdjson", version("libsimdjson-dev")),
        ("RapidJSON", version("rapidjson-dev")),
        ("yajl", version("libyajl-dev")),
        ("cJSON", version("libcjson-dev")),
        ("csv", version("librust-csv-dev")),
        ("run", format!("{} to {} UTC", facts["start"], facts["end"])),
        (
            "load of the machine",
            format!(
                "{} before and {} after (1, 5 and 15 minutes)",
                facts["load before"], facts["load after"]
            ),
        ),
    ] {
        let _ = writeln!(out, "| {name} | {value} |");
    }
}

// ------------------------------------------------------------- the document

fn marks(out: &mut String, tables: &BTreeMap<String, Rows>) {
    head(
        out,
        &[
            "job",
            "mark",
            "rows",
            "met in every layout",
            "in some",
            "in none",
        ]
        .map(String::from),
    );
    let mut missed = Vec::new();
    for job in &JOBS {
        let (mut every, mut some, mut none) = (0, 0, 0);
        for (key, figures) in &tables[job.word] {
            let Some((good, all)) = met(job, key, figures) else {
                continue;
            };
            match good {
                g if g == all => {
                    every += 1;
                    continue;
                }
                0 => none += 1,
                _ => some += 1,
            }
            let mut against = Vec::new();
            for (peer, mark, above) in job.marks {
                let Some(range) = range(figures, peer) else {
                    continue;
                };
                if range.least < *mark || (*above && range.least <= *mark) {
                    against.push(format!("{} against {}", span(range), shown_name(peer)));
                }
            }
            missed.push(format!(
                "- {}, {}: {}; met in {good} of {all} layouts",
                job.title,
                row_name(key),
                against.join(", ")
            ));
        }
        let mark: Vec<String> = job
            .marks
            .iter()
            .map(|(peer, mark, above)| match above {
                true => format!("faster than {}", shown_name(peer)),
                false => format!("{mark:.1} times {}", shown_name(peer)),
            })
            .collect();
        let _ = writeln!(
            out,
            "| {} | {} | {} | {every} | {some} | {none} |",
            job.title,
            mark.join(", "),
            every + some + none
        );
    }
    match missed.is_empty() {
        true => out.push_str("\nEvery mark is met in every layout.\n"),
        false => {
            let _ = writeln!(
                out,
                "\nRows that miss a mark in a layout or more:\n\n{}",
                missed.join("\n")
            );
        }
    }
}

pub fn write(folder: &Path, docs: &Path) {
    let text = fs::read_to_string(folder.join("facts.tsv")).expect("the run's facts");
    let facts: BTreeMap<String, String> = text
        .lines()
        .filter_map(|line| line.split_once('\t'))
        .map(|(name, value)| (name.to_string(), value.to_string()))
        .collect();
    let number = |name: &str| facts[name].parse::<usize>().expect("a number");
    let (layouts, passes, rounds) = (number("layouts"), number("passes"), number("rounds"));
    let tables = gather(folder, "table", layouts, passes);
    let curves = gather(folder, "curve", layouts, passes);
    let counted = counts(folder);
    let plots = docs.join("plots");
    fs::create_dir_all(&plots).expect("a folder for the plots");
    let save = |name: &str, svg: String| fs::write(plots.join(name), svg).expect("a plot is saved");

    let mut out = String::new();
    let fill = |text: &str| {
        text.replace("{layouts}", &layouts.to_string())
            .replace("{passes}", &passes.to_string())
            .replace("{rounds}", &rounds.to_string())
            .replace("{each}", &(rounds / passes).to_string())
    };
    let (before, behind) = include_str!("../document.md")
        .split_once("<!-- tables -->")
        .expect("a place for the tables");
    let (before, how) = before
        .split_once("<!-- marks -->")
        .expect("a place for the marks");
    out.push_str(&fill(before));
    marks(&mut out, &tables);
    out.push_str(&fill(how));
    for job in &JOBS {
        let rows = &tables[job.word];
        let _ = writeln!(out, "## {}\n", job.title);
        ratio_table(&mut out, job, rows);
        let _ = writeln!(out, "\n![{}: ratios](plots/{}.svg)\n", job.title, job.word);
        save(&format!("{}.svg", job.word), ratio_plot(job, rows));
    }

    let (c_text, behind) = behind
        .split_once("<!-- c marks -->")
        .expect("a place for the marks of the C file");
    let (c_tables_text, behind) = behind
        .split_once("<!-- c tables -->")
        .expect("a place for the tables of the C file");
    out.push_str(&fill(c_text.trim_start()));
    c_marks(&mut out, &tables);
    out.push_str(&fill(c_tables_text));
    c_tables(&mut out, &tables, &counted);
    let (counts_text, rest) = behind
        .split_once("<!-- counts -->")
        .expect("a place for the counts");
    let (curve_text, rest) = rest
        .split_once("<!-- curves -->")
        .expect("a place for the curves");
    let (spread_text, rest) = rest
        .split_once("<!-- spread -->")
        .expect("a place for the spread");
    let (machine_text, rest) = rest
        .split_once("<!-- machine -->")
        .expect("a place for the machine");
    out.push_str(&fill(counts_text));
    count_tables(&mut out, &counted);
    out.push_str(&fill(curve_text));
    let of = |word: &str| &curves[word];
    let plotted = [
        (
            "strings",
            "Strings",
            vec![("read: ", of("read")), ("written: ", of("write"))],
        ),
        ("uploads", "Uploads", vec![("", of("upload"))]),
        (
            "json8",
            "JSON8",
            vec![("read: ", of("json8")), ("written: ", of("json8_write"))],
        ),
        (
            "json8_dense",
            "JSON8, dense texts read",
            vec![("", of("json8_dense"))],
        ),
        ("tsv8", "TSV8", vec![("", of("tsv8"))]),
    ];
    for (name, title, jobs) in plotted {
        let title = format!("{title}: cost a byte by size");
        save(&format!("cost_{name}.svg"), curve_plot(&title, &jobs));
        let _ = writeln!(out, "\n![{title}](plots/cost_{name}.svg)");
    }
    for job in &JOBS {
        curve_table(&mut out, job, of(job.word));
    }
    out.push_str(&fill(spread_text));
    spread_table(&mut out, &tables);
    out.push_str(&fill(machine_text));
    machine(&mut out, &facts);
    out.push_str(&fill(rest));
    while out.contains("\n\n\n") {
        out = out.replace("\n\n\n", "\n\n");
    }
    fs::write(docs.join("BENCHMARKS.md"), out).expect("the document is saved");
    println!("written: BENCHMARKS.md and plots in {}", docs.display());
}
