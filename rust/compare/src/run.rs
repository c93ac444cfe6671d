//! A run of one entry: its cases one after another until the time is up, what was
//! counted, and what is printed of a mismatch.

use j8_inputs::random::Random;
use j8_inputs::{Item, Lent};
use std::collections::BTreeMap;
use std::io::Write;
use std::panic::{catch_unwind, AssertUnwindSafe};
use std::time::{Duration, Instant};

/// What a mismatch prints, or nothing.
pub type Outcome = Result<(), String>;

/// What is compared in one run, and what must come of it.
pub struct Entry {
    pub name: &'static str,
    /// One case.
    pub case: fn(&mut Random, &mut Run) -> Outcome,
    /// The functions that it calls, each with the numbers that j8.h lists for it. Each
    /// must be hit, and no other.
    pub numbers: &'static [(&'static str, &'static [u32])],
    /// Edges that must be reached.
    pub edges: &'static [&'static str],
}

/// What was counted so far.
#[derive(Default)]
pub struct Run {
    pub cases: u64,
    pub mismatches: u64,
    pub numbers: BTreeMap<(&'static str, u32), u64>,
    pub edges: BTreeMap<&'static str, u64>,
    /// Whether everything is printed: in a replay.
    tell: bool,
}

/// After so many mismatches they are only counted.
const PRINTED: u64 = 3;
/// How often a run says how far it is, in cases.
pub const STEP: u64 = 1_000;

impl Run {
    /// Prints the input in a replay, before the call: it may be the last thing that is
    /// printed.
    pub fn before(&self, input: impl Fn() -> String) {
        if self.tell {
            println!("{}", input());
            // A lost line is no reason to stop: the replay can be run again.
            let _ = std::io::stdout().flush();
        }
    }

    /// Counts a call of both sides. `alike` is whether they answered the same and left
    /// the same; if not, the input and the answers are the mismatch.
    pub fn after(
        &mut self,
        function: &'static str,
        number: u32,
        alike: bool,
        input: impl Fn() -> String,
        answers: impl Fn() -> String,
    ) -> Outcome {
        *self.numbers.entry((function, number)).or_default() += 1;
        if self.tell {
            println!("{}", answers());
        }
        match alike {
            true => Ok(()),
            false => Err(format!("{}\n{}", input(), answers())),
        }
    }

    /// An edge that was reached, if it was.
    pub fn edge(&mut self, name: &'static str, reached: bool) {
        if reached {
            *self.edges.entry(name).or_default() += 1;
        }
    }

    /// The edges of a fault of UTF-8 that a text is refused with: what cuts a character
    /// off, and where two faults could be told.
    pub fn character_edges(&mut self, text: &[u8], number: u32, place: usize) {
        if !(23..=27).contains(&number) {
            return;
        }
        let bytes = &text[place..];
        let tails = bytes[1..].iter().take_while(|b| matches!(b, 0x80..=0xbf));
        let next = bytes.get(1 + tails.count());
        let incomplete = number == 24;
        self.edge("cut off by the end", incomplete && next.is_none());
        self.edge(
            "cut off by a character",
            incomplete && matches!(next, Some(0xc0..)),
        );
        self.edge(
            "cut off by a tab",
            incomplete && matches!(next, Some(b'\t')),
        );
        self.edge(
            "cut off by an LF",
            incomplete && matches!(next, Some(b'\n')),
        );
        self.edge(
            "cut off by a quote",
            incomplete && matches!(next, Some(b'"' | b'\'')),
        );
        self.edge(
            "incomplete past mending",
            incomplete
                && matches!(
                    bytes,
                    [0xe0, 0x80..=0x9f, ..]
                        | [0xed, 0xa0..=0xbf, ..]
                        | [0xf0, 0x80..=0x8f, ..]
                        | [0xf4, 0x90..=0xbf, ..]
                ),
        );
        self.edge(
            "c0, c1 or f5 to f7 cut off",
            incomplete && { matches!(bytes[0], 0xc0 | 0xc1 | 0xf5..=0xf7) },
        );
        self.edge(
            "an overlong surrogate",
            number == 25 && matches!(bytes, [0xf0, 0x8d, 0xa0..=0xbf, ..]),
        );
        self.edge("too large from f5 on", number == 27 && bytes[0] > 0xf4);
    }

    /// One case, made from the seed and its number alone.
    fn case(&mut self, entry: &Entry, seed: u64, case: u64) {
        let mut random = Random::of(seed, case);
        let outcome = catch_unwind(AssertUnwindSafe(|| (entry.case)(&mut random, self)));
        let outcome = outcome.unwrap_or_else(|_| Err("a side panicked, or the comparison".into()));
        self.cases += 1;
        if let Err(report) = outcome {
            self.mismatches += 1;
            if self.mismatches <= PRINTED {
                eprintln!(
                    "MISMATCH in {}, seed {seed}, case {case}\n{report}\nagain: compare --replay {} {seed} {case}",
                    entry.name, entry.name
                );
            }
        }
    }

    /// Cases from 0 on until the time is up. `say` is told how far it is.
    pub fn timed(entry: &Entry, seed: u64, budget: Duration, say: impl Fn(u64)) -> Run {
        let (mut run, start) = (Run::default(), Instant::now());
        while start.elapsed() < budget {
            if run.cases % STEP == 0 {
                say(run.cases);
            }
            run.case(entry, seed, run.cases);
        }
        run
    }

    /// Some cases again, with everything printed.
    pub fn replay(entry: &Entry, seed: u64, first: u64, count: u64) -> Run {
        let mut run = Run {
            tell: true,
            ..Run::default()
        };
        for case in first..first.saturating_add(count) {
            println!("{}, seed {seed}, case {case}", entry.name);
            run.case(entry, seed, case);
        }
        run
    }
}

// ---------------------------------------------------------------- buffers

/// An input, standing anywhere.
pub fn lend<T: Item>(random: &mut Random, items: &[T]) -> Lent<T> {
    Lent::of(items, random.below(16), random.once_in(2))
}

/// A room in a pattern, standing anywhere.
pub fn room<T: Item>(random: &mut Random, length: usize) -> Lent<T> {
    let (shift, flip) = (random.below(16), random.once_in(2));
    let items: Vec<T> = (0..length)
        .map(|i| T::pattern(i.wrapping_add(7), flip))
        .collect();
    Lent::of(&items, shift, flip)
}

// --------------------------------------------------------------- messages

/// Bytes as the files of tests/vectors have them: `-` for none, else hex digits in parts
/// joined by `.`, where `hh*n` is a byte that comes n times.
pub fn hex(bytes: &[u8]) -> String {
    let mut parts: Vec<String> = Vec::new();
    let mut plain = false;
    for run in bytes.chunk_by(|a, b| a == b) {
        if run.len() > 8 {
            parts.push(format!("{:02x}*{}", run[0], run.len()));
            plain = false;
            continue;
        }
        let digits = format!("{:02x}", run[0]).repeat(run.len());
        match parts.last_mut() {
            Some(part) if plain => part.push_str(&digits),
            _ => parts.push(digits),
        }
        plain = true;
    }
    if parts.is_empty() {
        parts.push("-".into());
    }
    parts.join(".")
}

/// What differs between a buffer as the library left it and as it should be, the margins with
/// it: the first 64 items from the first difference on.
pub fn difference<T: Item + std::fmt::Debug>(
    name: &str,
    ours: &Lent<T>,
    theirs: &Lent<T>,
) -> String {
    let Some((count, place, ours, theirs)) = ours.difference(theirs) else {
        return format!("{name}: alike");
    };
    let (ours, theirs) = (&ours[..ours.len().min(64)], &theirs[..theirs.len().min(64)]);
    format!("{name}: NOT alike in {count} places, from {place} on\n  library   {ours:x?}\n  should be {theirs:x?}")
}
