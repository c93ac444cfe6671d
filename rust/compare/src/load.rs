//! Uploads many texts, good and damaged, in random cuts through one process: the answers
//! must be those of the J8 Lines definition, and the memory must stay flat.
//!
//! J8_UPLOADS is how many (10,000), J8_SEED the seed (1). Each upload is made from the seed
//! and its number alone. The status is 1 at a wrong answer, or if the process has grown.

mod sides;

use j8::raw::{self, j8_answer, j8_upload};
use j8_inputs::lines;
use j8_inputs::random::Random;
use j8_reference::lines::{definition, definition_answer, read_line, LINE_MAX, UPLOAD_MAX};
use sides::{as_answer, as_state};
use std::collections::BTreeMap;
use std::process::exit;
use std::time::Instant;

/// Until here the heap may grow; uploads of the longest are among these.
const WARM_UP: u64 = 1_000;
/// How often the memory is looked at.
const LOOK: u64 = 100;
/// What the process may have more than after the warm-up, in KiB. The texts and the
/// definition's own buffers are on the same heap, so it isn't 0.
const GROWTH: u64 = 256;

fn setting(name: &str, otherwise: u64) -> u64 {
    match std::env::var(name) {
        Ok(value) => value.parse().unwrap_or_else(|_| {
            eprintln!("{name}={value} is no number");
            exit(2);
        }),
        Err(_) => otherwise,
    }
}

/// What of this process is in memory, in KiB.
fn resident() -> u64 {
    let statm = std::fs::read_to_string("/proc/self/statm").expect("/proc/self/statm");
    let pages = statm
        .split(' ')
        .nth(1)
        .and_then(|pages| pages.parse::<u64>().ok());
    // Pages of this platform have 4 KiB.
    4 * pages.expect("the resident pages")
}

/// A text: most of a few lines, some of thousands, and now and then one about the longest.
/// Long ones are good, but for a byte in half of them.
fn text(random: &mut Random, upload: u64) -> Vec<u8> {
    if upload == 0 {
        // The one with the longest output, so that every buffer has grown to its most.
        return [b"a\n".repeat(UPLOAD_MAX / 2 - 1), b"ab".to_vec()].concat();
    }
    let target = match upload % 200 {
        0 => UPLOAD_MAX + random.below(3) - 1,
        1..=19 => random.below(60_000),
        _ => return lines::text(random),
    };
    let (mut text, mut record) = (Vec::with_capacity(target), [0; 4 + LINE_MAX]);
    while text.len() < target {
        let line = lines::line(random, false);
        let line = match target - text.len() {
            left if left <= LINE_MAX => vec![b'n'; left],
            _ if line.len() > LINE_MAX || read_line(&line, &mut record).is_err() => continue,
            _ => line,
        };
        text.extend(line);
        if text.len() < target {
            text.push(b'\n');
        }
    }
    if random.once_in(2) && target > 0 {
        text[random.below(target)] = random.byte();
    }
    text
}

/// What the program's own handler of an upload has: nothing else is kept between uploads.
struct Handler {
    line: Vec<u8>,
    out: Vec<u8>,
    handed: Vec<u8>,
}

impl Handler {
    /// Uploads a text by the C functions in pieces of at most so many bytes, and hands the
    /// records on after each. Gives the state with all records counted, and the answer.
    fn upload(
        &mut self,
        random: &mut Random,
        text: &[u8],
        most: usize,
    ) -> (j8_upload, j8_answer, u64) {
        self.handed.clear();
        let out = &mut self.out[..j8::feed_room(most)];
        let mut state = raw::upload_fresh();
        let (mut rest, mut calls) = (text, 1);
        while !rest.is_empty() {
            let (piece, behind) = rest.split_at(random.below(most + 1).min(rest.len()));
            state = raw::upload_feed(state, piece, &mut self.line, out).upload;
            self.handed.extend_from_slice(&out[..state.used]);
            state.used = 0;
            (rest, calls) = (behind, calls + 1);
        }
        let fed = raw::upload_finish(state, &self.line, out);
        self.handed.extend_from_slice(&out[..fed.upload.used]);
        let used = self.handed.len();
        (j8_upload { used, ..fed.upload }, fed.answer, calls)
    }
}

/// The same through the crate's own type, which holds its buffers itself. Gives the number
/// of its refusal, too, or 0.
fn through_crate(text: &[u8], most: usize) -> (j8::Upload, u32) {
    let mut upload = j8::Upload::new();
    for piece in text.chunks(most) {
        if upload.feed(piece).is_err() {
            break;
        }
    }
    let finished = upload.finish();
    (upload, finished.map_or_else(|error| error.number(), |()| 0))
}

fn main() {
    let (uploads, seed) = (setting("J8_UPLOADS", 10_000), setting("J8_SEED", 1));
    println!("seed {seed}, {uploads} uploads");
    let start = Instant::now();
    // The greatest block that glibc maps by itself: once it is freed, all that comes is taken
    // from one heap, of which nothing is given back for a while. What is in memory is then
    // the most that was in use at once, and doesn't go up and down.
    drop(std::hint::black_box(vec![1_u8; 31 << 20]));
    let before = resident();
    let most = 65_536;
    let mut handler = Handler {
        line: vec![1; LINE_MAX],
        out: vec![1; j8::feed_room(most)],
        // Not 0, so that all of it is in memory from the start.
        handed: vec![1; j8::UPLOAD_OUTPUT_MAX],
    };
    let room = vec![1; j8::UPLOAD_OUTPUT_MAX];
    let (mut answers, mut wrong): (BTreeMap<u32, u64>, u64) = (BTreeMap::new(), 0);
    let (mut bytes, mut calls, mut longest) = (0_u64, 0, 0);
    let (mut warm, mut peak) = (before, 0);
    for number in 0..uploads {
        let mut random = Random::of(seed, number);
        let text = text(&mut random, number);
        // Small pieces of small texts: a byte at a time takes long for a MiB.
        let least = text.len() / 5_000;
        let most = (least + random.pick(&[1, 7, 100, 1_460, 1_460, 16_384])).min(most);
        let (state, answer, fed) = handler.upload(&mut random, &text, most);

        let used = text.len() * 5 / 2 + 8;
        let (defined, line, output) =
            definition(&text, true, &handler.line, &room[..used.min(room.len())]);
        let right = state == as_state(defined)
            && answer == as_answer(definition_answer(&defined, false))
            && handler.handed == output[..defined.used];
        let (upload, finished) = through_crate(&text, most);
        let right = right && finished == answer.number && upload.output() == handler.handed;
        if !right {
            wrong += 1;
            eprintln!("WRONG: seed {seed}, upload {number}, {} bytes in pieces of at most {most}: {state:?}, {answer:?}; defined {defined:?}", text.len());
        }
        *answers.entry(answer.number).or_default() += 1;
        bytes += text.len() as u64;
        calls += fed;
        longest += u64::from(state.taken == UPLOAD_MAX);
        drop((text, line, output, upload));
        if number + 1 == WARM_UP {
            warm = resident();
            peak = warm;
        } else if number >= WARM_UP && (number + 1) % LOOK == 0 {
            peak = peak.max(resident());
        }
    }
    let after = resident();
    println!(
        "{bytes} bytes in {calls} calls, {longest} uploads of 1,048,576 bytes, in {:.1} s",
        start.elapsed().as_secs_f64()
    );
    println!("answers by number: {answers:?}; wrong: {wrong}");
    println!("resident KiB: {before} at the start, {warm} after {WARM_UP} uploads, then {peak} at most, {after} at the end");
    let grown = peak.max(after).saturating_sub(warm);
    // Fewer uploads are a warm-up and no more.
    let flat = uploads <= WARM_UP || grown <= GROWTH;
    println!("grown by {grown} KiB, of {GROWTH} that are allowed");
    let all = [0, 2, 4, 6, 7, 8, 9, 10, 11, 17, 23, 24, 25, 26, 27];
    let missed: Vec<_> = all
        .iter()
        .filter(|number| !answers.contains_key(number))
        .collect();
    let enough = uploads < 10_000 || missed.is_empty();
    if !enough {
        println!("never answered: {missed:?}");
    }
    let good = wrong == 0 && flat && enough;
    println!(
        "{}",
        if good {
            "load: right and flat"
        } else {
            "load: FAILED"
        }
    );
    exit(i32::from(!good));
}
