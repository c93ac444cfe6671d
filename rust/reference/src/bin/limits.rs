//! What the program `limits` must print, by the reference: reads the rows of crates/limits/stdin and prints each with its answer.
//!
//! A row is a call and its fields; crates/limits/stdin tells the notation.

use j8_reference::lines::{self, Upload};
use j8_reference::{json8, tsv8, Refusal};
use std::io::{self, BufRead, Write};

/// A table's numbers before a call.
const FILL: u32 = 0xaaaa_aaaa;

/// The fields of a row, divided by blanks that stand between no bars; a remark ends them.
fn fields(row: &str) -> Vec<String> {
    let mut parts = vec![String::new()];
    let mut barred = false;
    for letter in row.chars() {
        barred ^= letter == '|';
        if letter == ' ' && !barred {
            parts.push(String::new());
        } else if let Some(last) = parts.last_mut() {
            last.push(letter);
        }
    }
    let end = parts
        .iter()
        .position(|part| part.starts_with('#'))
        .unwrap_or(parts.len());
    parts.truncate(end);
    parts
}

/// The parts of a field, divided by points that stand between no bars, each with how often it stands there.
fn parts(field: &str) -> Vec<(String, usize)> {
    let mut list = vec![String::new()];
    let mut barred = false;
    for letter in field.chars() {
        barred ^= letter == '|';
        if letter == '.' && !barred {
            list.push(String::new());
        } else if let Some(last) = list.last_mut() {
            last.push(letter);
        }
    }
    list.into_iter()
        .map(|part| match part.rfind('*') {
            Some(at) if part[at + 1..].parse::<usize>().is_ok() && !part.ends_with('|') => (
                part[..at].to_string(),
                part[at + 1..].parse().expect("a count"),
            ),
            _ => (part, 1),
        })
        .collect()
}

fn bytes(field: &str) -> Vec<u8> {
    let mut out = Vec::new();
    for (part, times) in parts(field) {
        let one: Vec<u8> = if part == "-" {
            Vec::new()
        } else if let Some(text) = part.strip_prefix('|') {
            text.strip_suffix('|').expect("a bar").bytes().collect()
        } else {
            (0..part.len() / 2)
                .map(|k| u8::from_str_radix(&part[2 * k..2 * k + 2], 16).expect("hex digits"))
                .collect()
        };
        for _ in 0..times {
            out.extend_from_slice(&one);
        }
    }
    out
}

fn numbers(field: &str) -> Vec<u32> {
    let mut out = Vec::new();
    for (part, times) in parts(field) {
        let one: Vec<u32> = part
            .split(',')
            .filter(|number| *number != "-")
            .map(|number| number.parse().expect("a number"))
            .collect();
        for _ in 0..times {
            out.extend_from_slice(&one);
        }
    }
    out
}

/// A buffer by runs, each byte with how often it stands in a row.
fn runs(buffer: &[u8]) -> String {
    if buffer.is_empty() {
        return "-".to_string();
    }
    buffer
        .chunk_by(|a, b| a == b)
        .map(|run| match run.len() {
            1 => format!("{:02x}", run[0]),
            n => format!("{:02x}*{n}", run[0]),
        })
        .collect::<Vec<_>>()
        .join(".")
}

/// A table by columns, so many numbers a row: `-` for a number that is as it was, and a count for numbers that are as far from those of the row before as
/// these from their own.
fn rows(table: &[u32], width: usize) -> String {
    let mut out = String::new();
    let mut more = 0;
    for (i, &number) in table.iter().enumerate() {
        let goes_on = i >= 2 * width
            && number.wrapping_sub(table[i - width])
                == table[i - width].wrapping_sub(table[i - 2 * width]);
        if goes_on {
            more += 1;
            continue;
        }
        if more > 0 {
            out += &format!("*{more}");
            more = 0;
        }
        out.push(match i {
            0 => ' ',
            _ if i % width == 0 => ',',
            _ => ':',
        });
        match number {
            FILL => out.push('-'),
            _ => out += &number.to_string(),
        }
    }
    if more > 0 {
        out += &format!("*{more}");
    }
    out
}

/// Number, place and length, and the buffer.
fn told(answer: Result<usize, Refusal>, out: &[u8]) -> String {
    match answer {
        Ok(length) => format!("0,0,{length} {}", runs(out)),
        Err(refusal) => format!("{},{},0 {}", refusal.number, refusal.place, runs(out)),
    }
}

/// The string that a text begins with: if more stands behind it, 11 tells where it ends. A text that is too long is 2, whatever it begins with.
fn token(text: &[u8], out: &mut [u8]) -> Result<(usize, usize), Refusal> {
    match j8_reference::read(text, out) {
        Err(Refusal { number: 11, place }) => Ok((j8_reference::read(&text[..place], out)?, place)),
        answer => Ok((answer?, text.len())),
    }
}

fn token_read(text: &[u8], room: usize) -> String {
    let mut out = vec![0xaa; room];
    match token(text, &mut out) {
        Ok((length, end)) => format!("0,0,{length},{end} {}", runs(&out)),
        Err(refusal) => format!("{},{},0,0 {}", refusal.number, refusal.place, runs(&out)),
    }
}

/// A line's payload and its kind, from its record; "a line over 1,024" is 2 at 1,024.
fn line_read(line: &[u8], room: usize) -> String {
    let mut record = vec![0xaa; room + lines::RECORD_HEAD];
    let answer = match line.len() > lines::LINE_MAX {
        true => Err(Refusal {
            number: 2,
            place: lines::LINE_MAX,
        }),
        false => lines::read_line(line, &mut record),
    };
    let (head, payload) = record.split_at(lines::RECORD_HEAD);
    match answer {
        Ok(0) => format!("0,0,0,0 {}", runs(payload)),
        Ok(length) => format!("0,0,{},{} {}", length - head.len(), head[2], runs(payload)),
        Err(refusal) => format!("{},{},0,0 {}", refusal.number, refusal.place, runs(payload)),
    }
}

fn upload(held: usize, room: usize, calls: &str) -> String {
    let (mut line, mut out) = (vec![0xaa; held], vec![0xbb; room]);
    let mut state = Upload::fresh();
    let mut answers = Vec::new();
    for call in calls.split(';') {
        let (next, answer) = match call.strip_prefix('F') {
            Some(piece) => state.feed(&bytes(piece), &mut line, &mut out),
            None => state.finish(&line, &mut out),
        };
        state = next;
        answers.push(format!(
            "{},{},{}",
            answer.number, answer.line, answer.place
        ));
    }
    let Upload {
        taken,
        lfs,
        held,
        used,
        ended,
        refusal,
        line: number,
        place,
    } = state;
    format!(
        "{} {taken},{lfs},{held},{used},{},{refusal},{number},{place} {} {}",
        answers.join(";"),
        u32::from(ended),
        runs(&out),
        runs(&line)
    )
}

fn json8_read(text: &[u8], room: usize, bytes: usize) -> String {
    let (mut table, mut store) = (vec![FILL; room], vec![0xaa; bytes]);
    let answer = match json8::read(text, &mut table, &mut store) {
        Ok(filled) => format!("0,0,{},{}", filled.nodes, filled.stored),
        Err(refusal) => format!("{},{},0,0", refusal.number, refusal.place),
    };
    format!("{answer}{} {}", rows(&table, json8::NODE), runs(&store))
}

/// An empty part is `-`, so that each stands at its place.
fn tsv8_read(text: &[u8], [names, types, cells, bytes]: [usize; 4]) -> String {
    let [mut names, mut types, mut cells] = [names, types, cells].map(|room| vec![FILL; room]);
    let mut store = vec![0xaa; bytes];
    let answer = match tsv8::read(text, &mut names, &mut types, &mut cells, &mut store) {
        Ok(filled) => format!("0,0,{},{},{}", filled.columns, filled.cells, filled.stored),
        Err(refusal) => format!("{},{},0,0,0", refusal.number, refusal.place),
    };
    let part = |table: &[u32], width| match table {
        [] => " -".to_string(),
        _ => rows(table, width),
    };
    format!(
        "{answer}{}{}{} {}",
        part(&names, tsv8::CELL),
        part(&types, 1),
        part(&cells, tsv8::CELL),
        runs(&store)
    )
}

fn json8_show(table: &[u32], text: &[u8], store: &[u8], node: usize) -> String {
    match json8::show(table, text, store, node) {
        Some(shown) => {
            let buffer = if shown.stored { store } else { text };
            format!(
                "0 {}",
                runs(&buffer[shown.place..shown.place + shown.length])
            )
        }
        None => "1 -".to_string(),
    }
}

fn json8_write(table: &[u32], text: &[u8], store: &[u8], room: usize) -> String {
    let (mut out, mut ample) = (vec![0xaa; room], vec![0; 1 << 20]);
    let answer = json8::write(table, text, store, &mut out);
    let fit = json8::write(table, text, store, &mut ample).is_ok();
    let (head, buffer) = (told(answer, &out), runs(&out));
    let head = head.strip_suffix(&buffer).expect("the buffer").trim_end();
    format!("{head},{} {buffer}", u32::from(fit))
}

fn answer(row: &str) -> String {
    let fields = fields(row);
    let field = |k: usize| fields[k].as_str();
    let number = |k: usize| field(k).parse::<usize>().expect("a number");
    let into = |call: fn(&[u8], &mut [u8]) -> Result<usize, Refusal>| {
        let mut out = vec![0xaa; number(2)];
        told(call(&bytes(field(1)), &mut out), &out)
    };
    match field(0) {
        "string_read" => into(j8_reference::read),
        "string_write" => into(j8_reference::write),
        "bytes_write" => into(j8_reference::write_bytes),
        "lines_write" => into(lines::write_lines),
        "token_read" => token_read(&bytes(field(1)), number(2)),
        "line_read" => line_read(&bytes(field(1)), number(2)),
        "upload" => upload(number(1), number(2), field(3)),
        "json8_read" => json8_read(&bytes(field(1)), number(2), number(3)),
        "json8_show" => json8_show(
            &numbers(field(1)),
            &bytes(field(2)),
            &bytes(field(3)),
            number(4),
        ),
        "json8_write" => json8_write(
            &numbers(field(1)),
            &bytes(field(2)),
            &bytes(field(3)),
            number(4),
        ),
        "tsv8_read" => tsv8_read(&bytes(field(1)), [2, 3, 4, 5].map(number)),
        call => panic!("no such call: {call}"),
    }
}

fn main() -> io::Result<()> {
    let mut out = io::stdout().lock();
    for row in io::stdin().lock().lines() {
        let row = row?;
        if row.starts_with('#') {
            writeln!(out, "{row}")?;
        } else {
            writeln!(out, "{row}: {}", answer(&row))?;
        }
    }
    Ok(())
}
