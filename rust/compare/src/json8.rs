//! `j8_json8_read`, `j8_json8_show` and `j8_json8_write`.

use crate::run::{difference, hex, lend, room, Entry, Outcome, Run};
use crate::strings::{done, refused};
use j8::raw::{self, j8_nodes, j8_result, j8_shown};
use j8_inputs::damaged::family;
use j8_inputs::made::{self, Shape};
use j8_inputs::random::Random;
use j8_inputs::trees::{self, Parts, DAMAGES};
use j8_inputs::{strings, tables, Lent};
use j8_reference::json8;

pub const READ: Entry = Entry {
    name: "json8_read",
    case: read,
    numbers: &[(
        "json8_read",
        &[
            0, 2, 4, 6, 7, 8, 9, 10, 11, 12, 13, 14, 15, 16, 23, 24, 25, 26, 27,
        ],
    )],
    edges: &[
        "32,768 bytes read",
        "32,769 bytes",
        "32 deep",
        "33 deep",
        "1,024 nodes read",
        "node 1,025",
        "cut off by the end",
        "cut off by a character",
        "cut off by an LF",
        "cut off by a quote",
        "incomplete past mending",
        "c0, c1 or f5 to f7 cut off",
        "an overlong surrogate",
        "too large from f5 on",
        "a comment's fault behind the value",
        "table exact",
        "table one number short",
        "table of no whole nodes",
        "store exact",
        "store one byte short",
    ],
};

pub const SHOW: Entry = Entry {
    name: "json8_show",
    case: show,
    numbers: &[("json8_show", &[0, 1])],
    edges: &[
        "in the text",
        "in the store",
        "empty at a buffer's end",
        "one past a buffer's end",
        "place and length over 2^32, inside in 32 bits",
        "four times the node is small again",
        "a node cut short",
        "an empty table",
        "an empty text",
    ],
};

pub const WRITE: Entry = Entry {
    name: "json8_write",
    case: write,
    numbers: &[("json8_write", &[0, 1, 12])],
    edges: &[
        "a text of 32,768 bytes",
        "a longer text",
        "32 deep",
        "33 deep",
        "1,024 nodes",
        "1,025 nodes",
        "place and length over 2^32, inside in 32 bits",
        "an empty table",
        "each number changed",
        "exact room",
        "one byte short",
        "no room",
    ],
};

const TEMPTING: &[u8] = b"\"'\\uby{}[],:#09-+.eE \n\r\tntf\x00\x1f\x7f\x80\xc3\xe2\xed\xff";

// ---------------------------------------------------------------- reading

fn read_in(
    random: &mut Random,
    run: &mut Run,
    text: &[u8],
    table_room: usize,
    store_room: usize,
) -> Result<j8_nodes, String> {
    let lent = lend(random, text);
    let (mut table, mut store): (Lent<u32>, Lent<u8>) =
        (room(random, table_room), room(random, store_room));
    let before = (table.clone(), store.clone());
    let mut theirs = before.clone();
    let what = || {
        format!(
            "json8_read {}, table of {table_room} numbers, store of {store_room}",
            hex(text)
        )
    };
    run.before(what);
    let answer = raw::json8_read(lent.items(), table.part(), store.part());
    let expected = match json8::read(text, theirs.0.part(), theirs.1.part()) {
        Ok(filled) => j8_nodes {
            number: 0,
            place: 0,
            nodes: filled.nodes,
            stored: filled.stored,
        },
        Err(refusal) => j8_nodes {
            number: refusal.number,
            place: refusal.place,
            nodes: 0,
            stored: 0,
        },
    };
    let ours = (table, store);
    let alike = answer == expected
        && ours == theirs
        && lent.is(text)
        && (answer.number == 0 || ours == before);
    run.after("json8_read", answer.number, alike, what, || {
        format!(
            "library   {answer:?}\nreference {expected:?}\n{}\n{}\ntext {}",
            difference("table", &ours.0, &theirs.0),
            difference("store", &ours.1, &theirs.1),
            if lent.is(text) {
                "as it was"
            } else {
                "WRITTEN"
            }
        )
    })?;
    Ok(answer)
}

/// The most brackets of an accepted text that are open at once.
fn depth(table: &[u32]) -> usize {
    let (mut ends, mut most): (Vec<usize>, usize) = (Vec::new(), 0);
    for (node, row) in table.chunks_exact(4).enumerate() {
        ends.retain(|&end| node < end);
        if row[0] > 6 {
            ends.push(node + row[1] as usize);
            most = most.max(ends.len());
        }
    }
    most
}

fn read(random: &mut Random, run: &mut Run) -> Outcome {
    let (made, other) = (made::text(random), made::text(random));
    let text = match random.below(12) {
        0 => {
            let brackets = random.pick(&[0, 1, 1, 2, 3, 30, 31, 32]);
            let nodes = random.pick(&[0, 3, 1_022, 1_023, 1_024, 1_024, 1_025]);
            made::probe(random, brackets, nodes)
        }
        1 => (0..random.below(20)).map(|_| random.byte()).collect(),
        2..=6 => made::damage(random, &made, &other),
        _ => made.text,
    };
    for text in family(random, &text, &other.text, TEMPTING) {
        let table_room = made::table_room(&text);
        let answer = read_in(random, run, &text, table_room, text.len())?;
        run.edge(
            "32,768 bytes read",
            answer.number == 0 && text.len() == 32_768,
        );
        run.edge("32,769 bytes", answer.number == 2 && text.len() == 32_769);
        run.edge("33 deep", answer.number == 15);
        run.edge("1,024 nodes read", answer.nodes == 1_024);
        run.edge("node 1,025", answer.number == 16);
        run.character_edges(&text, answer.number, answer.place);
        if (23..=27).contains(&answer.number) {
            // What stands before the fault's comment would be a text by itself.
            let comment = text[..answer.place].iter().rposition(|&b| b == b'#');
            let value = &text[..comment.unwrap_or(0)];
            let (mut table, mut store) = (vec![0; table_room], vec![0; text.len()]);
            let is_value = raw::json8_read(value, &mut table, &mut store).number == 0;
            run.edge("a comment's fault behind the value", is_value);
        }
        if answer.number != 0 {
            // Refused in any rooms, and before these are looked at.
            if random.once_in(4) {
                let rooms = (random.below(9), random.below(3));
                read_in(random, run, &text, rooms.0, rooms.1)?;
            }
            continue;
        }
        if text.len() > 60 && random.once_in(8) {
            let (mut table, mut store) = (vec![0; table_room], vec![0; text.len()]);
            let _ = raw::json8_read(&text, &mut table, &mut store);
            run.edge("32 deep", depth(&table[..4 * answer.nodes]) == 32);
        }
        let (numbers, stored) = (4 * answer.nodes, answer.stored);
        let rooms = match random.below(4) {
            0 => (numbers, stored),
            1 => (numbers - 1, stored),
            2 => (numbers, stored.saturating_sub(1)),
            _ => (made::room(random, numbers), made::room(random, stored)),
        };
        let answer = read_in(random, run, &text, rooms.0, rooms.1)?;
        let taken = answer.number == 0;
        run.edge("table exact", taken && rooms.0 == numbers);
        run.edge("store exact", taken && rooms.1 == stored && stored > 0);
        run.edge(
            "table one number short",
            !taken && rooms.0 == numbers - 1 && rooms.1 >= stored,
        );
        run.edge(
            "store one byte short",
            !taken && rooms.0 >= numbers && rooms.1 + 1 == stored,
        );
        run.edge("table of no whole nodes", !taken && rooms.0 < 4);
    }
    Ok(())
}

// ---------------------------------------------------------------- showing

/// The three parts that a table stands in, each with its margins.
struct LentParts {
    table: Lent<u32>,
    text: Lent<u8>,
    store: Lent<u8>,
}

impl LentParts {
    fn new(random: &mut Random, parts: &Parts) -> LentParts {
        LentParts {
            table: lend(random, &parts.table),
            text: lend(random, &parts.text),
            store: lend(random, &parts.store),
        }
    }

    fn are(&self, parts: &Parts) -> bool {
        self.table.is(&parts.table) && self.text.is(&parts.text) && self.store.is(&parts.store)
    }
}

fn told(parts: &Parts) -> String {
    let Parts { table, text, store } = parts;
    format!("table {table:?}, text {}, store {}", hex(text), hex(store))
}

/// Whether a range is outside its buffer but would be inside if its end were taken in 32
/// bits.
fn wraps(parts: &Parts, row: &[u32]) -> bool {
    let length = match row[0] {
        6 => parts.store.len(),
        _ => parts.text.len(),
    };
    row[2].checked_add(row[3]).is_none() && row[2].wrapping_add(row[3]) as usize <= length
}

fn show_node(run: &mut Run, parts: &Parts, lent: &LentParts, node: usize) -> Outcome {
    let what = || format!("json8_show node {node} of {}", told(parts));
    run.before(what);
    let answer = raw::json8_show(
        lent.table.items(),
        lent.text.items(),
        lent.store.items(),
        node,
    );
    let expected = match json8::show(&parts.table, &parts.text, &parts.store, node) {
        Some(shown) => j8_shown {
            number: 0,
            stored: u32::from(shown.stored),
            place: shown.place,
            length: shown.length,
        },
        None => j8_shown {
            number: 1,
            stored: 0,
            place: 0,
            length: 0,
        },
    };
    let alike = answer == expected && lent.are(parts);
    run.after("json8_show", answer.number, alike, what, || {
        let kept = if lent.are(parts) {
            "as they were"
        } else {
            "WRITTEN"
        };
        format!("library   {answer:?}\nreference {expected:?}\nparts {kept}")
    })?;

    let shown = answer.number == 0;
    let length = if answer.stored == 1 {
        parts.store.len()
    } else {
        parts.text.len()
    };
    run.edge(
        "in the text",
        shown && answer.stored == 0 && answer.length > 0,
    );
    run.edge(
        "in the store",
        shown && answer.stored == 1 && answer.length > 0,
    );
    run.edge(
        "empty at a buffer's end",
        shown && answer.length == 0 && answer.place == length && length > 0,
    );
    run.edge("an empty text", parts.text.is_empty());
    run.edge("an empty table", parts.table.is_empty());
    run.edge(
        "a node cut short",
        !shown && parts.table.len() / 4 == node && parts.table.len() % 4 > 0,
    );
    run.edge(
        "four times the node is small again",
        node.wrapping_mul(4) < parts.table.len() && node > parts.table.len(),
    );
    if let Some(row) = parts.table.chunks_exact(4).nth(node) {
        let end = u64::from(row[2]) + u64::from(row[3]);
        let is_string = matches!(row[0], 5 | 6);
        let length = if row[0] == 6 {
            parts.store.len()
        } else {
            parts.text.len()
        };
        run.edge(
            "one past a buffer's end",
            is_string && end == length as u64 + 1,
        );
        run.edge(
            "place and length over 2^32, inside in 32 bits",
            is_string && wraps(parts, row),
        );
    }
    Ok(())
}

fn show(random: &mut Random, run: &mut Run) -> Outcome {
    let mut parts = match random.below(3) {
        0 => {
            let shape = Shape {
                plain: false,
                nodes: 12,
                wide: true,
                deep: 0,
            };
            let made = made::make(random, shape);
            Parts {
                table: made.table.concat(),
                text: made.text,
                store: made.store,
            }
        }
        1 => trees::sound(random).0,
        _ => tables::by_hand(random),
    };
    for _ in 0..random.below(3) {
        if parts.table.len() >= 4 {
            let damage = random.pick(&DAMAGES);
            trees::damage(random, &mut parts, damage);
        }
    }
    let lent = LentParts::new(random, &parts);
    for node in 0..(parts.table.len() / 4 + 2).min(40) {
        show_node(run, &parts, &lent, node)?;
    }
    for node in tables::NODES {
        show_node(run, &parts, &lent, node)?;
    }
    Ok(())
}

// ---------------------------------------------------------------- writing

fn write_in(
    random: &mut Random,
    run: &mut Run,
    parts: &Parts,
    length: usize,
) -> Result<j8_result, String> {
    let lent = LentParts::new(random, parts);
    let mut ours: Lent<u8> = room(random, length);
    let before = ours.clone();
    let mut theirs = before.clone();
    let what = || format!("json8_write {} in a room of {length}", told(parts));
    run.before(what);
    let answer = raw::json8_write(
        lent.table.items(),
        lent.text.items(),
        lent.store.items(),
        ours.part(),
    );
    let expected = json8::write(&parts.table, &parts.text, &parts.store, theirs.part())
        .map_or_else(refused, done);
    let alike = answer == expected
        && ours == theirs
        && lent.are(parts)
        && (answer.number == 0 || ours == before);
    run.after("json8_write", answer.number, alike, what, || {
        let kept = if lent.are(parts) {
            "as they were"
        } else {
            "WRITTEN"
        };
        let room = difference("room", &ours, &theirs);
        format!("library   {answer:?}\nreference {expected:?}\n{room}, parts {kept}")
    })?;
    run.edge("an empty table", parts.table.is_empty());
    run.edge("no room", answer.number == 12 && length == 0);
    run.edge("exact room", answer.number == 0 && answer.length == length);
    Ok(answer)
}

/// The length of what is written of a table, or nothing if it is unfit.
fn written(parts: &Parts) -> Option<usize> {
    let Parts { table, text, store } = parts;
    if json8::write(table, text, store, &mut []).is_err_and(|refusal| refusal.number == 1) {
        return None;
    }
    let nodes = table.chunks_exact(4).take(table[1] as usize);
    let bytes = nodes.map(|row| {
        if (3..7).contains(&row[0]) {
            row[3] as usize
        } else {
            0
        }
    });
    let mut out = vec![0; 6 * (table[1] as usize + bytes.sum::<usize>())];
    json8::write(table, text, store, &mut out).ok()
}

/// In rooms about the exact one: all of them, or any.
fn write_rooms(random: &mut Random, run: &mut Run, parts: &Parts, all: bool) -> Outcome {
    let mut ranges = parts
        .table
        .chunks_exact(4)
        .filter(|row| (3..7).contains(&row[0]));
    run.edge(
        "place and length over 2^32, inside in 32 bits",
        ranges.any(|row| wraps(parts, row)),
    );
    let Some(length) = written(parts) else {
        let any = random.below(64);
        write_in(random, run, parts, any)?;
        return Ok(());
    };
    run.edge("a text of 32,768 bytes", length == 32_768);
    run.edge("a longer text", length > 32_768);
    run.edge("1,024 nodes", parts.table[1] == 1_024);
    let rooms = match all {
        true => vec![
            length,
            length - 1,
            0,
            random.below(length),
            length + random.below(200),
            6 * length,
        ],
        false => vec![strings::room(random, length)],
    };
    for room in rooms {
        let answer = write_in(random, run, parts, room)?;
        run.edge("one byte short", answer.number == 12 && room + 1 == length);
    }
    Ok(())
}

fn parts_of(value: &j8::Value) -> Parts {
    let table = j8::Table::new(value);
    Parts {
        table: table.numbers().to_vec(),
        text: table.text().to_vec(),
        store: table.store().to_vec(),
    }
}

fn write(random: &mut Random, run: &mut Run) -> Outcome {
    if random.once_in(12) {
        return each_number(random, run);
    }
    let (mut parts, _, within) = match random.once_in(300) {
        true => (parts_of(&trees::longest(random)), "", true),
        false => trees::sound(random),
    };
    match random.below(8) {
        0 => trees::shift(random, &mut parts),
        1 => trees::overlap(random, &mut parts),
        _ => {}
    }
    write_rooms(random, run, &parts, true)?;
    let (nodes, deep) = (parts.table.len() / 4, depth(&parts.table));
    run.edge("32 deep", within && deep == 32);
    run.edge("33 deep", !within && nodes <= 1_024 && deep == 33);
    run.edge("1,025 nodes", !within && nodes == 1_025);
    // One damage after another.
    for _ in 0..random.below(4) {
        let damage = random.pick(&DAMAGES);
        if parts.table.len() >= 4 {
            trees::damage(random, &mut parts, damage);
        }
        write_rooms(random, run, &parts, false)?;
    }
    Ok(())
}

/// A small table with each of its numbers changed in turn, and each cut of it.
fn each_number(random: &mut Random, run: &mut Run) -> Outcome {
    let right = parts_of(&trees::value(random, 8, true, 2));
    for at in 0..right.table.len() {
        let (old, limit) = (right.table[at], right.text.len().max(right.store.len()));
        for _ in 0..3 {
            let mut parts = right.clone();
            let other = right.table[at ^ 1];
            parts.table[at] = trees::changed(random, old, limit, other);
            write_rooms(random, run, &parts, false)?;
        }
        let mut parts = right.clone();
        parts.table.truncate(at);
        write_rooms(random, run, &parts, false)?;
    }
    run.edge("each number changed", true);
    Ok(())
}
