//! `j8_tsv8_read`.

use crate::run::{difference, hex, lend, room, Entry, Outcome, Run};
use j8::raw::{self, j8_sheet};
use j8_inputs::damaged::family;
use j8_inputs::random::Random;
use j8_inputs::tsv8::{self as inputs, LOGS, TEMPTING};
use j8_inputs::Lent;
use j8_reference::tsv8;

pub const READ: Entry = Entry {
    name: "tsv8_read",
    case: read,
    numbers: &[(
        "tsv8_read",
        &[
            0, 2, 4, 6, 7, 8, 9, 10, 11, 12, 19, 20, 21, 22, 23, 24, 25, 26, 27,
        ],
    )],
    edges: &[
        "32,768 bytes read",
        "32,769 bytes",
        "64 columns read",
        "65 columns",
        "16,182 cells read",
        "a cell of 30,000 bytes",
        "a cell of 1,025 bytes",
        "no row",
        "an empty text",
        "no line left, but some bytes",
        "a byte order mark first",
        "blanks before a cell of the wrong type",
        "blanks before a wrong type",
        "19 at a line behind the first",
        "19 behind a tab",
        "20 behind data",
        "cut off by the end",
        "cut off by a character",
        "cut off by a tab",
        "cut off by an LF",
        "cut off by a quote",
        "incomplete past mending",
        "c0, c1 or f5 to f7 cut off",
        "an overlong surrogate",
        "too large from f5 on",
        "names exact",
        "names one number short",
        "names of no whole threes",
        "types exact",
        "types one number short",
        "cells exact",
        "cells one number short",
        "cells of no whole threes",
        "store exact",
        "store one byte short",
        "all four short",
        "each type read",
        "a stored name",
    ],
};

/// What is lent besides the text.
#[derive(Clone, PartialEq)]
struct Parts {
    names: Lent<u32>,
    types: Lent<u32>,
    cells: Lent<u32>,
    store: Lent<u8>,
}

/// The lengths of names, types and cells in numbers, of the store in bytes.
type Lengths = [usize; 4];

fn refused(number: u32, place: usize) -> j8_sheet {
    j8_sheet {
        number,
        place,
        columns: 0,
        cells: 0,
        stored: 0,
    }
}

fn reference(text: &[u8], parts: &mut Parts) -> j8_sheet {
    let filled = tsv8::read(
        text,
        parts.names.part(),
        parts.types.part(),
        parts.cells.part(),
        parts.store.part(),
    );
    match filled {
        Ok(filled) => j8_sheet {
            number: 0,
            place: 0,
            columns: filled.columns,
            cells: filled.cells,
            stored: filled.stored,
        },
        Err(refusal) => refused(refusal.number, refusal.place),
    }
}

fn read_in(
    random: &mut Random,
    run: &mut Run,
    text: &[u8],
    lengths: Lengths,
) -> Result<(j8_sheet, Parts), String> {
    let lent = lend(random, text);
    let mut ours = Parts {
        names: room(random, lengths[0]),
        types: room(random, lengths[1]),
        cells: room(random, lengths[2]),
        store: room(random, lengths[3]),
    };
    let before = ours.clone();
    let mut theirs = before.clone();
    let [names, types, cells, store] = lengths;
    let what = || {
        format!(
            "tsv8_read {}, names of {names} numbers, types of {types}, cells of {cells}, store of {store}",
            hex(text)
        )
    };
    run.before(what);
    let answer = raw::tsv8_read(
        lent.items(),
        ours.names.part(),
        ours.types.part(),
        ours.cells.part(),
        ours.store.part(),
    );
    let expected = reference(text, &mut theirs);
    let alike = answer == expected
        && ours == theirs
        && lent.is(text)
        && (answer.number == 0 || ours == before);
    run.after("tsv8_read", answer.number, alike, what, || {
        format!(
            "library   {answer:?}\nreference {expected:?}\n{}\n{}\n{}\n{}\ntext {}",
            difference("names", &ours.names, &theirs.names),
            difference("types", &ours.types, &theirs.types),
            difference("cells", &ours.cells, &theirs.cells),
            difference("store", &ours.store, &theirs.store),
            if lent.is(text) {
                "as it was"
            } else {
                "WRITTEN"
            }
        )
    })?;
    Ok((answer, ours))
}

/// Lengths that suffice for any answer of this text: a cell has its tab.
fn ample(random: &mut Random, text: &[u8]) -> Lengths {
    let tabs = text.iter().filter(|&&b| b == b'\t').count();
    let more = random.below(5);
    [
        3 * tabs.min(64) + more,
        tabs.min(64) + more,
        3 * tabs + more,
        text.len() + more,
    ]
}

fn exact(answer: &j8_sheet) -> Lengths {
    [
        3 * answer.columns,
        answer.columns,
        3 * answer.cells,
        answer.stored,
    ]
}

/// In rooms about the exact ones.
fn in_rooms(random: &mut Random, run: &mut Run, text: &[u8], exact: Lengths, all: bool) -> Outcome {
    const EXACT: [&str; 4] = ["names exact", "types exact", "cells exact", "store exact"];
    const SHORT: [&str; 4] = [
        "names one number short",
        "types one number short",
        "cells one number short",
        "store one byte short",
    ];
    if !all {
        let lengths = exact.map(|length| inputs::room(random, length));
        read_in(random, run, text, lengths)?;
        return Ok(());
    }
    let (answer, _) = read_in(random, run, text, exact)?;
    for part in 0..4 {
        run.edge(EXACT[part], answer.number == 0 && exact[part] > 0);
        if exact[part] == 0 {
            continue;
        }
        let mut lengths = exact;
        lengths[part] -= 1;
        let (answer, _) = read_in(random, run, text, lengths)?;
        run.edge(SHORT[part], answer.number == 12);
    }
    // Numbers that are no whole three are no room, and stay.
    for part in [0, 2] {
        let mut lengths = exact;
        lengths[part] += 1 + random.below(2);
        let (answer, _) = read_in(random, run, text, lengths)?;
        let edge = ["names of no whole threes", "", "cells of no whole threes"][part];
        run.edge(edge, answer.number == 0);
    }
    let short = exact.map(|length| random.below(length + 1).saturating_sub(1));
    let (answer, _) = read_in(random, run, text, short)?;
    run.edge(
        "all four short",
        answer.number == 12 && short.iter().zip(exact).all(|(&length, of)| length < of),
    );
    Ok(())
}

/// What an answer reaches of the edges.
fn edges(run: &mut Run, text: &[u8], answer: &j8_sheet, parts: &Parts) {
    let (number, place) = (answer.number, answer.place);
    run.edge("32,769 bytes", number == 2 && text.len() == 32_769);
    let blank = |b: &u8| b" \r\n".contains(b);
    run.edge("an empty text", number == 19 && text.is_empty());
    run.edge(
        "no line left, but some bytes",
        number == 19 && !text.is_empty() && text.iter().all(blank),
    );
    let lines_before = text[..place.min(text.len())].split(|&b| b == b'\n');
    let left_before = lines_before.filter(|line| !line.iter().all(blank)).count();
    let line = text[place.min(text.len())..].split(|&b| b == b'\n').next();
    let line = line.unwrap_or(b"");
    run.edge(
        "65 columns",
        number == 19 && line.iter().filter(|&&b| b == b'\t').count() == 65,
    );
    let behind_tab = place > 0 && text.get(place - 1) == Some(&b'\t');
    run.edge("19 behind a tab", number == 19 && behind_tab);
    run.edge(
        "a byte order mark first",
        number == 19 && text.starts_with(b"\xef\xbb\xbf!tsv8\t"),
    );
    let cell = line.split(|&b| b == b'\t').next().unwrap_or(b"");
    let blanks = cell.starts_with(b" ") && !cell.iter().all(blank);
    run.edge(
        "blanks before a wrong type",
        number == 19 && behind_tab && blanks,
    );
    run.edge(
        "blanks before a cell of the wrong type",
        number == 21 && blanks,
    );
    run.edge(
        "19 at a line behind the first",
        number == 19 && !behind_tab && left_before > 0,
    );
    let data_before = text[..place.min(text.len())].split(|&b| b == b'\n');
    run.edge(
        "20 behind data",
        number == 20
            && line.starts_with(b"!")
            && data_before.clone().any(|line| line.starts_with(b"\t")),
    );
    run.character_edges(text, number, place);
    if number != 0 {
        return;
    }
    let names = parts.names.items()[..3 * answer.columns].chunks_exact(3);
    let types = &parts.types.items()[..answer.columns];
    let cells = parts.cells.items()[..3 * answer.cells].chunks_exact(3);
    run.edge("32,768 bytes read", text.len() == 32_768);
    run.edge("64 columns read", answer.columns == 64);
    run.edge("16,182 cells read", answer.cells == 16_182);
    run.edge("no row", answer.cells == 0);
    let longest = cells.map(|cell| cell[2]).max().unwrap_or(0);
    run.edge("a cell of 1,025 bytes", longest == 1_025);
    run.edge("a cell of 30,000 bytes", longest >= 30_000);
    run.edge(
        "each type read",
        answer.cells > 0 && (1..=4).all(|number| types.contains(&number)),
    );
    run.edge("a stored name", names.clone().any(|name| name[0] == 6));
}

fn read(random: &mut Random, run: &mut Run) -> Outcome {
    let (made, other) = (inputs::text(random), inputs::text(random));
    let log = random.pick(&LOGS).as_bytes();
    let text = match random.below(12) {
        0 => (0..random.below(20))
            .map(|_| random.pick(TEMPTING))
            .collect(),
        1 => log.to_vec(),
        2 | 3 => inputs::damage(random, log, &other.text),
        4..=7 => inputs::damage(random, &made.text, &other.text),
        _ => made.text,
    };
    for (at, text) in family(random, &text, &other.text, TEMPTING)
        .iter()
        .enumerate()
    {
        let lengths = ample(random, text);
        let (answer, parts) = read_in(random, run, text, lengths)?;
        edges(run, text, &answer, &parts);
        if answer.number == 0 {
            in_rooms(random, run, text, exact(&answer), at == 0)?;
        } else if random.once_in(4) {
            // Refused in any rooms, and before these are looked at.
            let lengths = [0; 4].map(|_| random.below(9));
            read_in(random, run, text, lengths)?;
        }
    }
    Ok(())
}
