//! `j8_string_read` and `j8_string_write`.

use crate::run::{difference, hex, lend, room, Entry, Outcome, Run};
use j8::raw::{self, j8_result};
use j8_inputs::damaged::family;
use j8_inputs::random::Random;
use j8_inputs::{strings, Lent};

pub const READ: Entry = Entry {
    name: "string_read",
    case: read,
    numbers: &[(
        "string_read",
        &[0, 2, 3, 4, 6, 7, 8, 9, 10, 11, 12, 23, 24, 25, 26, 27],
    )],
    edges: &[
        "32,768 bytes read",
        "32,769 bytes",
        "cut off by the end",
        "cut off by a character",
        "cut off by a quote",
        "incomplete past mending",
        "c0, c1 or f5 to f7 cut off",
        "an overlong surrogate",
        "too large from f5 on",
        "exact room",
        "one byte short",
        "no room",
    ],
};

pub const WRITE: Entry = Entry {
    name: "string_write",
    case: write,
    numbers: &[("string_write", &[0, 12])],
    edges: &[
        "a text of 32,768 bytes",
        "a longer text",
        "b''",
        "exact room",
        "one byte short",
        "no room",
    ],
};

const TEMPTING: &[u8] =
    b"\"'\\uby{}0fF8dcDn/ \n\t\x00\x1f\x7f\x80\xbf\xc0\xc3\xe2\xed\xf0\xf4\xf5\xf8\xff";

/// What a call of both sides has, for strings and for lines.
pub type Call<E> = (
    fn(&[u8], &mut [u8]) -> j8_result,
    fn(&[u8], &mut [u8]) -> Result<usize, E>,
);

pub fn done(length: usize) -> j8_result {
    j8_result {
        number: 0,
        place: 0,
        length,
    }
}

pub fn refused(refusal: j8_reference::Refusal) -> j8_result {
    j8_result {
        number: refusal.number,
        place: refusal.place,
        length: 0,
    }
}

/// One call of a function that reads bytes and writes bytes, by both sides.
pub fn compare(
    random: &mut Random,
    run: &mut Run,
    function: &'static str,
    (library, reference): Call<j8_reference::Refusal>,
    input: &[u8],
    length: usize,
) -> Result<j8_result, String> {
    let lent = lend(random, input);
    let mut ours: Lent<u8> = room(random, length);
    let before = ours.clone();
    let mut theirs = before.clone();
    let what = || format!("{function} {} in a room of {length}", hex(input));
    run.before(what);
    let answer = library(lent.items(), ours.part());
    let expected = reference(input, theirs.part()).map_or_else(refused, done);
    let alike = answer == expected
        && ours == theirs
        && lent.is(input)
        && (answer.number == 0 || ours == before);
    run.after(function, answer.number, alike, what, || {
        format!(
            "library   {answer:?}\nreference {expected:?}\n{}, input {}",
            difference("room", &ours, &theirs),
            if lent.is(input) {
                "as it was"
            } else {
                "WRITTEN"
            }
        )
    })?;
    let short = answer.number == 12;
    run.edge("no room", short && length == 0);
    run.edge(
        "exact room",
        answer.number == 0 && answer.length == length && length > 0,
    );
    Ok(answer)
}

/// The same in rooms about the exact one: all of them for the first of a family, and any
/// for the others.
pub fn in_rooms(
    random: &mut Random,
    run: &mut Run,
    function: &'static str,
    call: Call<j8_reference::Refusal>,
    input: &[u8],
    most: usize,
    all: bool,
) -> Result<j8_result, String> {
    let exact = call.1(input, &mut vec![0; most]).map_or_else(refused, done);
    let length = exact.length;
    if !all {
        let length = strings::room(random, length);
        compare(random, run, function, call, input, length)?;
        return Ok(exact);
    }
    for length in [
        length,
        length.saturating_sub(1),
        0,
        length + random.below(200),
    ] {
        let answer = compare(random, run, function, call, input, length)?;
        run.edge(
            "one byte short",
            answer.number == 12 && length + 1 == exact.length,
        );
    }
    Ok(exact)
}

fn read(random: &mut Random, run: &mut Run) -> Outcome {
    let (text, other) = (strings::text(random), strings::text(random));
    for (at, text) in family(random, &text, &other, TEMPTING).iter().enumerate() {
        let call: Call<_> = (raw::string_read, j8_reference::read);
        let answer = in_rooms(random, run, "string_read", call, text, text.len(), at == 0)?;
        run.edge(
            "32,768 bytes read",
            answer.number == 0 && text.len() == 32_768,
        );
        run.edge("32,769 bytes", answer.number == 2 && text.len() == 32_769);
        run.character_edges(text, answer.number, answer.place);
    }
    Ok(())
}

fn write(random: &mut Random, run: &mut Run) -> Outcome {
    let (data, other) = (strings::data(random), strings::data(random));
    for (at, data) in family(random, &data, &other, TEMPTING).iter().enumerate() {
        let call: Call<_> = (raw::string_write, j8_reference::write);
        let most = 6 * data.len() + 2;
        let answer = in_rooms(random, run, "string_write", call, data, most, at == 0)?;
        run.edge("a text of 32,768 bytes", answer.length == 32_768);
        run.edge("a longer text", answer.length > 32_768);
        run.edge("b''", std::str::from_utf8(data).is_err());
    }
    Ok(())
}
