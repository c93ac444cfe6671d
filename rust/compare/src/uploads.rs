//! `j8_upload_fresh`, `j8_upload_feed` and `j8_upload_finish`: lists of calls from a fresh
//! state, left alone or drained, and calls on states made by hand.

use crate::run::{difference, hex, lend, room, Entry, Outcome, Run};
use crate::sides::{as_answer, as_state};
use j8::raw::{self, j8_fed, j8_upload};
use j8_inputs::damaged::family;
use j8_inputs::random::Random;
use j8_inputs::{lines, Lent};
use j8_reference::lines::{
    definition, definition_answer, joined, Call, Upload, LINE_MAX, UPLOAD_MAX,
};

pub const CALLS: Entry = Entry {
    name: "upload",
    case: calls,
    numbers: &[
        ("upload_fresh", &[0]),
        (
            "upload_feed",
            &[
                0, 1, 2, 4, 6, 7, 8, 9, 10, 11, 12, 17, 18, 23, 24, 25, 26, 27,
            ],
        ),
        (
            "upload_finish",
            &[0, 1, 4, 6, 7, 8, 9, 10, 11, 12, 18, 23, 24, 25, 26, 27],
        ),
        (
            "upload_feed, kept",
            &[2, 4, 6, 7, 8, 9, 10, 11, 12, 17, 23, 24, 25, 26, 27],
        ),
        (
            "upload_finish, kept",
            &[2, 4, 6, 7, 8, 9, 10, 11, 12, 17, 23, 24, 25, 26, 27],
        ),
    ],
    edges: &[
        "a line of 1,024 bytes read",
        "a line of 1,025 bytes",
        "1,048,576 bytes ended",
        "byte 1,048,577",
        "byte 1,048,577 is a line's 1,025th",
        "an output of 0 bytes",
        "a room filled to its end",
        "an empty piece",
        "pieces of one byte",
        "drained to the end",
        "cut off by the end",
        "cut off by a character",
        "cut off by a tab",
        "cut off by a quote",
        "incomplete past mending",
        "c0, c1 or f5 to f7 cut off",
        "an overlong surrogate",
        "too large from f5 on",
        "a character in two pieces",
    ],
};

pub const STATES: Entry = Entry {
    name: "upload_states",
    case: states,
    // A state made by hand may keep any number, and j8.h lists none of these.
    numbers: &[
        (
            "upload_feed",
            &[
                0, 1, 2, 4, 6, 7, 8, 9, 10, 11, 12, 17, 18, 23, 24, 25, 26, 27,
            ],
        ),
        (
            "upload_finish",
            &[0, 1, 4, 6, 7, 8, 9, 10, 11, 12, 18, 23, 24, 25, 26, 27],
        ),
    ],
    edges: &[
        "line buffer of 1,023",
        "held 1,024",
        "held 1,025",
        "taken 1,048,576",
        "taken 1,048,577",
        "lfs as taken",
        "lfs over taken",
        "used as the output",
        "used over the output",
        "ended",
        "ended as 2",
        "refusal kept",
        "refusal 1 kept",
        "refusal 5 kept",
        "refusal 18 kept",
        "refusal 99 kept",
    ],
};

const TEMPTING: &[u8] = b"\n\n\n\"'\\uby{} \t\r#0fd\x00\x1f\x7f\x80\xc3\xe2\xed\xff";

/// A call of the reference on any state.
fn call_reference(state: j8_upload, call: Call, line: &mut [u8], out: &mut [u8]) -> j8_fed {
    let upload = Upload {
        taken: state.taken,
        lfs: state.lfs,
        held: state.held,
        used: state.used,
        ended: state.ended != 0,
        refusal: state.refusal,
        line: state.line,
        place: state.place,
    };
    let (upload, answer) = match call {
        Call::Feed(piece) => upload.feed(piece, line, out),
        Call::Finish => upload.finish(line, out),
    };
    j8_fed {
        upload: as_state(upload),
        answer: as_answer(answer),
    }
}

/// The two buffers of an upload, as each side has them.
struct Buffers {
    ours: (Lent<u8>, Lent<u8>),
    theirs: (Lent<u8>, Lent<u8>),
}

impl Buffers {
    fn new(line: Lent<u8>, out: Lent<u8>) -> Buffers {
        Buffers {
            theirs: (line.clone(), out.clone()),
            ours: (line, out),
        }
    }

    /// One call by both sides, with so many bytes of each buffer lent. Gives what both
    /// answered.
    fn call(
        &mut self,
        random: &mut Random,
        run: &mut Run,
        state: j8_upload,
        call: Call,
        (line_room, out_room): (usize, usize),
    ) -> Result<j8_fed, String> {
        let (function, kept, piece) = match call {
            Call::Feed(piece) => ("upload_feed", "upload_feed, kept", piece),
            Call::Finish => ("upload_finish", "upload_finish, kept", &[][..]),
        };
        let lent = lend(random, piece);
        // The line held as it was, for a message; nothing else of the buffers is read.
        let held = self.theirs.0.items()[..state.held.min(line_room)].to_vec();
        let what = || {
            format!(
                "{function} {} on {state:?}, line buffer of {line_room} that begins {}, output of {out_room}",
                hex(piece),
                hex(&held)
            )
        };
        run.before(what);
        let (ours, theirs) = (&mut self.ours, &mut self.theirs);
        let (line, out) = (
            &mut ours.0.part()[..line_room],
            &mut ours.1.part()[..out_room],
        );
        let fed = match call {
            Call::Feed(_) => raw::upload_feed(state, lent.items(), line, out),
            Call::Finish => raw::upload_finish(state, line, out),
        };
        let (line, out) = (
            &mut theirs.0.part()[..line_room],
            &mut theirs.1.part()[..out_room],
        );
        let expected = call_reference(state, call, line, out);
        let alike = fed == expected && *ours == *theirs && lent.is(piece);
        // What is repeated is counted by itself: any call can repeat what a feed found.
        let repeated = state.refusal != 0 && fed.answer.number == state.refusal;
        let function = if repeated { kept } else { function };
        run.after(function, fed.answer.number, alike, what, || {
            format!(
                "library   {fed:?}\nreference {expected:?}\n{}\n{}\npiece {}",
                difference("line buffer", &ours.0, &theirs.0),
                difference("output", &ours.1, &theirs.1),
                if lent.is(piece) {
                    "as it was"
                } else {
                    "WRITTEN"
                }
            )
        })?;
        if !repeated {
            // The line that is refused is still held.
            let held = fed.upload.held.min(line_room);
            let line = &self.ours.0.items()[..held];
            run.character_edges(line, fed.answer.number, fed.answer.place);
        }
        // Its first byte came with an earlier call, and the rest of it with this one.
        run.edge(
            "a character in two pieces",
            !repeated
                && matches!(fed.answer.number, 25..=27)
                && state.held == fed.answer.place + 1
                && state.lfs == fed.upload.lfs,
        );
        Ok(fed)
    }
}

/// A text with what becomes of it: a long one is damaged once, if at all.
fn texts(random: &mut Random) -> Vec<u8> {
    let mut text = lines::text(random);
    if text.len() > UPLOAD_MAX && random.once_in(3) {
        // Just the longest.
        text.truncate(UPLOAD_MAX);
    }
    if text.len() > 100_000 || random.once_in(2) {
        return text;
    }
    let other = lines::text(random);
    let all = family(random, &text, &other[..other.len().min(2_000)], TEMPTING);
    let at = random.below(all.len());
    all[at].clone()
}

fn calls(random: &mut Random, run: &mut Run) -> Outcome {
    let fresh = raw::upload_fresh();
    let expected = as_state(Upload::fresh());
    run.after("upload_fresh", 0, fresh == expected, String::new, || {
        format!("library {fresh:?}\nreference {expected:?}")
    })?;

    let text = texts(random);
    let plenty = vec![0; text.len() * 5 / 2 + 8];
    let (whole, _, records) = definition(&text, true, &[0; LINE_MAX], &plenty);
    let line_room = LINE_MAX + random.pick(&[0, 0, 1, 40]);
    let way = random.below(3);
    let list = lines::calls(random, &text, way);
    run.edge(
        "pieces of one byte",
        way == 1 && text.len() < 400 && !text.is_empty(),
    );
    run.edge(
        "an empty piece",
        list.iter().any(|c| matches!(c, Call::Feed([]))),
    );
    let drained = random.once_in(3);
    let longest = |call: &Call| match call {
        Call::Feed(piece) => piece.len(),
        Call::Finish => 0,
    };
    let out_room = if drained {
        j8::feed_room(list.iter().map(longest).max().unwrap_or(0))
    } else {
        lines::room(random, whole.used)
    };
    let line = room(random, line_room);
    let out: Lent<u8> = room(random, out_room);
    let (line_lent, out_lent) = (line.clone(), out.clone());
    let mut buffers = Buffers::new(line, out);

    let (mut state, mut handed) = (fresh, Vec::new());
    let (mut done, mut last) = (Vec::new(), None);
    for &call in &list {
        let mut rooms = (line_room, out_room);
        if random.once_in(20) {
            // Unfit now and then, by a short line buffer or a short output.
            let short = random.pick(&[0, 1, LINE_MAX - 1]);
            match random.below(2) {
                0 => rooms.0 = short,
                _ => rooms.1 = state.used.checked_sub(1).unwrap_or(out_room),
            }
        }
        let fed = buffers.call(random, run, state, call, rooms)?;
        if rooms != (line_room, out_room) {
            // It changes nothing, and is left out of the list below.
            if fed.answer.number != 1 || fed.upload != state {
                return Err(format!("an unfit call on {state:?}: {fed:?}"));
            }
            continue;
        }
        (state, last) = (fed.upload, Some(fed.answer));
        done.push(call);
        if drained {
            handed.extend_from_slice(&buffers.ours.1.items()[..state.used]);
            state.used = 0;
        }
    }

    // The J8 Lines definition knows no pieces.
    let Some(last) = last else { return Ok(()) };
    let (text, finished) = joined(&done);
    let before = done[..done.len() - 1]
        .iter()
        .any(|c| matches!(c, Call::Finish));
    let told = |what: &str| {
        format!("{what}: {} in {} calls, rooms {line_room} and {out_room}, ended in {state:?}, {last:?}", hex(&text), done.len())
    };
    if drained {
        let plenty = vec![0; text.len() * 5 / 2 + 8];
        let (defined, line, output) = definition(&text, finished, line_lent.items(), &plenty);
        let used = defined.used;
        let right = handed == output[..used]
            && j8_upload { used, ..state } == as_state(defined)
            && last == as_answer(definition_answer(&defined, before))
            && buffers.ours.0.items() == line;
        if !right {
            return Err(told(&format!("drained, not as defined: {defined:?}")));
        }
        run.edge("drained to the end", defined.ended && used > 0);
    } else {
        let (defined, line, output) =
            definition(&text, finished, line_lent.items(), out_lent.items());
        let right = state == as_state(defined)
            && last == as_answer(definition_answer(&defined, before))
            && buffers.ours.0.items() == line
            && buffers.ours.1.items() == output;
        if !right {
            return Err(told(&format!("not as defined: {defined:?}")));
        }
        run.edge(
            "a room filled to its end",
            defined.ended && defined.used == out_room && out_room > 0,
        );
    }
    let longest = j8::Records::new(&records[..whole.used])
        .map(|r| r.as_bytes().len())
        .max();
    run.edge("a line of 1,024 bytes read", longest == Some(LINE_MAX));
    run.edge("a line of 1,025 bytes", state.refusal == 2);
    run.edge(
        "1,048,576 bytes ended",
        state.ended != 0 && state.taken == UPLOAD_MAX,
    );
    run.edge("byte 1,048,577", state.refusal == 17);
    run.edge(
        "byte 1,048,577 is a line's 1,025th",
        state.refusal == 17 && state.place == LINE_MAX,
    );
    run.edge("an output of 0 bytes", out_room == 0 && state.refusal == 12);
    Ok(())
}

fn states(random: &mut Random, run: &mut Run) -> Outcome {
    let out_room = random.pick(&[0, 3, 4, 5, 60, 200, 1_200]);
    let line_room = match random.below(12) {
        0 => random.pick(&[0, 1, 40, LINE_MAX - 1]),
        1 => LINE_MAX + random.below(40),
        _ => LINE_MAX,
    };
    // The line held may be any bytes, LFs with them.
    let damaged = random.once_in(2);
    let mut begin = lines::line(random, damaged);
    if random.once_in(20) {
        begin.push(b'\n');
    }
    begin.truncate(line_room);
    let mut line: Lent<u8> = room(random, line_room);
    if !random.once_in(8) {
        line.part()[..begin.len()].copy_from_slice(&begin);
    }
    if random.once_in(4) {
        // All of it held is then a name.
        line.part()[begin.len()..].fill(b'n');
    }
    let mut state = lines::hand_made(random, out_room);
    if random.once_in(3) {
        state.held = begin.len();
    }
    let out: Lent<u8> = room(random, out_room);
    let mut buffers = Buffers::new(line, out);
    let text = texts(random);
    let text = &text[text.len().saturating_sub(2_000)..];
    for _ in 0..1 + random.below(4) {
        let call = match random.below(3) {
            0 => Call::Finish,
            _ => Call::Feed(&text[random.below(text.len() + 1)..]),
        };
        let before = (buffers.ours.0.clone(), buffers.ours.1.clone());
        let fed = buffers.call(random, run, state, call, (line_room, out_room))?;
        let number = fed.answer.number;
        let fit = number != 1 || state.refusal == 1;
        run.edge(
            "line buffer of 1,023",
            line_room == LINE_MAX - 1 && number == 1,
        );
        run.edge("held 1,024", state.held == LINE_MAX && fit);
        run.edge("held 1,025", state.held == LINE_MAX + 1 && number == 1);
        run.edge("taken 1,048,576", state.taken == UPLOAD_MAX && fit);
        run.edge(
            "taken 1,048,577",
            state.taken == UPLOAD_MAX + 1 && number == 1,
        );
        run.edge("lfs as taken", state.lfs == state.taken && fit);
        run.edge("lfs over taken", state.lfs > state.taken && number == 1);
        run.edge("used as the output", state.used == out_room && fit);
        run.edge(
            "used over the output",
            state.used == out_room + 1 && number == 1,
        );
        run.edge("ended", state.ended == 1 && number == 18);
        run.edge("ended as 2", state.ended == 2 && number == 18);
        let kept = state.refusal != 0 && number == state.refusal;
        run.edge(
            "refusal kept",
            kept && fed.answer.line == state.line && fed.answer.place == state.place,
        );
        run.edge("refusal 1 kept", kept && number == 1 && fed.answer.line > 0);
        run.edge("refusal 5 kept", kept && number == 5);
        run.edge("refusal 18 kept", kept && number == 18);
        run.edge("refusal 99 kept", kept && number == 99);
        if state.refusal != 0 || number == 1 || number == 18 {
            // Nothing changes but `ended`, which a call gives as 0 or 1.
            let ended = u32::from(state.ended != 0);
            let same = fed.upload == j8_upload { ended, ..state };
            if !same || before != buffers.ours {
                return Err(format!("something changed: {state:?}, {fed:?}"));
            }
        }
        state = fed.upload;
    }
    Ok(())
}
