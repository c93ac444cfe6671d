//! J8 Lines: the library against the reference and the J8 Lines definition on
//! generated and damaged inputs, with a fixed seed. J8_CASES asks for more cases
//! than 20,000 of each kind, J8_SEED for another seed.

mod lines;

use j8::raw::j8_upload;
use j8_inputs::lines::{calls, damage, hand_made, line, records, room, text};
use j8_inputs::random::{self, Random};
use j8_reference::lines::{definition, definition_answer, joined, Call, LINE_MAX, UPLOAD_MAX};
use lines::{as_answer, as_state, pattern, Lent, LIBRARY, RAW, REFERENCE};
use std::collections::BTreeMap;

fn cases() -> u64 {
    random::cases(20_000)
}

/// How often each thing was seen.
type Seen = BTreeMap<u32, u64>;

/// A generator that no longer reaches something must not pass unnoticed.
fn assert_seen(seen: &Seen, numbers: &[u32]) {
    println!("{seen:?}");
    for number in numbers {
        let count = seen.get(number).copied().unwrap_or(0);
        assert!(count >= 5, "number {number}: {count} times");
    }
}

/// The calls for a message, cut where they are very long.
fn shown(calls: &[Call]) -> String {
    let call = |call: &Call| match call {
        Call::Feed(piece) => {
            let start = &piece[..piece.len().min(2_000)];
            format!("feed {} bytes {}", piece.len(), start.escape_ascii())
        }
        Call::Finish => "finish".to_string(),
    };
    calls.iter().map(call).collect::<Vec<_>>().join("; ")
}

/// Runs the calls on both sides. After each of them the state, the buffers and
/// the answer must be those of the other side and, save in the midst of a very
/// long text, of the definition.
fn run(calls: &[Call], line_lent: &[u8], lent: &[u8], seen: &mut Seen, what: &str) {
    let (mut our_line, mut our_out) = (Lent::new(line_lent), Lent::new(lent));
    let (mut their_line, mut their_out) = (Lent::new(line_lent), Lent::new(lent));
    let (mut ours, mut theirs) = ((LIBRARY.fresh)(), (REFERENCE.fresh)());
    assert_eq!(ours, theirs, "{what}: fresh");
    for (at, &call) in calls.iter().enumerate() {
        let our_fed = LIBRARY.call(ours, call, our_line.part(), our_out.part());
        let their_fed = REFERENCE.call(theirs, call, their_line.part(), their_out.part());
        assert_eq!(our_fed, their_fed, "{what}: call {at} of {}", shown(calls));
        assert!(
            our_line == their_line,
            "{what}: line buffer, call {at} of {}",
            shown(calls)
        );
        assert!(
            our_out == their_out,
            "{what}: output, call {at} of {}",
            shown(calls)
        );
        (ours, theirs) = (our_fed.upload, their_fed.upload);
        *seen.entry(our_fed.answer.number).or_default() += 1;

        let (text, finished) = joined(&calls[..=at]);
        if text.len() > 100_000 && at + 2 < calls.len() {
            // The definition reads a long text whole each time: only at the end.
            continue;
        }
        let finished_before = calls[..at].iter().any(|c| matches!(c, Call::Finish));
        let (state, line, out) = definition(&text, finished, line_lent, lent);
        let answer = as_answer(definition_answer(&state, finished_before));
        assert_eq!(
            ours,
            as_state(state),
            "{what}: defined state, call {at} of {}",
            shown(calls)
        );
        assert_eq!(
            our_fed.answer,
            answer,
            "{what}: defined answer, call {at} of {}",
            shown(calls)
        );
        assert!(
            our_line.holds(&line),
            "{what}: defined line buffer, call {at} of {}",
            shown(calls)
        );
        assert!(
            our_out.holds(&out),
            "{what}: defined output, call {at} of {}",
            shown(calls)
        );
    }
}

#[test]
fn texts_in_pieces() {
    let mut random = Random::new();
    let mut seen = Seen::new();
    let mut kinds = Seen::new();
    let (mut whole_lines, mut near_limit, mut both_limits) = (0, 0, 0);
    for case in 0..cases() {
        let text = text(&mut random);
        let plenty = vec![0; text.len() * 5 / 2 + 8];
        let (state, _, output) = definition(&text, true, &[0; LINE_MAX], &plenty);
        let room = room(&mut random, state.used);
        let flip = random.once_in(2);
        let line_room = LINE_MAX + random.pick(&[0, 0, 1, 40]);
        let (line_lent, lent) = (pattern(line_room, flip), pattern(room, !flip));
        for record in j8::Records::new(&output[..state.used]) {
            *kinds.entry(u32::from(record.kind())).or_default() += 1;
            whole_lines += u64::from(record.as_bytes().len() == LINE_MAX);
        }
        near_limit += u64::from(state.taken == UPLOAD_MAX);
        both_limits += u64::from(state.refusal == 17 && state.place == LINE_MAX);
        for way in 0..3 {
            let calls = calls(&mut random, &text, way);
            let what = format!("case {case}, way {way}, room {room}");
            run(&calls, &line_lent, &lent, &mut seen, &what);
        }
    }
    assert_seen(
        &seen,
        &[0, 2, 4, 6, 7, 8, 9, 10, 11, 12, 17, 18, 23, 24, 25, 26, 27],
    );
    assert_seen(&kinds, &[1, 2]);
    assert!(whole_lines >= 3, "names of 1,024 bytes: {whole_lines}");
    assert!(near_limit >= 3, "uploads at the limit: {near_limit}");
    assert!(both_limits >= 1, "both limits at one byte: {both_limits}");
}

// ---------------------------------------------------------------- drained

/// Uploads whose records are handed on after each call: one in a room that just
/// suffices for its longest piece, one that grows, and one that is written to and
/// never drained. The definition of the joined text says what all must give.
#[test]
fn drained_uploads() {
    let mut random = Random::new();
    let mut seen = Seen::new();
    for case in 0..cases() {
        let text = text(&mut random);
        let plenty = vec![0; text.len() * 5 / 2 + 8];
        let (state, _, output) = definition(&text, true, &[0; LINE_MAX], &plenty);
        let (records, used) = (&output[..state.used], state.used);
        let answer = definition_answer(&state, false);

        let most = random.pick(&[1, 2, 7, 100, 1_460, text.len().max(1)]);
        let most = if text.len() > 100_000 {
            most.max(100)
        } else {
            most
        };
        let (mut line, mut out) = ([0; LINE_MAX], vec![0; j8::feed_room(most)]);
        let mut lent = j8::LentUpload::new(&mut line, &mut out);
        let (mut grown, mut kept) = (j8::Upload::new(), j8::Upload::new());
        let (mut handed, mut handed_too) = (Vec::new(), Vec::new());
        let what = || format!("case {case}, most {most}: {}", shown(&[Call::Feed(&text)]));
        let mut rest = text.as_slice();
        while !rest.is_empty() {
            let (piece, behind) = rest.split_at((1 + random.below(most)).min(rest.len()));
            // A refused feed stays refused, and the finish shows it.
            let fed = lent.feed(piece);
            assert_eq!(grown.feed(piece), fed, "{}", what());
            let written = std::io::Write::write_all(&mut kept, piece);
            assert_eq!(written.is_ok(), fed.is_ok(), "{}", what());
            handed.extend_from_slice(lent.output());
            handed_too.extend_from_slice(grown.output());
            assert_eq!(lent.drain().rest(), grown.drain().rest(), "{}", what());
            rest = behind;
        }
        let finished = lent.finish();
        assert_eq!(grown.finish(), finished, "{}", what());
        assert_eq!(kept.finish(), finished, "{}", what());
        handed.extend_from_slice(lent.output());
        handed_too.extend_from_slice(grown.output());
        assert!(handed == records && handed_too == records, "{}", what());
        assert!(kept.output() == records, "{}", what());

        let number = finished.map_or_else(|error| error.number(), |()| 0);
        assert_eq!(number, answer.number, "{}", what());
        assert_eq!(as_state(state), kept.state().into(), "{}", what());
        for drained in [lent.state(), grown.state()] {
            let all = j8::UploadState { used, ..drained };
            assert_eq!(all, kept.state(), "{}", what());
        }
        *seen.entry(number).or_default() += 1;
    }
    assert_seen(
        &seen,
        &[0, 2, 4, 6, 7, 8, 9, 10, 11, 17, 23, 24, 25, 26, 27],
    );
}

// ------------------------------------------------- states made by hand

#[test]
fn states_made_by_hand() {
    let mut random = Random::new();
    let mut seen = Seen::new();
    let mut kept = Seen::new();
    for case in 0..cases() {
        let room = random.pick(&[0, 3, 4, 5, 60, 200, 1_200]);
        let line_room = match random.below(12) {
            0 => random.pick(&[0, 1, 40, LINE_MAX - 1]),
            1 => LINE_MAX + random.below(40),
            _ => LINE_MAX,
        };
        // The line held may be any bytes, LFs with them.
        let flip = random.once_in(2);
        let (mut line_lent, lent) = (pattern(line_room, flip), pattern(room, !flip));
        let damaged = random.once_in(2);
        let mut begin = line(&mut random, damaged);
        if random.once_in(20) {
            begin.push(b'\n');
        }
        begin.truncate(line_room);
        if !random.once_in(8) {
            line_lent[..begin.len()].copy_from_slice(&begin);
        }
        if random.once_in(4) {
            // All of it held is then a name.
            line_lent[begin.len()..].fill(b'n');
        }
        let mut state = hand_made(&mut random, room);
        if random.once_in(3) {
            state.held = begin.len();
        }

        let text = text(&mut random);
        let text = &text[text.len().saturating_sub(2_000)..];
        let (mut our_line, mut our_out) = (Lent::new(&line_lent), Lent::new(&lent));
        let (mut their_line, mut their_out) = (our_line.clone(), our_out.clone());
        for at in 0..1 + random.below(4) {
            let what = format!("case {case}, call {at} from {state:?}");
            let call = match random.below(3) {
                0 => Call::Finish,
                _ => {
                    let from = random.below(text.len() + 1);
                    Call::Feed(&text[from..])
                }
            };
            let (line_before, out_before) = (our_line.clone(), our_out.clone());
            let our_fed = RAW.call(state, call, our_line.part(), our_out.part());
            let their_fed = REFERENCE.call(state, call, their_line.part(), their_out.part());
            assert_eq!(our_fed, their_fed, "{what}: {}", shown(&[call]));
            assert!(
                our_line == their_line,
                "{what}: line buffer, {}",
                shown(&[call])
            );
            assert!(our_out == their_out, "{what}: output, {}", shown(&[call]));
            let number = our_fed.answer.number;
            *seen.entry(number).or_default() += 1;
            if number != 0 && number == state.refusal {
                *kept.entry(number).or_default() += 1;
            }
            if state.refusal != 0 || number == 1 || number == 18 {
                // Nothing changes but `ended`, which a call gives as 0 or 1.
                let ended = u32::from(state.ended != 0);
                assert_eq!(our_fed.upload, j8_upload { ended, ..state }, "{what}");
                assert!(our_line == line_before && our_out == out_before, "{what}");
            }
            state = our_fed.upload;
        }
    }
    assert_seen(
        &seen,
        &[
            0, 1, 2, 4, 6, 7, 8, 9, 10, 11, 12, 17, 18, 23, 24, 25, 26, 27,
        ],
    );
    assert_seen(&kept, &[1, 2, 5, 12, 13, 17, 18, 99, u32::MAX]);
}

// ------------------------------------------------------------- the writer

#[test]
fn record_lists() {
    let mut random = Random::new();
    let mut seen = Seen::new();
    for case in 0..cases() {
        let mut records = records(&mut random);
        if random.once_in(2) {
            damage(&mut random, &mut records);
        }
        let mut plenty = vec![0; j8::write_lines_room(records.len())];
        let exact = (REFERENCE.write)(&records, &mut plenty);
        assert_ne!(exact.number, 12, "case {case}: the greatest room");
        let lent = pattern(room(&mut random, exact.length), random.once_in(2));
        let (mut our_out, mut their_out) = (Lent::new(&lent), Lent::new(&lent));
        let ours = (LIBRARY.write)(&records, our_out.part());
        let theirs = (REFERENCE.write)(&records, their_out.part());
        let what = || format!("case {case}: {} in {}", records.escape_ascii(), lent.len());
        assert_eq!(ours, theirs, "{}", what());
        assert!(our_out == their_out, "{}", what());
        *seen.entry(ours.number).or_default() += 1;
        if ours.number != 0 {
            assert!(our_out.holds(&lent), "{}", what());
        }
    }
    assert_seen(&seen, &[0, 1, 12]);
}

// ------------------------------------------------------------- round trip

/// Written lines, uploaded in pieces, give the records again, up to the first
/// line that is too long.
#[test]
fn written_lines_come_back() {
    let mut random = Random::new();
    let (mut all, mut some) = (0, 0);
    for case in 0..cases() {
        let records = records(&mut random);
        let text = j8::write_lines_to_vec(&records).expect("the records are right");
        let long = text.split(|&b| b == b'\n').position(|l| l.len() > LINE_MAX);

        let mut line = [0; j8::LINE_ROOM];
        let mut out = vec![0; records.len()];
        let mut upload = j8::LentUpload::new(&mut line, &mut out);
        let mut rest = text.as_slice();
        while !rest.is_empty() {
            let most = random.pick(&[1, 7, 100, 1_500]);
            let (piece, behind) = rest.split_at(random.below(most + 1).min(rest.len()));
            // A refused feed stays refused, and the finish shows it.
            let _ = upload.feed(piece);
            rest = behind;
        }
        let answer = upload.finish();
        match long {
            None => {
                assert_eq!(answer, Ok(()), "case {case}: {}", text.escape_ascii());
                assert!(
                    upload.output() == records,
                    "case {case}: {}",
                    text.escape_ascii()
                );
                all += 1;
            }
            Some(before) => {
                let error = answer.expect_err("a line is too long");
                let found = (error.refusal, error.line, error.place);
                let asked = (j8::Refusal::TooLong, Some(before + 1), LINE_MAX);
                assert_eq!(found, asked, "case {case}");
                assert!(records.starts_with(upload.output()), "case {case}");
                assert_eq!(upload.records().count(), before, "case {case}");
                some += 1;
            }
        }
    }
    println!("all came back: {all}, some: {some}");
    assert!(all >= 1_000 && some >= 5);
}
