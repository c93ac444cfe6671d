//! J8 Lines: every vector of tests/vectors by this crate and by the reference,
//! buffers compared whole; the types of this crate.

mod cases;
mod lines;

use cases::{bytes, each_case};
use j8::raw::{j8_answer, j8_result, j8_upload};
use j8::{Error, LentUpload, Record, Refusal, Upload, UploadState};
use j8_inputs::lines::record;
use j8_reference::lines::{definition, definition_answer, joined, Call, LINE_MAX};
use lines::{as_answer, as_state, pattern, Lent, Side, LIBRARY, REFERENCE};

/// The numbers of a field, divided by commas.
fn numbers<const N: usize>(field: &str) -> [usize; N] {
    let list: Vec<usize> = field
        .split(',')
        .map(|n| n.parse().expect("a number"))
        .collect();
    list.try_into().expect("so many numbers")
}

// ------------------------------------------------------------- upload.txt

fn answer(field: &str) -> j8_answer {
    let [number, line, place] = numbers(field);
    j8_answer {
        number: number as u32,
        line,
        place,
    }
}

fn state(field: &str) -> j8_upload {
    let [taken, lfs, held, used, ended, refusal, line, place] = numbers(field);
    j8_upload {
        taken,
        lfs,
        held,
        used,
        ended: ended as u32,
        refusal: refusal as u32,
        line,
        place,
    }
}

/// The pieces of a field of calls, `None` for a finish.
fn pieces(field: &str) -> Vec<Option<Vec<u8>>> {
    if field == "-" {
        return Vec::new();
    }
    let piece = |call: &str| match call.split_at(1) {
        ("F", piece) => Some(bytes(piece)),
        ("E", "") => None,
        _ => panic!("call {call}"),
    };
    field.split(';').map(piece).collect()
}

fn as_calls(pieces: &[Option<Vec<u8>>]) -> Vec<Call<'_>> {
    pieces
        .iter()
        .map(|piece| piece.as_deref().map_or(Call::Finish, Call::Feed))
        .collect()
}

fn uploads(side: &Side) -> usize {
    each_case("upload.txt", |fields: [&str; 7], what| {
        let [line_room, room, calls, answers, at_end, output, line_buffer] = fields;
        let pieces = pieces(calls);
        let before = pieces.clone();
        let calls = as_calls(&pieces);
        let answers: Vec<j8_answer> = match answers {
            "-" => Vec::new(),
            some => some.split(';').map(answer).collect(),
        };
        assert_eq!(calls.len(), answers.len(), "{what}: fields");

        let line_room: usize = line_room.parse().expect("line room");
        let (line_lent, lent) = (
            vec![0xaa; line_room],
            vec![0xbb; room.parse().expect("room")],
        );
        let (mut line, mut out) = (Lent::new(&line_lent), Lent::new(&lent));
        let mut upload = (side.fresh)();
        for (at, &call) in calls.iter().enumerate() {
            let fed = side.call(upload, call, line.part(), out.part());
            assert_eq!(fed.answer, answers[at], "{what}: answer {at}");
            upload = fed.upload;
        }
        assert_eq!(upload, state(at_end), "{what}: state");
        assert!(out.holds(&bytes(output)), "{what}: output");
        assert!(line.holds(&bytes(line_buffer)), "{what}: line buffer");
        assert!(pieces == before, "{what}: pieces");
    })
}

#[test]
fn library_uploads() {
    assert_eq!(uploads(&LIBRARY), 488);
}

#[test]
fn reference_uploads() {
    assert_eq!(uploads(&REFERENCE), 488);
}

/// The same cases by the J8 Lines definition, after each call.
#[test]
fn defined_uploads() {
    each_case("upload.txt", |fields: [&str; 7], what| {
        let [line_room, room, calls, answers, at_end, output, line_buffer] = fields;
        let line_room: usize = line_room.parse().expect("line room");
        if line_room < LINE_MAX {
            return;
        }
        let (line_lent, lent) = (
            vec![0xaa; line_room],
            vec![0xbb; room.parse().expect("room")],
        );
        let pieces = pieces(calls);
        let calls = as_calls(&pieces);
        for (at, expected) in answers.split(';').filter(|&a| a != "-").enumerate() {
            let (text, finished) = joined(&calls[..=at]);
            let (_, finished_before) = joined(&calls[..at]);
            let (state, _, _) = definition(&text, finished, &line_lent, &lent);
            let found = definition_answer(&state, finished_before);
            assert_eq!(as_answer(found), answer(expected), "{what}: answer {at}");
        }
        let (text, finished) = joined(&calls);
        let (found, line, out) = definition(&text, finished, &line_lent, &lent);
        assert_eq!(as_state(found), state(at_end), "{what}: state");
        assert!(out == bytes(output), "{what}: output");
        assert!(line == bytes(line_buffer), "{what}: line buffer");
    });
}

// ---------------------------------------------------------- line_read.txt

/// What a case of line_read.txt expects: an empty record if it is ignored.
fn expected_line(
    outcome: &str,
    number: &str,
    place: &str,
    payload: &str,
) -> Result<Vec<u8>, (u32, usize)> {
    let number: u16 = number.parse().expect("number");
    match outcome {
        "ignored" => Ok(Vec::new()),
        "record" => Ok(record(number, &bytes(payload))),
        "refused" => Err((u32::from(number), place.parse().expect("place"))),
        _ => panic!("outcome {outcome}"),
    }
}

/// One line by fresh, feed and what reads it, a finish or an LF.
fn line(
    side: &Side,
    text: &[u8],
    by_finish: bool,
    room: usize,
    flip: bool,
    expected: &Result<Vec<u8>, (u32, usize)>,
    what: &str,
) {
    let (line_lent, lent) = (pattern(LINE_MAX + 3, flip), pattern(room, !flip));
    let (mut line, mut out) = (Lent::new(&line_lent), Lent::new(&lent));
    let fed = (side.feed)((side.fresh)(), text, line.part(), out.part());
    let nothing = j8_answer {
        number: 0,
        line: 0,
        place: 0,
    };
    // A line that is too long is refused by its feed, and the reader repeats it.
    let long = text.len() > LINE_MAX;
    let text = &text[..text.len().min(LINE_MAX)];
    if !long {
        assert_eq!(fed.answer, nothing, "{what}: feed");
    }
    let at_feed = fed.answer;
    let reader = if by_finish {
        Call::Finish
    } else {
        Call::Feed(b"\n")
    };
    let fed = side.call(fed.upload, reader, line.part(), out.part());

    let mut after = j8_upload {
        taken: text.len(),
        lfs: 0,
        held: text.len(),
        used: 0,
        ended: 0,
        refusal: 0,
        line: 0,
        place: 0,
    };
    let mut answer = nothing;
    let mut output = lent;
    match expected {
        Ok(record) => {
            after.held = 0;
            after.used = record.len();
            if by_finish {
                after.ended = 1;
            } else {
                after.taken += 1;
                after.lfs = 1;
            }
            output[..record.len()].copy_from_slice(record);
        }
        &Err((number, place)) => {
            (after.refusal, after.line, after.place) = (number, 1, place);
            answer = j8_answer {
                number,
                line: 1,
                place,
            };
        }
    }
    let mut line_after = line_lent;
    line_after[..text.len()].copy_from_slice(text);
    if long {
        assert_eq!(at_feed, answer, "{what}: feed");
    }
    assert_eq!(fed.answer, answer, "{what}: answer");
    assert_eq!(fed.upload, after, "{what}: state");
    assert!(out.holds(&output), "{what}: output");
    assert!(line.holds(&line_after), "{what}: line buffer");
}

fn single_lines(side: &Side) -> usize {
    each_case("line_read.txt", |fields: [&str; 5], what| {
        let [text, outcome, number, place, payload] = fields;
        let text = bytes(text);
        let expected = expected_line(outcome, number, place, payload);
        let length = expected.as_ref().map_or(0, Vec::len);
        for by_finish in [true, false] {
            for flip in [true, false] {
                for room in [length, length + 50] {
                    line(side, &text, by_finish, room, flip, &expected, what);
                }
                if length > 0 {
                    let short = Err((12, 0));
                    line(side, &text, by_finish, length - 1, flip, &short, what);
                    line(side, &text, by_finish, 0, flip, &short, what);
                }
            }
        }
    })
}

#[test]
fn library_lines() {
    assert_eq!(single_lines(&LIBRARY), 693);
}

#[test]
fn reference_lines() {
    assert_eq!(single_lines(&REFERENCE), 693);
}

// -------------------------------------------------------- lines_write.txt

fn writes(side: &Side) -> usize {
    each_case("lines_write.txt", |fields: [&str; 5], what| {
        let [records, room, number, place, text] = fields;
        let (records, text) = (bytes(records), bytes(text));
        let expected = j8_result {
            number: number.parse().expect("number"),
            place: place.parse().expect("place"),
            length: text.len(),
        };
        for flip in [false, true] {
            let before = records.clone();
            let lent = pattern(room.parse().expect("room"), flip);
            let mut out = Lent::new(&lent);
            let answer = (side.write)(&records, out.part());
            let mut output = lent;
            // Empty on a refusal, so the pattern stays as it is.
            output[..text.len()].copy_from_slice(&text);
            assert_eq!(answer, expected, "{what}: answer");
            assert!(out.holds(&output), "{what}: output");
            assert!(records == before, "{what}: records");
        }
    })
}

#[test]
fn library_writes() {
    assert_eq!(writes(&LIBRARY), 154);
}

#[test]
fn reference_writes() {
    assert_eq!(writes(&REFERENCE), 154);
}

// ------------------------------------------------ the types of this crate

const WHOLE_CASE: &[u8] = b"scans/a b\nb'x\\yff'\n\n''";
const ITS_OUTPUT: &[u8] = b"\x09\0\x01\0scans/a b\x02\0\x02\0x\xff\0\0\x01\0";
const ITS_RECORDS: [Record; 3] = [
    Record::Text("scans/a b"),
    Record::Bytes(b"x\xff"),
    Record::Text(""),
];

fn error(refusal: Refusal, line: Option<usize>, place: usize) -> Error {
    let plain = Error::new(refusal, place);
    line.map_or(plain, |line| plain.in_line(line))
}

#[test]
fn whole_case() {
    let (mut line, mut out) = ([0xaa; j8::LINE_ROOM], [0xbb; 30]);
    let mut lent = LentUpload::new(&mut line, &mut out);
    let mut owned = Upload::new();
    for piece in WHOLE_CASE.chunks(5) {
        lent.feed(piece).unwrap();
        owned.feed(piece).unwrap();
    }
    assert_eq!(owned.state().held, 2);
    assert_eq!(owned.records().count(), 2);
    lent.finish().unwrap();
    owned.finish().unwrap();
    let state = UploadState {
        taken: 22,
        lfs: 3,
        held: 0,
        used: 23,
        ended: true,
        refusal: None,
    };
    assert_eq!((lent.state(), owned.state()), (state, state));
    for (records, output) in [
        (lent.records(), lent.output()),
        (owned.records(), owned.output()),
    ] {
        assert_eq!(output, ITS_OUTPUT);
        assert!(records.clone().eq(ITS_RECORDS));
        let kinds: Vec<u16> = records.clone().map(|r| r.kind()).collect();
        assert_eq!(kinds, [j8::KIND_TEXT, j8::KIND_BYTES, j8::KIND_TEXT]);
        let texts: Vec<Option<&str>> = records.map(|r| r.as_str()).collect();
        assert_eq!(texts, [Some("scans/a b"), None, Some("")]);
    }
    assert_eq!(lent.into_output(), ITS_OUTPUT);
    assert_eq!(owned.into_output(), ITS_OUTPUT);
    assert_eq!(&line[..10], b"''x\\yff'b\xaa");
    assert_eq!(out[23..], [0xbb; 7]);
}

#[test]
fn an_upload_refuses() {
    let ended = error(Refusal::Ended, None, 0);
    let mut upload = Upload::new();
    upload.feed(WHOLE_CASE).unwrap();
    upload.finish().unwrap();
    assert_eq!(upload.feed(b""), Err(ended));
    assert_eq!(upload.finish(), Err(ended));
    assert_eq!(
        ended.to_string(),
        "refusal 18: the upload has ended already"
    );
    assert_eq!(upload.state().refusal, None);

    let no_room = error(Refusal::NoRoom, Some(4), 0);
    let (mut line, mut out) = ([0; j8::LINE_ROOM], [0; 22]);
    let mut upload = LentUpload::new(&mut line, &mut out);
    upload.feed(WHOLE_CASE).unwrap();
    assert_eq!(upload.finish(), Err(no_room));
    assert_eq!(upload.feed(b"x"), Err(no_room));
    assert_eq!(upload.state().refusal, Some(no_room));
    assert!(!upload.state().ended);
    assert_eq!(upload.output(), &ITS_OUTPUT[..19]);
    // A refusal stays, also when there is room again.
    assert_eq!(upload.drain().count(), 2);
    assert_eq!(upload.finish(), Err(no_room));

    let (mut line, mut out) = ([0; j8::LINE_ROOM], []);
    let mut upload = LentUpload::new(&mut line, &mut out);
    let too_long = upload.feed(&[b' '; 1_025]).unwrap_err();
    assert_eq!(
        too_long.to_string(),
        "refusal 2 in line 1 at byte 1024: too long: a line may have 1,024 bytes, a string, JSON8 or TSV8 text 32,768"
    );
    assert_eq!(upload.records().next(), None);
    assert!(format!("{upload:?}").starts_with("LentUpload { state: UploadState { taken: 1024,"));

    // Blank lines need no room.
    let mut upload = LentUpload::new(&mut line, &mut []);
    assert_eq!(upload.feed(b"\n \r\n\n"), Ok(()));
    assert_eq!(upload.finish(), Ok(()));

    let mut upload = LentUpload::new(&mut line[..1_023], &mut []);
    let unfit = error(Refusal::Unfit, None, 0);
    assert_eq!(upload.feed(b"a"), Err(unfit));
    assert_eq!(upload.finish(), Err(unfit));
    assert_eq!(upload.state(), UploadState::default());
}

/// A state may say anything; no call panics.
#[test]
fn states_that_no_upload_had() {
    let (mut line, mut out) = ([b'n'; j8::LINE_ROOM], [0; 8]);
    let unfit = error(Refusal::Unfit, None, 0);
    for state in [
        UploadState {
            used: 9,
            ..UploadState::default()
        },
        UploadState {
            taken: usize::MAX,
            held: usize::MAX,
            used: usize::MAX,
            ..UploadState::default()
        },
    ] {
        let mut upload = LentUpload::resume(state, &mut line, &mut out);
        assert_eq!(upload.output().len(), 8);
        assert_eq!(upload.feed(b"\n"), Err(unfit));
        assert_eq!(upload.finish(), Err(unfit));
        assert_eq!(upload.state(), state);
        assert_eq!(upload.drain().rest(), [0; 8]);
        assert_eq!(upload.state().used, 0);
    }
    let kept = error(Refusal::Misplaced, None, 7);
    let state = UploadState {
        refusal: Some(kept),
        ..UploadState::default()
    };
    let mut upload = LentUpload::resume(state, &mut line, &mut out);
    assert_eq!(upload.feed(b"\n"), Err(kept));
    assert_eq!(upload.into_output(), b"");
}

/// The one text that needs all of the greatest output.
fn longest() -> Vec<u8> {
    let mut text = b"a\n".repeat(j8::UPLOAD_MAX / 2 - 1);
    text.extend(b"ab");
    assert_eq!(text.len(), j8::UPLOAD_MAX);
    text
}

#[test]
fn the_longest_output() {
    let text = longest();
    let mut upload = Upload::default();
    for piece in text.chunks(1_460) {
        upload.feed(piece).unwrap();
    }
    upload.finish().unwrap();
    assert_eq!(upload.state().used, j8::UPLOAD_OUTPUT_MAX);
    assert_eq!(upload.records().count(), j8::UPLOAD_MAX / 2);

    let (mut line, mut out) = ([0; j8::LINE_ROOM], vec![0; j8::UPLOAD_OUTPUT_MAX]);
    let mut upload = LentUpload::new(&mut line, &mut out);
    upload.feed(&text).unwrap();
    upload.finish().unwrap();
    assert_eq!(upload.state().used, j8::UPLOAD_OUTPUT_MAX);
    let mut upload = LentUpload::new(&mut line, &mut out[1..]);
    upload.feed(&text).unwrap();
    let no_room = error(Refusal::NoRoom, Some(j8::UPLOAD_MAX / 2), 0);
    assert_eq!(upload.finish(), Err(no_room));

    let mut upload = Upload::new();
    upload.feed(&text).unwrap();
    assert_eq!(
        upload.feed(b"\n").unwrap_err().to_string(),
        "refusal 17 in line 524288 at byte 2: the backup is longer than 1,048,576 bytes"
    );
}

/// A piece that is far over the limit makes no room that isn't needed.
#[test]
fn a_piece_over_the_limit() {
    let mut text = longest();
    text.resize(64 * j8::UPLOAD_MAX, b'\n');
    let mut upload = Upload::new();
    let over = upload.feed(&text).unwrap_err();
    assert_eq!((over.refusal, over.place), (Refusal::UploadLimit, 2));
    assert!(upload.into_output().capacity() < j8::UPLOAD_OUTPUT_MAX + 2_000);
}

// ---------------------------------------------------------------- drained

#[test]
fn rooms_of_a_feed() {
    assert_eq!(j8::feed_room(0), 1_028);
    assert_eq!(j8::feed_room(1), 1_028);
    assert_eq!(j8::feed_room(2), 1_033);
    assert_eq!(j8::feed_room(1_460), 4_678);
    assert!(std::panic::catch_unwind(|| j8::feed_room(usize::MAX)).is_err());
}

/// The longest upload in packets, with the room for one packet.
#[test]
fn the_longest_upload_drained() {
    let text = longest();
    let (mut line, mut out) = ([0; j8::LINE_ROOM], [0; j8::feed_room(1_460)]);
    let mut lent = LentUpload::new(&mut line, &mut out);
    let (mut owned, mut count) = (Upload::new(), 0);
    for piece in text.chunks(1_460) {
        lent.feed(piece).unwrap();
        owned.feed(piece).unwrap();
        let records = lent.drain();
        assert!(records.clone().eq(owned.drain()));
        count += records.count();
    }
    lent.finish().unwrap();
    owned.finish().unwrap();
    assert!(lent.drain().eq([Record::Text("ab")]));
    assert!(owned.drain().eq([Record::Text("ab")]));
    assert_eq!(count + 1, j8::UPLOAD_MAX / 2);
    assert_eq!(lent.state(), owned.state());
    assert_eq!(owned.state().used, 0);
    // Room for one packet was enough for all.
    assert!(format!("{owned:?}").contains("room: 4678,"), "{owned:?}");
}

// --------------------------------------------------------------- a writer

use std::io::{self, Write};

/// The error of this crate inside one of a writer.
fn inside(error: &io::Error) -> Error {
    assert_eq!(error.kind(), io::ErrorKind::InvalidData);
    *error.get_ref().unwrap().downcast_ref::<Error>().unwrap()
}

#[test]
fn an_upload_is_written_to() {
    let mut upload = Upload::new();
    assert_eq!(io::copy(&mut &WHOLE_CASE[..], &mut upload).unwrap(), 22);
    upload.flush().unwrap();
    assert_eq!(upload.state().held, 2);
    upload.finish().unwrap();
    assert!(upload.records().eq(ITS_RECORDS));
    let ended = upload.write(b"x").unwrap_err();
    assert_eq!(inside(&ended).refusal, Refusal::Ended);
}

/// A refused write takes the bytes before the one at fault, and the next one
/// fails.
#[test]
fn a_write_is_refused() {
    let text = b"scans\n\"x\" y\nmore\n";
    let trailing = error(Refusal::Trailing, Some(2), 3);
    let (mut line, mut out) = ([0; j8::LINE_ROOM], [0; 64]);
    let mut lent = LentUpload::new(&mut line, &mut out);
    let mut owned = Upload::new();
    // The LF of the bad line isn't taken.
    assert_eq!(lent.write(text).unwrap(), 11);
    assert_eq!(owned.write(text).unwrap(), 11);
    for upload in [&mut lent as &mut dyn Write, &mut owned] {
        assert_eq!(inside(&upload.write(&text[11..]).unwrap_err()), trailing);
        assert_eq!(inside(&upload.write(b"").unwrap_err()), trailing);
        upload.flush().unwrap();
    }
    assert_eq!(lent.finish(), Err(trailing));
    assert_eq!(owned.finish(), Err(trailing));

    let mut upload = Upload::new();
    assert_eq!(inside(&upload.write_all(text).unwrap_err()), trailing);
    assert_eq!(upload.records().count(), 1);
    let copied = io::copy(&mut &text[..], &mut Upload::new()).unwrap_err();
    assert_eq!(inside(&copied), trailing);
}

// ---------------------------------------------------------------- records

#[test]
fn lines_are_written() {
    let mut records = Vec::new();
    for name in [b"scans/a b".as_slice(), b"x\xff", b"", &[1; 40]] {
        j8::push_record(&mut records, name);
    }
    let text = j8::write_lines_to_vec(&records).unwrap();
    let controls = "\\u0001".repeat(40);
    let expected = format!("\"scans/a b\"\nb'x\\yff'\n\"\"\n\"{controls}\"\n");
    assert_eq!(text, expected.as_bytes());
    assert!(text.len() <= j8::write_lines_room(records.len()));
    assert_eq!(j8::write_lines_to_vec(b"").unwrap(), b"");

    let mut out = [0xaa; 8];
    let no_room = error(Refusal::NoRoom, None, 0);
    assert_eq!(j8::write_lines(&records, &mut out), Err(no_room));
    let unfit = error(Refusal::Unfit, None, 0);
    assert_eq!(j8::write_lines(&records[..20], &mut out), Err(unfit));
    assert_eq!(
        unfit.to_string(),
        "refusal 1: what was lent for this is unfit"
    );
    assert_eq!(j8::write_lines_to_vec(&[0; 4]), Err(unfit));
    assert_eq!(out, [0xaa; 8]);
}

#[test]
fn records_cut_short() {
    let records = record(1, b"ab");
    for cut in 0..records.len() {
        let mut few = j8::Records::new(&records[..cut]);
        assert_eq!(few.next(), None);
        assert_eq!(few.rest(), &records[..cut]);
        assert_eq!(few.next(), None);
    }
    let mut all = j8::Records::new(&records);
    assert_eq!(all.next(), Some(Record::Text("ab")));
    assert!(all.rest().is_empty());
}

#[test]
fn records_of_another_kind() {
    for (kind, payload) in [
        (0, &b"a"[..]),
        (2, b"a"),
        (1, b"\xff"),
        (3, b""),
        (257, b"a"),
    ] {
        let records = [record(1, b"ab"), record(kind, payload)].concat();
        let mut few = j8::Records::new(&records);
        assert_eq!(few.next(), Some(Record::Text("ab")));
        assert_eq!(few.next(), None);
        assert_eq!(few.rest(), &records[6..]);
    }
}
