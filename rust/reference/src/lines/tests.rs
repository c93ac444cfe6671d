use super::*;
use crate::tests::FAULTS;

/// Reads a line with plenty of room, exact room and one byte less, and sees
/// that nothing else of the room was touched. Gives the record, empty if the
/// line is ignored.
fn reading(line: &[u8]) -> Result<Vec<u8>, (u32, usize)> {
    let mut out = vec![0xaa; line.len() + 12];
    let answer = read_line(line, &mut out);
    let length = *answer.as_ref().unwrap_or(&0);
    assert!(out[length..].iter().all(|&b| b == 0xaa));
    let mut exact = vec![0xaa; length];
    assert_eq!(read_line(line, &mut exact), answer);
    assert_eq!(exact, out[..length]);
    for room in 0..length {
        let mut short = vec![0xaa; room];
        assert_eq!(read_line(line, &mut short), refuse(NO_ROOM, 0));
        assert!(short.iter().all(|&b| b == 0xaa));
    }
    out.truncate(length);
    answer.map(|_| out).map_err(|r| (r.number, r.place))
}

fn record(kind: u16, payload: &[u8]) -> Vec<u8> {
    let length = u16::try_from(payload.len()).unwrap();
    [&length.to_le_bytes(), &kind.to_le_bytes(), payload].concat()
}

fn ignores(line: &[u8]) {
    assert_eq!(reading(line), Ok(Vec::new()), "{}", line.escape_ascii());
}

fn gives(line: &[u8], kind: u16, payload: &[u8]) {
    let record = record(kind, payload);
    assert_eq!(reading(line), Ok(record), "{}", line.escape_ascii());
}

fn refuses(line: &[u8], number: u32, place: usize) {
    assert_eq!(
        reading(line),
        Err((number, place)),
        "{}",
        line.escape_ascii()
    );
}

#[test]
fn ignored_lines() {
    ignores(b"");
    ignores(b" ");
    ignores(b"\r");
    ignores(b" \t\r \t\r");
}

#[test]
fn bare_lines() {
    gives(b"scans/a b", TEXT, b"scans/a b");
    gives(b" \tscans\r", TEXT, b"scans");
    gives(b"a\tb", TEXT, b"a\tb");
    gives(b"u", TEXT, b"u");
    gives(b"b", TEXT, b"b");
    gives(b"u\"a\"", TEXT, b"u\"a\"");
    gives(b"# no comment", TEXT, b"# no comment");
    gives(b"\\yff \\", TEXT, b"\\yff \\");
    gives(b"it's \"so\"", TEXT, b"it's \"so\"");
    gives(b"\x7f", TEXT, b"\x7f");
    gives(b"\xef\xbb\xbfa", TEXT, b"\xef\xbb\xbfa");
    // Other blanks are not stripped.
    gives(
        "\u{a0}a\u{2003}".as_bytes(),
        TEXT,
        "\u{a0}a\u{2003}".as_bytes(),
    );
    refuses(b"\x0ba", 6, 0);
    refuses(b" a\rb", 6, 2);
    refuses(b"a\x00", 6, 1);
    refuses(b"  a\xff", 23, 3);
    refuses(b"\x01\xff", 6, 0);
    refuses(b"\xff\x01", 23, 0);
    refuses(b"a\xe2\x82\x01", 24, 1);
    refuses(b"a\xe2\x82", 24, 1);
    // Only a state made by hand can hold an LF.
    refuses(b"a\nb", 6, 1);
}

#[test]
fn quoted_lines() {
    gives(b"''", TEXT, b"");
    gives(b" \"a\"\r", TEXT, b"a");
    gives(br"b'x\yff'", BYTES, b"x\xff");
    gives(br"b'\yc3\ya9'", TEXT, "é".as_bytes());
    gives(b"b'a'", TEXT, b"a");
    gives(br#""\ud83e""#, BYTES, b"\xed\xa0\xbe");
    gives(br"u'\u{e9}'", TEXT, "é".as_bytes());
    refuses(b" \"a ", 4, 3);
    refuses(b"\"", 4, 1);
    refuses(b"\"a\" # x", 11, 3);
    refuses(b" 'a'x ", 11, 4);
    refuses(b"\t\"a\tb\"", 6, 3);
    refuses(b"\"a\rb\"", 6, 2);
    refuses(b" \"\xff\"", 23, 2);
    refuses(b" \"\\q\"", 7, 2);
    refuses(br" u'\u{dc00}'", 8, 3);
    refuses(br" u'\u{110000}'", 9, 3);
    refuses(br" '\yff'", 10, 2);
    refuses(br#" "\ "#, 7, 2);
}

/// Blanks end a line before its bytes are looked at, and a control, a quote or another
/// character ends what a character has.
#[test]
fn ill_formed_characters() {
    for (bytes, number) in FAULTS {
        for behind in [
            "", " ", "\t", "\r", " \t\r", "\"", "'", "\\", "\n", "\x01", "a", "é", " a",
        ] {
            let behind = behind.as_bytes();
            refuses(&[bytes, behind].concat(), number, 0);
            refuses(&[b" \tab", bytes, behind].concat(), number, 4);
            refuses(&[b"\"ab", bytes, behind].concat(), number, 3);
            refuses(&[b"\r'", bytes, behind].concat(), number, 2);
            refuses(&[b" u'\xc3\xa9", bytes, behind].concat(), number, 5);
            refuses(&[b"b'\\yff", bytes, behind].concat(), number, 6);
        }
        refuses(&[b"a\x01", bytes].concat(), 6, 1);
        refuses(&[b"\"a\x01", bytes].concat(), 6, 2);
        refuses(&[b"\"a\" ", bytes].concat(), 11, 3);
    }
}

/// Two fit buffers with an upload that begins fresh.
struct Trial {
    state: Upload,
    line: Vec<u8>,
    out: Vec<u8>,
}

impl Trial {
    fn new(room: usize) -> Trial {
        Trial {
            state: Upload::fresh(),
            line: vec![0xaa; LINE_MAX],
            out: vec![0xbb; room],
        }
    }

    fn call(&mut self, call: Call) -> (u32, usize, usize) {
        let (state, answer) = match call {
            Call::Feed(piece) => self.state.feed(piece, &mut self.line, &mut self.out),
            Call::Finish => self.state.finish(&self.line, &mut self.out),
        };
        self.state = state;
        (answer.number, answer.line, answer.place)
    }

    fn feed(&mut self, piece: &[u8]) -> (u32, usize, usize) {
        self.call(Call::Feed(piece))
    }

    fn finish(&mut self) -> (u32, usize, usize) {
        self.call(Call::Finish)
    }
}

const WHOLE_CASE: &[u8] = b"scans/a b\nb'x\\yff'\n\n''";

#[test]
fn whole_case() {
    let output: &[u8] = b"\x09\x00\x01\x00scans/a b\x02\x00\x02\x00x\xff\x00\x00\x01\x00";
    assert_eq!((WHOLE_CASE.len(), output.len()), (22, 23));
    let mut trial = Trial::new(23);
    assert_eq!(trial.feed(WHOLE_CASE), (0, 0, 0));
    assert_eq!(trial.finish(), (0, 0, 0));
    assert_eq!(trial.out, output);
    let state = Upload {
        taken: 22,
        lfs: 3,
        used: 23,
        ended: true,
        ..Upload::fresh()
    };
    assert_eq!(trial.state, state);
    assert_eq!(&trial.line[..10], b"''x\\yff'b\xaa");

    // One byte short: the last line finds no room.
    let mut trial = Trial::new(22);
    assert_eq!(trial.feed(WHOLE_CASE), (0, 0, 0));
    assert_eq!(trial.finish(), (12, 4, 0));
    assert_eq!((trial.state.used, trial.state.ended), (19, false));
    assert_eq!(&trial.out[19..], [0xbb; 3]);
}

/// Runs the calls and compares with the definition after each of them.
fn as_defined(calls: &[Call], room: usize) -> Trial {
    let mut trial = Trial::new(room);
    let (line, out) = (trial.line.clone(), trial.out.clone());
    for (at, &call) in calls.iter().enumerate() {
        let (number, line_number, place) = trial.call(call);
        let (text, finished) = joined(&calls[..=at]);
        let (state, line_after, out_after) = definition(&text, finished, &line, &out);
        assert_eq!(trial.state, state, "call {at}");
        assert!(trial.line == line_after, "call {at}: line buffer");
        assert!(trial.out == out_after, "call {at}: output");
        let (_, before) = joined(&calls[..at]);
        let answer = Answer {
            number,
            line: line_number,
            place,
        };
        assert_eq!(answer, definition_answer(&state, before), "call {at}");
    }
    trial
}

#[test]
fn pieces_do_not_matter() {
    for first in 0..=22 {
        for second in first..=22 {
            let mut calls = vec![
                Call::Feed(&WHOLE_CASE[..first]),
                Call::Feed(&WHOLE_CASE[first..second]),
                Call::Feed(&WHOLE_CASE[second..]),
                Call::Finish,
                Call::Finish,
                Call::Feed(b"x"),
            ];
            for room in [0, 12, 13, 18, 19, 22, 23, 24] {
                as_defined(&calls, room);
            }
            calls.insert(1, Call::Finish);
            as_defined(&calls, 23);
        }
    }
}

/// The line is read when it is whole: a character that was cut apart is one again.
#[test]
fn pieces_do_not_matter_to_a_character() {
    let whole = "\u{80}\u{ffff}\u{10ffff}".as_bytes();
    for (bytes, number) in FAULTS {
        for (before, after) in [("", ""), ("\"", "\""), ("b'", "'"), (" ", "\r")] {
            for end in ["\n", "\nx\n", ""] {
                let good = format!("a\n{before}").into_bytes();
                let text = [&good, whole, bytes, after.as_bytes(), end.as_bytes()].concat();
                let place = before.len() + whole.len();
                for cut in 0..=text.len() {
                    let calls = [
                        Call::Feed(&text[..cut]),
                        Call::Feed(&text[cut..]),
                        Call::Finish,
                    ];
                    let trial = as_defined(&calls, 99);
                    let state = trial.state;
                    assert_eq!((state.refusal, state.line, state.place), (number, 2, place));
                    assert_eq!(state.used, 5);
                }
            }
        }
    }
}

#[test]
fn refusals_stay() {
    let mut trial = Trial::new(50);
    assert_eq!(trial.feed(b"ok\n\"x\" y\nok\n"), (11, 2, 3));
    assert_eq!((trial.state.taken, trial.state.held), (8, 5));
    let (state, out) = (trial.state, trial.out.clone());
    assert_eq!(trial.feed(b"\n"), (11, 2, 3));
    assert_eq!(trial.feed(b""), (11, 2, 3));
    assert_eq!(trial.finish(), (11, 2, 3));
    assert_eq!((trial.state, trial.out), (state, out));
}

#[test]
fn a_refused_finish_does_not_end() {
    let mut trial = Trial::new(50);
    assert_eq!(trial.feed(b"\"a"), (0, 0, 0));
    assert_eq!(trial.finish(), (4, 1, 2));
    assert!(!trial.state.ended);
    assert_eq!(trial.feed(b"\""), (4, 1, 2));
    assert_eq!(trial.finish(), (4, 1, 2));
}

#[test]
fn the_end_stays() {
    let mut trial = Trial::new(0);
    assert_eq!(trial.finish(), (0, 0, 0));
    assert_eq!(trial.feed(b""), (18, 0, 0));
    assert_eq!(trial.feed(b"x"), (18, 0, 0));
    assert_eq!(trial.finish(), (18, 0, 0));
    assert_eq!(
        trial.state,
        Upload {
            ended: true,
            ..Upload::fresh()
        }
    );
}

#[test]
fn the_line_limit() {
    let line = [b'a'; LINE_MAX];
    let mut trial = as_defined(
        &[Call::Feed(&line), Call::Feed(b"\n"), Call::Feed(b"x")],
        1100,
    );
    assert_eq!(trial.finish(), (0, 0, 0));
    assert_eq!(trial.state.used, 4 + LINE_MAX + 5);

    // Blanks and CR count, the LF doesn't.
    let mut trial = Trial::new(1100);
    assert_eq!(trial.feed(&line), (0, 0, 0));
    assert_eq!(trial.feed(b"\r\n"), (2, 1, 1024));
    assert_eq!((trial.state.taken, trial.state.held), (1024, 1024));
    as_defined(&[Call::Feed(&line), Call::Feed(b"\r\n")], 1100);

    // Before any fault in the line held.
    let faulty = [0xff; LINE_MAX + 1];
    let trial = as_defined(&[Call::Feed(&faulty)], 1100);
    assert_eq!((trial.state.refusal, trial.state.place), (2, 1024));
}

#[test]
fn the_upload_limit() {
    let mut text = vec![b'\n'; UPLOAD_MAX - 6];
    text.extend(b"\"bcdef");
    let full = [Call::Feed(text.as_slice())];
    for last in [b"g", b"\n"] {
        // Before the line's fault, at an LF too.
        let trial = as_defined(&[full[0], Call::Feed(last)], 50);
        let place = (trial.state.refusal, trial.state.line, trial.state.place);
        assert_eq!(place, (17, UPLOAD_MAX - 5, 6));
        assert_eq!(trial.state.taken, UPLOAD_MAX);
    }
    let trial = as_defined(&[full[0], Call::Finish], 50);
    assert_eq!(trial.state.refusal, 4);

    // Both limits at one byte.
    let mut text = vec![b'\n'; UPLOAD_MAX - LINE_MAX];
    text.extend([b'a'; LINE_MAX]);
    let trial = as_defined(&[Call::Feed(&text), Call::Feed(b"a")], 2000);
    let place = (trial.state.refusal, trial.state.line, trial.state.place);
    assert_eq!(place, (17, UPLOAD_MAX - LINE_MAX + 1, LINE_MAX));
    let trial = as_defined(&[Call::Feed(&text), Call::Finish], 2000);
    assert!(trial.state.ended);

    // A line that is too long one byte earlier.
    text.insert(UPLOAD_MAX - LINE_MAX, b'a');
    text.remove(0);
    let trial = as_defined(&[Call::Feed(&text), Call::Feed(b"a")], 2000);
    let place = (trial.state.refusal, trial.state.line, trial.state.place);
    assert_eq!(place, (2, UPLOAD_MAX - LINE_MAX, LINE_MAX));
    assert_eq!(trial.state.taken, UPLOAD_MAX - 1);
}

#[test]
fn the_longest_output() {
    let mut text = b"a\n".repeat(UPLOAD_MAX / 2 - 1);
    text.extend(b"ab");
    let room = 2_621_441;
    let trial = as_defined(&[Call::Feed(&text), Call::Finish], room);
    assert_eq!((trial.state.used, trial.state.ended), (room, true));
    let trial = as_defined(&[Call::Feed(&text), Call::Finish], room - 1);
    assert_eq!(trial.state.refusal, 12);
    // With its LF the last line has one byte less.
    let text = b"a\n".repeat(UPLOAD_MAX / 2);
    let trial = as_defined(&[Call::Feed(&text), Call::Finish], room - 1);
    assert_eq!((trial.state.used, trial.state.ended), (room - 1, true));
}

#[test]
fn ignored_lines_need_no_room() {
    let trial = as_defined(&[Call::Feed(b" \r\n\n\t"), Call::Finish], 0);
    assert_eq!((trial.state.ended, trial.state.lfs), (true, 2));
    let trial = as_defined(&[Call::Feed(b"''\n")], 3);
    assert_eq!(trial.state.refusal, 12);
    // A fault comes before the room.
    let trial = as_defined(&[Call::Feed(b"''x\n")], 0);
    assert_eq!(trial.state.refusal, 11);
}

/// Both calls answer so and change nothing.
fn answers(state: Upload, line_room: usize, room: usize, answer: (u32, usize, usize)) {
    let (mut line, mut out) = (vec![b'a'; line_room], vec![0xbb; room]);
    let (number, line_number, place) = answer;
    let answer = Answer {
        number,
        line: line_number,
        place,
    };
    let fed = state.feed(b"x\n", &mut line, &mut out);
    assert_eq!(fed, (state, answer));
    assert_eq!(state.finish(&line, &mut out), (state, answer));
    assert!(line.iter().all(|&b| b == b'a') && out.iter().all(|&b| b == 0xbb));
}

#[test]
fn unfit_states_and_buffers() {
    let fresh = Upload::fresh();
    answers(fresh, 0, 10, (1, 0, 0));
    answers(fresh, LINE_MAX - 1, 10, (1, 0, 0));
    let kept = Upload {
        refusal: 99,
        line: 7,
        place: 8,
        ended: true,
        ..fresh
    };
    let unfit = [
        Upload {
            held: LINE_MAX + 1,
            ..kept
        },
        Upload {
            taken: UPLOAD_MAX + 1,
            ..kept
        },
        Upload {
            taken: 3,
            lfs: 4,
            ..kept
        },
        Upload { used: 11, ..kept },
        Upload {
            used: usize::MAX,
            ..kept
        },
    ];
    for state in unfit {
        answers(state, LINE_MAX, 10, (1, 0, 0));
    }
    // 5 isn't given any more, and is repeated as any other.
    for refusal in [1, 5, 18, 23, 27, 99, u32::MAX] {
        answers(Upload { refusal, ..kept }, LINE_MAX, 10, (refusal, 7, 8));
    }
    let ended = Upload { refusal: 0, ..kept };
    answers(ended, LINE_MAX, 10, (18, 0, 0));
}

#[test]
fn states_made_by_hand() {
    let (mut line, mut out) = (vec![b'a'; LINE_MAX + 6], vec![0xbb; 2000]);
    // Held over taken, and a line and place without a refusal, are fit.
    let state = Upload {
        held: 3,
        line: 5,
        place: 6,
        ..Upload::fresh()
    };
    let (after, answer) = state.feed(b"b", &mut line, &mut out);
    assert_eq!(answer, Answer::default());
    let expected = Upload {
        taken: 1,
        held: 4,
        ..state
    };
    assert_eq!(after, expected);
    assert_eq!(&line[..5], b"aaaba");
    let (after, answer) = after.finish(&line, &mut out);
    assert_eq!(answer, Answer::default());
    assert_eq!((after.held, after.used, after.ended), (0, 8, true));
    assert_eq!((after.line, after.place), (5, 6));
    assert_eq!(&out[..9], b"\x04\x00\x01\x00aaab\xbb");
    // The line is what is held: the rest of a character behind it isn't read.
    line[..3].copy_from_slice(b"\xe2\x82\xac");
    let state = Upload {
        held: 2,
        ..Upload::fresh()
    };
    let (after, _) = state.finish(&line, &mut out);
    assert_eq!((after.refusal, after.line, after.place), (24, 1, 0));
}

fn writing(records: &[u8]) -> Result<Vec<u8>, u32> {
    let mut out = vec![0xaa; 6 * records.len() + 8];
    let answer = write_lines(records, &mut out);
    let length = *answer.as_ref().unwrap_or(&0);
    assert!(out[length..].iter().all(|&b| b == 0xaa));
    let mut exact = vec![0; length];
    assert_eq!(write_lines(records, &mut exact), answer);
    assert_eq!(exact, out[..length]);
    if length > 0 {
        let mut short = vec![0xaa; length - 1];
        assert_eq!(write_lines(records, &mut short), refuse(NO_ROOM, 0));
        assert!(short.iter().all(|&b| b == 0xaa));
    }
    out.truncate(length);
    match answer {
        Ok(_) => Ok(out),
        Err(refusal) => {
            assert_eq!(refusal.place, 0);
            Err(refusal.number)
        }
    }
}

#[test]
fn written_lines() {
    assert_eq!(writing(b""), Ok(Vec::new()));
    assert_eq!(writing(&record(TEXT, b"")), Ok(b"\"\"\n".to_vec()));
    let records = [
        record(TEXT, b"scans/a b"),
        record(BYTES, b"x\xff"),
        record(TEXT, b"\n"),
    ]
    .concat();
    assert_eq!(
        writing(&records),
        Ok(b"\"scans/a b\"\nb'x\\yff'\n\"\\n\"\n".to_vec())
    );
    // However long.
    let long = writing(&record(TEXT, &[b'a'; 65_535])).unwrap();
    assert_eq!(long.len(), 65_535 + 3);
}

#[test]
fn records_that_are_wrong() {
    let good = record(TEXT, b"ab");
    for cut in 1..good.len() {
        assert_eq!(writing(&good[..cut]), Err(1));
        assert_eq!(writing(&[&good, &good[..cut]].concat()), Err(1));
    }
    for kind in [0, 2, 3, 256, 257, 513] {
        assert_eq!(writing(&record(kind, b"ab")), Err(1));
    }
    for kind in [0, 1, 3, 256, 258] {
        assert_eq!(writing(&record(kind, b"\xff")), Err(1));
    }
    assert_eq!(writing(&record(BYTES, b"")), Err(1));
    // All records are judged before the room.
    let late = [good, record(TEXT, b"\xff")].concat();
    assert_eq!(write_lines(&late, &mut []), refuse(UNFIT, 0));
}

#[test]
fn written_lines_come_back() {
    let mut records = Vec::new();
    for first in 0..=255 {
        for second in [b'a', b'\'', 0x80, 0xbf, first] {
            let payload = [first, second];
            records.extend(record(kind_of(&payload), &payload));
        }
    }
    let text = writing(&records).unwrap();
    let mut trial = Trial::new(records.len());
    for piece in text.chunks(7) {
        assert_eq!(trial.feed(piece), (0, 0, 0));
    }
    assert_eq!(trial.finish(), (0, 0, 0));
    assert!(trial.out == records);
}
