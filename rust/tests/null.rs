//! Null pointers, which the C interface takes for parts of length 0. A slice has
//! none, so these tests alone call the C functions by themselves.

use j8::raw::*;
use std::ptr::{null, null_mut};

#[test]
fn strings() {
    let mut out = [0; 2];
    // SAFETY: null stands only where the length is 0.
    unsafe {
        assert_eq!(j8_string_read(null(), 0, null_mut(), 0).number, 3);
        assert_eq!(j8_string_read(b"''".as_ptr(), 2, null_mut(), 0).number, 0);
        assert_eq!(j8_string_write(null(), 0, null_mut(), 0).number, 12);
        assert_eq!(j8_string_write(null(), 0, out.as_mut_ptr(), 2).length, 2);
    }
    assert_eq!(&out, b"\"\"");
}

#[test]
fn lines() {
    let mut line = [0xaa; 1024];
    let lent = line.as_mut_ptr();
    // SAFETY: null stands only where the length is 0.
    unsafe {
        let fresh = j8_upload_fresh();
        assert_eq!(fresh, j8::UploadState::default().into());
        // No line buffer is a short one.
        let fed = j8_upload_feed(fresh, null(), 0, null_mut(), 0, null_mut(), 0);
        assert_eq!((fed.answer.number, fed.upload), (1, fresh));
        let fed = j8_upload_finish(fresh, null(), 0, null_mut(), 0);
        assert_eq!((fed.answer.number, fed.upload), (1, fresh));
        let fed = j8_upload_feed(fresh, null(), 0, lent, 1024, null_mut(), 0);
        assert_eq!((fed.answer.number, fed.upload), (0, fresh));
        let fed = j8_upload_feed(fresh, b"a".as_ptr(), 1, lent, 1024, null_mut(), 0);
        assert_eq!((fed.answer.number, fed.upload.held), (0, 1));
        let fed = j8_upload_finish(fed.upload, lent, 1024, null_mut(), 0);
        assert_eq!((fed.answer.number, fed.answer.line), (12, 1));
        let fed = j8_upload_finish(fresh, lent, 1024, null_mut(), 0);
        assert_eq!((fed.answer.number, fed.upload.ended), (0, 1));
        let written = j8_lines_write(null(), 0, null_mut(), 0);
        assert_eq!((written.number, written.length), (0, 0));
        let written = j8_lines_write([0, 0, 1, 0].as_ptr(), 4, null_mut(), 0);
        assert_eq!(written.number, 12);
    }
    assert_eq!(&line[..2], b"a\xaa");
}

#[test]
fn json8() {
    let refused = |number| j8_nodes {
        number,
        place: 0,
        nodes: 0,
        stored: 0,
    };
    let mut table = [0; 4];
    // SAFETY: null stands only where the length is 0.
    unsafe {
        let read = j8_json8_read(null(), 0, null_mut(), 0, null_mut(), 0);
        assert_eq!(read, refused(4));
        let read = j8_json8_read(b"''".as_ptr(), 2, null_mut(), 0, null_mut(), 0);
        assert_eq!(read, refused(12));
        let read = j8_json8_read(b"''".as_ptr(), 2, table.as_mut_ptr(), 4, null_mut(), 0);
        assert_eq!((read.number, read.nodes, read.stored), (0, 1, 0));
        assert_eq!(table, [5, 1, 1, 0]);
        table[2] = 0;
        let shown = j8_json8_show(table.as_ptr(), 4, null(), 0, null(), 0, 0);
        assert_eq!((shown.number, shown.length), (0, 0));
        let shown = j8_json8_show(null(), 0, null(), 0, null(), 0, 0);
        assert_eq!((shown.number, shown.stored), (1, 0));
        assert_eq!((shown.place, shown.length), (0, 0));
    }
}

#[test]
fn json8_written() {
    let table = [6, 1, 0, 0];
    let mut out = [0xaa; 3];
    // SAFETY: null stands only where the length is 0.
    unsafe {
        let unfit = j8_json8_write(null(), 0, null(), 0, null(), 0, null_mut(), 0);
        assert_eq!(unfit.number, 1);
        let short = j8_json8_write(table.as_ptr(), 4, null(), 0, null(), 0, null_mut(), 0);
        assert_eq!(short.number, 12);
        let put = j8_json8_write(table.as_ptr(), 4, null(), 0, null(), 0, out.as_mut_ptr(), 3);
        assert_eq!((put.number, put.length), (0, 2));
    }
    assert_eq!(&out, b"\"\"\xaa");
}

#[test]
fn tsv8() {
    let refused = |number| j8_sheet {
        number,
        place: 0,
        columns: 0,
        cells: 0,
        stored: 0,
    };
    let (mut names, mut types, mut cells) = ([7; 3], [7; 1], [7; 3]);
    let text = b"!tsv8\ta\n\tx";
    // SAFETY: null stands only where the length is 0.
    unsafe {
        let read = j8_tsv8_read(
            null(),
            0,
            null_mut(),
            0,
            null_mut(),
            0,
            null_mut(),
            0,
            null_mut(),
            0,
        );
        assert_eq!(read, refused(19));
        let read = j8_tsv8_read(
            text.as_ptr(),
            text.len(),
            names.as_mut_ptr(),
            3,
            types.as_mut_ptr(),
            1,
            null_mut(),
            0,
            null_mut(),
            0,
        );
        assert_eq!(read, refused(12));
        assert_eq!((names, types), ([7; 3], [7; 1]));
        // No cells need no room.
        let read = j8_tsv8_read(
            text.as_ptr(),
            7,
            names.as_mut_ptr(),
            3,
            types.as_mut_ptr(),
            1,
            null_mut(),
            0,
            null_mut(),
            0,
        );
        assert_eq!((read.number, read.columns, read.cells), (0, 1, 0));
        let read = j8_tsv8_read(
            text.as_ptr(),
            text.len(),
            names.as_mut_ptr(),
            3,
            types.as_mut_ptr(),
            1,
            cells.as_mut_ptr(),
            3,
            null_mut(),
            0,
        );
        assert_eq!((read.number, read.cells, read.stored), (0, 1, 0));
    }
    assert_eq!((names, types, cells), ([5, 6, 1], [4], [5, 9, 1]));
}
