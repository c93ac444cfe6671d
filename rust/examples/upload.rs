//! A settings page takes a backup of scan folders: J8 Lines, one folder a line, in
//! pieces as the network brings them. It hands each folder on when its line ends,
//! and answers the sender.
//!
//! ```sh
//! cargo run --offline --example upload 1460 < ../examples/c/folders.j8l
//! ```

use std::io::{self, Read, Write};

/// What the page does with a folder; here it prints it as a J8 string, which stands
/// on one line whatever its bytes are.
fn take_folder(number: usize, folder: j8::Record, out: &mut impl Write) -> io::Result<()> {
    let kind = match folder {
        j8::Record::Text(_) => "text",
        j8::Record::Bytes(_) => "bytes",
    };
    write!(out, "folder {number}, {kind}: ")?;
    out.write_all(&j8::write_to_vec(folder.as_bytes()))?;
    writeln!(out)
}

/// Takes an upload in pieces of at most so many bytes, and answers whether all of
/// it was good.
pub fn take_upload(mut sender: impl Read, size: usize, out: &mut impl Write) -> io::Result<bool> {
    let mut upload = j8::Upload::new();
    let mut piece = vec![0; size];
    let mut folders = 0;
    let answer = loop {
        let got = sender.read(&mut piece)?;
        // A finish reads the last line if it has no LF.
        let answer = match got {
            0 => upload.finish(),
            _ => upload.feed(&piece[..got]),
        };
        // Of a refused piece the good lines before the bad one are handed on too.
        for folder in upload.drain() {
            folders += 1;
            take_folder(folders, folder, out)?;
        }
        if got == 0 || answer.is_err() {
            break answer;
        }
    };
    match answer {
        Ok(()) => writeln!(out, "200 folders restored: {folders}")?,
        // The error says in which line, and where in it.
        Err(error) => writeln!(out, "400 {error}; folders before it: {folders}")?,
    }
    Ok(answer.is_ok())
}

fn main() -> io::Result<()> {
    let size = std::env::args().nth(1).and_then(|word| word.parse().ok());
    let Some(size) = size.filter(|&size| size > 0) else {
        eprintln!("usage: upload BYTES < BACKUP");
        std::process::exit(2);
    };
    let good = take_upload(io::stdin().lock(), size, &mut io::stdout().lock())?;
    std::process::exit(i32::from(!good));
}
