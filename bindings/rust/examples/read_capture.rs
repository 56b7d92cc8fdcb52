//! Writes a line for each frame of a capture: what a collector does with a link.
//!
//!     cargo run --offline --example read_capture -- BOOK CAPTURE...
//!
//! Several captures are the connections of one link, in order: between one and the next bytes were lost, and that is told to the
//! stream, so that no line is made of the end of one and the start of the other.

use kirayotep::{Book, Refusal, Stream};
use std::env;
use std::error::Error;
use std::ffi::OsString;
use std::fs;
use std::io::{self, Write};
use std::process::ExitCode;

/// A link gives its bytes in pieces; with all frames decoded after each, pieces of this size find room in a store of 4,096 bytes,
/// unless one message fills it.
const PIECE: usize = 1024;

fn main() -> ExitCode {
    let words: Vec<_> = env::args_os().skip(1).collect();
    let (book, captures) = match words.split_first() {
        Some(split) => split,
        None => {
            eprintln!("usage: read_capture BOOK CAPTURE...");
            return ExitCode::from(2);
        }
    };
    match read_files(book, captures) {
        Ok(()) => ExitCode::SUCCESS,
        Err(error) => {
            eprintln!("read_capture: {}", error);
            ExitCode::FAILURE
        }
    }
}

fn read_files(book: &OsString, captures: &[OsString]) -> Result<(), Box<dyn Error>> {
    let book = Book::new(fs::read(book)?)?;
    let connections = captures
        .iter()
        .map(fs::read)
        .collect::<io::Result<Vec<_>>>()?;
    write_lines(&book, &connections, &mut io::stdout().lock())?;
    Ok(())
}

/// The lines of a link's connections, in order.
pub fn write_lines(book: &Book, connections: &[Vec<u8>], out: &mut impl Write) -> io::Result<()> {
    let mut stream = Stream::new(book);
    for (i, connection) in connections.iter().enumerate() {
        if i > 0 {
            stream.gap();
        }
        for piece in connection.chunks(PIECE) {
            if let Err(refusal) = stream.received(piece) {
                // all frames were decoded, so what fills the store is one unfinished message: it is given up
                write_refusal(refusal, out)?;
                stream.gap();
                if let Err(refusal) = stream.received(piece) {
                    write_refusal(refusal, out)?;
                }
            }
            write_frames(&mut stream, out)?;
        }
    }
    Ok(())
}

fn write_frames(stream: &mut Stream, out: &mut impl Write) -> io::Result<()> {
    loop {
        match stream.decode() {
            Ok(Some(frame)) => writeln!(out, "{}", frame)?,
            Ok(None) => return Ok(()),
            Err(refusal) => write_refusal(refusal, out)?,
        }
    }
}

fn write_refusal(refusal: Refusal, out: &mut impl Write) -> io::Result<()> {
    writeln!(out, "refused={}", refusal.number())
}
