//! Reads a file or standard input, up to a number of bytes.

use crate::ending::{say, Failure};
use crate::quoted::path_text;
use crate::streams::Stream;
use std::fs::{self, File, Metadata};
use std::io::{self, ErrorKind, Read};
use std::os::unix::io::AsRawFd;
use std::path::Path;

/// What the bytes are read as.
#[derive(Clone, Copy, PartialEq, Eq)]
pub enum Kind {
    DayFile,
    Text,
}

/// The file that is named, or none for standard input.
fn named(file: Option<&Path>) -> Option<&Path> {
    file.filter(|path| path.as_os_str() != "-")
}

/// The input's name in a sentence.
pub fn name(file: Option<&Path>) -> String {
    named(file).map_or_else(|| "standard input".to_string(), path_text)
}

/// What the system says of the input.
pub fn metadata(file: Option<&Path>) -> io::Result<Metadata> {
    named(file).map_or_else(|| Stream::INPUT.file().metadata(), fs::metadata)
}

/// The first bytes of a file, or of standard input where none is named: all of them, or as many as `most`.
pub fn read(file: Option<&Path>, kind: Kind, most: usize) -> Result<Vec<u8>, Failure> {
    let unread = |error| Failure(format!("{} cannot be read: {error}", name(file)));
    let opened = named(file).map(File::open).transpose().map_err(unread)?;
    let stream = opened.as_ref().map_or(Stream::INPUT, |file| Stream(file.as_raw_fd()));
    if stream.is_terminal() {
        terminal(&name(file), kind)?;
    }
    first(&*stream.file(), most).map_err(unread)
}

/// The same of an input that has to be read whole: a longer one is a failure.
pub fn read_whole(file: Option<&Path>, kind: Kind, most: usize) -> Result<Vec<u8>, Failure> {
    let bytes = read(file, kind, most + 1)?;
    match bytes.len() > most {
        true => Err(Failure(format!("{} is longer than {} KiB, and is not read", name(file), most / 1024))),
        false => Ok(bytes),
    }
}

/// Nobody types a day file, so a terminal is taken for a file that was forgotten. A text may be typed.
fn terminal(name: &str, kind: Kind) -> Result<(), Failure> {
    match kind {
        Kind::DayFile => Err(Failure(format!("{name} is a terminal: name a FILE, or send a day file through a pipe"))),
        Kind::Text => {
            say("reading a text from the terminal: end it with Ctrl-D on a line of its own");
            Ok(())
        }
    }
}

fn first(mut source: impl Read, most: usize) -> io::Result<Vec<u8>> {
    let mut bytes = vec![0; most];
    let mut length = 0;
    while length < most {
        match source.read(&mut bytes[length..]) {
            Ok(0) => break,
            Ok(more) => length += more,
            Err(error) if error.kind() == ErrorKind::Interrupted => {}
            Err(error) => return Err(error),
        }
    }
    bytes.truncate(length);
    Ok(bytes)
}
