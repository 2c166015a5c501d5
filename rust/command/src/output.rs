//! Writes to standard output, to an open descriptor, or to a file that is whole or not there.

use crate::ending::Failure;
use crate::input;
use crate::quoted::path_text;
use crate::streams::Stream;
use crate::target::Target;
use std::fs::{self, File, OpenOptions};
use std::io::{self, ErrorKind, Write};
use std::os::unix::fs::{FileTypeExt, MetadataExt};
use std::os::unix::io::AsRawFd;
use std::path::{Path, PathBuf};
use std::process;

/// The file that is named, or none for standard output.
fn named(out: Option<&Path>) -> Option<&Path> {
    out.filter(|path| path.as_os_str() != "-")
}

/// The output's name in a sentence.
pub fn name(out: Option<&Path>) -> String {
    named(out).map_or_else(|| "standard output".to_string(), path_text)
}

fn target(out: Option<&Path>) -> io::Result<Target> {
    named(out).map_or(Ok(Target::Descriptor(Stream::OUTPUT)), Target::of)
}

/// Whether what is written is seen on a terminal.
pub fn is_terminal(out: Option<&Path>) -> bool {
    match target(out) {
        Ok(Target::Descriptor(stream)) => stream.is_terminal(),
        Ok(Target::File(path)) if is_device(&path) => {
            let opened = OpenOptions::new().write(true).open(path);
            opened.map_or(false, |device| Stream(device.as_raw_fd()).is_terminal())
        }
        _ => false,
    }
}

/// Whether a name is a device of characters, as terminals are. A pipe must not be opened to find out: its reader would see it end.
fn is_device(path: &Path) -> bool {
    fs::metadata(path).map_or(false, |held| held.file_type().is_char_device())
}

/// Asks that the file to be written is not the one that is read: a slip of the hand would replace what was typed.
pub fn apart(input: Option<&Path>, out: Option<&Path>) -> Result<(), Failure> {
    let written = match target(out) {
        Ok(Target::File(path)) => fs::metadata(path).ok(),
        _ => None,
    };
    let read = input::metadata(input).ok().filter(fs::Metadata::is_file);
    match (read, written) {
        (Some(read), Some(written)) if (read.dev(), read.ino()) == (written.dev(), written.ino()) => {
            Err(Failure(format!("{} is the file that is read: name another with -o", name(out))))
        }
        _ => Ok(()),
    }
}

/// Writes the bytes to what is named, or to standard output. A reader that went away is a failure too, and needs no sentence.
pub fn write(bytes: &[u8], out: Option<&Path>) -> Result<(), Failure> {
    let written = target(out).and_then(|target| match target {
        Target::Descriptor(stream) => stream.file().write_all(bytes),
        Target::File(path) => to_file(bytes, &path),
    });
    written.map_err(|error| match error.kind() {
        ErrorKind::BrokenPipe => Failure(String::new()),
        _ => Failure(format!("{} cannot be written: {error}", name(out))),
    })
}

/// A file is replaced, if it may be written; a device or a pipe is written to.
fn to_file(bytes: &[u8], path: &Path) -> io::Result<()> {
    match fs::metadata(path) {
        Ok(held) if held.is_file() => {
            drop(OpenOptions::new().write(true).open(path)?);
            replace(bytes, path, Some(held.permissions()))
        }
        Ok(_) => OpenOptions::new().write(true).open(path)?.write_all(bytes),
        Err(error) if error.kind() == ErrorKind::NotFound => replace(bytes, path, None),
        Err(error) => Err(error),
    }
}

/// Writes beside the file and then takes its name, so that the file is the old one or the new one and never a part.
fn replace(bytes: &[u8], path: &Path, permissions: Option<fs::Permissions>) -> io::Result<()> {
    let (file, beside) = beside(path)?;
    let replaced = fill(file, bytes, permissions).and_then(|()| fs::rename(&beside, path));
    if replaced.is_err() {
        let _ = fs::remove_file(&beside);
    }
    replaced
}

fn fill(mut file: File, bytes: &[u8], permissions: Option<fs::Permissions>) -> io::Result<()> {
    if let Some(permissions) = permissions {
        file.set_permissions(permissions)?;
    }
    file.write_all(bytes)?;
    file.sync_all()
}

/// A new file in the same folder. A name that is taken, by a run that was ended half way, is passed over.
fn beside(path: &Path) -> io::Result<(File, PathBuf)> {
    let mut names = std::iter::once(String::new()).chain((1..u32::MAX).map(|number| format!("-{number}")));
    loop {
        let number = names.next().unwrap_or_default();
        let beside = path.with_file_name(format!(".citronreef-{}{number}.part", process::id()));
        match OpenOptions::new().write(true).create_new(true).open(&beside) {
            Err(error) if error.kind() == ErrorKind::AlreadyExists => {}
            opened => return opened.map(|file| (file, beside)),
        }
    }
}
