//! What a name given with `-o` stands for: an open descriptor of the process, or the file behind all links.

use crate::streams::Stream;
use std::ffi::OsStr;
use std::fs;
use std::io;
use std::os::unix::ffi::OsStrExt;
use std::path::{Path, PathBuf};

#[derive(Debug, PartialEq, Eq)]
pub enum Target {
    Descriptor(Stream),
    File(PathBuf),
}

/// The folders in which the system names the descriptors of the process itself.
const DESCRIPTORS: [&str; 3] = ["/dev/fd", "/proc/self/fd", "/proc/thread-self/fd"];

/// More links than this, one after the other, are a ring.
const MOST_LINKS: usize = 40;

impl Target {
    /// Follows the links of a name up to a descriptor or a file. The file need not be there.
    pub fn of(name: &Path) -> io::Result<Target> {
        let mut path = name.to_path_buf();
        for _ in 0..MOST_LINKS {
            if let Some(stream) = standard(&path).map_or_else(|| descriptor(&path), |stream| Ok(Some(stream)))? {
                return Ok(Target::Descriptor(stream));
            }
            path = match fs::read_link(&path) {
                Ok(next) => path.parent().unwrap_or_else(|| Path::new("")).join(next),
                Err(_) => return Ok(Target::File(path)),
            };
        }
        Err(other("too many links"))
    }
}

fn other(says: &str) -> io::Error {
    io::Error::new(io::ErrorKind::Other, says)
}

/// The streams that have names of their own.
fn standard(path: &Path) -> Option<Stream> {
    match path.as_os_str().as_bytes() {
        b"/dev/stdin" => Some(Stream::INPUT),
        b"/dev/stdout" => Some(Stream::OUTPUT),
        b"/dev/stderr" => Some(Stream(2)),
        _ => None,
    }
}

/// The descriptor that a number in one of the system's folders means. One of another process cannot be had: the file behind it could
/// only be replaced under the hands of that process.
fn descriptor(path: &Path) -> io::Result<Option<Stream>> {
    let number = path.file_name().and_then(OsStr::to_str).and_then(|name| name.parse().ok());
    let number = number.filter(|&number: &i32| number >= 0);
    let (number, folder) = match (number, path.parent().and_then(|folder| fs::canonicalize(folder).ok())) {
        (Some(number), Some(folder)) => (number, folder),
        _ => return Ok(None),
    };
    let is_own = |own: &str| fs::canonicalize(own).map_or(false, |own| own == folder);
    if DESCRIPTORS.into_iter().any(is_own) {
        return Ok(Some(Stream(number)));
    }
    match folder.starts_with("/proc") && folder.ends_with("fd") {
        true => Err(other("it is a descriptor of another process")),
        false => Ok(None),
    }
}

#[cfg(test)]
mod tests {
    use super::*;

    fn target(name: &str) -> Target {
        Target::of(Path::new(name)).expect("no ring of links")
    }

    #[test]
    fn descriptors_are_known_by_all_their_names() {
        for (name, number) in [
            ("/dev/stdin", 0),
            ("/dev/stdout", 1),
            ("/dev/stderr", 2),
            ("/dev/../dev/stdout", 1),
            ("/dev/fd/7", 7),
            ("/proc/self/fd/1", 1),
            ("/proc/self/../self/fd/12", 12),
        ] {
            assert_eq!(target(name), Target::Descriptor(Stream(number)), "{name}");
        }
        let own = format!("/proc/{}/fd/2", std::process::id());
        assert_eq!(target(&own), Target::Descriptor(Stream(2)));
    }

    #[test]
    fn files_are_files() {
        for name in ["/dev/null", "/dev/full", "/out", "/1"] {
            assert_eq!(target(name), Target::File(name.into()));
        }
        for name in ["/dev/", "/missing/out", "out", "..", "1"] {
            assert_eq!(target(name), Target::File(name.into()));
        }
        let parents = format!("/proc/{}/fd/1", std::os::unix::process::parent_id());
        assert!(Target::of(Path::new(&parents)).is_err());
    }
}
