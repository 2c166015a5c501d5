//! Runs the command as a process.
#![allow(dead_code)]

use std::fs;
use std::io::Write;
use std::path::{Path, PathBuf};
use std::process::{Command, Output, Stdio};

pub const COMMAND: &str = env!("CARGO_BIN_EXE_citronreef");

/// What a run of the command left behind.
pub struct Ran {
    pub status: i32,
    pub out: String,
    pub err: String,
}

impl From<Output> for Ran {
    fn from(output: Output) -> Ran {
        let text = |bytes| String::from_utf8(bytes).expect("text");
        Ran { status: output.status.code().expect("an exit status"), out: text(output.stdout), err: text(output.stderr) }
    }
}

/// Runs the command with these words, and the bytes as its standard input.
pub fn run(words: &[&str], input: &[u8]) -> Ran {
    with_input(Command::new(COMMAND).args(words), input)
}

/// Runs a line of the shell, in which $0 is the command.
pub fn shell(line: &str, words: &[&Path]) -> Ran {
    Ran::from(
        Command::new("sh").arg("-c").arg(line).arg(COMMAND).args(words).stdin(Stdio::null()).output().expect("a shell"),
    )
}

/// Runs a process. One that does not read all of its input is none the worse for it.
pub fn with_input(command: &mut Command, input: &[u8]) -> Ran {
    let piped = command.stdin(Stdio::piped()).stdout(Stdio::piped()).stderr(Stdio::piped());
    let mut child = piped.spawn().expect("a process");
    let mut stdin = child.stdin.take().expect("a pipe");
    let _ = stdin.write_all(input);
    drop(stdin);
    Ran::from(child.wait_with_output().expect("an end"))
}

/// A failure: status 2, one line that has these words, and nothing on standard output.
pub fn fails(ran: &Ran, words: &str) {
    assert_eq!((ran.status, ran.out.as_str()), (2, ""), "{}", ran.err);
    assert!(ran.err.starts_with("citronreef: ") && ran.err.contains(words), "{}", ran.err);
    assert_eq!(ran.err.matches('\n').count(), 1, "{}", ran.err);
}

pub fn text(path: &Path) -> &str {
    path.to_str().expect("a path in letters")
}

/// A folder of one test's own, which goes with it.
pub struct Folder(PathBuf);

impl Folder {
    pub fn new(test: &str) -> Folder {
        Folder::within(Path::new(env!("CARGO_TARGET_TMPDIR")), test)
    }

    pub fn within(folder: &Path, test: &str) -> Folder {
        let path = folder.join(format!("{test}-{}", std::process::id()));
        fs::create_dir_all(&path).expect("a folder");
        Folder(path)
    }

    pub fn path(&self, name: &str) -> PathBuf {
        self.0.join(name)
    }

    /// A file in the folder with these bytes.
    pub fn file(&self, name: &str, bytes: &[u8]) -> PathBuf {
        let path = self.path(name);
        fs::write(&path, bytes).expect("a file");
        path
    }

    /// The names in the folder, in order.
    pub fn names(&self) -> Vec<String> {
        let entries = fs::read_dir(&self.0).expect("a folder");
        let mut names: Vec<String> =
            entries.map(|entry| entry.expect("an entry").file_name().to_string_lossy().into_owned()).collect();
        names.sort();
        names
    }
}

impl Drop for Folder {
    fn drop(&mut self) {
        let _ = fs::remove_dir_all(&self.0);
    }
}
