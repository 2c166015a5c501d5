//! Open descriptors without buffers: whether one is a terminal, and failures as the system tells them.

use std::fs::File;
use std::mem::ManuallyDrop;
use std::os::unix::io::FromRawFd;

/// An open descriptor by its number.
#[derive(Clone, Copy, Debug, PartialEq, Eq)]
pub struct Stream(pub i32);

extern "C" {
    fn isatty(descriptor: i32) -> i32;
    fn signal(number: i32, handler: usize) -> usize;
}

const SIGPIPE: i32 = 13;
const SIGXFSZ: i32 = 25;
const SIG_IGN: usize = 1;

/// Makes it a failure like any other to write to a pipe that nobody reads, or to a file that may not grow.
pub fn ignore_signals_of_writing() {
    for number in [SIGPIPE, SIGXFSZ] {
        // SAFETY: ignoring a signal runs no code of ours.
        unsafe { signal(number, SIG_IGN) };
    }
}

impl Stream {
    pub const INPUT: Stream = Stream(0);
    pub const OUTPUT: Stream = Stream(1);

    pub fn is_terminal(self) -> bool {
        // SAFETY: takes any number.
        unsafe { isatty(self.0) == 1 }
    }

    /// The descriptor as a file, which stays open. Where it was closed from the start, reading and writing fail.
    pub fn file(self) -> ManuallyDrop<File> {
        // SAFETY: the descriptor is never closed by this owner, and a closed one is an error of each call.
        ManuallyDrop::new(unsafe { File::from_raw_fd(self.0) })
    }
}
