//! The bench program: a process for each input.
#![allow(dead_code)]

use std::ffi::OsString;
use std::fs::File;
use std::io::{self, Write};
use std::os::fd::{FromRawFd, OwnedFd};
use std::process::{Child, Command, Stdio};

extern "C" {
    fn pipe2(ends: *mut i32, flags: i32) -> i32;
}

const CLOSE_ON_EXEC: i32 = 0o2_000_000;
/// In a pipe of packets each read gets at most what one write has put in.
#[cfg(target_arch = "x86_64")]
const PACKETS: i32 = 0o40_000;
#[cfg(target_arch = "aarch64")]
const PACKETS: i32 = 0o200_000;

/// The words that start the program.
pub struct Program(Vec<OsString>);

impl Program {
    /// `crates/bench/out/bench`, or what the environment names.
    pub fn bench() -> Self {
        let ours = concat!(env!("CARGO_MANIFEST_DIR"), "/../../crates/bench/out/bench");
        let named = std::env::var_os("BENCH_PROGRAM");
        Program(vec![named.unwrap_or_else(|| ours.into())])
    }

    /// The same under valgrind, which ends with status 9 where it finds an error.
    pub fn under_valgrind(self) -> Self {
        let checked = ["valgrind", "-q", "--error-exitcode=9"].map(OsString::from);
        Program(checked.into_iter().chain(self.0).collect())
    }

    /// What the program writes when it is given the input in one piece.
    pub fn says(&self, input: &[u8]) -> Result<String, String> {
        let answer = || {
            let mut child = self.start(Stdio::piped())?;
            let mut stdin = child.stdin.take().expect("a pipe");
            // A program that has read enough may end first.
            let _ = stdin.write_all(input);
            drop(stdin);
            said(child)
        };
        answer().map_err(|error| format!("{:?}: {error}", self.0))
    }

    /// The same with reads that get no more than one of the pieces.
    pub fn says_of_pieces(&self, pieces: &[&[u8]]) -> Result<String, String> {
        let answer = || {
            let (read, mut write) = packets()?;
            let child = self.start(Stdio::from(read))?;
            for piece in pieces {
                let _ = write.write_all(piece);
            }
            drop(write);
            said(child)
        };
        answer().map_err(|error| format!("{:?}: {error}", self.0))
    }

    fn start(&self, input: Stdio) -> io::Result<Child> {
        let mut command = Command::new(&self.0[0]);
        command.args(&self.0[1..]);
        command.stdin(input).stdout(Stdio::piped()).spawn()
    }
}

fn said(child: Child) -> io::Result<String> {
    let output = child.wait_with_output()?;
    if !output.status.success() {
        return Err(io::Error::other(format!("it ended with {}", output.status)));
    }
    String::from_utf8(output.stdout).map_err(io::Error::other)
}

fn packets() -> io::Result<(OwnedFd, File)> {
    let mut ends = [0; 2];
    // SAFETY: there is room for two descriptors, which belong to nobody else.
    unsafe {
        match pipe2(ends.as_mut_ptr(), CLOSE_ON_EXEC | PACKETS) {
            0 => Ok((OwnedFd::from_raw_fd(ends[0]), File::from_raw_fd(ends[1]))),
            _ => Err(io::Error::last_os_error()),
        }
    }
}
