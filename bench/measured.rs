//! Runs a command to its end, and writes into a file what it took: the seconds, those of the processor in
//! the program and in the kernel, and the peak of its resident memory in KiB. Words: FILE COMMAND WORD..
//! It ends as the command does, with status 1 where a signal ended it. For 64-bit Linux alone.
//!
//! Why not the script by itself: a peak begins with that of the process which starts the command, so this
//! one has to be small.

use std::env;
use std::fs;
use std::io::{self, ErrorKind};
use std::process::{Command, ExitCode};
use std::time::Instant;

/// `who` of all children that were waited for.
const CHILDREN: i32 = -1;

#[repr(C)]
#[derive(Default)]
struct Time {
    seconds: i64,
    microseconds: i64,
}

impl Time {
    fn in_seconds(&self) -> f64 {
        self.seconds as f64 + self.microseconds as f64 / 1e6
    }
}

/// The C library's `struct rusage`.
#[repr(C)]
#[derive(Default)]
struct Usage {
    user: Time,
    system: Time,
    peak: i64,
    others: [i64; 13],
}

unsafe extern "C" {
    fn getrusage(who: i32, usage: *mut Usage) -> i32;
}

fn usage_of_children() -> io::Result<Usage> {
    let mut usage = Usage::default();
    // SAFETY: the layout is the C library's, and the call keeps no reference.
    match unsafe { getrusage(CHILDREN, &mut usage) } {
        0 => Ok(usage),
        _ => Err(io::Error::last_os_error()),
    }
}

fn main() -> io::Result<ExitCode> {
    let words: Vec<_> = env::args_os().skip(1).collect();
    let [file, command, rest @ ..] = words.as_slice() else {
        return Err(io::Error::new(ErrorKind::InvalidInput, "the words are FILE COMMAND WORD.."));
    };
    let start = Instant::now();
    let status = Command::new(command).args(rest).status()?;
    let seconds = start.elapsed().as_secs_f64();
    let Usage { user, system, peak, .. } = usage_of_children()?;
    let (user, system) = (user.in_seconds(), system.in_seconds());
    fs::write(file, format!("{seconds:.6} {user:.6} {system:.6} {peak}\n"))?;
    Ok(status
        .code()
        .and_then(|code| u8::try_from(code).ok())
        .map_or(ExitCode::FAILURE, ExitCode::from))
}
