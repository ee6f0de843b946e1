//! Runs a program and hands it standard input in pieces of so many bytes, each only once the program
//! has taken the one before.
//!
//!     feed PIECE PROGRAM [ARGUMENT..] < FILE
//!
//! What the program writes is passed on. The last line on standard error is `peak N`: the most memory
//! that the program held, in KiB. Exits with the program's status, or with 100 and a word if it was
//! ended by a signal or did not take its input within a minute.

use std::error::Error;
use std::io::{self, ErrorKind, Read, Write};
use std::os::fd::AsRawFd;
use std::process::{Child, ChildStdin, Command, ExitCode, Stdio};
use std::time::{Duration, Instant};

const USAGE: &str = "usage: feed PIECE PROGRAM [ARGUMENT..] < FILE";

/// Linux: how many bytes wait in a pipe.
const FIONREAD: u64 = 0x541B;

extern "C" {
    fn ioctl(fd: i32, request: u64, ...) -> i32;
    fn wait4(pid: i32, status: *mut i32, options: i32, usage: *mut [i64; 18]) -> i32;
}

fn main() -> ExitCode {
    match feed(std::env::args().skip(1).collect()) {
        Ok(status) => ExitCode::from(status),
        Err(error) => {
            eprintln!("feed: {error}");
            ExitCode::from(100)
        }
    }
}

fn feed(arguments: Vec<String>) -> Result<u8, Box<dyn Error>> {
    let [piece, program, rest @ ..] = &arguments[..] else {
        return Err(USAGE.into());
    };
    let piece: usize = piece.parse()?;
    let mut child = Command::new(program).args(rest).stdin(Stdio::piped()).spawn()?;
    let pipe = child.stdin.take().ok_or("no standard input")?;
    hand_over(pipe, piece.max(1), &mut child)?;
    finish(&child)
}

/// Writes all input piece by piece; a program that stops reading ends it.
fn hand_over(mut pipe: ChildStdin, piece: usize, child: &mut Child) -> Result<(), Box<dyn Error>> {
    let mut input = io::stdin().lock();
    let mut bytes = vec![0; piece];
    loop {
        let count = fill(&mut input, &mut bytes)?;
        if count == 0 {
            return Ok(());
        }
        match pipe.write_all(&bytes[..count]) {
            Err(error) if error.kind() == ErrorKind::BrokenPipe => return Ok(()),
            other => other?,
        }
        wait_until_taken(&pipe, child)?;
    }
}

fn fill(input: &mut impl Read, bytes: &mut [u8]) -> io::Result<usize> {
    let mut count = 0;
    while count < bytes.len() {
        match input.read(&mut bytes[count..])? {
            0 => break,
            some => count += some,
        }
    }
    Ok(count)
}

fn wait_until_taken(pipe: &ChildStdin, child: &mut Child) -> Result<(), Box<dyn Error>> {
    let start = Instant::now();
    for turn in 0_u64.. {
        let mut waiting: i32 = 0;
        // SAFETY: the request stores one int at the pointer, and the descriptor is open.
        if unsafe { ioctl(pipe.as_raw_fd(), FIONREAD, &mut waiting) } != 0 {
            return Err(io::Error::last_os_error().into());
        }
        if waiting == 0 || has_ended(child) {
            return Ok(());
        }
        if start.elapsed() > Duration::from_secs(60) {
            child.kill()?;
            return Err("the program did not take its input within a minute".into());
        }
        if turn > 1000 {
            std::thread::sleep(Duration::from_millis(1));
        } else {
            std::thread::yield_now();
        }
    }
    unreachable!("turns do not run out")
}

/// Whether the program is a zombie by now: it is only waited for in `finish`.
fn has_ended(child: &Child) -> bool {
    let stat = std::fs::read_to_string(format!("/proc/{}/stat", child.id())).unwrap_or_default();
    stat.rsplit(") ").next().is_none_or(|rest| rest.starts_with('Z'))
}

/// Waits for the program, and says how much memory it held.
fn finish(child: &Child) -> Result<u8, Box<dyn Error>> {
    let mut status: i32 = 0;
    let mut usage = [0; 18];
    // SAFETY: both pointers lead to room of the size that 64-bit Linux writes.
    if unsafe { wait4(child.id() as i32, &mut status, 0, &mut usage) } < 0 {
        return Err(io::Error::last_os_error().into());
    }
    // Two times of two words each stand before the most memory held.
    eprintln!("peak {}", usage[4]);
    if status & 0x7f != 0 {
        return Err(format!("the program was ended by the signal {}", status & 0x7f).into());
    }
    Ok((status >> 8) as u8)
}
