//! The console, 0x1.

use core::fmt;

use crate::platform::{DefaultConfig, ErrorCode, Syscalls};
use crate::runtime::{command_and_wait, TockSyscalls};
use crate::share::{self, AllowRo, AllowRw, Subscribe};

const DRIVER: u32 = 0x1;
const WRITE: u32 = 1;
const READ: u32 = 2;

pub struct Console;

impl Console {
    pub fn exists() -> bool {
        TockSyscalls::command(DRIVER, 0, 0, 0).is_success()
    }

    /// Returns once all was taken. While it waits no upcall's function runs.
    pub fn write(bytes: &[u8]) -> Result<(), ErrorCode> {
        if bytes.is_empty() {
            return Ok(());
        }
        share::scope::<(AllowRo<_, DRIVER, 1>, Subscribe<_, DRIVER, WRITE>), _, _>(|handle| {
            let (allow, subscribe) = handle.split();
            TockSyscalls::allow_ro::<DefaultConfig, DRIVER, 1>(allow, bytes)?;
            command_and_wait(subscribe, WRITE, bytes.len() as u32, 0).map(|_| ())
        })
    }

    /// Returns once anything came in, with how many bytes.
    pub fn read(buffer: &mut [u8]) -> (usize, Result<(), ErrorCode>) {
        let length = buffer.len() as u32;
        share::scope::<(AllowRw<_, DRIVER, 1>, Subscribe<_, DRIVER, READ>), _, _>(|handle| {
            let (allow, subscribe) = handle.split();
            let came = TockSyscalls::allow_rw::<DefaultConfig, DRIVER, 1>(allow, buffer)
                .and_then(|_| command_and_wait(subscribe, READ, length, 0));
            match came {
                Ok((0, bytes, _)) => (bytes as usize, Ok(())),
                Ok((status, bytes, _)) => (bytes as usize, Err(ErrorCode::of(status))),
                Err(error) => (0, Err(error)),
            }
        })
    }

    /// Writes each part of a format by a call of its own.
    pub fn writer() -> ConsoleWriter {
        ConsoleWriter
    }
}

#[derive(Clone, Copy)]
pub struct ConsoleWriter;

impl fmt::Write for ConsoleWriter {
    fn write_str(&mut self, text: &str) -> fmt::Result {
        Console::write(text.as_bytes()).map_err(|_| fmt::Error)
    }
}

/// Keeps up to 64 bytes, as many as the console takes a step, and writes them where it is full or flushed.
pub struct Line {
    bytes: [u8; 64],
    used: usize,
}

impl Line {
    pub const fn new() -> Line {
        Line { bytes: [0; 64], used: 0 }
    }

    pub fn flush(&mut self) -> Result<(), ErrorCode> {
        let used = core::mem::take(&mut self.used);
        Console::write(&self.bytes[..used.min(64)])
    }
}

impl fmt::Write for Line {
    fn write_str(&mut self, text: &str) -> fmt::Result {
        for &byte in text.as_bytes() {
            if self.used >= self.bytes.len() {
                self.flush().map_err(|_| fmt::Error)?;
            }
            self.bytes[self.used] = byte;
            self.used += 1;
        }
        Ok(())
    }
}

/// What `print!` and `println!` come to. A console that takes nothing is no reason to panic.
pub fn print(text: fmt::Arguments) {
    let mut line = Line::new();
    let _ = fmt::Write::write_fmt(&mut line, text);
    let _ = line.flush();
}

#[macro_export]
macro_rules! print {
    ($($text:tt)*) => { $crate::console::print(core::format_args!($($text)*)) };
}

#[macro_export]
macro_rules! println {
    () => { $crate::print!("\n") };
    ($($text:tt)*) => { $crate::print!("{}\n", core::format_args!($($text)*)) };
}
