//! The storage, 0x50001: bytes of the slot's own, which stay where the process starts again.

use crate::platform::{DefaultConfig, ErrorCode, Syscalls};
use crate::runtime::{command_and_wait, TockSyscalls};
use crate::share::{self, AllowRo, AllowRw, Subscribe};

const DRIVER: u32 = 0x50001;
const READ: u32 = 2;
const WRITE: u32 = 3;

pub struct Storage;

impl Storage {
    pub fn size() -> Result<u32, ErrorCode> {
        TockSyscalls::command(DRIVER, 1, 0, 0).to_result()
    }

    /// How many bytes were read.
    pub fn read(offset: u32, buffer: &mut [u8]) -> Result<usize, ErrorCode> {
        let length = buffer.len() as u32;
        share::scope::<(AllowRw<_, DRIVER, 0>, Subscribe<_, DRIVER, 0>), _, _>(|handle| {
            let (allow, subscribe) = handle.split();
            TockSyscalls::allow_rw::<DefaultConfig, DRIVER, 0>(allow, buffer)?;
            moved(command_and_wait(subscribe, READ, offset, length)?)
        })
    }

    /// How many bytes were written.
    pub fn write(offset: u32, bytes: &[u8]) -> Result<usize, ErrorCode> {
        share::scope::<(AllowRo<_, DRIVER, 0>, Subscribe<_, DRIVER, 1>), _, _>(|handle| {
            let (allow, subscribe) = handle.split();
            TockSyscalls::allow_ro::<DefaultConfig, DRIVER, 0>(allow, bytes)?;
            moved(command_and_wait(subscribe, WRITE, offset, bytes.len() as u32)?)
        })
    }
}

fn moved((bytes, status, _): (u32, u32, u32)) -> Result<usize, ErrorCode> {
    if status == 0 { Ok(bytes as usize) } else { Err(ErrorCode::of(status)) }
}
