//! Random bytes, 0x40001: on this board those of the script.

use crate::platform::{DefaultConfig, ErrorCode, Syscalls};
use crate::runtime::{command_and_wait, TockSyscalls};
use crate::share::{self, AllowRw, Subscribe};

const DRIVER: u32 = 0x40001;

pub struct Rng;

impl Rng {
    pub fn exists() -> Result<(), ErrorCode> {
        TockSyscalls::command(DRIVER, 0, 0, 0).to_result()
    }

    /// Fills the buffer; an error where the source has no more.
    pub fn get_bytes_sync(buffer: &mut [u8]) -> Result<(), ErrorCode> {
        let length = buffer.len() as u32;
        share::scope::<(AllowRw<_, DRIVER, 0>, Subscribe<_, DRIVER, 0>), _, _>(|handle| {
            let (allow, subscribe) = handle.split();
            TockSyscalls::allow_rw::<DefaultConfig, DRIVER, 0>(allow, buffer)?;
            match command_and_wait(subscribe, 1, length, 0)? {
                (0, count, _) if count == length => Ok(()),
                (0, _, _) => Err(ErrorCode::Fail),
                (status, _, _) => Err(ErrorCode::of(status)),
            }
        })
    }
}
