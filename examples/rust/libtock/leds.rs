//! The LEDs, 0x2.

use crate::platform::{ErrorCode, Syscalls};
use crate::runtime::TockSyscalls;

const DRIVER: u32 = 0x2;

pub struct Leds;

impl Leds {
    pub fn count() -> Result<u32, ErrorCode> {
        TockSyscalls::command(DRIVER, 0, 0, 0).to_result()
    }

    pub fn on(led: u32) -> Result<(), ErrorCode> {
        TockSyscalls::command(DRIVER, 1, led, 0).to_result()
    }

    pub fn off(led: u32) -> Result<(), ErrorCode> {
        TockSyscalls::command(DRIVER, 2, led, 0).to_result()
    }

    pub fn toggle(led: u32) -> Result<(), ErrorCode> {
        TockSyscalls::command(DRIVER, 3, led, 0).to_result()
    }
}
