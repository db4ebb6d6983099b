//! Where the process's block and its object lie, by memop. `Syscalls::memop_brk` and `memop_sbrk` move the break.

use core::ops::Range;

use crate::platform::{ErrorCode, Syscalls};
use crate::runtime::TockSyscalls;

const RAM_START: u32 = 2;
const RAM_END: u32 = 3;
const FLASH_START: u32 = 4;
const FLASH_END: u32 = 5;
const GRANTS_START: u32 = 6;
const REGIONS: u32 = 7;
const REGION_START: u32 = 8;
const REGION_END: u32 = 9;

/// What an operation that moves nothing answers.
fn told(operation: u32, argument: u32) -> Result<u32, ErrorCode> {
    unsafe { TockSyscalls::memop(operation, argument) }.to_result()
}

/// From the first address of the block to the first one after it.
pub fn block() -> Result<Range<u32>, ErrorCode> {
    Ok(told(RAM_START, 0)?..told(RAM_END, 0)?)
}

/// From the object's header to the first address after the object.
pub fn object() -> Result<Range<u32>, ErrorCode> {
    Ok(told(FLASH_START, 0)?..told(FLASH_END, 0)?)
}

/// Where the grants begin, which lie at the end of the block.
pub fn grants() -> Result<u32, ErrorCode> {
    told(GRANTS_START, 0)
}

/// How many writeable regions of flash the header names.
pub fn region_count() -> Result<u32, ErrorCode> {
    told(REGIONS, 0)
}

/// One of these; an error where there is none of that number.
pub fn region(number: u32) -> Result<Range<u32>, ErrorCode> {
    Ok(told(REGION_START, number)?..told(REGION_END, number)?)
}
