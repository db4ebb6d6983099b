//! A runtime for applications in Rust, for the six drivers of the board. Names and types are those of Tock's own Rust
//! library, libtock-rs, where it has them; the bodies are this project's own.

#![no_std]

/// What the linker for cargo reads of the environment: cargo links anew where one of these changes.
const _: [Option<&str>; 4] = [option_env!("FLASH"), option_env!("RAM"), option_env!("HEAP"), option_env!("STACK")];

pub mod alarm;
pub mod buttons;
pub mod console;
pub mod heap;
pub mod leds;
pub mod memory;
pub mod platform;
pub mod rng;
pub mod runtime;
pub mod share;
pub mod storage;
