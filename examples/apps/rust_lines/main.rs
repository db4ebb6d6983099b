//! Reads lines until an empty one, sorts them, and prints them with how often each came: `String`, `Vec` and `BTreeMap`
//! of `alloc`.

#![no_main]
#![no_std]

extern crate alloc;

use alloc::collections::BTreeMap;
use alloc::string::String;
use alloc::vec::Vec;

use libtock::console::Console;
use libtock::heap::Heap;
use libtock::platform::ErrorCode;
use libtock::println;
use libtock::runtime::{set_main, stack_size};

set_main! {main}
stack_size! {0x800}

#[global_allocator]
static HEAP: Heap = Heap::new();

/// A read gives what has come in, which may be less than a line, or more.
fn lines() -> Result<Vec<String>, ErrorCode> {
    let (mut lines, mut line) = (Vec::new(), Vec::new());
    loop {
        let mut buffer = [0; 16];
        let (count, result) = Console::read(&mut buffer);
        result?;
        for &byte in &buffer[..count] {
            if byte != b'\n' {
                line.push(byte);
            } else if line.is_empty() {
                return Ok(lines);
            } else {
                lines.push(String::from_utf8_lossy(&line).into_owned());
                line.clear();
            }
        }
    }
}

fn main() -> Result<(), ErrorCode> {
    let mut lines = lines()?;
    lines.sort_by_key(|line| core::cmp::Reverse(line.len()));
    println!("longest: {}", lines.first().map_or("none", String::as_str));
    let mut counts = BTreeMap::new();
    for line in lines {
        *counts.entry(line).or_insert(0) += 1;
    }
    for (line, count) in &counts {
        println!("{count} {line}");
    }
    Ok(())
}
