//! Says hello, by what `core::fmt` makes of numbers, texts and values of its own.

#![no_main]
#![no_std]

use core::fmt::Write;

use libtock::alarm::{Alarm, Milliseconds};
use libtock::console::Console;
use libtock::leds::Leds;
use libtock::println;
use libtock::runtime::{set_main, stack_size};

set_main! {main}
stack_size! {0x400}

#[derive(Debug)]
#[allow(dead_code)]
struct Board {
    leds: u32,
    name: &'static str,
}

fn main() {
    writeln!(Console::writer(), "Hello world!").unwrap();
    println!("{:>6} {:#06x} {:08b} {}", 42, 0xbeef, 5, 1u64 << 40);
    println!("{:?}", Board { leds: Leds::count().unwrap_or(0), name: "simulated" });
    println!("{:?} {:?}", Milliseconds(7), Leds::on(99));
    println!("{}", if Alarm::exists().is_ok() { "there is an alarm" } else { "there is no alarm" });
}
