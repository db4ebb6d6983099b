//! All LEDs change six times, each a quarter of a second after the last.

#![no_main]
#![no_std]

use libtock::alarm::{Alarm, Milliseconds};
use libtock::leds::Leds;
use libtock::platform::ErrorCode;
use libtock::runtime::{set_main, stack_size};

set_main! {main}
stack_size! {0x200}

fn main() -> Result<(), ErrorCode> {
    let count = Leds::count()?;
    for _ in 0..6 {
        for led in 0..count {
            Leds::toggle(led)?;
        }
        Alarm::sleep_for(Milliseconds(250))?;
    }
    Leds::on(0)
}
