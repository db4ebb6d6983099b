//! Toggles an LED with each edge of its button and says so, until the second button is pressed: an upcall that borrows
//! from `main`, for as long as the scope lasts.

#![no_main]
#![no_std]

use core::cell::Cell;

use libtock::buttons::{ButtonListener, ButtonState, Buttons};
use libtock::leds::Leds;
use libtock::platform::{share, ErrorCode, Syscalls};
use libtock::println;
use libtock::runtime::{set_main, stack_size, TockSyscalls};

set_main! {main}
stack_size! {0x400}

fn main() -> Result<(), ErrorCode> {
    let is_over = Cell::new(false);
    let listener = ButtonListener(|button, state| {
        let _ = Leds::toggle(button);
        println!("button {}: {:?}", button, state);
        if button == 1 && state == ButtonState::Pressed {
            is_over.set(true);
        }
    });
    for button in 0..Buttons::count()? {
        Buttons::enable_interrupts(button)?;
    }
    share::scope(|subscribe| {
        Buttons::register_listener(&listener, subscribe)?;
        while !is_over.get() {
            TockSyscalls::yield_wait();
        }
        Ok(())
    })
}
