//! Two alarms with periods of their own, by the one that the kernel has for a process, and one that comes once and ends
//! the first: what `alarms` does in C.

#![no_main]
#![no_std]

use core::cell::Cell;

use libtock::alarm::{Milliseconds, OnAlarm, Timer};
use libtock::platform::{share, ErrorCode, Syscalls};
use libtock::println;
use libtock::runtime::{set_main, stack_size, TockSyscalls};

set_main! {main}
stack_size! {0x400}

/// Counts, and says so.
fn tell(name: &str, times: &Cell<u32>) {
    times.set(times.get() + 1);
    println!("{name} {}", times.get());
}

fn main() -> Result<u32, ErrorCode> {
    let (fast, slow, is_over) = (Cell::new(0), Cell::new(0), Cell::new(false));
    let tell_fast = |_, _| tell("fast", &fast);
    let tell_slow = |_, _| tell("slow", &slow);
    let end = |_, _| is_over.set(true);
    share::scope::<(OnAlarm<_>, OnAlarm<_>, OnAlarm<_>), _, _>(|handle| {
        let (for_fast, for_slow, for_end) = handle.split();
        let fast_timer = Timer::new(&tell_fast, for_fast);
        fast_timer.every(Milliseconds(2000))?;
        Timer::new(&tell_slow, for_slow).every(Milliseconds(5000))?;
        Timer::new(&end, for_end).once(Milliseconds(9000))?;
        while slow.get() < 2 {
            TockSyscalls::yield_wait();
            if is_over.take() {
                fast_timer.cancel();
                println!("fast is over");
            }
        }
        Ok(fast.get())
    })
}
