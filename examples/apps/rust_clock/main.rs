//! Waits for an alarm without an upcall, as `clock` does in C: the kernel shows its clock in a word that this
//! application reads meanwhile. It exits with how many ticks lie between its look at the clock and the alarm.

#![no_main]
#![no_std]

use libtock::alarm::{Alarm, Milliseconds, OnAlarm, Timer};
use libtock::platform::{share, AllowUserspaceRead, ErrorCode, Shown};
use libtock::runtime::{set_main, stack_size};

set_main! {main}
stack_size! {0x200}

fn main() -> Result<u32, ErrorCode> {
    let clock = Shown::new(0);
    let never = |_, _| ();
    share::scope::<(AllowUserspaceRead<_, 0, 0>, OnAlarm<_>), _, _>(|handle| {
        let (allow, alarm) = handle.split();
        Alarm::show_clock(&clock, allow)?;
        Timer::new(&never, alarm).once(Milliseconds(100))?;
        let start = clock.get();
        while clock.get() == start {}
        Ok(clock.get() - start)
    })
}
