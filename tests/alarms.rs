//! What alarms do that are set, cancelled and waited for inside the functions of others, as alarms.c has it. Prints a
//! letter for each that comes; each letter's time is far from that of the next.

#![no_main]
#![no_std]

use core::cell::Cell;

use libtock::alarm::{Alarm, Milliseconds, OnAlarm, Ticks, Timer};
use libtock::platform::{share, ErrorCode, Syscalls};
use libtock::runtime::{set_main, stack_size, TockSyscalls};
use libtock::{print, println};

set_main! {main}
stack_size! {0x800}

/// It comes at its time, or not long after it: another function may have run meanwhile.
fn letter(text: &str, now: Ticks, scheduled: Ticks) {
    print!("{text}{}", if now.0 - scheduled.0 < 2000 { "" } else { "?" });
}

/// Comes at 10,000, 20,000, 30,000 and so on after the start, until it has come four times.
fn count(times: u32, scheduled: u32, inner: Timer, cancelled: [Timer; 2]) -> Result<(), ErrorCode> {
    print!("{times}{}", if scheduled == 10000 * times { "" } else { "?" });
    match times {
        1 => {
            cancelled[0].cancel();
            inner.once(Milliseconds(4000)) // at 14,000
        }
        2 => {
            Alarm::sleep_for(Milliseconds(12000))?; // to 32,000; the third comes late, and `b` meanwhile
            print!("c");
            Ok(())
        }
        4 => {
            cancelled[1].cancel(); // while its function waits
            inner.once(Milliseconds(2000)) // at 42,000
        }
        _ => Ok(()),
    }
}

fn main() -> Result<(), ErrorCode> {
    let a = |now, scheduled| letter("a", now, scheduled);
    let b = |now, scheduled| letter("b", now, scheduled);
    let x = |now, scheduled| letter("x", now, scheduled);
    // Comes at 35,000, and not at 70,000.
    let d = |now, scheduled| {
        letter("d", now, scheduled);
        Alarm::sleep_for(Milliseconds(6000)).unwrap();
    };
    let (times, start) = (Cell::new(0), Cell::new(Alarm::get_ticks()?));
    share::scope::<(OnAlarm<_>, OnAlarm<_>, OnAlarm<_>, OnAlarm<_>), _, _>(|handle| {
        let (for_a, for_b, for_x, for_d) = handle.split();
        let (inner, once) = (Timer::new(&a, for_a), Timer::new(&b, for_b));
        let cancelled = [Timer::new(&x, for_x), Timer::new(&d, for_d)];
        let often = |_, scheduled: Ticks| {
            times.set(times.get() + 1);
            // It is set a little after the start.
            let passed = (scheduled.0 - start.get()) / 1000 * 1000;
            count(times.get(), passed, inner, cancelled).unwrap();
        };
        once.once(Milliseconds(25000))?;
        cancelled[0].once(Milliseconds(15000))?;
        cancelled[1].every(Milliseconds(35000))?;
        share::scope::<OnAlarm<_>, _, _>(|handle| {
            Timer::new(&often, handle).every(Milliseconds(10000))?;
            while times.get() < 4 {
                TockSyscalls::yield_wait();
            }
            Ok::<(), ErrorCode>(())
        })?;
        Alarm::sleep_for(Milliseconds(5000))?; // the scope took its alarm away: there is no 50,000
        once.once(Milliseconds(99000))?;
        once.once(Milliseconds(5000))?; // in place of 99,000
        Alarm::sleep_for(Milliseconds(60000))
    })?;
    println!();
    Alarm::sleep_for(Milliseconds(40000)) // and those of the outer one
}
