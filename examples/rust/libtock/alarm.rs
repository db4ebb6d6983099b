//! As many alarms as an application wants, by the one that the kernel has for a process, 0x0, and so by its upcall.

use core::cell::Cell;
use core::marker::PhantomData;
use core::ptr::null;

use crate::platform::{DefaultConfig, ErrorCode, Shown, Syscalls};
use crate::runtime::{subscribe_function, TockSyscalls};
use crate::share::{self, AllowUserspaceRead, Handle, List};

const DRIVER: u32 = 0x0;
const FREQUENCY: u32 = 1;
const TIME: u32 = 2;
const STOP: u32 = 3;
const ABSOLUTE: u32 = 6;

/// How many ticks this library takes for a millisecond, by the build: `make TICKS_PER_MS=1000`. The kernel, which
/// executes an instruction a tick, says that it has 1,000 ticks a second.
const TICKS_PER_MS: u32 = match option_env!("TICKS_PER_MS") {
    Some(number) => match u32::from_str_radix(number, 10) {
        Ok(ticks) => ticks,
        Err(_) => panic!("TICKS_PER_MS is no number"),
    },
    None => 1,
};

#[derive(Clone, Copy, Debug, PartialEq, Eq, PartialOrd, Ord)]
pub struct Hz(pub u32);

#[derive(Clone, Copy, Debug, PartialEq, Eq, PartialOrd, Ord)]
pub struct Ticks(pub u32);

#[derive(Clone, Copy, Debug, PartialEq, Eq, PartialOrd, Ord)]
pub struct Milliseconds(pub u32);

pub trait Convert {
    fn to_ticks(self, frequency: Hz) -> Ticks;
}

impl Convert for Ticks {
    fn to_ticks(self, _: Hz) -> Ticks {
        self
    }
}

impl Convert for Milliseconds {
    fn to_ticks(self, frequency: Hz) -> Ticks {
        Ticks((u64::from(self.0) * u64::from(frequency.0)).div_ceil(1000).min(u64::from(u32::MAX)) as u32)
    }
}

pub struct Alarm;

impl Alarm {
    pub fn exists() -> Result<(), ErrorCode> {
        TockSyscalls::command(DRIVER, 0, 0, 0).to_result()
    }

    /// Ticks a second, as this library takes them.
    pub fn get_frequency() -> Result<Hz, ErrorCode> {
        TockSyscalls::command(DRIVER, FREQUENCY, 0, 0).to_result().map(|ticks: u32| Hz(ticks * TICKS_PER_MS))
    }

    /// The clock's tick now.
    pub fn get_ticks() -> Result<u32, ErrorCode> {
        TockSyscalls::command(DRIVER, TIME, 0, 0).to_result()
    }

    pub fn get_milliseconds() -> Result<u64, ErrorCode> {
        Ok(u64::from(Self::get_ticks()?) * 1000 / u64::from(Self::get_frequency()?.0))
    }

    /// While it waits, functions of other upcalls run, and other alarms come.
    pub fn sleep_for<T: Convert>(time: T) -> Result<(), ErrorCode> {
        let has_come = Cell::new(false);
        let note = |_, _| has_come.set(true);
        share::scope::<OnAlarm<_>, _, _>(|handle| {
            Timer::new(&note, handle).once(time)?;
            while !has_come.get() {
                TockSyscalls::yield_wait();
            }
            Ok(())
        })
    }

    /// Has the clock's tick stand in a word from each look at the clock and each alarm on. This kernel's own.
    pub fn show_clock<'share>(
        word: &'share Shown,
        handle: Handle<AllowUserspaceRead<'share, TockSyscalls, DRIVER, 0>>,
    ) -> Result<(), ErrorCode> {
        TockSyscalls::allow_userspace_read::<DefaultConfig, DRIVER, 0>(handle, core::slice::from_ref(word))
    }
}

/// An alarm of a scope, which calls a function where it comes: with the tick that it is, and the one for which it was
/// set. The scope's end takes it away.
///
///     share::scope::<OnAlarm<_>, _, _>(|handle| {
///         let timer = Timer::new(&function, handle);
///         timer.every(Milliseconds(100))?;
///         ..
///     })
pub struct OnAlarm<'share, F: Fn(Ticks, Ticks)> {
    entry: Entry,
    // A lifetime that can be neither longer nor shorter.
    _lent: PhantomData<Cell<&'share F>>,
}

impl<F: Fn(Ticks, Ticks)> Default for OnAlarm<'_, F> {
    fn default() -> Self {
        OnAlarm { entry: Entry::new(), _lent: PhantomData }
    }
}

impl<F: Fn(Ticks, Ticks)> Drop for OnAlarm<'_, F> {
    fn drop(&mut self) {
        self.entry.cancel();
    }
}

impl<F: Fn(Ticks, Ticks)> List for OnAlarm<'_, F> {}

/// Sets an alarm of a scope, as often as one likes.
#[derive(Clone, Copy)]
pub struct Timer<'handle> {
    // It stays where it is for as long as the scope lasts.
    entry: &'handle Entry,
}

impl<'handle> Timer<'handle> {
    /// The function outlives the scope.
    pub fn new<'share, F: Fn(Ticks, Ticks)>(
        function: &'share F,
        handle: Handle<'handle, OnAlarm<'share, F>>,
    ) -> Timer<'handle> {
        let entry = &handle.take().entry;
        entry.function.set(Some((call::<F>, (function as *const F).cast())));
        Timer { entry }
    }

    /// It comes once, so long from now on.
    pub fn once<T: Convert>(self, time: T) -> Result<(), ErrorCode> {
        self.entry.begin(0, time.to_ticks(Alarm::get_frequency()?).0)
    }

    /// It comes at each multiple of the time from now on, at least a tick; where the application was busy for longer,
    /// those that it missed come one after another.
    pub fn every<T: Convert>(self, time: T) -> Result<(), ErrorCode> {
        let ticks = time.to_ticks(Alarm::get_frequency()?).0.max(1);
        self.entry.begin(ticks, ticks)
    }

    /// It does not come any more, where it was still to come.
    pub fn cancel(self) {
        self.entry.cancel();
    }
}

/// What an entry has for a function of this type.
unsafe fn call<F: Fn(Ticks, Ticks)>(function: *const (), now: Ticks, scheduled: Ticks) {
    unsafe { (*function.cast::<F>())(now, scheduled) }
}

/// What is called for an entry, and what it is called with.
type Function = (unsafe fn(*const (), Ticks, Ticks), *const ());

/// An alarm in the list of those that are to come, the next one first.
struct Entry {
    reference: Cell<u32>,
    ticks: Cell<u32>,
    interval: Cell<u32>,
    function: Cell<Option<Function>>,
    next: Cell<*const Entry>,
}

/// The first of that list.
struct First(Cell<*const Entry>);

// A process has one thread, and an upcall runs where it yields alone: never inside of these functions.
unsafe impl Sync for First {}

static FIRST: First = First(Cell::new(null()));

// An entry is in the list only while its scope lasts, so each that is found there can be read.
impl Entry {
    const fn new() -> Entry {
        Entry {
            reference: Cell::new(0),
            ticks: Cell::new(0),
            interval: Cell::new(0),
            function: Cell::new(None),
            next: Cell::new(null()),
        }
    }

    /// How many ticks are left until it, at a tick; 0 where its time has come.
    fn ticks_left(&self, now: u32) -> u32 {
        self.ticks.get().saturating_sub(now.wrapping_sub(self.reference.get()))
    }

    /// Takes it out of the list, and tells whether it was there.
    fn take_out(&self) -> bool {
        let mut place = &FIRST.0;
        while let Some(entry) = unsafe { place.get().as_ref() } {
            if core::ptr::eq(entry, self) {
                place.set(self.next.get());
                return true;
            }
            place = &entry.next;
        }
        false
    }

    /// Puts it behind all that come no later.
    fn put_in(&self, now: u32) {
        let (mut place, left) = (&FIRST.0, self.ticks_left(now));
        while let Some(entry) = unsafe { place.get().as_ref() }.filter(|entry| entry.ticks_left(now) <= left) {
            place = &entry.next;
        }
        self.next.set(place.get());
        place.set(self);
    }

    /// Has it come so many ticks after a reference, or after the tick that it is.
    fn set(&self, reference: Option<u32>, ticks: u32) -> Result<(), ErrorCode> {
        let now = Alarm::get_ticks()?;
        self.take_out();
        self.reference.set(reference.unwrap_or(now));
        self.ticks.set(ticks);
        self.put_in(now);
        arm()
    }

    /// Has it come so many ticks from now on, and then in each interval, where that is not 0.
    fn begin(&self, interval: u32, ticks: u32) -> Result<(), ErrorCode> {
        self.interval.set(interval);
        self.set(None, ticks)
    }

    fn cancel(&self) {
        self.interval.set(0);
        if self.take_out() {
            let _ = arm();
        }
    }

    /// The next one counts from the time for which this one was set, so that the period is fixed. It is set once the
    /// function is done, which may have cancelled it, or set it anew.
    fn call(&self, now: u32) {
        let scheduled = self.reference.get().wrapping_add(self.ticks.get());
        if let Some((function, data)) = self.function.get() {
            unsafe { function(data, Ticks(now), Ticks(scheduled)) };
        }
        if self.interval.get() > 0 && !self.is_in() {
            let _ = self.set(Some(scheduled), self.interval.get());
        }
    }

    fn is_in(&self) -> bool {
        let mut entry = FIRST.0.get();
        while !entry.is_null() && !core::ptr::eq(entry, self) {
            entry = unsafe { (*entry).next.get() };
        }
        !entry.is_null()
    }
}

/// Calls all whose time has come, also where it came while another was called.
unsafe extern "C" fn come(_: u32, _: u32, _: u32, _: *const ()) {
    while let Some(entry) = unsafe { FIRST.0.get().as_ref() } {
        let Ok(now) = Alarm::get_ticks() else { return };
        if entry.ticks_left(now) > 0 {
            break;
        }
        entry.take_out();
        entry.call(now);
    }
    if !FIRST.0.get().is_null() {
        let _ = arm();
    }
}

/// Arms the kernel's alarm for the next one.
fn arm() -> Result<(), ErrorCode> {
    match unsafe { FIRST.0.get().as_ref() } {
        Some(next) => {
            subscribe_function(DRIVER, 0, come)?;
            TockSyscalls::command(DRIVER, ABSOLUTE, next.reference.get(), next.ticks.get()).to_result().map(|_: u32| ())
        }
        None => {
            TockSyscalls::command(DRIVER, STOP, 0, 0);
            Ok(())
        }
    }
}
