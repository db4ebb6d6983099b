//! What a system call comes to, and the calls themselves, as TRD 104 has them.

use core::cell::UnsafeCell;

pub use crate::share::{self, AllowRo, AllowRw, AllowUserspaceRead, Subscribe};
use crate::share::Handle;

/// TRD 104, "Error codes".
#[derive(Clone, Copy, Debug, PartialEq, Eq)]
#[repr(u32)]
pub enum ErrorCode {
    Fail = 1,
    Busy,
    Already,
    Off,
    Reserve,
    Invalid,
    Size,
    Cancel,
    NoMem,
    NoSupport,
    NoDevice,
    Uninstalled,
    NoAck,
    BadRVal = 1024,
}

impl ErrorCode {
    /// Of a number that no code has it makes BadRVal.
    pub fn of(number: u32) -> ErrorCode {
        match number {
            1 => ErrorCode::Fail,
            2 => ErrorCode::Busy,
            3 => ErrorCode::Already,
            4 => ErrorCode::Off,
            5 => ErrorCode::Reserve,
            6 => ErrorCode::Invalid,
            7 => ErrorCode::Size,
            8 => ErrorCode::Cancel,
            9 => ErrorCode::NoMem,
            10 => ErrorCode::NoSupport,
            11 => ErrorCode::NoDevice,
            12 => ErrorCode::Uninstalled,
            13 => ErrorCode::NoAck,
            _ => ErrorCode::BadRVal,
        }
    }
}

/// A reply, as it comes: its variant and three data.
#[derive(Clone, Copy, Debug)]
pub struct CommandReturn(pub [u32; 4]);

/// What a success has besides being one, by its variant.
pub trait SuccessData: Sized {
    fn of(reply: [u32; 4]) -> Option<Self>;
}

impl SuccessData for () {
    fn of(reply: [u32; 4]) -> Option<()> {
        (reply[0] == 128).then_some(())
    }
}

impl SuccessData for u32 {
    fn of(reply: [u32; 4]) -> Option<u32> {
        (reply[0] == 129).then_some(reply[1])
    }
}

impl SuccessData for (u32, u32) {
    fn of(reply: [u32; 4]) -> Option<(u32, u32)> {
        (reply[0] == 130).then_some((reply[1], reply[2]))
    }
}

impl SuccessData for u64 {
    fn of(reply: [u32; 4]) -> Option<u64> {
        (reply[0] == 131).then_some(u64::from(reply[2]) << 32 | u64::from(reply[1]))
    }
}

impl CommandReturn {
    pub fn is_success(self) -> bool {
        self.0[0] >= 128
    }

    /// BadRVal where it succeeded with other data than were asked for.
    pub fn to_result<T: SuccessData, E: From<ErrorCode>>(self) -> Result<T, E> {
        if self.is_success() {
            T::of(self.0).ok_or(ErrorCode::BadRVal.into())
        } else {
            Err(ErrorCode::of(self.0[1]).into())
        }
    }
}

/// What runs where a process yields, with the driver's three arguments. `Ids` says of which upcalls it may be one.
pub trait Upcall<Ids> {
    fn upcall(&self, first: u32, second: u32, third: u32);
}

/// Of any driver and number.
pub struct AnyId;

/// Of this driver and number alone.
pub struct OneId<const DRIVER: u32, const NUMBER: u32>;

pub trait SupportsId<const DRIVER: u32, const NUMBER: u32> {}

impl<const DRIVER: u32, const NUMBER: u32> SupportsId<DRIVER, NUMBER> for AnyId {}
impl<const DRIVER: u32, const NUMBER: u32> SupportsId<DRIVER, NUMBER> for OneId<DRIVER, NUMBER> {}

impl Upcall<AnyId> for core::cell::Cell<bool> {
    fn upcall(&self, _: u32, _: u32, _: u32) {
        self.set(true);
    }
}

impl Upcall<AnyId> for core::cell::Cell<Option<()>> {
    fn upcall(&self, _: u32, _: u32, _: u32) {
        self.set(Some(()));
    }
}

impl Upcall<AnyId> for core::cell::Cell<Option<(u32,)>> {
    fn upcall(&self, first: u32, _: u32, _: u32) {
        self.set(Some((first,)));
    }
}

impl Upcall<AnyId> for core::cell::Cell<Option<(u32, u32)>> {
    fn upcall(&self, first: u32, second: u32, _: u32) {
        self.set(Some((first, second)));
    }
}

impl Upcall<AnyId> for core::cell::Cell<Option<(u32, u32, u32)>> {
    fn upcall(&self, first: u32, second: u32, third: u32) {
        self.set(Some((first, second, third)));
    }
}

/// A word that the kernel may write at any time, and the process reads alone.
#[repr(transparent)]
pub struct Shown(UnsafeCell<u32>);

impl Shown {
    pub const fn new(word: u32) -> Shown {
        Shown(UnsafeCell::new(word))
    }

    /// What stands there now.
    pub fn get(&self) -> u32 {
        unsafe { self.0.get().read_volatile() }
    }
}

/// What would be done where a buffer or an upcall was there before; nothing is.
pub struct DefaultConfig;

pub trait Config {}

impl Config for DefaultConfig {}

#[derive(Clone, Copy, Debug, PartialEq, Eq)]
pub enum YieldNoWaitReturn {
    NoUpcall,
    Upcall,
}

pub trait Syscalls: Sized {
    fn yield_wait();
    fn yield_no_wait() -> YieldNoWaitReturn;

    /// Returns with the arguments of this upcall once it comes; no function runs, and none need be subscribed.
    fn yield_wait_for(driver: u32, number: u32) -> (u32, u32, u32);

    fn command(driver: u32, number: u32, first: u32, second: u32) -> CommandReturn;

    fn allow_ro<'share, C: Config, const DRIVER: u32, const NUMBER: u32>(
        handle: Handle<AllowRo<'share, Self, DRIVER, NUMBER>>,
        buffer: &'share [u8],
    ) -> Result<(), ErrorCode>;

    fn allow_rw<'share, C: Config, const DRIVER: u32, const NUMBER: u32>(
        handle: Handle<AllowRw<'share, Self, DRIVER, NUMBER>>,
        buffer: &'share mut [u8],
    ) -> Result<(), ErrorCode>;

    fn allow_userspace_read<'share, C: Config, const DRIVER: u32, const NUMBER: u32>(
        handle: Handle<AllowUserspaceRead<'share, Self, DRIVER, NUMBER>>,
        words: &'share [Shown],
    ) -> Result<(), ErrorCode>;

    fn subscribe<'share, Ids, U: Upcall<Ids>, C: Config, const DRIVER: u32, const NUMBER: u32>(
        handle: Handle<Subscribe<'share, Self, DRIVER, NUMBER>>,
        upcall: &'share U,
    ) -> Result<(), ErrorCode>
    where
        Ids: SupportsId<DRIVER, NUMBER>;

    fn unallow_ro(driver: u32, number: u32);
    fn unallow_rw(driver: u32, number: u32);
    fn unallow_userspace_read(driver: u32, number: u32);
    fn unsubscribe(driver: u32, number: u32);

    /// # Safety
    ///
    /// Operations 0 and 1 move the break: nothing at or above the new one may be used any more.
    unsafe fn memop(operation: u32, argument: u32) -> CommandReturn;

    /// # Safety
    ///
    /// Nothing at or above the address may be used any more.
    unsafe fn memop_brk(address: *const u8) -> Result<(), ErrorCode> {
        unsafe { Self::memop(0, address as u32) }.to_result()
    }

    /// The former break.
    ///
    /// # Safety
    ///
    /// Where it falls, nothing at or above the new break may be used any more.
    unsafe fn memop_sbrk(increment: i32) -> Result<u32, ErrorCode> {
        unsafe { Self::memop(1, increment as u32) }.to_result()
    }

    fn exit_terminate(code: u32) -> !;
    fn exit_restart(code: u32) -> !;
}
