//! The system calls, what begins and ends an application, and what its panic says.

use core::arch::asm;
use core::fmt::Write;
use core::panic::PanicInfo;
use core::sync::atomic::{AtomicBool, Ordering};

use crate::platform::{
    AnyId, CommandReturn, Config, DefaultConfig, ErrorCode, Shown, SupportsId, Syscalls, Upcall, YieldNoWaitReturn,
};
use crate::share::{AllowRo, AllowRw, AllowUserspaceRead, Handle, Subscribe};

const SUBSCRIBE: u32 = 1;
const COMMAND: u32 = 2;
const ALLOW_RW: u32 = 3;
const ALLOW_RO: u32 = 4;
const MEMOP: u32 = 5;
const EXIT: u32 = 6;
const ALLOW_USERSPACE_READ: u32 = 7;

/// The kernel that the process runs on.
pub struct TockSyscalls;

/// The class in a4, the arguments in a0 to a3, and the reply there.
#[inline(always)]
fn system_call(class: u32, arguments: [u32; 4]) -> [u32; 4] {
    let [mut a0, mut a1, mut a2, mut a3] = arguments;
    // It may read and write what was lent, whose addresses were made numbers before.
    unsafe {
        asm!("ecall", inlateout("a0") a0, inlateout("a1") a1, inlateout("a2") a2, inlateout("a3") a3, in("a4") class,
             options(preserves_flags, nostack));
    }
    [a0, a1, a2, a3]
}

/// What a subscribe or an allow came to.
fn handed(reply: [u32; 4]) -> Result<(), ErrorCode> {
    if reply[0] >= 128 { Ok(()) } else { Err(ErrorCode::of(reply[1])) }
}

/// The function that the kernel calls; the data are the application's own upcall.
unsafe extern "C" fn from_the_kernel<Ids, U: Upcall<Ids>>(first: u32, second: u32, third: u32, data: *const U) {
    unsafe { &*data }.upcall(first, second, third);
}

impl Syscalls for TockSyscalls {
    fn yield_wait() {
        // An upcall runs inside of it, as if it had been called here.
        unsafe {
            asm!("ecall", inlateout("a0") 1 => _, inlateout("a4") 0 => _, clobber_abi("C"));
        }
    }

    fn yield_no_wait() -> YieldNoWaitReturn {
        let mut has_run = 0u8;
        unsafe {
            asm!("ecall", inlateout("a0") 0 => _, inlateout("a1") &raw mut has_run => _, inlateout("a4") 0 => _,
                 clobber_abi("C"));
        }
        if has_run == 0 { YieldNoWaitReturn::NoUpcall } else { YieldNoWaitReturn::Upcall }
    }

    #[inline(always)]
    fn yield_wait_for(driver: u32, number: u32) -> (u32, u32, u32) {
        let [first, second, third, _] = system_call(0, [2, driver, number, 0]);
        (first, second, third)
    }

    #[inline(always)]
    fn command(driver: u32, number: u32, first: u32, second: u32) -> CommandReturn {
        CommandReturn(system_call(COMMAND, [driver, number, first, second]))
    }

    fn allow_ro<'share, C: Config, const DRIVER: u32, const NUMBER: u32>(
        _: Handle<AllowRo<'share, Self, DRIVER, NUMBER>>,
        buffer: &'share [u8],
    ) -> Result<(), ErrorCode> {
        handed(system_call(ALLOW_RO, [DRIVER, NUMBER, buffer.as_ptr() as u32, buffer.len() as u32]))
    }

    fn allow_rw<'share, C: Config, const DRIVER: u32, const NUMBER: u32>(
        _: Handle<AllowRw<'share, Self, DRIVER, NUMBER>>,
        buffer: &'share mut [u8],
    ) -> Result<(), ErrorCode> {
        handed(system_call(ALLOW_RW, [DRIVER, NUMBER, buffer.as_mut_ptr() as u32, buffer.len() as u32]))
    }

    fn allow_userspace_read<'share, C: Config, const DRIVER: u32, const NUMBER: u32>(
        _: Handle<AllowUserspaceRead<'share, Self, DRIVER, NUMBER>>,
        words: &'share [Shown],
    ) -> Result<(), ErrorCode> {
        let size = core::mem::size_of_val(words) as u32;
        handed(system_call(ALLOW_USERSPACE_READ, [DRIVER, NUMBER, words.as_ptr() as u32, size]))
    }

    fn subscribe<'share, Ids, U: Upcall<Ids>, C: Config, const DRIVER: u32, const NUMBER: u32>(
        _: Handle<Subscribe<'share, Self, DRIVER, NUMBER>>,
        upcall: &'share U,
    ) -> Result<(), ErrorCode>
    where
        Ids: SupportsId<DRIVER, NUMBER>,
    {
        let function = from_the_kernel::<Ids, U> as unsafe extern "C" fn(u32, u32, u32, *const U);
        handed(system_call(SUBSCRIBE, [DRIVER, NUMBER, function as usize as u32, upcall as *const U as u32]))
    }

    fn unallow_ro(driver: u32, number: u32) {
        system_call(ALLOW_RO, [driver, number, 0, 0]);
    }

    fn unallow_rw(driver: u32, number: u32) {
        system_call(ALLOW_RW, [driver, number, 0, 0]);
    }

    fn unallow_userspace_read(driver: u32, number: u32) {
        system_call(ALLOW_USERSPACE_READ, [driver, number, 0, 0]);
    }

    fn unsubscribe(driver: u32, number: u32) {
        system_call(SUBSCRIBE, [driver, number, 0, 0]);
    }

    unsafe fn memop(operation: u32, argument: u32) -> CommandReturn {
        CommandReturn(system_call(MEMOP, [operation, argument, 0, 0]))
    }

    fn exit_terminate(code: u32) -> ! {
        loop {
            system_call(EXIT, [0, code, 0, 0]);
        }
    }

    fn exit_restart(code: u32) -> ! {
        loop {
            system_call(EXIT, [1, code, 0, 0]);
        }
    }
}

/// Has a function of this crate run for an upcall, without any data.
pub(crate) fn subscribe_function(
    driver: u32,
    number: u32,
    function: unsafe extern "C" fn(u32, u32, u32, *const ()),
) -> Result<(), ErrorCode> {
    handed(system_call(SUBSCRIBE, [driver, number, function as usize as u32, 0]))
}

struct Ignored;

impl Upcall<AnyId> for Ignored {
    fn upcall(&self, _: u32, _: u32, _: u32) {}
}

/// Gives a command, and waits for the upcall that it comes to; no function of any upcall runs meanwhile. The upcall has
/// a function all the same: without one this kernel keeps none that comes before the process waits.
pub fn command_and_wait<const DRIVER: u32, const NUMBER: u32>(
    handle: Handle<Subscribe<'_, TockSyscalls, DRIVER, NUMBER>>,
    command: u32,
    first: u32,
    second: u32,
) -> Result<(u32, u32, u32), ErrorCode> {
    TockSyscalls::subscribe::<_, _, DefaultConfig, DRIVER, NUMBER>(handle, &Ignored)?;
    TockSyscalls::command(DRIVER, command, first, second).to_result::<(), ErrorCode>()?;
    Ok(TockSyscalls::yield_wait_for(DRIVER, NUMBER))
}

/// What `main` may return; an error's number becomes the completion code.
pub trait Termination {
    fn code(self) -> u32;
}

impl Termination for () {
    fn code(self) -> u32 {
        0
    }
}

impl Termination for u32 {
    fn code(self) -> u32 {
        self
    }
}

impl<T: Termination> Termination for Result<T, ErrorCode> {
    fn code(self) -> u32 {
        self.map_or_else(|error| error as u32, T::code)
    }
}

/// Names the function with which the application begins.
#[macro_export]
macro_rules! set_main {
    ($name:ident) => {
        #[unsafe(export_name = "main")]
        extern "C" fn begin_of_application() -> u32 {
            $crate::runtime::Termination::code($name())
        }
    };
}

/// How many bytes the stack has, a multiple of 16.
#[macro_export]
macro_rules! stack_size {
    ($size:expr) => {
        core::arch::global_asm!(".globl stack_size", ".equ stack_size, {}", const {
            let size: usize = $size;
            assert!(size % 16 == 0 && size > 0, "the stack's size is a multiple of 16");
            size
        });
    };
}

pub use crate::{set_main, stack_size};

/// The completion code of a process that panicked, as std has it.
pub const PANICKED: u32 = 101;

static IS_PANICKING: AtomicBool = AtomicBool::new(false);

/// Says where it panicked and why, and ends the process. A panic while it does ends it at once.
#[panic_handler]
fn panicked(info: &PanicInfo) -> ! {
    if !IS_PANICKING.load(Ordering::Relaxed) {
        IS_PANICKING.store(true, Ordering::Relaxed);
        let mut line = crate::console::Line::new();
        let _ = writeln!(line, "{info}");
        let _ = line.flush();
    }
    TockSyscalls::exit_terminate(PANICKED)
}
