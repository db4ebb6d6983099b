//! Lends buffers and upcalls to the kernel for as long as a scope lasts. They are taken back where the scope ends, and
//! what is lent outlives it: the compiler sees to that.
//!
//!     share::scope::<(AllowRo<_, DRIVER, 1>, Subscribe<_, DRIVER, 1>), _, _>(|handle| {
//!         let (allow, subscribe) = handle.split();
//!         ..
//!     })

use core::cell::Cell;
use core::marker::PhantomData;

use crate::platform::{Shown, Syscalls};

/// What a scope may lend, each at most once.
pub trait List: Default {}

/// The right to lend one of a scope. Lending takes it.
pub struct Handle<'handle, L: List> {
    list: &'handle L,
}

impl<'handle, L: List> Handle<'handle, L> {
    /// What it may lend, which stays where it is for as long as the scope lasts.
    pub(crate) fn take(self) -> &'handle L {
        self.list
    }
}

/// The list lies where nobody but this function has it, so that it is dropped before what was lent ends.
pub fn scope<L: List, Output, F: FnOnce(Handle<L>) -> Output>(function: F) -> Output {
    let list = L::default();
    function(Handle { list: &list })
}

macro_rules! shared {
    ($(#[$doc:meta])* $name:ident, $lent:ty, $back:ident) => {
        $(#[$doc])*
        pub struct $name<'share, S: Syscalls, const DRIVER: u32, const NUMBER: u32> {
            // A lifetime that can be neither longer nor shorter.
            _lent: PhantomData<Cell<$lent>>,
            _calls: PhantomData<S>,
        }

        impl<S: Syscalls, const DRIVER: u32, const NUMBER: u32> Default for $name<'_, S, DRIVER, NUMBER> {
            fn default() -> Self {
                $name { _lent: PhantomData, _calls: PhantomData }
            }
        }

        impl<S: Syscalls, const DRIVER: u32, const NUMBER: u32> Drop for $name<'_, S, DRIVER, NUMBER> {
            fn drop(&mut self) {
                S::$back(DRIVER, NUMBER);
            }
        }

        impl<S: Syscalls, const DRIVER: u32, const NUMBER: u32> List for $name<'_, S, DRIVER, NUMBER> {}
    };
}

shared! {
    /// A buffer that the kernel reads.
    AllowRo, &'share [u8], unallow_ro
}
shared! {
    /// A buffer that the kernel writes, too.
    AllowRw, &'share mut [u8], unallow_rw
}
shared! {
    /// Words that the kernel writes while the process reads them.
    AllowUserspaceRead, &'share [Shown], unallow_userspace_read
}
shared! {
    /// A function that runs where the process yields.
    Subscribe, &'share (), unsubscribe
}

impl List for () {}

macro_rules! lists {
    ($($name:ident $number:tt)+) => {
        impl<$($name: List),+> List for ($($name,)+) {}

        impl<'handle, $($name: List),+> Handle<'handle, ($($name,)+)> {
            pub fn split(self) -> ($(Handle<'handle, $name>,)+) {
                ($(Handle { list: &self.list.$number },)+)
            }
        }
    };
}

lists!(A 0);
lists!(A 0 B 1);
lists!(A 0 B 1 C 2);
lists!(A 0 B 1 C 2 D 3);
lists!(A 0 B 1 C 2 D 3 E 4);
