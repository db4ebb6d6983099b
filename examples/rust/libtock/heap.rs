//! What `alloc` gets its memory from: the HEAP bytes behind the static variables. An application that wants it has
//!
//!     #[global_allocator]
//!     static HEAP: Heap = Heap::new();

use core::alloc::{GlobalAlloc, Layout};
use core::cell::Cell;
use core::mem::{align_of, size_of};
use core::ptr::{null_mut, NonNull};

/// A piece that is free, in a list by address.
struct Free {
    size: usize,
    next: Link,
}

type Link = Option<NonNull<Free>>;

/// Each piece has a multiple of this, and begins at one.
const UNIT: usize = size_of::<Free>();
const _: () = assert!(UNIT.is_power_of_two() && align_of::<Free>() <= UNIT);

pub struct Heap {
    first: Cell<Link>,
    is_set: Cell<bool>,
}

// A process has one thread, and an upcall runs where it yields alone: never inside of these functions.
unsafe impl Sync for Heap {}

unsafe extern "C" {
    // By application.ld.
    static _bss_end: u8;
    static _heap_end: u8;
}

impl Heap {
    pub const fn new() -> Heap {
        Heap { first: Cell::new(None), is_set: Cell::new(false) }
    }

    /// All is one free piece at first.
    fn set_up(&self) {
        let start = (&raw const _bss_end as usize).next_multiple_of(UNIT);
        let end = &raw const _heap_end as usize / UNIT * UNIT;
        self.is_set.set(true);
        if start < end {
            unsafe { self.give(start as *mut u8, end - start) };
        }
    }

    /// Puts a piece among those that are free, and joins it with its neighbours.
    unsafe fn give(&self, begin: *mut u8, size: usize) {
        unsafe {
            let (mut before, mut next): (Link, Link) = (None, self.first.get());
            while let Some(at) = next.filter(|at| (at.as_ptr() as usize) < begin as usize) {
                (before, next) = (next, (*at.as_ptr()).next);
            }
            let mut piece = begin.cast::<Free>();
            piece.write(Free { size, next });
            match before.map(NonNull::as_ptr) {
                Some(it) if it as usize + (*it).size == piece as usize => {
                    (*it).size += size;
                    (*it).next = next;
                    piece = it;
                }
                Some(it) => (*it).next = NonNull::new(piece),
                None => self.first.set(NonNull::new(piece)),
            }
            if let Some(it) = next.map(NonNull::as_ptr) {
                if piece as usize + (*piece).size == it as usize {
                    (*piece).size += (*it).size;
                    (*piece).next = (*it).next;
                }
            }
        }
    }

    fn needed(layout: Layout) -> usize {
        layout.size().max(1).next_multiple_of(UNIT)
    }
}

unsafe impl GlobalAlloc for Heap {
    /// The first free piece that has room; what is left of it before and behind stays free.
    unsafe fn alloc(&self, layout: Layout) -> *mut u8 {
        if !self.is_set.get() {
            self.set_up();
        }
        let needed = Self::needed(layout);
        let (mut before, mut next): (Link, Link) = (None, self.first.get());
        while let Some(at) = next {
            let piece = at.as_ptr();
            unsafe {
                let end = piece as usize + (*piece).size;
                let begin = (piece as usize).next_multiple_of(layout.align().max(UNIT));
                if begin <= end && end - begin >= needed {
                    let rest = (*piece).next;
                    match before.map(NonNull::as_ptr) {
                        Some(it) => (*it).next = rest,
                        None => self.first.set(rest),
                    }
                    if begin > piece as usize {
                        self.give(piece.cast(), begin - piece as usize);
                    }
                    if begin + needed < end {
                        self.give((begin + needed) as *mut u8, end - begin - needed);
                    }
                    return begin as *mut u8;
                }
                (before, next) = (next, (*piece).next);
            }
        }
        null_mut()
    }

    unsafe fn dealloc(&self, begin: *mut u8, layout: Layout) {
        unsafe { self.give(begin, Self::needed(layout)) };
    }
}
