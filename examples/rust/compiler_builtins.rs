//! What the compiler calls by itself and GNU's libgcc has not: memory is copied, filled and compared, a word at a time
//! where both sides begin at a multiple of 4. It stands in for Rust's own crate of this name, which Debian's sources of
//! the library may lack.

#![allow(internal_features)]
#![feature(compiler_builtins)]
#![compiler_builtins]
#![no_builtins]
#![no_std]

/// Whether both begin at a multiple of a word.
#[inline(always)]
fn are_words(one: usize, other: usize) -> bool {
    (one | other) % 4 == 0
}

#[unsafe(no_mangle)]
pub unsafe extern "C" fn memcpy(to: *mut u8, from: *const u8, size: usize) -> *mut u8 {
    let mut at = 0;
    unsafe {
        if are_words(to as usize, from as usize) {
            while at + 4 <= size {
                *(to.add(at) as *mut u32) = *(from.add(at) as *const u32);
                at += 4;
            }
        }
        while at < size {
            *to.add(at) = *from.add(at);
            at += 1;
        }
    }
    to
}

#[unsafe(no_mangle)]
pub unsafe extern "C" fn memmove(to: *mut u8, from: *const u8, size: usize) -> *mut u8 {
    if to as usize <= from as usize || to as usize >= from as usize + size {
        return unsafe { memcpy(to, from, size) };
    }
    let mut at = size;
    unsafe {
        if are_words(to as usize, from as usize) {
            while at % 4 != 0 {
                at -= 1;
                *to.add(at) = *from.add(at);
            }
            while at > 0 {
                at -= 4;
                *(to.add(at) as *mut u32) = *(from.add(at) as *const u32);
            }
        }
        while at > 0 {
            at -= 1;
            *to.add(at) = *from.add(at);
        }
    }
    to
}

#[unsafe(no_mangle)]
pub unsafe extern "C" fn memset(to: *mut u8, value: i32, size: usize) -> *mut u8 {
    let mut at = 0;
    unsafe {
        if are_words(to as usize, 0) {
            while at + 4 <= size {
                *(to.add(at) as *mut u32) = (value as u8 as u32) * 0x01010101;
                at += 4;
            }
        }
        while at < size {
            *to.add(at) = value as u8;
            at += 1;
        }
    }
    to
}

#[unsafe(no_mangle)]
pub unsafe extern "C" fn memcmp(one: *const u8, other: *const u8, size: usize) -> i32 {
    let mut at = 0;
    while at < size {
        let (first, second) = unsafe { (*one.add(at), *other.add(at)) };
        if first != second {
            return first as i32 - second as i32;
        }
        at += 1;
    }
    0
}

#[unsafe(no_mangle)]
pub unsafe extern "C" fn bcmp(one: *const u8, other: *const u8, size: usize) -> i32 {
    unsafe { memcmp(one, other, size) }
}
