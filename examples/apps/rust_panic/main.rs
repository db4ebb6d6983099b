//! Looks behind the end of an array, as many elements as storage and the source of random bytes say.

#![no_main]
#![no_std]

use libtock::println;
use libtock::rng::Rng;
use libtock::runtime::{set_main, stack_size};
use libtock::storage::Storage;

set_main! {main}
stack_size! {0x400}

fn main() {
    let numbers = [1, 1, 2, 3, 5, 8];
    let mut place = [0];
    Rng::get_bytes_sync(&mut place).unwrap();
    Storage::write(3, &place).unwrap();
    let mut kept = [0; 4];
    let count = Storage::read(0, &mut kept).unwrap();
    println!("{count} bytes: {kept:x?}");
    println!("{}", numbers[usize::from(kept[3])]);
}
