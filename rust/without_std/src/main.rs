//! The receiver of `fuota`'s examples in a program without std, as one for a part of its own is: `malloc`, `realloc`, `free` and
//! the functions on memory come from outside. Its status is 0 where the file came whole.

#![no_std]
#![no_main]

use core::panic::PanicInfo;
use fuota::{Receiver, ReceiverSize, Setup};

// (here from the C library)
#[link(name = "c")]
extern "C" {}

#[panic_handler]
fn stop(_: &PanicInfo) -> ! {
    loop {}
}

fn is_whole() -> Option<bool> {
    let mut receiver = Receiver::new(ReceiverSize::Small).ok()?;
    let setup = Setup { descriptor: 7, nb_frag: 3, frag_size: 2, padding: 1, ..Setup::default() };
    receiver.set_up(&setup).ok()?;
    for payload in [[8, 1, 0, 0x11, 0x22], [8, 3, 0, 0x55, 0], [8, 4, 0, 0x33, 0x44]] {
        receiver.hear(&payload, 1).ok()?;
    }
    Some(receiver.file(0, &mut [0; 8]) == [0x11, 0x22, 0x33, 0x44, 0x55])
}

#[no_mangle]
extern "C" fn main() -> i32 {
    if is_whole() == Some(true) {
        0
    } else {
        1
    }
}
