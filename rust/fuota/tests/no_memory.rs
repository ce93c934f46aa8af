//! What is answered where memory is missing, and that dropped objects give theirs back.
#![cfg(all(target_os = "linux", target_pointer_width = "64"))]

#[allow(dead_code)]
#[path = "calls/shared.rs"]
mod shared;

use fuota::{Device, Error, Plan, Receiver, ReceiverSize, Server};
use shared::{config, image, key};

#[repr(C)]
struct Limit {
    now: u64,
    most: u64,
}

const ADDRESS_SPACE: i32 = 9;

extern "C" {
    fn setrlimit(resource: i32, limit: *const Limit) -> i32;
}

/// Makes objects until there is no memory for one more; the list has its room before.
fn fill<T>(made: &mut Vec<T>, make: impl Fn() -> Result<T, Error>) {
    while made.len() < made.capacity() {
        match make() {
            Ok(it) => made.push(it),
            Err(error) => return assert_eq!(error, Error::NoMemory),
        }
    }
    panic!("memory has no end");
}

fn list<T>() -> Vec<T> {
    Vec::with_capacity(1 << 20)
}

#[test]
fn missing_memory_is_an_error() {
    let (mut devices, mut receivers, mut servers) = (list(), list(), list());
    let image = image();
    let plan = Plan { frag_size: 13, parity: 0, index: 0, group: None };
    let limit = Limit { now: 600 << 20, most: 600 << 20 };
    // SAFETY: the pointer is to a limit that lives through the call.
    assert_eq!(unsafe { setrlimit(ADDRESS_SPACE, &limit) }, 0);
    fill(&mut devices, || Device::new(&config()));
    fill(&mut receivers, || Receiver::new(ReceiverSize::Small));
    fill(&mut servers, || Server::new(&plan, &[key()], &image));
    let count = devices.len();
    assert!(count > 10);
    devices.clear();
    receivers.clear();
    servers.clear();
    fill(&mut devices, || Device::new(&config()));
    assert!(devices.len() > count / 2, "{} after {count}", devices.len());
}
