//! The calls, structs and numbers of `c/fuota.h`, which `tests/rust_crate` holds against it. All unsafe code of the crate
//! stands here and in `calls`.
//!
//! A length is 64 bits wide on each target, and a handle takes 8 bytes, as the library has them.

use core::cell::Cell;
use core::marker::PhantomData;

mod calls;

pub use calls::*;

// ---- Numbers

/// The version of the header that stands here.
pub const VERSION_MAJOR: u32 = 0;
pub const VERSION_MINOR: u32 = 1;
pub const VERSION_PATCH: u32 = 0;

pub const SAVED_DEVICE: usize = 492;
pub const SAVED_SERVER: usize = 428;
pub const MAX_FRAME: usize = 255;
pub const LONGEST_SPAN: u32 = 631_573;

/// What a call answers, where it says nothing else. (All numbers of the header stand here, with those that never come.)
#[allow(dead_code)]
pub mod answer {
    pub const DONE: u8 = 0;
    pub const NOTHING: u8 = 1;
    pub const NO_OBJECT: u8 = 2;
    pub const RANGE: u8 = 3;
    pub const NO_ROOM: u8 = 4;
    pub const NO_MEMORY: u8 = 5;
    pub const REFUSED: u8 = 6;
    pub const DEAF: u8 = 7;
    pub const FULL: u8 = 8;
    pub const SPENT: u8 = 9;
    pub const CORRUPT: u8 = 10;
    pub const FOREIGN: u8 = 11;
    pub const DOWN: u8 = 12;
    pub const FLASH: u8 = 13;
}

/// What is known of a file.
pub mod verdict {
    pub const RECEIVING: u8 = 0;
    pub const COMPLETE: u8 = 1;
    pub const NO_ROWS: u8 = 2;
    pub const CONFLICT: u8 = 3;
}

/// What a receiver has room for.
pub mod size {
    pub const SIZE_SMALL: u8 = 0;
    pub const SIZE_MIDDLE: u8 = 1;
    pub const SIZE_LARGE: u8 = 2;
}

/// What was received to run next.
pub mod image {
    pub const IMAGE_NONE: u8 = 0;
    pub const IMAGE_CORRUPT: u8 = 1;
    pub const IMAGE_INCOMPATIBLE: u8 = 2;
    pub const IMAGE_VALID: u8 = 3;
}

/// A field of a plan that is wrong.
pub mod field {
    pub const FIELD_FRAG_SIZE: u8 = 1;
    pub const FIELD_PARITY: u8 = 2;
    pub const FIELD_GROUP: u8 = 3;
    pub const FIELD_WINDOW: u8 = 4;
    pub const FIELD_DEVICES: u8 = 5;
    pub const FIELD_INDEX: u8 = 6;
}

/// Where a device stands.
pub mod stage_kind {
    pub const AT: u8 = 0;
    pub const UPDATED: u8 = 1;
    pub const STOPPED: u8 = 2;
}

/// What a server asks of a device.
pub mod request {
    pub const REQUEST_VERSION: u8 = 1;
    pub const REQUEST_GROUP: u8 = 2;
    pub const REQUEST_FRAGMENTS: u8 = 3;
    pub const REQUEST_WINDOW: u8 = 4;
    pub const REQUEST_STATUS: u8 = 5;
    pub const REQUEST_IMAGE: u8 = 6;
    pub const REQUEST_REBOOT: u8 = 7;
    pub const REQUEST_CHECK: u8 = 8;
}

/// Why a payload has no text.
pub mod why {
    pub const WHY_PORT: u8 = 0;
    pub const WHY_UNKNOWN: u8 = 1;
    pub const WHY_SHORT: u8 = 2;
    pub const WHY_TOO_LONG: u8 = 3;
}

// ---- Handles

/// What is kept of an object: the library alone reads and writes the number, also in calls that leave the object as it is,
/// which is why it is a cell. All calls on one object come from one thread, which the pointer says to the compiler: a type
/// that has one is neither `Send` nor `Sync`. Rust moves a handle, and then the old one is no more; nothing copies it.
#[repr(transparent)]
struct At(Cell<u64>, PhantomData<*mut ()>);

impl At {
    const fn none() -> At {
        At(Cell::new(0), PhantomData)
    }
}

#[repr(C)]
pub struct Receiver {
    at: At,
}

#[repr(C)]
pub struct Device {
    at: At,
}

#[repr(C)]
pub struct Server {
    at: At,
}

impl Receiver {
    /// A handle that has no receiver.
    pub const fn none() -> Receiver {
        Receiver { at: At::none() }
    }
}

impl Device {
    /// A handle that has no device.
    pub const fn none() -> Device {
        Device { at: At::none() }
    }
}

impl Server {
    /// A handle that has no server.
    pub const fn none() -> Server {
        Server { at: At::none() }
    }
}

// ---- Structs

#[repr(C)]
#[derive(Default)]
pub struct View {
    pub mark: u64,
    pub file_length: u64,
    pub received: u16,
    pub missing: u16,
    pub verdict: u8,
}

#[repr(C)]
pub struct Setup {
    pub descriptor: u32,
    pub nb_frag: u16,
    pub frag_size: u8,
    pub index: u8,
    pub mask: u8,
    pub algo: u8,
    pub delay: u8,
    pub padding: u8,
}

#[repr(C)]
pub struct Config {
    pub hw: u32,
    pub offset: u32,
    pub area: u32,
    pub descriptor: u32,
    pub rows: u16,
    pub formats: u8,
    pub sessions: u8,
    pub groups: u8,
    pub has_descriptor: bool,
    pub is_class_c: bool,
    pub is_v11: bool,
    pub key: [u8; 16],
}

#[repr(C)]
pub struct Arrival {
    pub t: u64,
    pub mark: u64,
    pub word: u32,
    pub addr: u32,
    pub count: u32,
    pub is_group: bool,
}

#[repr(C)]
pub struct Uplink {
    pub due: u64,
    pub length: u64,
    pub port: u8,
    pub payload: [u8; 242],
}

#[repr(C)]
#[derive(Default)]
pub struct Counts {
    pub deaf: u64,
    pub refused: u64,
    pub full: u64,
    pub dropped: u64,
}

#[repr(C)]
pub struct Next {
    pub version: u32,
    pub state: u8,
}

#[repr(C)]
#[derive(Clone, Copy)]
pub struct PlanDevice {
    pub key: [u8; 16],
    pub is_v11: bool,
}

#[repr(C)]
pub struct Plan {
    pub addr: u32,
    pub min: u32,
    pub max: u32,
    pub start: u32,
    pub freq: u32,
    pub parity: u16,
    pub frag_size: u8,
    pub timeout: u8,
    pub dr: u8,
    pub periodicity: u8,
    pub index: u8,
    pub id: u8,
    pub has_group: bool,
    pub has_window: bool,
    pub is_class_b: bool,
    pub key: [u8; 16],
}

#[repr(C)]
pub struct Down {
    pub length: u64,
    pub addr: u32,
    pub count: u32,
    pub port: u8,
    pub is_group: bool,
    pub payload: [u8; 242],
}

#[repr(C)]
#[derive(Default)]
pub struct Stage {
    pub stage: u8,
    pub request: u8,
    pub bits: u8,
}

#[repr(C)]
#[derive(Default)]
pub struct Status {
    pub received: u16,
    pub missing: u8,
    pub norows: bool,
}

#[repr(C)]
#[derive(Default)]
pub struct Decoded {
    pub length: u64,
    pub at: u16,
    pub why: u8,
}
