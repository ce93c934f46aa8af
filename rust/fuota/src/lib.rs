//! Firmware update over the air for LoRaWAN (TS003, TS004, TS005 and TS006, 1.0.0): a [`Receiver`] of one file at a time, a
//! whole [`Device`], the [`Server`] of a campaign, and payloads as text ([`decode`]).
//!
//! This crate has safe types over the library for C, whose calls are proved: with any argument each does what it says,
//! nothing undefined, and returns. The crate itself is not proved. `tools/c_library FOLDER` makes the library, and the
//! environment's `FUOTA_LIBRARY_DIR` names the folder, by its whole path, when the crate is built.
//!
//! ```
//! use fuota::{Receiver, ReceiverSize, Setup, Verdict};
//!
//! // a file of 5 bytes in 3 pieces of 2, of which the second is lost and a coded fragment makes it good
//! let mut receiver = Receiver::new(ReceiverSize::Small)?;
//! receiver.set_up(&Setup { descriptor: 7, nb_frag: 3, frag_size: 2, padding: 1, ..Setup::default() })?;
//! receiver.hear(&[0x08, 0x01, 0x00, 0x11, 0x22], 1)?;
//! receiver.hear(&[0x08, 0x03, 0x00, 0x55, 0x00], 2)?;
//! receiver.hear(&[0x08, 0x04, 0x00, 0x33, 0x44], 3)?;
//! let view = receiver.view().ok_or("no session")?;
//! assert_eq!(view.verdict, Verdict::Complete { mark: 3, length: 5 });
//! assert_eq!(receiver.file(0, &mut [0; 8]), [0x11, 0x22, 0x33, 0x44, 0x55]);
//! # Ok::<(), Box<dyn std::error::Error>>(())
//! ```
//!
//! # What a caller owes
//!
//! Of what `c/fuota.h` asks of a caller the types keep all but this:
//!
//! - there is stack for a call: `docs/SAMPLES.md` says how much each takes;
//! - a program without the C library has its `malloc`, `realloc`, `free`, `memcpy`, `memmove` and `memset`, as the header
//!   says;
//! - no call comes from a signal handler, or from the forked child of a process with threads.
//!
//! # Threads
//!
//! All calls on one object come from one thread: that an object may go to another one, under a lock too, is not proved. So no
//! object is `Send` or `Sync`.
//!
//! ```compile_fail,E0277
//! fn goes_to_another_thread<T: Send>() {}
//! goes_to_another_thread::<fuota::Receiver>();
//! ```
//!
//! What the calls take and give may go anywhere:
//!
//! ```
//! fn goes_to_another_thread<T: Send>() {}
//! goes_to_another_thread::<(fuota::View, fuota::Downlink, fuota::Uplink, fuota::Error)>();
//! ```
//!
//! # Memory
//!
//! The calls that make an object take all memory that it will ever need, and dropping it gives it back. [`decode`] takes memory
//! for its text and gives it back. The other calls take none.

#![no_std]
#![deny(unsafe_code, unsafe_op_in_unsafe_fn)]
#![forbid(missing_docs)]

mod bytes;
mod config;
mod device;
mod error;
mod keys;
mod payload;
mod plan;
mod receiver;
mod server;
mod session;
// (the one module with unsafe code)
#[allow(unsafe_code)]
mod sys;
mod text;
mod version;

pub use bytes::Bytes;
pub use config::{Config, DeviceClass, DeviceSize, Flash, Formats, Kept};
pub use device::{Counts, Delivered, Device, Moment, NextImage, SavedDevice};
pub use error::Error;
pub use keys::{Key, RootKey};
pub use payload::{Downlink, Payload, Uplink, Via};
pub use plan::{Field, Group, Plan, Window, WindowClass};
pub use receiver::{Participants, Receiver, ReceiverSize, Refusal, Setup};
pub use server::{Frame, LastStatus, Request, SavedServer, Server, Stage};
pub use session::{Verdict, View};
pub use text::{decode, Direction, Why};
pub use version::{pointer_bits, version, Version};

/// The most bytes of a payload.
pub const MAX_PAYLOAD: usize = payload::MAX;
/// The most bytes of a frame.
pub const MAX_FRAME: usize = sys::MAX_FRAME;
/// The most devices of a plan.
pub const MAX_DEVICES: usize = plan::MAX_DEVICES;
/// The bytes that a device saves.
pub const SAVED_DEVICE: usize = sys::SAVED_DEVICE;
/// The most bytes that a server saves: 44, and six for each device.
pub const SAVED_SERVER: usize = sys::SAVED_SERVER;
/// The bytes of flash in which each session that a device takes has room.
pub const LONGEST_SPAN: u32 = sys::LONGEST_SPAN;
