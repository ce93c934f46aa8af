use crate::sys::{self, size};
use crate::RootKey;
use core::fmt;

/// What the sessions of a device have room for: pieces, bytes of a piece, and rows, so many lost pieces as coded fragments can
/// make good.
#[derive(Clone, Copy, Debug, PartialEq, Eq)]
pub enum DeviceSize {
    /// 256 pieces of 48 bytes, 16 rows.
    Small,
    /// 1,024 pieces of 48 bytes, 64 rows.
    Middle,
    /// 4,096 pieces, 256 rows, and pieces of up to 239 bytes.
    Large,
}

impl DeviceSize {
    /// The number of the header.
    pub(crate) fn number(self) -> u8 {
        match self {
            DeviceSize::Small => size::SIZE_SMALL,
            DeviceSize::Middle => size::SIZE_MIDDLE,
            DeviceSize::Large => size::SIZE_LARGE,
        }
    }
}

/// The image formats that a device knows.
#[derive(Clone, Copy, Debug, PartialEq, Eq)]
pub enum Formats {
    /// Format 1 alone.
    First,
    /// Both.
    Both,
}

/// When a device hears unicast payloads.
#[derive(Clone, Copy, Debug, PartialEq, Eq)]
pub enum DeviceClass {
    /// In the two windows after its uplink.
    A,
    /// Always.
    C,
}

/// How a device is set up.
#[derive(Clone, Copy, Debug)]
pub struct Config {
    /// What its sessions have room for.
    pub size: DeviceSize,
    /// Its hardware version.
    pub hw: u32,
    /// Seconds that its clock is ahead of true time.
    pub offset: u32,
    /// Bytes of the file area of a session, 1 to 262,382.
    pub area: u32,
    /// The one descriptor that its sessions take; any, at None.
    pub descriptor: Option<u32>,
    /// Rows for the coded fragments of a session, 0 to those of its size.
    pub rows: u16,
    /// The image formats that it knows.
    pub formats: Formats,
    /// Session indices, 1 to 4.
    pub sessions: u8,
    /// Multicast groups, 1 to 4.
    pub groups: u8,
    /// When it hears unicast payloads.
    pub class: DeviceClass,
    /// Its key.
    pub root: RootKey,
}

impl Config {
    pub(crate) fn fields(&self) -> sys::Config {
        sys::Config {
            hw: self.hw,
            offset: self.offset,
            area: self.area,
            descriptor: self.descriptor.unwrap_or(0),
            rows: self.rows,
            formats: match self.formats {
                Formats::First => 1,
                Formats::Both => 2,
            },
            sessions: self.sessions,
            groups: self.groups,
            has_descriptor: self.descriptor.is_some(),
            is_class_c: self.class == DeviceClass::C,
            is_v11: self.root.is_v11(),
            key: self.root.bytes(),
        }
    }
}

/// A flash in which the sessions of a device are held: bytes that the library copies.
#[derive(Clone, Copy)]
pub struct Flash<'a> {
    /// The bytes of each session, at least 24,640; in [`LONGEST_SPAN`](crate::LONGEST_SPAN) each session has room.
    pub span: u32,
    /// The bytes of the flash, at least four spans. A new flash is zeros.
    pub bytes: &'a [u8],
}

/// What was kept of a device, for another one that goes on.
#[derive(Clone, Copy)]
pub struct Kept<'a> {
    /// The bytes of [`Device::save`](crate::Device::save).
    pub saved: &'a [u8],
    /// The file of the firmware that runs; no bytes where there was none.
    pub running: &'a [u8],
    /// The file that was received to run next; no bytes where there was none.
    pub next: &'a [u8],
}

impl fmt::Debug for Flash<'_> {
    fn fmt(&self, f: &mut fmt::Formatter<'_>) -> fmt::Result {
        let mut text = f.debug_struct("Flash");
        text.field("span", &self.span);
        text.field("bytes", &self.bytes.len());
        text.finish()
    }
}

/// The lengths alone, since what a device saves holds the keys of its groups.
impl fmt::Debug for Kept<'_> {
    fn fmt(&self, f: &mut fmt::Formatter<'_>) -> fmt::Result {
        let mut text = f.debug_struct("Kept");
        text.field("saved", &self.saved.len());
        text.field("running", &self.running.len());
        text.field("next", &self.next.len());
        text.finish()
    }
}
