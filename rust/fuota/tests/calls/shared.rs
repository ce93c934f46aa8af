//! What the tests share: how their devices are set up, and the image file that lies beside the program.

use fuota::{Config, DeviceClass, DeviceSize, Formats, Key, Moment, RootKey};
use std::path::{Path, PathBuf};

/// The top of the repository.
pub fn top() -> PathBuf {
    Path::new(env!("CARGO_MANIFEST_DIR")).join("../..")
}

/// An image file of 52 bytes, of firmware version 2 for hardware 1.
pub fn image() -> Vec<u8> {
    std::fs::read(top().join("crates/fuota/data/image.fuim"))
        .expect("the image of the program's example")
}

pub fn key() -> RootKey {
    RootKey::GenAppKey(Key([0; 16]))
}

/// A device of class C for hardware 1, with one session and one group.
pub fn config() -> Config {
    Config {
        size: DeviceSize::Large,
        hw: 1,
        offset: 0,
        area: 12_288,
        descriptor: None,
        rows: 16,
        formats: Formats::Both,
        sessions: 1,
        groups: 1,
        class: DeviceClass::C,
        root: key(),
    }
}

pub fn at(t: u64, mark: u64) -> Moment {
    Moment { t, word: 0, mark }
}

/// FragSessionSetupReq of session 0: 3 pieces of 2 bytes, of which the last has a byte of padding.
pub const SETUP: [u8; 11] = [2, 0, 3, 0, 2, 0, 1, 7, 0, 0, 0];
/// Its pieces 1 and 3, and a coded fragment, which is piece 2 alone.
pub const FRAGMENTS: [[u8; 5]; 3] =
    [[8, 1, 0, 0x11, 0x22], [8, 3, 0, 0x55, 0], [8, 4, 0, 0x33, 0x44]];
/// The file that they make.
pub const FILE: [u8; 5] = [0x11, 0x22, 0x33, 0x44, 0x55];
