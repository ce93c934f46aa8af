use crate::sys::{self, VERSION_MAJOR, VERSION_MINOR, VERSION_PATCH};
use crate::Error;
use core::fmt;

/// A version of the library. Another major number, or minor one while the major is 0, is another interface.
#[derive(Clone, Copy, Debug, PartialEq, Eq, PartialOrd, Ord)]
pub struct Version {
    /// The first number.
    pub major: u32,
    /// The second, at most 255.
    pub minor: u32,
    /// The third, at most 255.
    pub patch: u32,
}

/// That of the header that this crate is for.
const HERE: Version = Version { major: VERSION_MAJOR, minor: VERSION_MINOR, patch: VERSION_PATCH };

impl Version {
    fn of(number: u32) -> Self {
        Self { major: number >> 16, minor: number >> 8 & 255, patch: number & 255 }
    }

    /// Whether two libraries of these versions have the same interface.
    fn is_as(&self, other: &Version) -> bool {
        self.major == other.major && (self.major > 0 || self.minor == other.minor)
    }
}

impl fmt::Display for Version {
    fn fmt(&self, f: &mut fmt::Formatter<'_>) -> fmt::Result {
        write!(f, "{}.{}.{}", self.major, self.minor, self.patch)
    }
}

/// The version of the library that is linked.
pub fn version() -> Version {
    Version::of(sys::fuota_version())
}

/// The bits of a pointer on the processor for which the library was built, 64 or 32.
pub fn pointer_bits() -> u32 {
    sys::fuota_pointer_bits()
}

/// What makes an object asks for this first, so that no other call meets another interface.
pub(crate) fn known_library() -> Result<(), Error> {
    if version().is_as(&HERE) {
        Ok(())
    } else {
        Err(Error::Version)
    }
}

#[cfg(test)]
mod tests {
    use super::Version;

    #[test]
    fn another_major_or_first_minor_number_is_another_interface() {
        let tries = [
            (0x0000_0100, 0x0000_0100, true),
            (0x0000_0100, 0x0000_01ff, true),
            (0x0000_0100, 0x0000_0000, false),
            (0x0000_0100, 0x0000_0200, false),
            (0x0000_0100, 0x0001_0100, false),
            (0x0002_0100, 0x0002_0001, true),
            (0x0002_0100, 0x0003_0100, false),
        ];
        for (one, other, same) in tries {
            assert_eq!(Version::of(one).is_as(&Version::of(other)), same, "{one:x} {other:x}");
        }
    }
}
