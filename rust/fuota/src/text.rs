use crate::bytes::{within, written};
use crate::error::error_of;
use crate::sys::{self, answer, why};
use crate::version::known_library;
use crate::Error;
use core::fmt;

/// Which way a payload goes.
#[derive(Clone, Copy, Debug, PartialEq, Eq)]
pub enum Direction {
    /// From a device.
    Up,
    /// To a device.
    Down,
}

/// Why a payload has no text.
#[derive(Clone, Copy, Debug, PartialEq, Eq)]
pub enum Why {
    /// The port carries no package.
    Port,
    /// No command has this identifier.
    Unknown,
    /// The payload ends within a command.
    Short,
}

impl fmt::Display for Why {
    fn fmt(&self, f: &mut fmt::Formatter<'_>) -> fmt::Result {
        f.write_str(match self {
            Why::Port => "the port carries no package",
            Why::Unknown => "no command has this identifier",
            Why::Short => "the payload ends within a command",
        })
    }
}

/// The commands of a payload of port 200 to 203, each on a line, written into `text`.
///
/// [`Error::NoText`] says where and why reading stops; [`Error::NoRoom`] how many bytes the text has, where they are more than
/// there is room for; [`Error::Range`] comes at more than [`MAX_PAYLOAD`](crate::MAX_PAYLOAD) bytes. The longest text of a
/// payload has some thousand bytes.
///
/// ```
/// use fuota::{decode, Direction, Error, Why};
///
/// let mut text = [0; 200];
/// assert_eq!(decode(203, Direction::Down, &[0x01], &mut text), Ok("DevVersionReq\n"));
/// let refused = decode(201, Direction::Up, &[0x01, 0x02, 0x00, 0x01], &mut text);
/// assert_eq!(refused, Err(Error::NoText { at: 4, why: Why::Short }));
/// ```
pub fn decode<'t>(
    port: u8,
    direction: Direction,
    payload: &[u8],
    text: &'t mut [u8],
) -> Result<&'t str, Error> {
    known_library()?;
    let mut out = sys::Decoded::default();
    match sys::decode(port, direction == Direction::Up, payload, text, &mut out) {
        answer::DONE => core::str::from_utf8(written(text, out.length)).map_err(|_| Error::Version),
        answer::REFUSED => Err(refused(&out)),
        answer::NO_ROOM => Err(Error::NoRoom { length: within(out.length, usize::MAX) }),
        other => Err(error_of(other)),
    }
}

fn refused(out: &sys::Decoded) -> Error {
    let why = match out.why {
        why::WHY_PORT => Why::Port,
        why::WHY_UNKNOWN => Why::Unknown,
        why::WHY_SHORT => Why::Short,
        why::WHY_TOO_LONG => return Error::Range,
        _ => return Error::Version,
    };
    Error::NoText { at: out.at, why }
}
