use crate::sys::answer;
use crate::{Field, Why};
use core::fmt;

/// Why a call did not do what was asked. Nothing changed then, and no object was made, unless the call says otherwise.
///
/// That a handle has no object is no error here: a value of these types has one.
#[derive(Clone, Copy, Debug, PartialEq, Eq)]
#[non_exhaustive]
pub enum Error {
    /// An argument is out of its range; the call says which may be.
    Range,
    /// A field of a plan is wrong: the first of them.
    Plan(Field),
    /// The image is no image file.
    NoImage,
    /// The payload spells no commands.
    NoCommands,
    /// The payload has no text.
    NoText {
        /// The byte at which reading it stops, from 0.
        at: u16,
        /// Why.
        why: Why,
    },
    /// The text has more bytes than there is room for.
    NoRoom {
        /// The bytes of the text.
        length: usize,
    },
    /// There was not enough memory.
    NoMemory,
    /// The device would hold more than 8 uplinks.
    Full,
    /// The frame counts of the group are spent.
    Spent,
    /// The saved bytes are of no object that is so set up.
    Corrupt,
    /// The sessions of the device are down until it gets power.
    Down,
    /// The flash has something at a session's place that is no session's.
    Flash,
    /// The library is not of the version of this crate, as a shared object may be that was put in its place.
    Version,
}

impl fmt::Display for Error {
    fn fmt(&self, f: &mut fmt::Formatter<'_>) -> fmt::Result {
        let words = match self {
            Error::Range => "an argument is out of its range",
            Error::Plan(field) => return write!(f, "the plan is wrong: {field}"),
            Error::NoImage => "the image is no image file",
            Error::NoCommands => "the payload spells no commands",
            Error::NoText { at, why } => return write!(f, "no text at byte {at}: {why}"),
            Error::NoRoom { length } => return write!(f, "no room for a text of {length} bytes"),
            Error::NoMemory => "there was not enough memory",
            Error::Full => "the device would hold more than 8 uplinks",
            Error::Spent => "the frame counts of the group are spent",
            Error::Corrupt => "the saved bytes are of no object that is so set up",
            Error::Down => "the sessions of the device are down until it gets power",
            Error::Flash => "the flash has something at a session's place that is no session's",
            Error::Version => "the library is not of the version of this crate",
        };
        f.write_str(words)
    }
}

impl core::error::Error for Error {}

/// The error that an answer is, where it is none that the call itself looks at.
pub(crate) fn error_of(number: u8) -> Error {
    match number {
        answer::RANGE => Error::Range,
        answer::NO_MEMORY => Error::NoMemory,
        answer::REFUSED => Error::NoCommands,
        answer::FULL => Error::Full,
        answer::SPENT => Error::Spent,
        answer::CORRUPT => Error::Corrupt,
        answer::DOWN => Error::Down,
        answer::FLASH => Error::Flash,
        // (no library of this version gives another one: it has an object, and the calls that answer NO_ROOM, DEAF and
        // FOREIGN look at these themselves)
        _ => Error::Version,
    }
}

/// The result of a call that answers DONE, or with an error.
pub(crate) fn done(number: u8) -> Result<(), Error> {
    match number {
        answer::DONE => Ok(()),
        other => Err(error_of(other)),
    }
}

/// The result of a call that has something to tell at DONE, nothing at NOTHING, or an error.
pub(crate) fn told<T>(number: u8, it: impl FnOnce() -> T) -> Result<Option<T>, Error> {
    match number {
        answer::DONE => Ok(Some(it())),
        answer::NOTHING => Ok(None),
        other => Err(error_of(other)),
    }
}
