use crate::Error;
use core::fmt;
use core::ops::Deref;

/// At most `N` bytes, in the order in which they are sent or stored.
#[derive(Clone, Copy)]
pub struct Bytes<const N: usize> {
    whole: [u8; N],
    length: usize,
}

impl<const N: usize> Bytes<N> {
    /// The first bytes of an array, as a call of the library wrote them.
    pub(crate) fn front(whole: [u8; N], length: u64) -> Self {
        Self { whole, length: within(length, N) }
    }

    /// The array, and how many bytes of it count.
    pub(crate) fn parts(&self) -> ([u8; N], u64) {
        (self.whole, self.length as u64)
    }

    /// The bytes.
    pub fn as_slice(&self) -> &[u8] {
        self.whole.get(..self.length).unwrap_or(&[])
    }
}

/// A count of the library that is at most the room that it was given.
pub(crate) fn within(count: u64, room: usize) -> usize {
    usize::try_from(count).map_or(room, |count| count.min(room))
}

/// The bytes that a call of the library has written at the front of `into`.
pub(crate) fn written(into: &mut [u8], count: u64) -> &[u8] {
    let count = within(count, into.len());
    into.get(..count).unwrap_or(&[])
}

/// [`Error::Range`] where there are more than `N`.
impl<const N: usize> TryFrom<&[u8]> for Bytes<N> {
    type Error = Error;

    fn try_from(bytes: &[u8]) -> Result<Self, Error> {
        let mut whole = [0; N];
        let front = whole.get_mut(..bytes.len()).ok_or(Error::Range)?;
        for (place, byte) in front.iter_mut().zip(bytes) {
            *place = *byte;
        }
        Ok(Self { whole, length: bytes.len() })
    }
}

impl<const N: usize> Deref for Bytes<N> {
    type Target = [u8];

    fn deref(&self) -> &[u8] {
        self.as_slice()
    }
}

impl<const N: usize> AsRef<[u8]> for Bytes<N> {
    fn as_ref(&self) -> &[u8] {
        self.as_slice()
    }
}

impl<const N: usize> PartialEq for Bytes<N> {
    fn eq(&self, other: &Self) -> bool {
        self.as_slice() == other.as_slice()
    }
}

impl<const N: usize> Eq for Bytes<N> {}

impl<const N: usize> fmt::Debug for Bytes<N> {
    fn fmt(&self, f: &mut fmt::Formatter<'_>) -> fmt::Result {
        self.as_slice().fmt(f)
    }
}
