use crate::bytes::written;
use crate::error::done;
use crate::sys::{self, answer, size};
use crate::version::known_library;
use crate::{Error, View};
use core::fmt;

/// What a receiver has room for: pieces, bytes of a piece, and rows, so many lost pieces as coded fragments can make good.
/// `docs/SAMPLES.md` says what memory each takes.
#[derive(Clone, Copy, Debug, PartialEq, Eq)]
pub enum ReceiverSize {
    /// 256 pieces of 48 bytes, 16 rows.
    Small,
    /// 1,024 pieces of 48 bytes, 64 rows.
    Middle,
    /// 4,096 pieces of 64 bytes, 256 rows.
    Large,
}

impl ReceiverSize {
    fn number(self) -> u8 {
        match self {
            ReceiverSize::Small => size::SIZE_SMALL,
            ReceiverSize::Middle => size::SIZE_MIDDLE,
            ReceiverSize::Large => size::SIZE_LARGE,
        }
    }
}

/// The fields of FragSessionSetupReq (TS004).
#[derive(Clone, Copy, Debug, Default, PartialEq, Eq)]
pub struct Setup {
    /// Any.
    pub descriptor: u32,
    /// Pieces, from 1.
    pub nb_frag: u16,
    /// Bytes of a piece, from 1; longer than the size says where there are fewer pieces, as long as they and the rows have room.
    pub frag_size: u8,
    /// 0.
    pub index: u8,
    /// Multicast groups that feed the session: bit 0 to 3; the others say nothing.
    pub mask: u8,
    /// 0.
    pub algo: u8,
    /// BlockAckDelay; any value, it is for who sends the answer.
    pub delay: u8,
    /// Zero bytes at the end of the last piece, fewer than `frag_size`.
    pub padding: u8,
}

impl Setup {
    fn fields(&self) -> sys::Setup {
        sys::Setup {
            descriptor: self.descriptor,
            nb_frag: self.nb_frag,
            frag_size: self.frag_size,
            index: self.index,
            mask: self.mask,
            algo: self.algo,
            delay: self.delay,
            padding: self.padding,
        }
    }
}

/// A setup was refused, for one reason or more: the bits of FragSessionSetupAns.
#[derive(Clone, Copy, Debug, PartialEq, Eq)]
pub struct Refusal {
    bits: u8,
}

impl Refusal {
    const CODING: u8 = 1;
    const NO_ROOM: u8 = 2;
    const INDEX: u8 = 4;
    const DESCRIPTOR: u8 = 8;

    /// The bits, as the answer has them.
    pub fn bits(&self) -> u8 {
        self.bits
    }

    /// The coding is not known.
    pub fn is_coding(&self) -> bool {
        self.has(Self::CODING)
    }

    /// There is no room for the pieces.
    pub fn is_no_room(&self) -> bool {
        self.has(Self::NO_ROOM)
    }

    /// There is no such index.
    pub fn is_index(&self) -> bool {
        self.has(Self::INDEX)
    }

    /// The descriptor is another one.
    pub fn is_descriptor(&self) -> bool {
        self.has(Self::DESCRIPTOR)
    }

    fn has(&self, bit: u8) -> bool {
        self.bits & bit != 0
    }
}

impl fmt::Display for Refusal {
    fn fmt(&self, f: &mut fmt::Formatter<'_>) -> fmt::Result {
        let reasons = [
            (Self::CODING, "the coding is not known"),
            (Self::NO_ROOM, "there is no room for the pieces"),
            (Self::INDEX, "there is no such index"),
            (Self::DESCRIPTOR, "the descriptor is another one"),
        ];
        f.write_str("the setup is refused")?;
        let mut before = ": ";
        for (bit, words) in reasons {
            if self.has(bit) {
                write!(f, "{before}{words}")?;
                before = ", ";
            }
        }
        Ok(())
    }
}

impl core::error::Error for Refusal {}

/// Who is to answer FragSessionStatusReq: its Participants bit.
#[derive(Clone, Copy, Debug, PartialEq, Eq)]
pub enum Participants {
    /// Each receiver.
    All,
    /// Those that miss a piece.
    Missing,
}

/// A receiver of one file at a time (TS004), with session 0 alone.
pub struct Receiver {
    handle: sys::Receiver,
}

impl Receiver {
    /// A receiver with no session. [`Error::NoMemory`].
    pub fn new(size: ReceiverSize) -> Result<Self, Error> {
        known_library()?;
        let mut receiver = Self { handle: sys::Receiver::none() };
        done(sys::fuota_receiver_new(&mut receiver.handle, size.number()))?;
        Ok(receiver)
    }

    /// Takes FragSessionSetupReq. A setup equal to that of the session keeps all that was heard, and another begins anew; at a
    /// refusal all is as it was.
    pub fn set_up(&mut self, setup: &Setup) -> Result<(), Refusal> {
        match sys::fuota_receiver_set_up(&mut self.handle, &setup.fields()) {
            0 => Ok(()),
            // (never the number for no receiver: there is one)
            bits => Err(Refusal { bits }),
        }
    }

    /// Hears a payload of port 201 that came by unicast: a DataFragment of session 0, and anything else is passed over. `mark`
    /// is the caller's own. [`Error::Range`] at more than [`MAX_PAYLOAD`](crate::MAX_PAYLOAD) bytes.
    pub fn hear(&mut self, payload: &[u8], mark: u64) -> Result<(), Error> {
        done(sys::receiver_hear(&mut self.handle, payload, mark))
    }

    /// What the session shows; None without one.
    pub fn view(&self) -> Option<View> {
        let mut out = sys::View::default();
        match sys::fuota_receiver_view(&self.handle, &mut out) {
            answer::DONE => View::of(&out),
            _ => None,
        }
    }

    /// Copies bytes of the whole file, from the offset on, as many as there are and have room, and gives those; none before
    /// the file is whole.
    pub fn file<'b>(&self, offset: usize, into: &'b mut [u8]) -> &'b [u8] {
        let count = sys::receiver_file(&self.handle, offset as u64, into);
        written(into, count)
    }

    /// FragSessionStatusAns, as the bytes to send; None where none is to be sent.
    pub fn status(&self, asked: Participants) -> Option<[u8; 5]> {
        let mut answer = [0; 5];
        match sys::receiver_status(&self.handle, asked == Participants::All, &mut answer) {
            5 => Some(answer),
            _ => None,
        }
    }
}

impl Drop for Receiver {
    fn drop(&mut self) {
        sys::fuota_receiver_free(&mut self.handle);
    }
}

impl fmt::Debug for Receiver {
    fn fmt(&self, f: &mut fmt::Formatter<'_>) -> fmt::Result {
        f.debug_struct("Receiver").finish_non_exhaustive()
    }
}
