use crate::error::done;
use crate::{sys, Bytes, Error};

/// The most bytes of a payload.
pub(crate) const MAX: usize = 242;

/// The bytes of a payload.
pub type Payload = Bytes<MAX>;

/// How a payload goes to devices.
#[derive(Clone, Copy, Debug, Default, PartialEq, Eq)]
pub enum Via {
    /// To one device.
    #[default]
    Unicast,
    /// To a multicast group.
    Group {
        /// McAddr.
        addr: u32,
        /// The whole frame count.
        count: u32,
    },
}

impl Via {
    fn of(is_group: bool, addr: u32, count: u32) -> Self {
        if is_group {
            Via::Group { addr, count }
        } else {
            Via::Unicast
        }
    }

    /// Whether it goes to a group, and the group's address and frame count, 0 where it does not.
    pub(crate) fn parts(&self) -> (bool, u32, u32) {
        match *self {
            Via::Unicast => (false, 0, 0),
            Via::Group { addr, count } => (true, addr, count),
        }
    }
}

/// A payload on its way to devices.
#[derive(Clone, Copy, Debug, PartialEq, Eq)]
pub struct Downlink {
    /// The port.
    pub port: u8,
    /// To whom it goes.
    pub via: Via,
    /// Its bytes.
    pub payload: Payload,
}

impl Downlink {
    /// The struct that a call of the library writes into.
    pub(crate) fn empty() -> sys::Down {
        sys::Down { length: 0, addr: 0, count: 0, port: 0, is_group: false, payload: [0; MAX] }
    }

    pub(crate) fn of(down: &sys::Down) -> Self {
        Self {
            port: down.port,
            via: Via::of(down.is_group, down.addr, down.count),
            payload: Bytes::front(down.payload, down.length),
        }
    }

    /// FragSessionDeleteReq, by which a device deletes the session of an index. [`Error::Range`] above 3.
    pub fn frag_session_delete(index: u8) -> Result<Self, Error> {
        Self::request(|out| sys::fuota_frag_session_delete(index, out))
    }

    /// McGroupDeleteReq, by which a device deletes the group of an id. [`Error::Range`] above 3.
    ///
    /// ```
    /// let asked = fuota::Downlink::mc_group_delete(2).unwrap();
    /// assert_eq!((asked.port, asked.payload.as_ref()), (200, &[3, 2][..]));
    /// ```
    pub fn mc_group_delete(id: u8) -> Result<Self, Error> {
        Self::request(|out| sys::fuota_mc_group_delete(id, out))
    }

    /// DevDeleteImageReq, by which a device deletes the image of a firmware version that it has received and does not run.
    pub fn dev_delete_image(version: u32) -> Result<Self, Error> {
        Self::request(|out| sys::fuota_dev_delete_image(version, out))
    }

    /// ForceDeviceResyncReq, after which a device asks for the time so many times. [`Error::Range`] above 7.
    pub fn force_device_resync(count: u8) -> Result<Self, Error> {
        Self::request(|out| sys::fuota_force_device_resync(count, out))
    }

    fn request(ask: impl FnOnce(&mut sys::Down) -> u8) -> Result<Self, Error> {
        let mut out = Self::empty();
        done(ask(&mut out))?;
        Ok(Self::of(&out))
    }

    pub(crate) fn fields(&self) -> sys::Down {
        let (is_group, addr, count) = self.via.parts();
        let (payload, length) = self.payload.parts();
        sys::Down { length, addr, count, port: self.port, is_group, payload }
    }
}

/// A payload that a device sends.
#[derive(Clone, Copy, Debug, PartialEq, Eq)]
pub struct Uplink {
    /// When it is sent, in ms of true time.
    pub due: u64,
    /// The port.
    pub port: u8,
    /// Its bytes.
    pub payload: Payload,
}

impl Uplink {
    /// The struct that a call of the library writes into.
    pub(crate) fn empty() -> sys::Uplink {
        sys::Uplink { due: 0, length: 0, port: 0, payload: [0; MAX] }
    }

    pub(crate) fn of(up: &sys::Uplink) -> Self {
        Self { due: up.due, port: up.port, payload: Bytes::front(up.payload, up.length) }
    }
}
