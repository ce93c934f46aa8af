use crate::bytes::written;
use crate::error::{done, error_of, told};
use crate::sys::{self, answer, image};
use crate::version::known_library;
use crate::{Config, Error, Flash, Kept, Uplink, Via, View};
use core::fmt;

/// When a payload comes, with what the caller gives to it.
#[derive(Clone, Copy, Debug, Default, PartialEq, Eq)]
pub struct Moment {
    /// ms of true time, at most 4,294,967,295,999; `docs/SAMPLES.md` says where from.
    pub t: u64,
    /// 32 random bits.
    pub word: u32,
    /// The caller's own: the number at which a verdict is marked.
    pub mark: u64,
}

/// What became of a payload that was brought to a device. Those that did not act are counted.
#[derive(Clone, Copy, Debug, PartialEq, Eq)]
pub enum Delivered {
    /// Its commands acted.
    Acted,
    /// The device did not hear it.
    Deaf,
    /// It spells no commands.
    Refused,
    /// The device would hold more than 8 uplinks, and nothing acted.
    Full,
}

impl Delivered {
    fn of(number: u8) -> Result<Self, Error> {
        match number {
            answer::DONE => Ok(Delivered::Acted),
            answer::DEAF => Ok(Delivered::Deaf),
            answer::REFUSED => Ok(Delivered::Refused),
            answer::FULL => Ok(Delivered::Full),
            other => Err(error_of(other)),
        }
    }
}

/// Payloads that did not act, and fragments that no session heard.
#[derive(Clone, Copy, Debug, Default, PartialEq, Eq)]
pub struct Counts {
    /// Payloads that were not heard, and bytes that were no frame for the device.
    pub deaf: u64,
    /// Payloads that spell no commands.
    pub refused: u64,
    /// Payloads whose answers had no room.
    pub full: u64,
    /// Fragments that no session heard.
    pub dropped: u64,
}

/// What was received to run next is to the device.
#[derive(Clone, Copy, Debug, PartialEq, Eq)]
pub enum NextImage {
    /// There is none.
    None,
    /// No image file.
    Corrupt,
    /// An image file for other hardware.
    Incompatible,
    /// An image file that runs after the reboot.
    Valid {
        /// Its firmware version.
        version: u32,
    },
}

/// The bytes that a device saves. They hold the keys of its groups, so `Debug` does not show them.
#[derive(Clone)]
pub struct SavedDevice([u8; sys::SAVED_DEVICE]);

impl SavedDevice {
    /// The bytes.
    pub fn as_bytes(&self) -> &[u8; sys::SAVED_DEVICE] {
        &self.0
    }
}

impl AsRef<[u8]> for SavedDevice {
    fn as_ref(&self) -> &[u8] {
        &self.0
    }
}

impl fmt::Debug for SavedDevice {
    fn fmt(&self, f: &mut fmt::Formatter<'_>) -> fmt::Result {
        f.write_str("SavedDevice(..)")
    }
}

/// A device of all four packages.
///
/// What it keeps outlasts its program where each call is followed by [`save`](Device::save), before its uplinks go out:
///
/// ```
/// use fuota::{Config, Device, DeviceClass, DeviceSize, Formats, Kept, Key, Moment, RootKey, Via};
///
/// let config = Config {
///     size: DeviceSize::Large,
///     hw: 1,
///     offset: 0,
///     area: 4096,
///     descriptor: None,
///     rows: 16,
///     formats: Formats::Both,
///     sessions: 1,
///     groups: 1,
///     class: DeviceClass::C,
///     root: RootKey::GenAppKey(Key([0; 16])),
/// };
/// let mut device = Device::new(&config)?;
/// device.deliver(203, &[0x01], Via::Unicast, &Moment::default())?; // DevVersionReq
/// let saved = device.save();
/// drop(device);
///
/// let kept = Kept { saved: saved.as_bytes(), running: &[], next: &[] };
/// let mut device = Device::restore(&config, &kept)?;
/// let up = device.take_uplink().ok_or("no uplink")?;
/// assert_eq!(up.port, 203);
/// # Ok::<(), Box<dyn std::error::Error>>(())
/// ```
pub struct Device {
    handle: sys::Device,
}

impl Device {
    /// A new device, with all memory that it will ever need. [`Error::Range`] where a number of the configuration is out of
    /// range; [`Error::NoMemory`].
    pub fn new(config: &Config) -> Result<Self, Error> {
        Self::made(config, |handle, size, fields| sys::fuota_device_new(handle, size, fields))
    }

    /// The device of this configuration that has these saved bytes and files. Its sessions lay in memory, and are gone. Errors
    /// as [`new`](Device::new), and [`Error::Corrupt`] where no such device saved them.
    pub fn restore(config: &Config, kept: &Kept<'_>) -> Result<Self, Error> {
        Self::made(config, |handle, size, fields| sys::device_restore(handle, size, fields, kept))
    }

    /// As [`new`](Device::new), of a device whose sessions are held in a flash, and down until [`power`](Device::power).
    /// [`Error::Range`] also where the flash has no room for four spans.
    pub fn new_in_flash(config: &Config, flash: &Flash<'_>) -> Result<Self, Error> {
        Self::made(config, |handle, size, fields| {
            sys::device_new_in_flash(handle, size, fields, flash)
        })
    }

    /// As [`restore`](Device::restore), of a device whose sessions are held in a flash, and down until
    /// [`power`](Device::power). Then they go on.
    pub fn restore_in_flash(
        config: &Config,
        flash: &Flash<'_>,
        kept: &Kept<'_>,
    ) -> Result<Self, Error> {
        Self::made(config, |handle, size, fields| {
            sys::device_restore_in_flash(handle, size, fields, flash, kept)
        })
    }

    /// The device that a call puts into its handle.
    fn made(
        config: &Config,
        make: impl FnOnce(&mut sys::Device, u8, &sys::Config) -> u8,
    ) -> Result<Self, Error> {
        known_library()?;
        let mut device = Self { handle: sys::Device::none() };
        done(make(&mut device.handle, config.size.number(), &config.fields()))?;
        Ok(device)
    }

    /// Opens the sessions that are held in the flash, and offers each file that is whole, and was not when the device was last
    /// up, to run next. It does nothing to a device whose sessions are in memory. [`Error::Flash`], and then they are down.
    pub fn power(&mut self) -> Result<(), Error> {
        told(sys::fuota_device_power(&mut self.handle), || ()).map(|_| ())
    }

    /// A payload comes. A reboot that is due is carried out before it and after it, also where its commands do not act.
    /// [`Error::Down`] where the device's sessions are; [`Error::Range`] at more than [`MAX_PAYLOAD`](crate::MAX_PAYLOAD) bytes
    /// and at a `t` out of range; then nothing changes.
    pub fn deliver(
        &mut self,
        port: u8,
        payload: &[u8],
        via: Via,
        moment: &Moment,
    ) -> Result<Delivered, Error> {
        let (is_group, addr, count) = via.parts();
        let arrival = sys::Arrival {
            t: moment.t,
            mark: moment.mark,
            word: moment.word,
            addr,
            count,
            is_group,
        };
        Delivered::of(sys::device_deliver(&mut self.handle, port, payload, &arrival))
    }

    /// Bytes come that the radio heard. A multicast frame of the group that is heard is as its payload; None at other bytes,
    /// which are counted as deaf. A reboot that is due is carried out. Errors as [`deliver`](Device::deliver), but for the
    /// number of bytes.
    pub fn radio(&mut self, bytes: &[u8], moment: &Moment) -> Result<Option<Delivered>, Error> {
        let Moment { t, word, mark } = *moment;
        match sys::device_radio(&mut self.handle, bytes, t, word, mark) {
            answer::FOREIGN => Ok(None),
            other => Delivered::of(other).map(Some),
        }
    }

    /// The device wakes at `t` ms of true time and asks for the time. A reboot that is due is carried out before and after.
    /// [`Error::Full`] where it holds 8 uplinks; [`Error::Range`] at a `t` out of range, and then no reboot is carried out.
    pub fn wake(&mut self, t: u64) -> Result<(), Error> {
        done(sys::fuota_device_wake(&mut self.handle, t))
    }

    /// Takes the oldest uplink that is held; None where none is.
    pub fn take_uplink(&mut self) -> Option<Uplink> {
        let mut out = Uplink::empty();
        match sys::fuota_device_take_uplink(&mut self.handle, &mut out) {
            answer::DONE => Some(Uplink::of(&out)),
            _ => None,
        }
    }

    /// What the session of an index shows; None without one, and where they are down. [`Error::Range`] above 3.
    pub fn view(&self, index: u8) -> Result<Option<View>, Error> {
        let mut out = sys::View::default();
        let number = sys::fuota_device_view(&self.handle, index, &mut out);
        told(number, || View::of(&out)).map(Option::flatten)
    }

    /// Copies bytes of the whole file of the session of an index, from the offset on, as many as there are and have room, and
    /// gives those; none before the file is whole, and at an index above 3.
    pub fn file<'b>(&self, index: u8, offset: usize, into: &'b mut [u8]) -> &'b [u8] {
        let count = sys::device_file(&self.handle, index, offset as u64, into);
        written(into, count)
    }

    /// The version of the firmware that runs, 0 at first, and another after a reboot into a received image.
    pub fn running(&self) -> u32 {
        let mut version = 0;
        sys::fuota_device_running(&self.handle, &mut version);
        version
    }

    /// Its counters.
    pub fn counts(&self) -> Counts {
        let mut out = sys::Counts::default();
        sys::fuota_device_counts(&self.handle, &mut out);
        Counts { deaf: out.deaf, refused: out.refused, full: out.full, dropped: out.dropped }
    }

    /// What was received to run next.
    pub fn next_image(&self) -> NextImage {
        let mut out = sys::Next { version: 0, state: image::IMAGE_NONE };
        sys::fuota_device_next(&self.handle, &mut out);
        match out.state {
            image::IMAGE_CORRUPT => NextImage::Corrupt,
            image::IMAGE_INCOMPATIBLE => NextImage::Incompatible,
            image::IMAGE_VALID => NextImage::Valid { version: out.version },
            _ => NextImage::None,
        }
    }

    /// Both image formats are known from now on, and what was received to run next is read again.
    pub fn raise_formats(&mut self) {
        sys::fuota_device_raise(&mut self.handle);
    }

    /// What the device knows, as bytes for [`Kept`]. They are saved after a call, before its uplinks go out.
    pub fn save(&self) -> SavedDevice {
        let mut saved = [0; sys::SAVED_DEVICE];
        sys::device_save(&self.handle, &mut saved);
        SavedDevice(saved)
    }

    /// Copies bytes of the image file that runs, from the offset on, as many as there are and have room, and gives those; none
    /// where there is no file.
    pub fn running_file<'b>(&self, offset: usize, into: &'b mut [u8]) -> &'b [u8] {
        let count = sys::device_firmware(&self.handle, false, offset as u64, into);
        written(into, count)
    }

    /// As [`running_file`](Device::running_file), of the file that was received to run next.
    pub fn next_file<'b>(&self, offset: usize, into: &'b mut [u8]) -> &'b [u8] {
        let count = sys::device_firmware(&self.handle, true, offset as u64, into);
        written(into, count)
    }

    /// Copies bytes of the flash, from the offset on, as many as there are and have room, and gives those; none where sessions
    /// are in memory. They are kept with those of [`save`](Device::save), all or none of both.
    pub fn flash<'b>(&self, offset: usize, into: &'b mut [u8]) -> &'b [u8] {
        let count = sys::device_flash(&self.handle, offset as u64, into);
        written(into, count)
    }
}

impl Drop for Device {
    fn drop(&mut self) {
        sys::fuota_device_free(&mut self.handle);
    }
}

impl fmt::Debug for Device {
    fn fmt(&self, f: &mut fmt::Formatter<'_>) -> fmt::Result {
        f.debug_struct("Device").finish_non_exhaustive()
    }
}
