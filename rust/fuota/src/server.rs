use crate::error::{done, error_of, told};
use crate::plan::MAX_DEVICES;
use crate::sys::{self, answer, request, stage_kind};
use crate::version::known_library;
use crate::{Bytes, Downlink, Error, Field, Plan, RootKey};
use core::fmt;

/// The bytes that a server saves. There is no key among them.
pub type SavedServer = Bytes<{ sys::SAVED_SERVER }>;

/// A multicast frame.
pub type Frame = Bytes<{ sys::MAX_FRAME }>;

/// Where a device stands.
#[derive(Clone, Copy, Debug, PartialEq, Eq)]
pub enum Stage {
    /// The answer to the request is what moves it on.
    At(Request),
    /// It runs the campaign's image.
    Updated,
    /// Its answer to the request refused the campaign.
    Stopped {
        /// The request.
        request: Request,
        /// The bits of the refusal.
        bits: u8,
    },
}

/// What a server asks of a device.
#[derive(Clone, Copy, Debug, PartialEq, Eq)]
pub enum Request {
    /// Its firmware version, at first.
    Version,
    /// To take the multicast group.
    Group,
    /// To take the session of fragments.
    Fragments,
    /// To take the class session.
    Window,
    /// What it misses.
    Status,
    /// What its image is.
    Image,
    /// To reboot.
    Reboot,
    /// Its firmware version, after the reboot.
    Check,
}

impl Request {
    fn of(number: u8) -> Option<Self> {
        Some(match number {
            request::REQUEST_VERSION => Request::Version,
            request::REQUEST_GROUP => Request::Group,
            request::REQUEST_FRAGMENTS => Request::Fragments,
            request::REQUEST_WINDOW => Request::Window,
            request::REQUEST_STATUS => Request::Status,
            request::REQUEST_IMAGE => Request::Image,
            request::REQUEST_REBOOT => Request::Reboot,
            request::REQUEST_CHECK => Request::Check,
            _ => return None,
        })
    }
}

impl Stage {
    /// The stage that the library has written; None where it is none that it gives.
    fn of(fields: &sys::Stage) -> Option<Self> {
        match fields.stage {
            stage_kind::AT => Request::of(fields.request).map(Stage::At),
            stage_kind::UPDATED => Some(Stage::Updated),
            stage_kind::STOPPED => Request::of(fields.request)
                .map(|request| Stage::Stopped { request, bits: fields.bits }),
            _ => None,
        }
    }
}

/// What a device told in its last FragSessionStatusAns for the campaign's session.
#[derive(Clone, Copy, Debug, PartialEq, Eq)]
pub struct LastStatus {
    /// Fragments that it heard, repeats included, at most 16,383.
    pub received: u16,
    /// Pieces that it missed, at most 255, which stands for more too.
    pub missing: u8,
    /// It had too little memory for the matrix.
    pub is_without_rows: bool,
}

/// The server of a campaign. Its devices are numbered from 1; a number that the plan does not have is [`Error::Range`], and then
/// nothing changes.
///
/// ```
/// use fuota::{Key, Plan, Request, RootKey, Server, Stage};
/// # let image = std::fs::read("../../crates/fuota/data/image.fuim")?;
///
/// let plan = Plan { frag_size: 13, parity: 4, index: 0, group: None };
/// let mut server = Server::new(&plan, &[RootKey::GenAppKey(Key([0; 16]))], &image)?;
/// while let Some(fragment) = server.next_fragment()? {
///     assert_eq!(fragment.port, 201); // and it goes out
/// }
/// let asked = server.ask(1)?.ok_or("nothing is asked")?;
/// assert_eq!(asked.payload[..], [0x01]); // DevVersionReq
/// assert_eq!(server.ledger(1)?, Stage::At(Request::Version));
/// # Ok::<(), Box<dyn std::error::Error>>(())
/// ```
pub struct Server {
    handle: sys::Server,
}

impl Server {
    /// A server at the start of a campaign. [`Error::NoImage`] where the image is no image file; [`Error::Plan`] where a field
    /// of the plan is wrong, with the first of them, or there are not 1 to 64 devices; [`Error::NoMemory`].
    pub fn new(plan: &Plan, devices: &[RootKey], image: &[u8]) -> Result<Self, Error> {
        Self::made(plan, devices, |handle, plan, devices, field| {
            sys::server_new(handle, plan, devices, image, field)
        })
    }

    /// The server of this plan, devices and image that saved these bytes. Errors as [`new`](Server::new), and
    /// [`Error::Corrupt`] where no such server saved them.
    pub fn restore(
        plan: &Plan,
        devices: &[RootKey],
        image: &[u8],
        saved: &[u8],
    ) -> Result<Self, Error> {
        Self::made(plan, devices, |handle, plan, devices, field| {
            sys::server_restore(handle, plan, devices, image, saved, field)
        })
    }

    /// The server that a call puts into its handle.
    fn made(
        plan: &Plan,
        devices: &[RootKey],
        make: impl FnOnce(&mut sys::Server, &sys::Plan, &[sys::PlanDevice], &mut u8) -> u8,
    ) -> Result<Self, Error> {
        known_library()?;
        let mut server = Self { handle: sys::Server::none() };
        // (one more than a plan may have: more of them are as wrong as these)
        let mut told = [NO_DEVICE; MAX_DEVICES + 1];
        let mut count = 0;
        for (place, root) in told.iter_mut().zip(devices) {
            *place = sys::PlanDevice { key: root.bytes(), is_v11: root.is_v11() };
            count += 1;
        }
        let told = told.get(..count).unwrap_or(&[]);
        let mut field = 0;
        match make(&mut server.handle, &plan.fields(), told, &mut field) {
            answer::DONE => Ok(server),
            answer::RANGE => Err(Field::error(field)),
            answer::REFUSED => Err(Error::NoImage),
            other => Err(error_of(other)),
        }
    }

    /// The next fragment to all devices; None where all were sent. [`Error::Spent`].
    pub fn next_fragment(&mut self) -> Result<Option<Downlink>, Error> {
        let mut out = Downlink::empty();
        let number = sys::fuota_server_next_fragment(&mut self.handle, &mut out);
        told(number, || Downlink::of(&out))
    }

    /// FragSessionStatusReq to all devices, answered by those that miss a fragment. [`Error::Spent`].
    pub fn status_all(&mut self) -> Result<Downlink, Error> {
        let mut out = Downlink::empty();
        done(sys::fuota_server_status_all(&mut self.handle, &mut out))?;
        Ok(Downlink::of(&out))
    }

    /// A payload to the group as its multicast frame of LoRaWAN 1.0.x; None where it is not to the plan's group, or for port 0.
    /// A network server that is given payloads makes the frames itself.
    pub fn frame(&self, down: &Downlink) -> Option<Frame> {
        let mut into = [0; sys::MAX_FRAME];
        match sys::server_frame(&self.handle, &down.fields(), &mut into) {
            0 => None,
            count => Some(Bytes::front(into, count)),
        }
    }

    /// What the server asks of a device now, by unicast; it is sent again when no answer comes. None where the device is
    /// updated, or has stopped.
    pub fn ask(&self, dev: u8) -> Result<Option<Downlink>, Error> {
        let mut out = Downlink::empty();
        let number = sys::fuota_server_ask(&self.handle, dev, &mut out);
        told(number, || Downlink::of(&out))
    }

    /// An uplink of a device came on a port, at `t` ms of GPS time, and moves its stage: the answer to send to it, or None where
    /// none is due. [`Error::NoCommands`] where the payload spells none; [`Error::Range`] also at more than
    /// [`MAX_PAYLOAD`](crate::MAX_PAYLOAD) bytes.
    pub fn uplink(
        &mut self,
        dev: u8,
        port: u8,
        payload: &[u8],
        t: u64,
    ) -> Result<Option<Downlink>, Error> {
        let mut out = Downlink::empty();
        let number = sys::server_uplink(&mut self.handle, dev, port, payload, t, &mut out);
        told(number, || Downlink::of(&out))
    }

    /// Where a device stands.
    pub fn ledger(&self, dev: u8) -> Result<Stage, Error> {
        let mut out = sys::Stage::default();
        done(sys::fuota_server_ledger(&self.handle, dev, &mut out))?;
        Stage::of(&out).ok_or(Error::Version)
    }

    /// What a device told last of the campaign's session; None where it told nothing.
    pub fn last_status(&self, dev: u8) -> Result<Option<LastStatus>, Error> {
        let mut out = sys::Status::default();
        let number = sys::fuota_server_last_status(&self.handle, dev, &mut out);
        told(number, || LastStatus {
            received: out.received,
            missing: out.missing,
            is_without_rows: out.norows,
        })
    }

    /// The number of the fragment that is sent next, from 1; where all were sent, one more than that of the last.
    pub fn fragment_number(&self) -> u16 {
        let mut number = 0;
        sys::fuota_server_fragment_number(&self.handle, &mut number);
        number
    }

    /// The group's next frame count, from its `min` to its `max`, where none is left; 0 without a group.
    pub fn frame_count(&self) -> u32 {
        let mut count = 0;
        sys::fuota_server_frame_count(&self.handle, &mut count);
        count
    }

    /// What the server knows, as bytes for [`restore`](Server::restore). They are saved before the payload of a call goes out.
    pub fn save(&self) -> SavedServer {
        let mut into = [0; sys::SAVED_SERVER];
        let count = sys::server_save(&self.handle, &mut into);
        Bytes::front(into, count)
    }
}

const NO_DEVICE: sys::PlanDevice = sys::PlanDevice { key: [0; 16], is_v11: false };

impl Drop for Server {
    fn drop(&mut self) {
        sys::fuota_server_free(&mut self.handle);
    }
}

impl fmt::Debug for Server {
    fn fmt(&self, f: &mut fmt::Formatter<'_>) -> fmt::Result {
        f.debug_struct("Server").finish_non_exhaustive()
    }
}
