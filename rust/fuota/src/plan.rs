use crate::sys::{self, field};
use crate::{Error, Key};
use core::fmt;

/// The most devices of a plan.
pub(crate) const MAX_DEVICES: usize = 64;

/// What a server is to do, but for its devices.
#[derive(Clone, Copy, Debug)]
pub struct Plan {
    /// Bytes of a piece, 1 to 239; at most 4,096 pieces.
    pub frag_size: u8,
    /// Coded fragments, 0 to 512.
    pub parity: u16,
    /// FragIndex of the session on each device, 0 to 3.
    pub index: u8,
    /// The multicast group to which fragments go; each by unicast, at None.
    pub group: Option<Group>,
}

/// A multicast group of a campaign, with the window in which it is heard.
#[derive(Clone, Copy, Debug)]
pub struct Group {
    /// McGroupID on each device, 0 to 3.
    pub id: u8,
    /// McAddr.
    pub addr: u32,
    /// McKey.
    pub key: Key,
    /// The first frame count that is used, below `max`.
    pub min: u32,
    /// The first frame count that isn't used any more.
    pub max: u32,
    /// When the group is heard.
    pub window: Window,
}

/// When a group is heard.
#[derive(Clone, Copy, Debug, PartialEq, Eq)]
pub struct Window {
    /// The class of the session.
    pub class: WindowClass,
    /// SessionTime.
    pub start: u32,
    /// TimeOut, 0 to 15.
    pub timeout: u8,
    /// DLFrequ, in units of 100 Hz, below 2^24.
    pub freq: u32,
    /// DR.
    pub dr: u8,
}

/// The class of a session in which a group is heard.
#[derive(Clone, Copy, Debug, PartialEq, Eq)]
pub enum WindowClass {
    /// In ping slots.
    B {
        /// Periodicity of the ping slots, 0 to 7.
        periodicity: u8,
    },
    /// All the time.
    C,
}

/// A field of a plan that is wrong. They are looked at in this order.
#[derive(Clone, Copy, Debug, PartialEq, Eq)]
pub enum Field {
    /// The bytes of a piece are not 1 to 239, or cut the image into more than 4,096 pieces.
    FragSize,
    /// There are more than 512 coded fragments.
    Parity,
    /// The index is above 3.
    Index,
    /// The group's id is above 3, or its `min` isn't below its `max`.
    Group,
    /// A field of the window doesn't fit its bits. (That a group has a window is seen to by its type.)
    Window,
    /// There are no devices, or more than 64.
    Devices,
}

impl fmt::Display for Field {
    fn fmt(&self, f: &mut fmt::Formatter<'_>) -> fmt::Result {
        f.write_str(match self {
            Field::FragSize => {
                "a piece has not 1 to 239 bytes, or there are more than 4,096 pieces"
            }
            Field::Parity => "there are more than 512 coded fragments",
            Field::Index => "the index is above 3",
            Field::Group => "the group's id is above 3, or its min is not below its max",
            Field::Window => "a field of the window doesn't fit its bits",
            Field::Devices => "there are not 1 to 64 devices",
        })
    }
}

impl Field {
    /// The error that a wrong field of this number is.
    pub(crate) fn error(number: u8) -> Error {
        Error::Plan(match number {
            field::FIELD_FRAG_SIZE => Field::FragSize,
            field::FIELD_PARITY => Field::Parity,
            field::FIELD_INDEX => Field::Index,
            field::FIELD_GROUP => Field::Group,
            field::FIELD_WINDOW => Field::Window,
            field::FIELD_DEVICES => Field::Devices,
            _ => return Error::Version,
        })
    }
}

impl Plan {
    pub(crate) fn fields(&self) -> sys::Plan {
        let mut plan = sys::Plan {
            addr: 0,
            min: 0,
            max: 0,
            start: 0,
            freq: 0,
            parity: self.parity,
            frag_size: self.frag_size,
            timeout: 0,
            dr: 0,
            periodicity: 0,
            index: self.index,
            id: 0,
            has_group: false,
            has_window: false,
            is_class_b: false,
            key: [0; 16],
        };
        if let Some(group) = &self.group {
            group.fill(&mut plan);
        }
        plan
    }
}

impl Group {
    fn fill(&self, plan: &mut sys::Plan) {
        plan.has_group = true;
        plan.id = self.id;
        plan.addr = self.addr;
        plan.key = self.key.0;
        plan.min = self.min;
        plan.max = self.max;
        plan.has_window = true;
        plan.start = self.window.start;
        plan.timeout = self.window.timeout;
        plan.freq = self.window.freq;
        plan.dr = self.window.dr;
        if let WindowClass::B { periodicity } = self.window.class {
            plan.is_class_b = true;
            plan.periodicity = periodicity;
        }
    }
}
