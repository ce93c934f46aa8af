//! The calls. Those that take bytes by a pointer and a number have a function before them that takes a slice.
//!
//! Each call is proved to do nothing undefined with any argument that its types allow, as long as the caller keeps what the
//! head of `c/fuota.h` says. Of that the types keep all but stack and allocator, which the crate's documentation leaves to
//! its user: a reference is to a value that is set and that nothing else reads or writes during the call, a slice's pointer
//! is not null, a bool is 0 or 1, and a handle is neither copied nor sent to another thread.

use super::{
    Arrival, Config, Counts, Decoded, Device, Down, Next, Plan, PlanDevice, Receiver, Server,
    Setup, Stage, Status, Uplink, View,
};
use crate::{Flash, Kept};

// SAFETY: each declaration is that of the header, with a reference for a pointer to one value. Those that are marked safe
// take nothing but numbers and references, so that their types say all that the call asks for.
unsafe extern "C" {
    pub safe fn fuota_version() -> u32;
    pub safe fn fuota_pointer_bits() -> u32;

    pub safe fn fuota_receiver_new(handle: &mut Receiver, size: u8) -> u8;
    pub safe fn fuota_receiver_free(handle: &mut Receiver);
    pub safe fn fuota_receiver_set_up(handle: &mut Receiver, setup: &Setup) -> u8;
    fn fuota_receiver_hear(handle: &mut Receiver, payload: *const u8, length: u64, mark: u64)
        -> u8;
    pub safe fn fuota_receiver_view(handle: &Receiver, out: &mut View) -> u8;
    fn fuota_receiver_file(handle: &Receiver, offset: u64, into: *mut u8, room: u64) -> u64;
    fn fuota_receiver_status(handle: &Receiver, all: bool, answer: *mut u8, room: u64) -> u64;

    pub safe fn fuota_device_new(handle: &mut Device, size: u8, config: &Config) -> u8;
    pub safe fn fuota_device_free(handle: &mut Device);
    fn fuota_device_deliver(
        handle: &mut Device,
        port: u8,
        payload: *const u8,
        length: u64,
        arrival: &Arrival,
    ) -> u8;
    fn fuota_device_radio(
        handle: &mut Device,
        bytes: *const u8,
        length: u64,
        t: u64,
        word: u32,
        mark: u64,
    ) -> u8;
    pub safe fn fuota_device_wake(handle: &mut Device, t: u64) -> u8;
    pub safe fn fuota_device_take_uplink(handle: &mut Device, out: &mut Uplink) -> u8;
    pub safe fn fuota_device_view(handle: &Device, index: u8, out: &mut View) -> u8;
    fn fuota_device_file(handle: &Device, index: u8, offset: u64, into: *mut u8, room: u64) -> u64;
    pub safe fn fuota_device_running(handle: &Device, version: &mut u32) -> u8;
    pub safe fn fuota_device_counts(handle: &Device, out: &mut Counts) -> u8;
    pub safe fn fuota_device_next(handle: &Device, out: &mut Next) -> u8;
    pub safe fn fuota_device_raise(handle: &mut Device) -> u8;
    fn fuota_device_save(handle: &Device, into: *mut u8, room: u64) -> u64;
    fn fuota_device_firmware(
        handle: &Device,
        is_next: bool,
        offset: u64,
        into: *mut u8,
        room: u64,
    ) -> u64;
    fn fuota_device_restore(
        handle: &mut Device,
        size: u8,
        config: &Config,
        saved: *const u8,
        saved_length: u64,
        running: *const u8,
        running_length: u64,
        next: *const u8,
        next_length: u64,
    ) -> u8;
    fn fuota_device_new_in_flash(
        handle: &mut Device,
        size: u8,
        config: &Config,
        span: u32,
        flash: *const u8,
        flash_length: u64,
    ) -> u8;
    fn fuota_device_restore_in_flash(
        handle: &mut Device,
        size: u8,
        config: &Config,
        span: u32,
        flash: *const u8,
        flash_length: u64,
        saved: *const u8,
        saved_length: u64,
        running: *const u8,
        running_length: u64,
        next: *const u8,
        next_length: u64,
    ) -> u8;
    pub safe fn fuota_device_power(handle: &mut Device) -> u8;
    fn fuota_device_flash(handle: &Device, offset: u64, into: *mut u8, room: u64) -> u64;

    fn fuota_server_new(
        handle: &mut Server,
        plan: &Plan,
        devices: *const PlanDevice,
        devices_length: u64,
        image: *const u8,
        image_length: u64,
        field: &mut u8,
    ) -> u8;
    pub safe fn fuota_server_free(handle: &mut Server);
    pub safe fn fuota_server_next_fragment(handle: &mut Server, out: &mut Down) -> u8;
    pub safe fn fuota_server_status_all(handle: &mut Server, out: &mut Down) -> u8;
    fn fuota_server_frame(handle: &Server, down: &Down, into: *mut u8, room: u64) -> u64;
    pub safe fn fuota_server_ask(handle: &Server, dev: u8, out: &mut Down) -> u8;
    fn fuota_server_uplink(
        handle: &mut Server,
        dev: u8,
        port: u8,
        payload: *const u8,
        length: u64,
        t: u64,
        out: &mut Down,
    ) -> u8;
    pub safe fn fuota_server_ledger(handle: &Server, dev: u8, out: &mut Stage) -> u8;
    pub safe fn fuota_server_last_status(handle: &Server, dev: u8, out: &mut Status) -> u8;
    pub safe fn fuota_server_fragment_number(handle: &Server, number: &mut u16) -> u8;
    pub safe fn fuota_server_frame_count(handle: &Server, count: &mut u32) -> u8;
    pub safe fn fuota_mc_app_s_key(mc_key: &[u8; 16], addr: u32, s_key: &mut [u8; 16]);
    pub safe fn fuota_mc_net_s_key(mc_key: &[u8; 16], addr: u32, s_key: &mut [u8; 16]);
    pub safe fn fuota_frag_session_delete(index: u8, out: &mut Down) -> u8;
    pub safe fn fuota_mc_group_delete(id: u8, out: &mut Down) -> u8;
    pub safe fn fuota_dev_delete_image(version: u32, out: &mut Down) -> u8;
    pub safe fn fuota_force_device_resync(count: u8, out: &mut Down) -> u8;
    fn fuota_server_save(handle: &Server, into: *mut u8, room: u64) -> u64;
    fn fuota_server_restore(
        handle: &mut Server,
        plan: &Plan,
        devices: *const PlanDevice,
        devices_length: u64,
        image: *const u8,
        image_length: u64,
        saved: *const u8,
        saved_length: u64,
        field: &mut u8,
    ) -> u8;

    fn fuota_decode(
        port: u8,
        up: bool,
        payload: *const u8,
        length: u64,
        text: *mut u8,
        room: u64,
        out: &mut Decoded,
    ) -> u8;
}

pub fn receiver_hear(handle: &mut Receiver, payload: &[u8], mark: u64) -> u8 {
    // SAFETY: the pointer and the length are of one slice, which is borrowed for the call.
    unsafe { fuota_receiver_hear(handle, payload.as_ptr(), payload.len() as u64, mark) }
}

pub fn receiver_file(handle: &Receiver, offset: u64, into: &mut [u8]) -> u64 {
    // SAFETY: as in `receiver_hear`; the slice is borrowed for writing.
    unsafe { fuota_receiver_file(handle, offset, into.as_mut_ptr(), into.len() as u64) }
}

pub fn receiver_status(handle: &Receiver, all: bool, answer: &mut [u8]) -> u64 {
    // SAFETY: as in `receiver_file`.
    unsafe { fuota_receiver_status(handle, all, answer.as_mut_ptr(), answer.len() as u64) }
}

pub fn device_deliver(handle: &mut Device, port: u8, payload: &[u8], arrival: &Arrival) -> u8 {
    // SAFETY: as in `receiver_hear`.
    unsafe { fuota_device_deliver(handle, port, payload.as_ptr(), payload.len() as u64, arrival) }
}

pub fn device_radio(handle: &mut Device, bytes: &[u8], t: u64, word: u32, mark: u64) -> u8 {
    // SAFETY: as in `receiver_hear`.
    unsafe { fuota_device_radio(handle, bytes.as_ptr(), bytes.len() as u64, t, word, mark) }
}

pub fn device_file(handle: &Device, index: u8, offset: u64, into: &mut [u8]) -> u64 {
    // SAFETY: as in `receiver_file`.
    unsafe { fuota_device_file(handle, index, offset, into.as_mut_ptr(), into.len() as u64) }
}

pub fn device_save(handle: &Device, into: &mut [u8]) -> u64 {
    // SAFETY: as in `receiver_file`.
    unsafe { fuota_device_save(handle, into.as_mut_ptr(), into.len() as u64) }
}

pub fn device_firmware(handle: &Device, is_next: bool, offset: u64, into: &mut [u8]) -> u64 {
    // SAFETY: as in `receiver_file`.
    unsafe { fuota_device_firmware(handle, is_next, offset, into.as_mut_ptr(), into.len() as u64) }
}

pub fn device_restore(handle: &mut Device, size: u8, config: &Config, kept: &Kept<'_>) -> u8 {
    let Kept { saved, running, next } = *kept;
    // SAFETY: as in `receiver_hear`, of each slice.
    unsafe {
        fuota_device_restore(
            handle,
            size,
            config,
            saved.as_ptr(),
            saved.len() as u64,
            running.as_ptr(),
            running.len() as u64,
            next.as_ptr(),
            next.len() as u64,
        )
    }
}

pub fn device_new_in_flash(
    handle: &mut Device,
    size: u8,
    config: &Config,
    flash: &Flash<'_>,
) -> u8 {
    let Flash { span, bytes } = *flash;
    let length = bytes.len() as u64;
    // SAFETY: as in `receiver_hear`.
    unsafe { fuota_device_new_in_flash(handle, size, config, span, bytes.as_ptr(), length) }
}

pub fn device_restore_in_flash(
    handle: &mut Device,
    size: u8,
    config: &Config,
    flash: &Flash<'_>,
    kept: &Kept<'_>,
) -> u8 {
    let Flash { span, bytes } = *flash;
    let Kept { saved, running, next } = *kept;
    // SAFETY: as in `receiver_hear`, of each slice.
    unsafe {
        fuota_device_restore_in_flash(
            handle,
            size,
            config,
            span,
            bytes.as_ptr(),
            bytes.len() as u64,
            saved.as_ptr(),
            saved.len() as u64,
            running.as_ptr(),
            running.len() as u64,
            next.as_ptr(),
            next.len() as u64,
        )
    }
}

pub fn device_flash(handle: &Device, offset: u64, into: &mut [u8]) -> u64 {
    // SAFETY: as in `receiver_file`.
    unsafe { fuota_device_flash(handle, offset, into.as_mut_ptr(), into.len() as u64) }
}

pub fn server_new(
    handle: &mut Server,
    plan: &Plan,
    devices: &[PlanDevice],
    image: &[u8],
    field: &mut u8,
) -> u8 {
    // SAFETY: as in `receiver_hear`, of each slice; the devices are structs of the header.
    unsafe {
        fuota_server_new(
            handle,
            plan,
            devices.as_ptr(),
            devices.len() as u64,
            image.as_ptr(),
            image.len() as u64,
            field,
        )
    }
}

pub fn server_frame(handle: &Server, down: &Down, into: &mut [u8]) -> u64 {
    // SAFETY: as in `receiver_file`.
    unsafe { fuota_server_frame(handle, down, into.as_mut_ptr(), into.len() as u64) }
}

pub fn server_uplink(
    handle: &mut Server,
    dev: u8,
    port: u8,
    payload: &[u8],
    t: u64,
    out: &mut Down,
) -> u8 {
    // SAFETY: as in `receiver_hear`.
    unsafe {
        fuota_server_uplink(handle, dev, port, payload.as_ptr(), payload.len() as u64, t, out)
    }
}

pub fn server_save(handle: &Server, into: &mut [u8]) -> u64 {
    // SAFETY: as in `receiver_file`.
    unsafe { fuota_server_save(handle, into.as_mut_ptr(), into.len() as u64) }
}

pub fn server_restore(
    handle: &mut Server,
    plan: &Plan,
    devices: &[PlanDevice],
    image: &[u8],
    saved: &[u8],
    field: &mut u8,
) -> u8 {
    // SAFETY: as in `server_new`.
    unsafe {
        fuota_server_restore(
            handle,
            plan,
            devices.as_ptr(),
            devices.len() as u64,
            image.as_ptr(),
            image.len() as u64,
            saved.as_ptr(),
            saved.len() as u64,
            field,
        )
    }
}

pub fn decode(port: u8, up: bool, payload: &[u8], text: &mut [u8], out: &mut Decoded) -> u8 {
    // SAFETY: as in `receiver_hear` and `receiver_file`; the two slices do not overlap, since one is borrowed for writing.
    unsafe {
        fuota_decode(
            port,
            up,
            payload.as_ptr(),
            payload.len() as u64,
            text.as_mut_ptr(),
            text.len() as u64,
            out,
        )
    }
}
