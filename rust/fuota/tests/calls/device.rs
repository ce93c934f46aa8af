//! A device at the edges of its arguments, and after its program ended, as `c/answers.c` has it.

use crate::shared::{at, config, image, FILE, FRAGMENTS, SETUP};
use fuota::{
    Config, Counts, Delivered, Device, DeviceClass, DeviceSize, Error, Flash, Formats, Kept, Key,
    Moment, NextImage, RootKey, Uplink, Verdict, Via, View, SAVED_DEVICE,
};

/// The first moment that is out of range.
const TOO_LATE: u64 = 4_294_967_296_000;
const SPAN: u32 = 24_640 + 4096;

/// A device that has heard the file, with the answer to the setup still held.
fn whole(config: &Config) -> Device {
    let mut device = Device::new(config).unwrap();
    deliver_all(&mut device);
    device
}

fn deliver_all(device: &mut Device) {
    assert_eq!(device.deliver(201, &SETUP, Via::Unicast, &at(1000, 0)), Ok(Delivered::Acted));
    for fragment in &FRAGMENTS {
        assert_eq!(device.deliver(201, fragment, Via::Unicast, &at(1000, 5)), Ok(Delivered::Acted));
    }
}

fn uplink(due: u64, port: u8, payload: &[u8]) -> Option<Uplink> {
    Some(Uplink { due, port, payload: payload.try_into().unwrap() })
}

#[test]
fn numbers_out_of_range_make_no_device() {
    for wrong in [
        Config { sessions: 5, ..config() },
        Config { sessions: 0, ..config() },
        Config { groups: 5, ..config() },
        Config { area: 0, ..config() },
        Config { area: 262_383, ..config() },
        Config { rows: 257, ..config() },
    ] {
        assert_eq!(Device::new(&wrong).unwrap_err(), Error::Range);
    }
}

/// The refusal bits with which a device of a size answers a setup of so many pieces of so many bytes.
fn refusal_bits(size: DeviceSize, pieces: u16, piece: u8) -> u8 {
    let mut device = Device::new(&Config { size, area: 262_144, ..config() }).unwrap();
    let [low, high] = pieces.to_le_bytes();
    let setup = [0x02, 0x00, low, high, piece, 0, 0, 1, 0, 0, 0];
    device.deliver(201, &setup, Via::Unicast, &Moment::default()).unwrap();
    let up = device.take_uplink().unwrap();
    up.payload[1] & 0x0f
}

#[test]
fn a_device_takes_files_of_its_size() {
    assert_eq!(refusal_bits(DeviceSize::Small, 256, 48), 0);
    assert_eq!(refusal_bits(DeviceSize::Small, 257, 48), 2);
    assert_eq!(refusal_bits(DeviceSize::Middle, 1024, 48), 0);
    assert_eq!(refusal_bits(DeviceSize::Middle, 1025, 48), 2);
    assert_eq!(refusal_bits(DeviceSize::Large, 4096, 64), 0);
}

#[test]
fn a_file_comes_whole() {
    let mut device = Device::new(&config()).unwrap();
    assert_eq!(device.view(0), Ok(None));
    assert_eq!(device.view(4), Err(Error::Range));
    assert_eq!(device.take_uplink(), None);
    deliver_all(&mut device);
    assert_eq!(device.take_uplink(), uplink(1000, 201, &[2, 0]));
    assert_eq!(device.take_uplink(), None);
    let verdict = Verdict::Complete { mark: 5, length: 5 };
    assert_eq!(device.view(0), Ok(Some(View { received: 3, missing: 0, verdict })));
    let mut bytes = [0; 8];
    assert_eq!(device.file(0, 1, &mut bytes), &FILE[1..]);
    assert_eq!(device.file(255, 0, &mut bytes), []);
    // five bytes that are no image file
    assert_eq!(device.next_image(), NextImage::Corrupt);
    device.raise_formats();
    assert_eq!(device.next_image(), NextImage::Corrupt);
    assert_eq!(device.next_file(0, &mut bytes), FILE);
    assert_eq!(device.next_file(3, &mut bytes), &FILE[3..]);
    assert_eq!(device.running_file(0, &mut bytes), []);
    assert_eq!(device.running(), 0);
    assert_eq!(device.flash(0, &mut bytes), []);
    assert_eq!(device.power(), Ok(()));
}

#[test]
fn each_payload_is_answered() {
    let mut device = Device::new(&config()).unwrap();
    let group = Via::Group { addr: 1, count: 2 };
    assert_eq!(device.next_image(), NextImage::None);
    assert_eq!(device.deliver(201, &SETUP[..10], Via::Unicast, &at(0, 0)), Ok(Delivered::Refused));
    assert_eq!(device.deliver(201, &[0; 243], Via::Unicast, &at(0, 0)), Err(Error::Range));
    assert_eq!(device.deliver(201, &FRAGMENTS[0], group, &at(0, 0)), Ok(Delivered::Deaf));
    assert_eq!(
        device.deliver(201, &FRAGMENTS[0], Via::Unicast, &at(TOO_LATE, 0)),
        Err(Error::Range)
    );
    for _ in 0..4 {
        // without a session
        let told = device.deliver(201, &FRAGMENTS[0], Via::Unicast, &at(TOO_LATE - 1, 0));
        assert_eq!(told, Ok(Delivered::Acted));
    }
    assert_eq!(device.radio(&[0; 300], &at(0, 0)), Ok(None));
    assert_eq!(device.radio(&[0; 20], &at(TOO_LATE, 0)), Err(Error::Range));
    for _ in 0..8 {
        assert_eq!(device.wake(2000), Ok(()));
    }
    assert_eq!(device.wake(2000), Err(Error::Full));
    assert_eq!(device.wake(TOO_LATE), Err(Error::Range));
    for _ in 0..3 {
        let told = device.deliver(201, &SETUP, Via::Unicast, &at(2000, 0));
        assert_eq!(told, Ok(Delivered::Full));
    }
    assert_eq!(device.counts(), Counts { deaf: 2, refused: 1, full: 3, dropped: 4 });
}

/// The image file is for hardware 1, in 4 pieces of 13 bytes.
#[test]
fn an_image_is_for_its_hardware() {
    for (hw, next) in [(1, NextImage::Valid { version: 2 }), (2, NextImage::Incompatible)] {
        let mut device = Device::new(&Config { hw, ..config() }).unwrap();
        let setup = [2, 0, 4, 0, 13, 0, 0, 0, 0, 0, 0];
        device.deliver(201, &setup, Via::Unicast, &at(0, 0)).unwrap();
        for (n, piece) in (1..).zip(image().chunks(13)) {
            let fragment = [&[8, n, 0], piece].concat();
            device.deliver(201, &fragment, Via::Unicast, &at(0, 0)).unwrap();
        }
        assert_eq!(device.next_image(), next);
    }
}

/// An image of format 2 with no body, of firmware version 7 for hardware 1 to 3, by the table of `docs/FORMATS.md`.
#[test]
fn an_image_of_format_2_is_known_once_both_are() {
    let mut image = b"FUIM\x02\x01\0\0\0\x03\0\0\0\x07\0\0\0\0\0\0\0".to_vec();
    // SHA-256 of nothing
    image.extend(0xe3b0c442_98fc1c14_9afbf4c8_996fb924_u128.to_be_bytes());
    image.extend(0x27ae41e4_649b934c_a495991b_7852b855_u128.to_be_bytes());
    let mut device = Device::new(&Config { formats: Formats::First, ..config() }).unwrap();
    device.deliver(201, &[2, 0, 1, 0, 53, 0, 0, 0, 0, 0, 0], Via::Unicast, &at(0, 0)).unwrap();
    let fragment = [&[8, 1, 0], &image[..]].concat();
    device.deliver(201, &fragment, Via::Unicast, &at(0, 0)).unwrap();
    assert_eq!(device.next_image(), NextImage::Corrupt);
    device.raise_formats();
    assert_eq!(device.next_image(), NextImage::Valid { version: 7 });
}

#[test]
fn a_device_of_class_a_hears_in_its_windows_alone() {
    let mut device = Device::new(&Config { class: DeviceClass::A, ..config() }).unwrap();
    assert_eq!(device.deliver(203, &[1], Via::Unicast, &at(1000, 0)), Ok(Delivered::Deaf));
    device.wake(5000).unwrap();
    // AppTimeReq with the device's time of 5 s, AnsRequired, and token 0
    assert_eq!(device.take_uplink(), uplink(5000, 202, &[1, 5, 0, 0, 0, 0x10]));
    assert_eq!(device.deliver(203, &[1], Via::Unicast, &at(6000, 0)), Ok(Delivered::Acted));
}

#[test]
fn a_session_takes_its_descriptor_alone() {
    // (the setup has 7)
    for (descriptor, answer) in [(None, [2, 0]), (Some(7), [2, 0]), (Some(0), [2, 8])] {
        let mut device = Device::new(&Config { descriptor, ..config() }).unwrap();
        device.deliver(201, &SETUP, Via::Unicast, &at(1000, 0)).unwrap();
        assert_eq!(device.take_uplink().unwrap().payload[..], answer);
    }
}

#[test]
fn a_device_goes_on_with_what_it_saved() {
    let config = Config { offset: 0x01020304, ..config() };
    let device = whole(&config);
    let saved = device.save();
    drop(device);
    assert_eq!(saved.as_bytes()[..10], *b"FUSD\x01\x04\x03\x02\x01\x00");
    let kept = Kept { saved: saved.as_ref(), running: &[], next: &FILE };
    let mut device = Device::restore(&config, &kept).unwrap();
    // its session lay in memory
    assert_eq!(device.view(0), Ok(None));
    let mut bytes = [0; 8];
    assert_eq!(device.next_file(0, &mut bytes), FILE);
    assert_eq!(device.take_uplink(), uplink(1000, 201, &[2, 0]));
    assert_eq!(device.take_uplink(), None);

    for at in 0..SAVED_DEVICE {
        let mut other = *saved.as_bytes();
        other[at] ^= 1;
        let kept =
            [Kept { saved: &other, ..kept }, Kept { saved: &saved.as_bytes()[..at], ..kept }];
        for kept in &kept {
            assert_eq!(Device::restore(&config, kept).unwrap_err(), Error::Corrupt);
        }
    }
    for kept in [Kept { next: &FILE[..4], ..kept }, Kept { running: &[0], ..kept }] {
        assert_eq!(Device::restore(&config, &kept).unwrap_err(), Error::Corrupt);
    }
    let wrong = Config { sessions: 5, ..config };
    assert_eq!(Device::restore(&wrong, &kept).unwrap_err(), Error::Range);
}

/// The saved bytes have a digest of the whole configuration, so each field of it has come to the library.
#[test]
fn each_field_of_a_configuration_counts() {
    let config = config();
    let saved = Device::new(&config).unwrap().save();
    let kept = Kept { saved: saved.as_ref(), running: &[], next: &[] };
    assert!(Device::restore(&config, &kept).is_ok());
    for other in [
        Config { hw: 2, ..config },
        Config { offset: 1, ..config },
        Config { area: 12_289, ..config },
        Config { descriptor: Some(0), ..config },
        Config { rows: 15, ..config },
        Config { formats: Formats::First, ..config },
        Config { sessions: 2, ..config },
        Config { groups: 2, ..config },
        Config { class: DeviceClass::A, ..config },
        Config { root: RootKey::AppKey(Key([0; 16])), ..config },
        Config { root: RootKey::GenAppKey(Key::from([1; 16])), ..config },
    ] {
        assert_eq!(Device::restore(&other, &kept).unwrap_err(), Error::Corrupt, "{other:?}");
    }
}

#[test]
fn sessions_in_a_flash_go_on() {
    let config = Config { area: 64, rows: 4, ..config() };
    let mut flash = vec![0; 4 * SPAN as usize];
    let wrong = |span, bytes| Device::new_in_flash(&config, &Flash { span, bytes }).unwrap_err();
    assert_eq!(wrong(SPAN, &flash[1..]), Error::Range);
    assert_eq!(wrong(24_639, &flash), Error::Range);
    assert_eq!(wrong(SPAN, &[]), Error::Range);

    let mut device = Device::new_in_flash(&config, &Flash { span: SPAN, bytes: &flash }).unwrap();
    assert_eq!(device.deliver(201, &SETUP, Via::Unicast, &at(1000, 0)), Err(Error::Down));
    assert_eq!(device.radio(&[0; 20], &at(1000, 0)), Err(Error::Down));
    assert_eq!(device.view(0), Ok(None));
    device.power().unwrap();
    device.deliver(201, &SETUP, Via::Unicast, &at(1000, 0)).unwrap();
    let mut bytes = [0; 8];
    for (n, piece) in FRAGMENTS.iter().enumerate() {
        device.deliver(201, piece, Via::Unicast, &at(1000, n as u64 + 1)).unwrap();
        let saved = device.save();
        assert_eq!(device.flash(0, &mut flash).len(), 4 * SPAN as usize);
        let next = device.next_file(0, &mut bytes);
        assert_eq!(next, if n == 2 { &FILE[..] } else { &[] });
        let kept = Kept { saved: saved.as_ref(), running: &[], next };
        device =
            Device::restore_in_flash(&config, &Flash { span: SPAN, bytes: &flash }, &kept).unwrap();
        assert_eq!(device.view(0), Ok(None));
        device.power().unwrap();
        let view = device.view(0).unwrap().unwrap();
        assert_eq!((view.received, view.missing), (n as u16 + 1, 2 - n as u16));
    }
    assert_eq!(device.view(0).unwrap().unwrap().verdict, Verdict::Complete { mark: 3, length: 5 });
    assert_eq!(device.file(0, 0, &mut bytes), FILE);
    assert_eq!(device.flash(flash.len() - 2, &mut bytes).len(), 2);
    assert_eq!(device.flash(flash.len(), &mut bytes), []);

    flash[65] = 0; // a closed gate before an open one
    let mut device = Device::new_in_flash(&config, &Flash { span: SPAN, bytes: &flash }).unwrap();
    assert_eq!(device.power(), Err(Error::Flash));
    assert_eq!(device.deliver(201, &SETUP, Via::Unicast, &at(1000, 0)), Err(Error::Down));
}

#[test]
fn no_key_is_shown() {
    let root = RootKey::AppKey(Key([0xA7; 16]));
    let config = Config { root, ..config() };
    let device = Device::new(&config).unwrap();
    let saved = device.save();
    let kept = Kept { saved: &[0xA7; 4], running: &[0xA7], next: &[] };
    let flash = Flash { span: 9, bytes: &[0xA7; 3] };
    let shown = format!("{config:?} {device:?} {saved:?} {kept:?} {flash:?}");
    assert!(!shown.contains("167") && !shown.to_lowercase().contains("a7"), "{shown}");
    assert!(shown.contains("AppKey(Key(..))") && shown.contains("SavedDevice(..)"), "{shown}");
    assert!(shown.contains("Kept { saved: 4, running: 1, next: 0 }"), "{shown}");
    assert!(shown.contains("Flash { span: 9, bytes: 3 }"), "{shown}");
}
