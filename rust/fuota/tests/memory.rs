//! Makes each kind of object in each way, moves it, puts another in its place, and ends: `tests/rust_crate` runs this under
//! valgrind, which must find no block that is left. It fails where an object is not made. Its `main` is that of C, since Rust's
//! own leaves a block.
#![no_main]

#[allow(dead_code)]
#[path = "calls/shared.rs"]
mod shared;

use fuota::{
    decode, Config, Device, Direction, Flash, Kept, Plan, Receiver, ReceiverSize, Server, Setup,
    Via,
};
use shared::{at, config, image, key, FRAGMENTS, SETUP};

const SPAN: u32 = 24_640 + 4096;

fn receivers() {
    let mut receiver = Receiver::new(ReceiverSize::Large).unwrap();
    for size in [ReceiverSize::Middle, ReceiverSize::Small] {
        receiver = Receiver::new(size).unwrap();
    }
    let mut moved = Box::new(receiver);
    moved.set_up(&Setup { nb_frag: 3, frag_size: 2, ..Setup::default() }).unwrap();
    for fragment in &FRAGMENTS {
        moved.hear(fragment, 1).unwrap();
    }
    assert_eq!(moved.file(0, &mut [0; 8]).len(), 6);
}

fn devices() {
    let config = config();
    let mut flash = vec![0; 4 * SPAN as usize];
    let mut device = Device::new(&config).unwrap();
    device.deliver(201, &SETUP, Via::Unicast, &at(0, 0)).unwrap();
    let saved = device.save();
    let kept = Kept { saved: saved.as_ref(), running: &[], next: &[] };
    device = Device::restore(&config, &kept).unwrap();
    assert!(device.take_uplink().is_some());
    device = Device::new_in_flash(
        &Config { area: 64, rows: 4, ..config },
        &Flash { span: SPAN, bytes: &flash },
    )
    .unwrap();
    device.power().unwrap();
    device.deliver(201, &SETUP, Via::Unicast, &at(0, 0)).unwrap();
    let saved = device.save();
    device.flash(0, &mut flash);
    let kept = Kept { saved: saved.as_ref(), running: &[], next: &[] };
    let flash = Flash { span: SPAN, bytes: &flash };
    let mut moved = Vec::from([
        device,
        Device::restore_in_flash(&Config { area: 64, rows: 4, ..config }, &flash, &kept).unwrap(),
    ]);
    moved.iter_mut().for_each(|device| device.power().unwrap());
    assert!(Device::restore(&config, &Kept { saved: &[], ..kept }).is_err());
    assert!(Device::restore_in_flash(&config, &flash, &Kept { saved: &[], ..kept }).is_err());
    assert!(Device::new(&Config { sessions: 0, ..config }).is_err());
}

fn servers() {
    let (image, keys) = (image(), [key()]);
    let plan = Plan { frag_size: 13, parity: 4, index: 0, group: None };
    let mut server = Server::new(&plan, &keys, &image).unwrap();
    server.next_fragment().unwrap();
    server = Server::restore(&plan, &keys, &image, &server.save()).unwrap();
    let moved = Some(server);
    assert!(moved.is_some_and(|server| server.ask(1).is_ok()));
    assert!(Server::restore(&plan, &keys, &image, &[]).is_err());
    assert!(Server::new(&plan, &[], &image).is_err());
}

#[no_mangle]
extern "C" fn main() -> i32 {
    receivers();
    devices();
    servers();
    let mut text = [0; 5000];
    let told = decode(200, Direction::Down, &[0; 242], &mut text);
    assert_eq!(told.map(|text| text.lines().count()), Ok(242));
    0
}
