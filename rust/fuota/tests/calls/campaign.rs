//! A campaign by multicast: the server's frames come to the device's radio in its class C window, and it updates.

use crate::shared::{config, image};
use fuota::{
    Config, Delivered, Device, Downlink, Group, Key, Moment, NextImage, Plan, Request, RootKey,
    Server, Stage, Verdict, Via, Window, WindowClass,
};

/// A second in which the window opens, and the frame counts from 7 on.
const START: u32 = 1000;
const GROUP: Group = Group {
    id: 2,
    addr: 0x11223344,
    key: Key([0x5A; 16]),
    min: 7,
    max: 1007,
    window: Window { class: WindowClass::C, start: START, timeout: 15, freq: 8_695_250, dr: 0 },
};
const PLAN: Plan = Plan { frag_size: 13, parity: 4, index: 1, group: Some(GROUP) };
const ROOT: RootKey = RootKey::AppKey(Key([0x2B; 16]));

struct Air {
    server: Server,
    device: Device,
    t: u64,
}

impl Air {
    /// A request goes down by unicast, and what the device sends goes up, until the stage has moved.
    fn ask(&mut self) {
        let stage = self.server.ledger(1).unwrap();
        for _ in 0..3 {
            self.t += 1000;
            if let Some(down) = self.server.ask(1).unwrap() {
                self.deliver(&down);
            }
            while let Some(up) = self.device.take_uplink() {
                if let Some(answer) = self.server.uplink(1, up.port, &up.payload, self.t).unwrap() {
                    self.deliver(&answer);
                }
            }
            if self.server.ledger(1).unwrap() != stage {
                return;
            }
        }
        panic!("{stage:?} does not move");
    }

    fn deliver(&mut self, down: &Downlink) {
        let moment = Moment { t: self.t, word: 1, mark: 0 };
        assert_eq!(
            self.device.deliver(down.port, &down.payload, down.via, &moment),
            Ok(Delivered::Acted)
        );
    }

    fn stage(&self) -> Stage {
        self.server.ledger(1).unwrap()
    }
}

#[test]
fn a_device_is_updated_by_frames() {
    let image = image();
    let config = Config { sessions: 2, groups: 3, root: ROOT, ..config() };
    let mut air = Air {
        server: Server::new(&PLAN, &[ROOT], &image).unwrap(),
        device: Device::new(&config).unwrap(),
        t: 0,
    };
    for stage in [Request::Version, Request::Group, Request::Fragments, Request::Window] {
        assert_eq!(air.stage(), Stage::At(stage));
        air.ask();
    }
    assert_eq!(air.stage(), Stage::At(Request::Status));

    // before the window it is deaf for the group
    let mut n = 0;
    let early = Moment { t: u64::from(START) * 1000 - 1, word: 1, mark: 0 };
    let mut late = Moment { t: u64::from(START) * 1000, ..early };
    while let Some(down) = air.server.next_fragment().unwrap() {
        assert_eq!(down.via, Via::Group { addr: 0x11223344, count: 7 + n });
        let mut frame = air.server.frame(&down).unwrap().to_vec();
        if n == 0 {
            assert_eq!(air.device.radio(&frame, &early), Ok(Some(Delivered::Deaf)));
        }
        late.mark = n.into();
        // the second and the fourth are lost, and coded fragments make them good
        if n != 1 && n != 3 {
            assert_eq!(air.device.radio(&frame, &late), Ok(Some(Delivered::Acted)));
        }
        *frame.last_mut().unwrap() ^= 1;
        assert_eq!(air.device.radio(&frame, &late), Ok(None));
        n += 1;
    }
    assert_eq!(n, 8);
    let mut file = [0; 64];
    assert_eq!(air.device.file(1, 0, &mut file), image);
    let verdict = air.device.view(1).unwrap().unwrap().verdict;
    assert!(matches!(verdict, Verdict::Complete { mark: 5..=7, length: 52 }), "{verdict:?}");
    assert_eq!(air.device.next_image(), NextImage::Valid { version: 2 });
    assert_eq!(air.device.next_file(0, &mut file), image);

    air.t = late.t;
    for stage in [Request::Status, Request::Image, Request::Reboot, Request::Check] {
        assert_eq!(air.stage(), Stage::At(stage));
        air.ask();
    }
    assert_eq!(air.stage(), Stage::Updated);
    assert_eq!(air.server.ask(1), Ok(None));
    assert_eq!(air.device.running(), 2);
    assert_eq!(air.device.running_file(0, &mut file), image);
    assert_eq!(air.device.next_image(), NextImage::None);
    assert_eq!(air.server.last_status(1).unwrap().unwrap().missing, 0);
}
