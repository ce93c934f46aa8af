//! A campaign between a server and a device, which loses every third fragment: `campaign IMAGE`, an image file of
//! `tools/make_image` for hardware 1, as `c/campaign.c`. The radio is what calls on both sides; a server of a network asks when
//! a device can hear, and asks again.

use fuota::{
    Config, Device, DeviceClass, DeviceSize, Downlink, Error, Formats, Key, Moment, Plan, Request,
    RootKey, Server, Stage,
};

const ROOT: RootKey =
    RootKey::GenAppKey(Key([0x2B, 0x7E, 0x15, 0x16, 0, 0, 0, 0, 0, 0, 0, 0, 0, 0, 0, 0]));
const CONFIG: Config = Config {
    size: DeviceSize::Large,
    hw: 1,
    offset: 0,
    area: 262_144,
    descriptor: None,
    rows: 64,
    formats: Formats::Both,
    sessions: 1,
    groups: 1,
    class: DeviceClass::C,
    root: ROOT,
};
const PLAN: Plan = Plan { frag_size: 48, parity: 64, index: 0, group: None };

/// Both ends, and the payloads between them.
struct Air {
    server: Server,
    device: Device,
    moment: Moment,
}

impl Air {
    /// A payload comes down, what the device sends goes up, and what the server answers comes down.
    fn carry(&mut self, down: &Downlink) -> Result<(), Error> {
        self.deliver(down)?;
        while let Some(up) = self.device.take_uplink() {
            let t = self.moment.t;
            if let Some(answer) = self.server.uplink(1, up.port, &up.payload, t)? {
                self.deliver(&answer)?;
            }
        }
        Ok(())
    }

    fn deliver(&mut self, down: &Downlink) -> Result<(), Error> {
        self.device.deliver(down.port, &down.payload, down.via, &self.moment)?;
        Ok(())
    }
}

fn main() -> Result<(), Box<dyn std::error::Error>> {
    let name = std::env::args().nth(1).ok_or("campaign IMAGE")?;
    let image = std::fs::read(name)?;
    let mut air = Air {
        server: Server::new(&PLAN, &[ROOT], &image)?,
        device: Device::new(&CONFIG)?,
        moment: Moment { t: 0, word: 0x5EED, mark: 0 },
    };
    let (mut sent, mut heard) = (0, 0);
    while let Stage::At(request) = air.server.ledger(1)? {
        if air.moment.t == 100_000 {
            break;
        }
        air.moment.t += 1000;
        if request == Request::Status {
            while let Some(down) = air.server.next_fragment()? {
                sent += 1;
                air.moment.mark = sent;
                if sent % 3 != 0 {
                    heard += 1;
                    air.carry(&down)?;
                }
            }
        }
        if let Some(down) = air.server.ask(1)? {
            air.carry(&down)?;
        }
    }
    println!("sent {sent} heard {heard}");
    let mut file = vec![0; 262_144];
    if air.device.file(0, 0, &mut file) == image {
        println!("the file is as sent, {} bytes", image.len());
    }
    let is_updated = air.server.ledger(1)? == Stage::Updated;
    let word = if is_updated { "updated" } else { "not updated" };
    println!("{word}, running {}", air.device.running());
    if is_updated {
        Ok(())
    } else {
        Err("the device is not updated".into())
    }
}
