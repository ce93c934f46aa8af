//! A server at the edges of its arguments, and after its program ended, as `c/answers.c` has it.

use crate::shared::{image, key};
use fuota::{
    Downlink, Error, Field, Group, Key, LastStatus, Plan, Request, RootKey, Server, Stage, Via,
    Window, WindowClass, MAX_DEVICES,
};

const PLAN: Plan = Plan { frag_size: 13, parity: 1, index: 0, group: None };
const WINDOW: Window = Window { class: WindowClass::C, start: 0, timeout: 0, freq: 0, dr: 0 };
const GROUP: Group = Group { id: 0, addr: 0, key: Key([0; 16]), min: 0, max: 3, window: WINDOW };

fn with_group(group: Group) -> Plan {
    Plan { group: Some(group), ..PLAN }
}

#[test]
fn the_first_wrong_field_is_told() {
    let window = |window| with_group(Group { window, ..GROUP });
    let b = |periodicity| WindowClass::B { periodicity };
    let tries = [
        (Plan { frag_size: 0, ..PLAN }, Field::FragSize),
        (Plan { frag_size: 240, ..PLAN }, Field::FragSize),
        (Plan { parity: 513, index: 4, ..PLAN }, Field::Parity),
        (Plan { index: 4, ..with_group(Group { max: 0, ..GROUP }) }, Field::Index),
        (with_group(Group { max: 0, ..GROUP }), Field::Group),
        (with_group(Group { id: 4, ..GROUP }), Field::Group),
        (window(Window { timeout: 16, ..WINDOW }), Field::Window),
        (window(Window { freq: 1 << 24, ..WINDOW }), Field::Window),
        (window(Window { class: b(8), ..WINDOW }), Field::Window),
    ];
    for (plan, field) in tries {
        assert_eq!(
            Server::new(&plan, &[key()], &image()).unwrap_err(),
            Error::Plan(field),
            "{plan:?}"
        );
    }
    assert!(Server::new(&window(Window { class: b(7), ..WINDOW }), &[key()], &image()).is_ok());
    assert_eq!(Server::new(&PLAN, &[], &image()).unwrap_err(), Error::Plan(Field::Devices));
    for many in [MAX_DEVICES + 1, 1000] {
        let keys = vec![key(); many];
        assert_eq!(Server::new(&PLAN, &keys, &image()).unwrap_err(), Error::Plan(Field::Devices));
    }
    let mut whole = Server::new(&PLAN, &[key(); MAX_DEVICES], &image()).unwrap();
    assert!(whole.ask(64).unwrap().is_some());
    assert_eq!(whole.ask(65), Err(Error::Range));
    assert_eq!(whole.uplink(65, 203, &[0], 0), Err(Error::Range));
}

#[test]
fn an_image_is_asked_for() {
    let image = image();
    assert_eq!(Server::new(&PLAN, &[key()], &image[..51]).unwrap_err(), Error::NoImage);
    assert_eq!(Server::new(&PLAN, &[key()], &[]).unwrap_err(), Error::NoImage);
}

#[test]
fn a_device_is_asked_and_answers() {
    let mut server = Server::new(&PLAN, &[key(), key()], &image()).unwrap();
    assert_eq!(server.ask(0), Err(Error::Range));
    assert_eq!(server.ask(3), Err(Error::Range));
    let payload = (&[1][..]).try_into().unwrap();
    assert_eq!(server.ask(2), Ok(Some(Downlink { port: 203, via: Via::Unicast, payload })));
    assert_eq!(server.uplink(2, 203, &[0], 0), Err(Error::NoCommands));
    assert_eq!(server.uplink(3, 203, &[0], 0), Err(Error::Range));
    assert_eq!(server.uplink(2, 203, &[0; 243], 0), Err(Error::Range));
    assert_eq!(server.ledger(2), Ok(Stage::At(Request::Version)));
    assert_eq!(server.ledger(3), Err(Error::Range));
    // DevVersionAns of firmware 1 on hardware 1: no group is asked for, so the session comes next
    assert_eq!(server.uplink(2, 203, &[1, 1, 0, 0, 0, 1, 0, 0, 0], 0), Ok(None));
    assert_eq!(server.ledger(2), Ok(Stage::At(Request::Fragments)));
    assert_eq!(server.ledger(1), Ok(Stage::At(Request::Version)));
    // FragSessionSetupAns with the bit for no room
    assert_eq!(server.uplink(2, 201, &[2, 2], 0), Ok(None));
    assert_eq!(server.ledger(2), Ok(Stage::Stopped { request: Request::Fragments, bits: 2 }));
    assert_eq!(server.ask(2), Ok(None));
}

#[test]
fn a_clock_is_corrected() {
    let mut server = Server::new(&PLAN, &[key()], &image()).unwrap();
    // AppTimeReq with the device's time of 10 s, at 12 s of GPS time: AppTimeAns of 2 s more
    let answer = server.uplink(1, 202, &[1, 10, 0, 0, 0, 3], 12_000).unwrap().unwrap();
    assert_eq!((answer.port, answer.via), (202, Via::Unicast));
    assert_eq!(answer.payload[..], [1, 2, 0, 0, 0, 3]);
}

#[test]
fn fragments_go_to_the_group_as_frames() {
    let image = image();
    let mut server = Server::new(&with_group(GROUP), &[key(), key()], &image).unwrap();
    for n in 0..2u8 {
        let down = server.next_fragment().unwrap().unwrap();
        assert_eq!((down.port, down.via), (201, Via::Group { addr: 0, count: n.into() }));
        assert_eq!(down.payload[..3], [8, n + 1, 0]);
        assert_eq!(down.payload[3..], image[13 * usize::from(n)..][..13]);
        let frame = server.frame(&down).unwrap();
        assert_eq!((frame.len(), frame[0], frame[8]), (29, 0x60, 201));
        let longest = Downlink { payload: (&[0; 242][..]).try_into().unwrap(), ..down };
        assert_eq!(server.frame(&longest).unwrap().len(), 255);
        assert_eq!(server.frame(&Downlink { port: 0, ..down }), None);
        assert_eq!(server.frame(&Downlink { via: Via::Unicast, ..down }), None);
        assert_eq!(server.frame(&Downlink { via: Via::Group { addr: 1, count: 0 }, ..down }), None);
    }
    let all = server.status_all().unwrap();
    assert_eq!((all.via, all.payload.len()), (Via::Group { addr: 0, count: 2 }, 2));
    assert_eq!(server.status_all(), Err(Error::Spent));
    assert_eq!(server.next_fragment(), Err(Error::Spent));
    assert_eq!((server.fragment_number(), server.frame_count()), (3, 3));
}

#[test]
fn session_keys_are_those_of_another_aes() {
    let bytes = |number: u128| Key(number.to_be_bytes());
    let key = bytes(0x0011_2233_4455_6677_8899_aabb_ccdd_eeff);
    let app = bytes(0x1076_bbc2_ea64_f6e7_5805_6887_9892_8aba);
    let net = bytes(0x9f04_20fe_ddea_37d9_f057_e1a2_1f2c_d4ca);
    assert_eq!(key.mc_app_s_key(0x1122_3344).0, app.0);
    assert_eq!(key.mc_net_s_key(0x1122_3344).0, net.0);
}

#[test]
fn requests_that_no_campaign_makes_are_those_of_the_tables() {
    let asked = [
        (Downlink::frag_session_delete(3), 201, &[3, 3][..]),
        (Downlink::mc_group_delete(2), 200, &[3, 2]),
        (Downlink::dev_delete_image(0x0102_0304), 203, &[5, 4, 3, 2, 1]),
        (Downlink::force_device_resync(7), 202, &[3, 7]),
    ];
    for (down, port, bytes) in asked {
        let down = down.unwrap();
        assert_eq!((down.port, down.via, &down.payload[..]), (port, Via::Unicast, bytes));
    }
    assert_eq!(Downlink::frag_session_delete(4), Err(Error::Range));
    assert_eq!(Downlink::mc_group_delete(4), Err(Error::Range));
    assert_eq!(Downlink::force_device_resync(8), Err(Error::Range));
}

#[test]
fn fragments_end() {
    let mut server = Server::new(&PLAN, &[key()], &image()).unwrap();
    let mut count = 0;
    while let Some(down) = server.next_fragment().unwrap() {
        count += 1;
        assert_eq!(down.via, Via::Unicast);
        assert_eq!(server.frame(&down), None);
    }
    assert_eq!(count, 5);
    assert_eq!(server.next_fragment(), Ok(None));
    assert_eq!((server.fragment_number(), server.frame_count()), (6, 0));
}

#[test]
fn a_server_goes_on_with_what_it_saved() {
    let (image, keys) = (image(), [key()]);
    let mut server = Server::new(&PLAN, &keys, &image).unwrap();
    for n in 0..6u8 {
        let saved = server.save();
        assert_eq!((saved.len(), saved[5]), (50, n + 1));
        if n == 0 {
            assert_eq!(saved[..18], *b"FUSS\x01\x01\0\0\0\0\0\x01\0\0\0\0\0\0");
        }
        server = Server::restore(&PLAN, &keys, &image, &saved).unwrap();
        let number = server.next_fragment().unwrap().map(|down| down.payload[1]);
        assert_eq!(number, if n < 5 { Some(n + 1) } else { None });
    }
    assert_eq!(server.last_status(1), Ok(None));
    assert_eq!(server.last_status(2), Err(Error::Range));
    assert_eq!(server.uplink(1, 201, &[0x01, 0x34, 0x12, 0x56, 0x01], 0), Ok(None));
    let told = LastStatus { received: 0x1234, missing: 0x56, is_without_rows: true };
    let saved = server.save();
    assert_eq!(saved[14..18], [3, 0x34, 0x12, 0x56]);
    let server = Server::restore(&PLAN, &keys, &image, &saved).unwrap();
    assert_eq!(server.last_status(1), Ok(Some(told)));

    let restored = |saved: &[u8]| Server::restore(&PLAN, &keys, &image, saved);
    for at in 0..saved.len() {
        let mut other = saved.to_vec();
        other[at] ^= 1;
        assert_eq!(restored(&other).unwrap_err(), Error::Corrupt);
        assert_eq!(restored(&saved[..at]).unwrap_err(), Error::Corrupt);
    }
    let wrong = Plan { parity: 513, ..PLAN };
    let error = Server::restore(&wrong, &keys, &image, &saved).unwrap_err();
    assert_eq!(error, Error::Plan(Field::Parity));
    let error = Server::restore(&PLAN, &keys, &image[..51], &saved).unwrap_err();
    assert_eq!(error, Error::NoImage);
}

/// The saved bytes have a digest of the whole plan, so each field of it has come to the library.
#[test]
fn each_field_of_a_plan_counts() {
    let image = image();
    let plan = with_group(GROUP);
    let saved = Server::new(&plan, &[key()], &image).unwrap().save();
    let restored = |plan: &Plan, keys: &[RootKey]| Server::restore(plan, keys, &image, &saved);
    assert!(restored(&plan, &[key()]).is_ok());
    let group = |group| with_group(group);
    let window = |window| with_group(Group { window, ..GROUP });
    for other in [
        Plan { frag_size: 14, ..plan },
        Plan { parity: 2, ..plan },
        Plan { index: 1, ..plan },
        PLAN,
        group(Group { id: 1, ..GROUP }),
        group(Group { addr: 1, ..GROUP }),
        group(Group { key: Key([1; 16]), ..GROUP }),
        group(Group { max: 4, ..GROUP }),
        window(Window { start: 1, ..WINDOW }),
        window(Window { timeout: 1, ..WINDOW }),
        window(Window { freq: 1, ..WINDOW }),
        window(Window { dr: 1, ..WINDOW }),
        window(Window { class: WindowClass::B { periodicity: 0 }, ..WINDOW }),
    ] {
        assert_eq!(restored(&other, &[key()]).unwrap_err(), Error::Corrupt, "{other:?}");
    }
    let roots = [RootKey::AppKey(Key([0; 16])), RootKey::GenAppKey(Key([1; 16]))];
    for root in roots {
        assert_eq!(restored(&plan, &[root]).unwrap_err(), Error::Corrupt);
    }
    assert_eq!(restored(&plan, &[key(), key()]).unwrap_err(), Error::Corrupt);
}

/// Each field goes into its place of the requests, by the tables of TS005 and TS004.
#[test]
fn requests_have_the_fields_of_the_plan() {
    let window = Window {
        class: WindowClass::B { periodicity: 5 },
        start: 0x01020304,
        timeout: 6,
        freq: 8_695_250,
        dr: 3,
    };
    let group = Group { id: 2, addr: 0x11223344, min: 7, max: 1007, window, ..GROUP };
    let plan = Plan { frag_size: 13, parity: 1, index: 1, group: Some(group) };
    let mut server = Server::new(&plan, &[key()], &image()).unwrap();
    let asked = |server: &Server| server.ask(1).unwrap().unwrap();
    server.uplink(1, 203, &[1, 1, 0, 0, 0, 1, 0, 0, 0], 0).unwrap();
    // McGroupSetupReq: id, address, the key under another key, MIN and MAX
    let down = asked(&server);
    assert_eq!((down.port, down.payload.len()), (200, 30));
    assert_eq!(down.payload[..6], [2, 2, 0x44, 0x33, 0x22, 0x11]);
    assert_eq!(down.payload[22..], [7, 0, 0, 0, 0xEF, 3, 0, 0]);
    server.uplink(1, 200, &[2, 2], 0).unwrap();
    // FragSessionSetupReq: index and groups, 4 pieces of 13 bytes, no delay, no padding
    let down = asked(&server);
    assert_eq!((down.port, down.payload.len()), (201, 11));
    assert_eq!(down.payload[..7], [2, 0x14, 4, 0, 13, 0, 0]);
    server.uplink(1, 201, &[2, 0x40], 0).unwrap();
    // McClassBSessionReq: id, time, periodicity and time out, frequency, data rate
    let down = asked(&server);
    assert_eq!(down.port, 200);
    assert_eq!(down.payload[..], [5, 2, 4, 3, 2, 1, 0x56, 0xD2, 0xAD, 0x84, 3]);
}

/// A key of zeros under the key that TS005 makes of a root key of zeros, as openssl has them.
#[test]
fn the_key_of_a_group_is_wrapped_by_the_kind_of_root_key() {
    let wrapped = |root| {
        let mut server = Server::new(&with_group(GROUP), &[root], &image()).unwrap();
        server.uplink(1, 203, &[1, 1, 0, 0, 0, 1, 0, 0, 0], 0).unwrap();
        let down = server.ask(1).unwrap().unwrap();
        u128::from_be_bytes(down.payload[6..22].try_into().unwrap())
    };
    let zeros = Key([0; 16]);
    assert_eq!(wrapped(RootKey::GenAppKey(zeros)), 0x873f1241da7a95b1eb59589c7579f5d9);
    assert_eq!(wrapped(RootKey::AppKey(zeros)), 0x01e2de52edf397d2cb6312429a8adb97);
}

#[test]
fn no_key_is_shown() {
    let plan = with_group(Group { key: Key([0xA7; 16]), ..GROUP });
    let server = Server::new(&plan, &[key()], &image()).unwrap();
    let shown = format!("{plan:?} {server:?}");
    assert!(shown.contains("key: Key(..)") && !shown.contains("167"), "{shown}");
}
