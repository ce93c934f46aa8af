//! Payloads as text: those of `c/answers.c` and of the stored cases, whose texts a model has written, and the texts of errors.

use crate::shared::top;
use fuota::{decode, pointer_bits, version, Bytes, Direction, Error, Field, Version, Why};
use std::fs;

/// FragSessionStatusAns.
const STATUS: [u8; 5] = [1, 2, 0, 1, 0];

#[test]
fn a_payload_has_a_text_where_it_has_room() {
    let mut text = [0xEE; 100];
    let line = "FragSessionStatusAns index=0 received=2 missing=1 norows=0\n";
    let length = line.len();
    assert_eq!(decode(201, Direction::Up, &STATUS, &mut text[..3]), Err(Error::NoRoom { length }));
    assert_eq!(text[0], 0xEE);
    assert_eq!(decode(201, Direction::Up, &STATUS, &mut text), Ok(line));
    assert_eq!(text[length], 0xEE);
    assert_eq!(decode(201, Direction::Up, &[], &mut []), Ok(""));
    assert_eq!(decode(201, Direction::Up, &[0; 243], &mut text), Err(Error::Range));
}

#[test]
fn a_refusal_says_where_and_why() {
    let mut text = [0; 100];
    let tries = [
        (201, &STATUS[..4], 4, Why::Short),
        (9, &STATUS[..4], 0, Why::Port),
        (203, &[0xFF][..], 0, Why::Unknown),
    ];
    for (port, payload, at, why) in tries {
        assert_eq!(decode(port, Direction::Up, payload, &mut text), Err(Error::NoText { at, why }));
    }
}

fn bytes_of(hex: &str) -> Vec<u8> {
    (0..hex.len() / 2)
        .map(|k| u8::from_str_radix(&hex[2 * k..2 * k + 2], 16).expect("digits"))
        .collect()
}

/// What a stored case shows of one line.
fn shown(port: u8, direction: Direction, payload: &[u8]) -> String {
    let mut text = [0; 8192];
    match decode(port, direction, payload, &mut text) {
        Ok(text) => text.to_owned(),
        Err(Error::NoText { at, why }) => {
            format!("refused {at} {}\n", format!("{why:?}").to_lowercase())
        }
        Err(other) => panic!("{other}"),
    }
}

#[test]
fn the_stored_cases_have_their_texts() {
    let mut count = 0;
    for case in fs::read_dir(top().join("tests/cases")).unwrap() {
        let case = case.unwrap().path();
        if !case.to_string_lossy().ends_with("_decoded") {
            continue;
        }
        let words = fs::read_to_string(case.join("args")).unwrap();
        let mut words = words.split_whitespace().skip(1);
        let port = words.next().unwrap().parse().unwrap();
        let direction = if words.next() == Some("up") { Direction::Up } else { Direction::Down };
        let mut told = String::new();
        for (n, line) in fs::read_to_string(case.join("file")).unwrap().lines().enumerate() {
            told += &format!("line {}\n{}", n + 1, shown(port, direction, &bytes_of(line.trim())));
        }
        assert_eq!(
            told + "end\n",
            fs::read_to_string(case.join("stdout")).unwrap(),
            "{}",
            case.display()
        );
        count += 1;
    }
    assert_eq!(count, 8);
}

#[test]
fn each_error_is_a_sentence() {
    let no_text = |why| Error::NoText { at: 4, why };
    let tries = [
        (Error::Range, "an argument is out of its range"),
        (Error::Plan(Field::FragSize), "the plan is wrong: a piece has not 1 to 239 bytes, or there are more than 4,096 pieces"),
        (Error::Plan(Field::Parity), "the plan is wrong: there are more than 512 coded fragments"),
        (Error::Plan(Field::Index), "the plan is wrong: the index is above 3"),
        (Error::Plan(Field::Group), "the plan is wrong: the group's id is above 3, or its min is not below its max"),
        (Error::Plan(Field::Window), "the plan is wrong: a field of the window doesn't fit its bits"),
        (Error::Plan(Field::Devices), "the plan is wrong: there are not 1 to 64 devices"),
        (Error::NoImage, "the image is no image file"),
        (Error::NoCommands, "the payload spells no commands"),
        (no_text(Why::Port), "no text at byte 4: the port carries no package"),
        (no_text(Why::Unknown), "no text at byte 4: no command has this identifier"),
        (no_text(Why::Short), "no text at byte 4: the payload ends within a command"),
        (Error::NoRoom { length: 60 }, "no room for a text of 60 bytes"),
        (Error::NoMemory, "there was not enough memory"),
        (Error::Full, "the device would hold more than 8 uplinks"),
        (Error::Spent, "the frame counts of the group are spent"),
        (Error::Corrupt, "the saved bytes are of no object that is so set up"),
        (Error::Down, "the sessions of the device are down until it gets power"),
        (Error::Flash, "the flash has something at a session's place that is no session's"),
        (Error::Version, "the library is not of the version of this crate"),
    ];
    for (error, words) in tries {
        assert_eq!(error.to_string(), words);
        let _: &dyn std::error::Error = &error;
    }
}

#[test]
fn bytes_are_those_that_came() {
    let bytes = Bytes::<4>::try_from(&[1, 2, 3][..]).unwrap();
    assert_eq!(
        (bytes.as_slice(), bytes.as_ref(), &*bytes),
        (&[1, 2, 3][..], &[1, 2, 3][..], &[1, 2, 3][..])
    );
    assert_eq!(format!("{bytes:?}"), "[1, 2, 3]");
    assert_ne!(bytes, Bytes::try_from(&[1, 2, 3, 0][..]).unwrap());
    assert_eq!(Bytes::<4>::try_from(&[0; 5][..]), Err(Error::Range));
}

#[test]
fn the_library_has_a_version() {
    assert_eq!(version(), Version { major: 0, minor: 1, patch: 0 });
    assert_eq!(version().to_string(), "0.1.0");
}

#[test]
fn the_library_is_for_this_processor() {
    assert_eq!(pointer_bits(), usize::BITS);
}
