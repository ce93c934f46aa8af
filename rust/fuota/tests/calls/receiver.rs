//! A receiver at the edges of its arguments, as `c/answers.c` has it.

use crate::shared::{FILE, FRAGMENTS};
use fuota::{Error, Participants, Receiver, ReceiverSize, Setup, Verdict, View};

const SETUP: Setup = Setup {
    descriptor: 7,
    nb_frag: 3,
    frag_size: 2,
    index: 0,
    mask: 0,
    algo: 0,
    delay: 0,
    padding: 1,
};

fn receiving(received: u16, missing: u16) -> Option<View> {
    Some(View { received, missing, verdict: Verdict::Receiving })
}

#[test]
fn a_file_comes_whole() {
    let mut receiver = Receiver::new(ReceiverSize::Small).unwrap();
    assert_eq!(receiver.view(), None);
    assert_eq!(receiver.status(Participants::All), None);
    receiver.set_up(&SETUP).unwrap();
    receiver.hear(&FRAGMENTS[0], 0).unwrap();
    receiver.hear(&FRAGMENTS[1], 1).unwrap();
    // a fragment of session 1, and what is no fragment
    receiver.hear(&[8, 2, 0x40, 0x33, 0x44], 2).unwrap();
    receiver.hear(&[0, 8, 2, 0, 0x33, 0x44], 3).unwrap();
    assert_eq!(receiver.view(), receiving(2, 1));
    assert_eq!(receiver.file(0, &mut [0xEE; 8]), []);
    // 2 of 3 pieces were heard, and one is missing
    assert_eq!(receiver.status(Participants::Missing), Some([1, 2, 0, 1, 0]));
    assert_eq!(receiver.hear(&[0; 243], 4), Err(Error::Range));
    receiver.hear(&[0; 242], 4).unwrap();
    receiver.hear(&[], 4).unwrap();
    receiver.hear(&FRAGMENTS[2], u64::MAX).unwrap();
    let verdict = Verdict::Complete { mark: u64::MAX, length: 5 };
    assert_eq!(receiver.view(), Some(View { received: 3, missing: 0, verdict }));
    // who misses nothing answers only where all are asked
    assert_eq!(receiver.status(Participants::Missing), None);
    assert_eq!(receiver.status(Participants::All), Some([1, 3, 0, 0, 0]));
}

#[test]
fn bytes_of_the_file_are_those_from_the_offset_on() {
    let mut receiver = Receiver::new(ReceiverSize::Small).unwrap();
    receiver.set_up(&SETUP).unwrap();
    for fragment in &FRAGMENTS {
        receiver.hear(fragment, 0).unwrap();
    }
    let mut bytes = [0xEE; 8];
    assert_eq!(receiver.file(0, &mut bytes), FILE);
    assert_eq!(bytes[5..], [0xEE; 3]);
    let mut byte = [0; 1];
    assert_eq!(receiver.file(3, &mut byte), [0x44]);
    assert_eq!(receiver.file(5, &mut bytes), []);
    assert_eq!(receiver.file(usize::MAX, &mut bytes), []);
    assert_eq!(receiver.file(0, &mut []), []);
}

#[test]
fn each_size_takes_so_many_pieces_and_no_more() {
    let sizes = [
        (ReceiverSize::Small, 256, 48),
        (ReceiverSize::Middle, 1024, 48),
        (ReceiverSize::Large, 4096, 64),
    ];
    for (size, nb_frag, frag_size) in sizes {
        let mut receiver = Receiver::new(size).unwrap();
        let setup = Setup { nb_frag, frag_size, mask: 255, delay: 255, ..Setup::default() };
        assert_eq!(receiver.set_up(&setup), Ok(()));
        let refusal = receiver.set_up(&Setup { frag_size: frag_size + 1, ..setup }).unwrap_err();
        assert_eq!(refusal.bits(), 2);
        let refusal =
            receiver.set_up(&Setup { nb_frag: nb_frag + 1, frag_size: 1, ..setup }).unwrap_err();
        assert!(refusal.is_no_room() && !refusal.is_coding() && !refusal.is_index());
    }
}

#[test]
fn a_refusal_has_all_bits() {
    let mut receiver = Receiver::new(ReceiverSize::Small).unwrap();
    let refusal = receiver.set_up(&Setup { index: 1, ..SETUP }).unwrap_err();
    assert_eq!((refusal.bits(), refusal.is_index()), (4, true));
    assert_eq!(refusal.to_string(), "the setup is refused: there is no such index");
    let wrong = Setup { index: 1, algo: 1, nb_frag: 257, frag_size: 48, ..SETUP };
    let refusal = receiver.set_up(&wrong).unwrap_err();
    assert_eq!(refusal.bits(), 7);
    assert!(refusal.is_coding() && refusal.is_no_room() && !refusal.is_descriptor());
    assert_eq!(
        refusal.to_string(),
        "the setup is refused: the coding is not known, there is no room for the pieces, there is no such index"
    );
    assert_eq!(receiver.view(), None);
}

/// A setup equal to that of the session keeps what was heard, and one with another field begins anew.
#[test]
fn each_field_of_a_setup_counts() {
    for other in [
        Setup { descriptor: 8, ..SETUP },
        Setup { nb_frag: 4, ..SETUP },
        Setup { mask: 1, ..SETUP },
        Setup { delay: 1, ..SETUP },
        Setup { padding: 0, ..SETUP },
    ] {
        let mut receiver = Receiver::new(ReceiverSize::Small).unwrap();
        receiver.set_up(&SETUP).unwrap();
        receiver.hear(&FRAGMENTS[0], 0).unwrap();
        receiver.set_up(&SETUP).unwrap();
        assert_eq!(receiver.view(), receiving(1, 2));
        receiver.set_up(&other).unwrap();
        assert_eq!(receiver.view(), receiving(0, other.nb_frag), "{other:?}");
    }
}

/// With 16 rows the seventeenth independent coded fragment is one too many, and a fragment that contradicts is a conflict.
#[test]
fn a_session_ends_without_a_file() {
    let mut receiver = Receiver::new(ReceiverSize::Small).unwrap();
    receiver.set_up(&Setup { padding: 0, ..SETUP }).unwrap();
    for (mark, fragment) in FRAGMENTS.iter().enumerate() {
        receiver.hear(fragment, mark as u64).unwrap();
    }
    let verdict = Verdict::Complete { mark: 2, length: 6 };
    assert_eq!(receiver.view().unwrap().verdict, verdict);
    // the same coded fragment with other bytes, before piece 2 is known
    receiver.set_up(&Setup { descriptor: 8, ..SETUP }).unwrap();
    receiver.hear(&FRAGMENTS[2], 5).unwrap();
    receiver.hear(&[8, 4, 0, 0x33, 0x45], 6).unwrap();
    assert_eq!(receiver.view().unwrap().verdict, Verdict::Conflict { mark: 6 });
}

#[test]
fn too_many_coded_fragments_have_no_rows() {
    let mut receiver = Receiver::new(ReceiverSize::Small).unwrap();
    receiver.set_up(&Setup { nb_frag: 256, frag_size: 1, ..Setup::default() }).unwrap();
    let mut verdicts = Vec::new();
    for n in 257..257 + 17u16 {
        let [low, high] = n.to_le_bytes();
        // all pieces are zeros, and so is each sum of them
        receiver.hear(&[8, low, high, 0], n.into()).unwrap();
        verdicts.push(receiver.view().unwrap().verdict);
    }
    assert_eq!(verdicts[15], Verdict::Receiving);
    // 257 to 272 filled the rows
    assert_eq!(verdicts[16], Verdict::NoRows { mark: 273 });
}
