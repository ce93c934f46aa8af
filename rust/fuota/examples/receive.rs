//! A file of 5 bytes in 3 pieces of 2, of which the second is lost and a coded fragment makes it good: as `c/receive.c`.
// sample
use fuota::{Receiver, ReceiverSize, Setup, Verdict};

fn main() -> Result<(), Box<dyn std::error::Error>> {
    let payloads = [
        [0x08, 0x01, 0x00, 0x11, 0x22], // piece 1
        [0x08, 0x03, 0x00, 0x55, 0x00], // piece 3, with a byte of padding
        [0x08, 0x04, 0x00, 0x33, 0x44], // a coded fragment, which is piece 2 alone
    ];
    let mut receiver = Receiver::new(ReceiverSize::Small)?;
    receiver.set_up(&Setup {
        descriptor: 7,
        nb_frag: 3,
        frag_size: 2,
        padding: 1,
        ..Setup::default()
    })?;
    for (mark, payload) in (1..).zip(&payloads) {
        receiver.hear(payload, mark)?;
        let view = receiver.view().ok_or("there is no session")?;
        println!("received {} missing {}", view.received, view.missing);
        if let Verdict::Complete { mark, .. } = view.verdict {
            print!("complete at {mark}:");
            for byte in receiver.file(0, &mut [0; 8]) {
                print!(" {byte:02x}");
            }
            println!();
        }
    }
    Ok(())
}
// end of sample
