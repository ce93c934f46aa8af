// A file of 5 bytes in 3 pieces of 2, of which the second is lost and a coded fragment makes it good.
// sample
import { load, Receiver, Verdict } from "./fuota.mjs";

const payloads = [
  [0x08, 0x01, 0x00, 0x11, 0x22], // piece 1
  [0x08, 0x03, 0x00, 0x55, 0x00], // piece 3, with a byte of padding
  [0x08, 0x04, 0x00, 0x33, 0x44], // a coded fragment, which is piece 2 alone
];
const receiver = new Receiver(await load());
receiver.setUp({ descriptor: 7, nbFrag: 3, fragSize: 2, padding: 1 });
payloads.forEach((payload, number) => {
  receiver.hear(Uint8Array.from(payload), number + 1);
  const view = receiver.view();
  console.log(`received ${view.received} missing ${view.missing}`);
  if (view.verdict === Verdict.COMPLETE) {
    const bytes = Array.from(receiver.file(), (byte) => byte.toString(16).padStart(2, "0"));
    console.log(`complete at ${view.mark}: ${bytes.join(" ")}`);
  }
});
receiver.free();
// end of sample
