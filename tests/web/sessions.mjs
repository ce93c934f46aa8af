// Random sessions of a receiver: prints what tests/parts/sessions.c prints. node sessions.mjs FOLDER COUNT
import { pathToFileURL } from "node:url";
import { drawFrom, fragment, SUM_OF_NONE, summed } from "./sender.mjs";

const [folder, count] = process.argv.slice(2);
const { load, Receiver, Verdict } = await import(pathToFileURL(`${folder}/fuota.mjs`));
const PIECES = 256;
const SIZE = 48;

const receiver = new Receiver(await load());
// (a setup with the descriptor of a live session is taken as its repeat)
let descriptor = 0;

// A session that loses a share of its fragments, hears some again, early or late, and now and then a changed one.
function played(number) {
  const draw = drawFrom((number * 77777 + 1) % 2 ** 32);
  const pieces = 1 + draw(PIECES);
  const size = 1 + draw(SIZE);
  const padding = draw(size);
  const loss = draw(8);
  const isWrong = draw(10) === 0;
  const file = new Uint8Array(pieces * size);
  for (let k = 0; k < file.length - padding; k++) file[k] = draw(256);
  if (receiver.setUp({ descriptor: ++descriptor, nbFrag: pieces, fragSize: size, padding }) !== 0) return `${number} refused`;
  let mark = 0;
  for (let n = 1; n <= pieces + 40 && receiver.view().verdict === Verdict.RECEIVING; n++) {
    if (draw(100) < loss) continue;
    const payload = fragment(file, draw(8) === 0 ? 1 + draw(pieces + 40) : n, pieces, size);
    if (isWrong && draw(40) === 0) payload[3 + draw(size)] ^= 1;
    receiver.hear(payload, ++mark);
  }
  const view = receiver.view();
  const whole = receiver.file() ?? new Uint8Array(0);
  const sum = summed(SUM_OF_NONE, whole).toString(16).padStart(8, "0");
  return `${number}: ${pieces} pieces of ${size}, received ${view.received} missing ${view.missing} `
    + `verdict ${view.verdict} mark ${view.mark} length ${whole.length} sum ${sum}`;
}

for (let number = 0; number < Number(count); number++) console.log(played(number));
receiver.free();
