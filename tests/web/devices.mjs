// Random devices: prints what tests/parts/devices.c prints. node devices.mjs FOLDER COUNT
import { pathToFileURL } from "node:url";
import { drawFrom, SUM_OF_NONE, summed } from "./sender.mjs";

const [folder, count] = process.argv.slice(2);
const { Answer, Device, FuotaError, load, NoText, Verdict } = await import(pathToFileURL(`${folder}/fuota.mjs`));
const STEPS = 300;
const AREA = 3000;

// Commands to a device that begin a payload: port, identifier, and length of the payload.
const KNOWN = [
  [200, 0, 1], [200, 1, 2], [200, 2, 30], [200, 3, 2], [200, 4, 11], [200, 5, 13],
  [201, 0, 1], [201, 1, 2], [201, 2, 11], [201, 3, 2], [201, 8, 0],
  [202, 0, 1], [202, 1, 6], [202, 2, 2], [202, 3, 2],
  [203, 0, 1], [203, 1, 1], [203, 2, 5], [203, 3, 5], [203, 4, 1], [203, 5, 5],
];
const SETUP = 8;
const FRAGMENT = 10;

const library = await load();
// (the length of a piece outlasts a device, as it does there)
let pieceSize = 1;

// A device, with what it told and how it answered.
class Player {
  constructor(number) {
    this.number = number;
    this.draw = drawFrom(number * 99991 + 7);
    this.sum = SUM_OF_NONE;
    this.uplinks = 0;
    this.answered = new Map();
    [this.size, this.config] = this.drawConfig();
    this.device = new Device(library, this.config, { size: this.size });
  }

  tell(bytes) {
    this.sum = summed(this.sum, bytes);
  }

  tellNumber(number) {
    const view = new DataView(new ArrayBuffer(8));
    view.setBigUint64(0, BigInt(number), true);
    this.tell(new Uint8Array(view.buffer));
  }

  // The number that a call answers.
  answerOf(call) {
    try {
      call();
      return Answer.DONE;
    } catch (fault) {
      if (!(fault instanceof FuotaError)) throw fault;
      return fault.answer;
    }
  }

  drawConfig() {
    const { draw } = this;
    const size = draw(3);
    const config = {
      hw: draw(3), offset: draw(1000), area: 1 + draw(AREA), rows: draw(17), formats: 1 + draw(2), sessions: 1 + draw(4),
      groups: 1 + draw(4), isClassC: draw(4) !== 0, isV11: draw(2) !== 0,
    };
    return [size, { ...config, key: Uint8Array.from({ length: 16 }, () => draw(256)) }];
  }

  // A session of few small pieces, mostly with padding that fits.
  drawSetup(bytes) {
    const { draw } = this;
    pieceSize = 1 + draw(40);
    bytes[1] = (draw(4) << 4) | draw(16);
    bytes[2] = 1 + draw(30);
    bytes[3] = 0;
    bytes[4] = pieceSize;
    bytes[5] = draw(5) ? 0 : draw(256);
    bytes[6] = draw(pieceSize);
  }

  drawPayload() {
    const { draw } = this;
    const kind = draw(3) ? draw(KNOWN.length) : FRAGMENT - draw(3);
    let [port, identifier, length] = KNOWN[kind];
    const bytes = Uint8Array.from({ length: 250 }, () => draw(256));
    bytes[0] = identifier;
    if (kind === SETUP) this.drawSetup(bytes);
    if (kind === FRAGMENT) {
      length = 3 + (draw(8) ? pieceSize : draw(60));
      bytes[1] = 1 + draw(40);
      bytes[2] = draw(4) << 6;
    }
    if (draw(10) === 0) length = draw(243);
    if (draw(20) === 0) port = 198 + draw(8);
    return { port, payload: bytes.slice(0, length) };
  }

  tellText(port, isUp, payload) {
    let text = "";
    let at = 0;
    let why = 0;
    const answer = this.answerOf(() => {
      try {
        text = library.decode(port, isUp, payload);
      } catch (fault) {
        if (fault instanceof NoText) ({ at, why } = fault);
        throw fault;
      }
    });
    this.tell([answer]);
    this.tellNumber(text.length + at * 65536 + why);
    this.tell(new TextEncoder().encode(text));
  }

  bring(port, payload, t, step) {
    const { draw, device } = this;
    const word = draw(1000000);
    const isGroup = draw(6) === 0;
    const group = { addr: draw(3), count: draw(100) };
    const options = { mark: step, word };
    const answer = this.answerOf(draw(12)
      ? () => device.deliver(port, payload, t, isGroup ? { ...options, group } : options)
      : () => device.radio(payload, t, options));
    this.tell([answer]);
    this.answered.set(answer, (this.answered.get(answer) ?? 0) + 1);
  }

  tellUplinks() {
    for (let up = this.device.takeUplink(); up !== null; up = this.device.takeUplink()) {
      this.uplinks++;
      this.tellNumber(up.due);
      this.tell([up.port]);
      this.tell(up.payload);
      this.tellText(up.port, true, up.payload);
    }
  }

  tellSessions() {
    for (let index = 0; index < 4; index++) {
      const view = this.device.view(index) ?? { mark: 0, fileLength: 0, received: 0, missing: 0, verdict: 0 };
      this.tellNumber(view.mark);
      this.tellNumber(view.fileLength);
      this.tellNumber(view.received + view.missing * 65536 + view.verdict * 0x100000000);
      if (view.verdict === Verdict.COMPLETE) this.tell(this.device.file(index));
    }
  }

  // The device goes on as one that was made of its own saved bytes.
  restart() {
    const { device } = this;
    const [running, next, saved] = [device.firmware(false), device.firmware(true), device.save()];
    this.tell(saved);
    device.free();
    this.device = Device.restore(library, this.config, saved, { size: this.size, running, next });
  }

  play() {
    let t = 0;
    for (let step = 0; step < STEPS; step++) {
      const { port, payload } = this.drawPayload();
      t += this.draw(3000);
      this.bring(port, payload, t, step);
      if (this.draw(9) === 0) this.answerOf(() => this.device.wake(t));
      this.tellUplinks();
      this.tellText(port, false, payload);
      this.tellSessions();
      if (this.draw(40) === 0) this.restart();
    }
    this.device.free();
    const [done, deaf, refused, full, foreign] = ["DONE", "DEAF", "REFUSED", "FULL", "FOREIGN"].map(
      (name) => this.answered.get(Answer[name]) ?? 0,
    );
    return `${this.number}: uplinks ${this.uplinks} done ${done} deaf ${deaf} refused ${refused} full ${full} `
      + `foreign ${foreign} sum ${this.sum.toString(16).padStart(8, "0")}`;
  }
}

for (let number = 0; number < Number(count); number++) console.log(new Player(number).play());
