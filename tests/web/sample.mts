// A program that takes each class of fuota, which tests/wasm has compiled.
import {
  Answer, Device, FuotaError, LAYOUT, load, NoText, Receiver, Server, Size, StageKind, Verdict, WrongField,
} from "fuota";
import type { Config, Down, Library, Plan, Source, Stage, Uplink, View } from "fuota";

const config: Config = { area: 3000, rows: 16, formats: 2, sessions: 1, groups: 1, key: new Uint8Array(16) };
const plan: Plan = { fragSize: 48, parity: 16 };

export async function receives(from: Source, payloads: readonly Uint8Array[]): Promise<Uint8Array | null> {
  const library: Library = await load(from);
  const receiver = new Receiver(library, Size.MIDDLE);
  const bits: number = receiver.setUp({ nbFrag: 3, fragSize: 2 });
  payloads.forEach((payload, mark) => receiver.hear(payload, mark));
  const view: View | null = receiver.view();
  // @ts-expect-error (there may be no session)
  view.mark;
  // @ts-expect-error (a field is misspelled)
  receiver.setUp({ nbfrag: 3 });
  // @ts-expect-error (bytes are a Uint8Array)
  receiver.hear("0801001122", 1);
  // @ts-expect-error (there is no such size)
  new Receiver(library, 7);
  receiver[Symbol.dispose]();
  return bits === 0 && view?.verdict === Verdict.COMPLETE ? receiver.file() : null;
}

export function campaign(library: Library, image: Uint8Array): Stage {
  const server = new Server(library, plan, [new Uint8Array(16), { key: new Uint8Array(16), isV11: true }], image);
  const device = Device.restore(library, config, new Uint8Array(492), { size: Size.SMALL, next: image });
  for (let down: Down | null = server.nextFragment(); down !== null; down = server.nextFragment()) {
    device.deliver(down.port, down.payload, 1000, { word: 7, group: down.isGroup ? down : null });
  }
  const up: Uplink | null = device.takeUplink();
  if (up) server.uplink(1, up.port, up.payload, up.due);
  const stage = server.ledger(1);
  return stage.stage === StageKind.UPDATED ? stage : { ...stage, bits: 0 };
}

export function worded(fault: unknown): string {
  if (fault instanceof NoText) return `${fault.at} ${fault.why}`;
  if (fault instanceof WrongField) return `${fault.field}`;
  const isMemory = fault instanceof FuotaError && fault.answer === Answer.NO_MEMORY;
  return isMemory ? "no memory" : `${LAYOUT.view?.size}`;
}
