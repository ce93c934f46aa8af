/**
 * Firmware update over the air for LoRaWAN (TS003, TS004, TS005 and TS006, 1.0.0): a receiver of one file at a time, a whole
 * device, the server of a campaign, and payloads as text.
 *
 * ```js
 * const library = await load();
 * const receiver = new Receiver(library);
 * receiver.setUp({ descriptor: 7, nbFrag: 3, fragSize: 2 });
 * receiver.hear(payload, 1);
 * console.log(receiver.view(), receiver.file());
 * receiver.free();
 * ```
 *
 * The calls are proved for x86-64, and translated for WebAssembly, which nothing proves; nor is this module.
 *
 * - Bytes are a `Uint8Array`, in the order of the standard; keys have 16, payloads at most 242. What is handed in is copied,
 *   and what comes out is the caller's own.
 * - Numbers are whole. Of those that have 64 bits in C, as times and marks, 0 to 2^53 - 1 are taken; a larger one, which only
 *   bytes that C saved can bring, comes out rounded.
 * - A field that is not named is 0, `false`, or a key of zeros.
 * - Each call throws a `TypeError` where an argument is of another type, {@link OutOfRange} where it is out of its range,
 *   {@link NoObject} after {@link Receiver.free | free}, and {@link NoMemory} where the module's memory, of up to 2 GB, is full;
 *   then nothing changed. What else it throws stands at the call.
 * - A call that the engine itself ends, as for want of stack, leaves an object that is only to be thrown away.
 */

declare global {
  interface SymbolConstructor {
    readonly dispose: unique symbol;
  }
}

// ---- Numbers

/** The most bytes of a payload. */
export const MAX_PAYLOAD: 242;
/** The most bytes of a multicast frame. */
export const MAX_FRAME: 255;
/** The bytes that a device saves. */
export const SAVED_DEVICE: 492;
/** The most bytes that a server saves: 44, and six for each of 64 devices. */
export const SAVED_SERVER: 428;
/** A span of a flash in which each session fits. The least is 24,640. */
export const LONGEST_SPAN: 631_573;

type Values<T> = T[keyof T];

/** What a call answers: the `answer` of a {@link FuotaError}. */
export const Answer: {
  readonly DONE: 0;
  readonly NOTHING: 1;
  readonly NO_OBJECT: 2;
  readonly RANGE: 3;
  readonly NO_ROOM: 4;
  readonly NO_MEMORY: 5;
  readonly REFUSED: 6;
  readonly DEAF: 7;
  readonly FULL: 8;
  readonly SPENT: 9;
  readonly CORRUPT: 10;
  readonly FOREIGN: 11;
  readonly DOWN: 12;
  readonly FLASH: 13;
};
export type Answer = Values<typeof Answer>;

/** What is known of a file. */
export const Verdict: {
  readonly RECEIVING: 0;
  /** One file alone fits the fragments heard. */
  readonly COMPLETE: 1;
  /** There were more independent coded fragments than rows. */
  readonly NO_ROWS: 2;
  /** No file fits. */
  readonly CONFLICT: 3;
};
export type Verdict = Values<typeof Verdict>;

/** What a receiver has room for, and each session of a device: pieces, bytes of a piece, and rows, so many lost pieces as coded
 * fragments can make good. */
export const Size: {
  /** 256 of 48 bytes, 16 rows. */
  readonly SMALL: 0;
  /** 1,024 of 48 bytes, 64 rows. */
  readonly MIDDLE: 1;
  /** 4,096, of 64 bytes in a receiver, of up to 239 in a device, 256 rows. */
  readonly LARGE: 2;
};
export type Size = Values<typeof Size>;

/** A field of a plan that is wrong. They are looked at in this order: fragSize, parity, index, the group, the window, the
 * devices. `WINDOW` is also a group without a window, and a window without a group. */
export const Field: {
  readonly FRAG_SIZE: 1;
  readonly PARITY: 2;
  readonly GROUP: 3;
  readonly WINDOW: 4;
  readonly DEVICES: 5;
  readonly INDEX: 6;
};
export type Field = Values<typeof Field>;

/** Where a device stands. */
export const StageKind: {
  /** The answer to the request is what moves it on. */
  readonly AT: 0;
  /** It runs the campaign's image. */
  readonly UPDATED: 1;
  /** Its answer to the request refused the campaign. */
  readonly STOPPED: 2;
};
export type StageKind = Values<typeof StageKind>;

/** What a server asks of a device. */
export const RequestKind: {
  readonly VERSION: 1;
  readonly GROUP: 2;
  readonly FRAGMENTS: 3;
  readonly WINDOW: 4;
  readonly STATUS: 5;
  readonly IMAGE: 6;
  readonly REBOOT: 7;
  readonly CHECK: 8;
};
export type RequestKind = Values<typeof RequestKind>;

/** Why a payload has no text. */
export const Why: {
  /** The port carries no package. */
  readonly PORT: 0;
  /** No command has this identifier. */
  readonly UNKNOWN: 1;
  /** The payload ends within a command. */
  readonly SHORT: 2;
  /** It has more than 242 bytes, which is {@link OutOfRange} here, and so never told. */
  readonly TOO_LONG: 3;
};
export type Why = Values<typeof Why>;

/** What was received to run next is to a device. */
export const ImageState: {
  readonly NONE: 0;
  /** No image file. */
  readonly CORRUPT: 1;
  /** An image file for other hardware. */
  readonly INCOMPATIBLE: 2;
  /** It runs after the reboot. */
  readonly VALID: 3;
};
export type ImageState = Values<typeof ImageState>;

/** How the program ends; a write fault and missing memory never come here. */
export const Exit: {
  readonly DONE: 0;
  /** The words are no form. */
  readonly USAGE: 2;
  /** An image is no image file. */
  readonly IMAGE_REFUSED: 3;
  /** A line of the script, or of the file of payloads, is refused. */
  readonly SCRIPT_REFUSED: 4;
  /** A file that the words name is not among the files. */
  readonly READ_FAULT: 5;
  readonly WRITE_FAULT: 6;
  readonly MEMORY: 7;
  /** A source is longer than its limit. */
  readonly TOO_LONG: 8;
  /** The device has no whole file. */
  readonly NOT_COMPLETE: 9;
};
export type Exit = Values<typeof Exit>;

// ---- Errors

/** What a call answers where it does not do what it is for; `name` is that of its class. */
export class FuotaError extends Error {
  /** A value of {@link Answer}. */
  readonly answer: Answer;
}

/** There is no receiver, device or server: it was freed. */
export class NoObject extends FuotaError {}
/** An argument is out of its range; nothing changed. */
export class OutOfRange extends FuotaError {}
/** A field of a plan is wrong. */
export class WrongField extends OutOfRange {
  /** The first of them. */
  readonly field: Field;
}
/** The text has no room. (No call here throws it.) */
export class NoRoom extends FuotaError {}
/** There was not enough memory. */
export class NoMemory extends FuotaError {}
/** The payload spells no commands, or the image is no image file; nothing acted. */
export class Refused extends FuotaError {}
/** The payload has no text. */
export class NoText extends Refused {
  /** The byte at which reading stops, from 0. */
  readonly at: number;
  readonly why: Why;
}
/** The device did not hear the payload. */
export class Deaf extends FuotaError {}
/** The device would hold more than 8 uplinks; nothing acted. */
export class Full extends FuotaError {}
/** The frame counts of the group are spent; nothing changed. */
export class Spent extends FuotaError {}
/** The saved bytes are of no object that is so set up. */
export class Corrupt extends FuotaError {}
/** The bytes are no frame of the group that the device hears. */
export class Foreign extends FuotaError {}
/** The sessions of the device are down until it gets power; nothing changed. */
export class NoPower extends FuotaError {}
/** The flash has something at a session's place that is no session's. */
export class BadFlash extends FuotaError {}

// ---- What calls take and give

/** What a session shows. */
export interface View {
  /** Of the fragment that decided the session; 0 while it receives. */
  mark: number;
  /** Bytes of the whole file; 0 where none is whole. */
  fileLength: number;
  /** Fragments heard, repeats included, at most 16,383. */
  received: number;
  /** Pieces still to be gained. */
  missing: number;
  verdict: Verdict;
}

/** The fields of FragSessionSetupReq (TS004). */
export interface Setup {
  /** Any number of 32 bits. */
  descriptor?: number;
  /** Pieces, from 1. */
  nbFrag?: number;
  /** Bytes of a piece, from 1; longer than the size says where there are fewer pieces, as long as they and the rows have room. */
  fragSize?: number;
  /** 0. */
  index?: number;
  /** Multicast groups that feed the session: bit 0 to 3. */
  mask?: number;
  /** 0. */
  algo?: number;
  /** BlockAckDelay; any value, it is for who sends the answer. */
  delay?: number;
  /** Zero bytes at the end of the last piece, fewer than `fragSize`. */
  padding?: number;
}

/** How a device is set up. */
export interface Config {
  /** Hardware version. */
  hw?: number;
  /** Seconds that its clock is ahead of true time. */
  offset?: number;
  /** Bytes of the file area of a session, 1 to 262,382. */
  area: number;
  /** The one descriptor that sessions take, where `hasDescriptor`. */
  descriptor?: number;
  hasDescriptor?: boolean;
  /** Rows for the coded fragments of a session, 0 to 256. */
  rows?: number;
  /** Image formats that it knows: 1 (format 1 alone) or 2 (both). */
  formats: number;
  /** Session indices, 1 to 4. */
  sessions: number;
  /** Multicast groups, 1 to 4. */
  groups: number;
  /** It always hears unicast payloads; else in the two windows after its uplink. */
  isClassC?: boolean;
  /** The key is AppKey of LoRaWAN 1.1; else GenAppKey of LoRaWAN 1.0. */
  isV11?: boolean;
  /** 16 bytes. */
  key?: Uint8Array;
}

/** The flash of a device whose sessions are held in one, and its size. */
export interface DeviceOptions {
  /** At least four spans, with zeros where it is new. Without it sessions are in memory. */
  flash?: Uint8Array;
  /** Bytes of the flash for a session; {@link LONGEST_SPAN} if left out. */
  span?: number;
  /** What its sessions have room for; `Size.LARGE` if left out. */
  size?: Size;
}

/** Of a device that is restored, also the image files that it had; without bytes where there was none. */
export interface RestoreOptions extends DeviceOptions {
  running?: Uint8Array;
  next?: Uint8Array;
}

/** A multicast group and a frame count, as a {@link Down} to a group has them. */
export interface Group {
  /** McAddr. */
  addr: number;
  /** The whole frame count, of 32 bits. */
  count: number;
}

export interface RadioOptions {
  /** The caller's own, handed back as that of a verdict; 0 if left out. */
  mark?: number;
  /** 32 random bits, which have to differ from device to device; 0 if left out. */
  word?: number;
}

export interface DeliverOptions extends RadioOptions {
  /** The group by which the payload comes; null or left out by unicast. */
  group?: Group | null;
}

/** A payload that a device sends. */
export interface Uplink {
  /** When, in ms of true time. */
  due: number;
  port: number;
  payload: Uint8Array;
}

/** Payloads that did not act, and fragments that no session heard. */
export interface Counts {
  /** Payloads that were not heard, and bytes that were no frame for it. */
  deaf: number;
  /** Payloads that spell no commands. */
  refused: number;
  /** Payloads whose answers had no room. */
  full: number;
  /** Fragments that no session heard. */
  dropped: number;
}

/** What was received to run next. */
export interface Next {
  /** Of a valid image; else 0. */
  version: number;
  state: ImageState;
}

/** What the program wrote, and how it ended. */
export interface Run {
  status: Exit;
  output: Uint8Array;
}

/** What a server is to do, but for its devices; a group and a window go together. */
export interface Plan {
  /** McAddr, where `hasGroup`. */
  addr?: number;
  /** The first frame count that is used, where `hasGroup`. */
  min?: number;
  /** The first frame count above `min` that isn't used any more, where `hasGroup`. */
  max?: number;
  /** SessionTime (TS005), where `hasWindow`. */
  start?: number;
  /** DLFrequ, in units of 100 Hz, below 2^24. */
  freq?: number;
  /** Coded fragments, 0 to 512. */
  parity?: number;
  /** Bytes of a piece, 1 to 239; at most 4,096 pieces. */
  fragSize: number;
  /** TimeOut, 0 to 15. */
  timeout?: number;
  /** DR. */
  dr?: number;
  /** 0 to 7, where `isClassB`. */
  periodicity?: number;
  /** FragIndex of the session on each device, 0 to 3. */
  index?: number;
  /** McGroupID on each device, 0 to 3, where `hasGroup`. */
  id?: number;
  hasGroup?: boolean;
  hasWindow?: boolean;
  /** The window is of class B; else of class C. */
  isClassB?: boolean;
  /** McKey, 16 bytes. */
  key?: Uint8Array;
}

/** A device of a plan, by its key. */
export interface PlanDevice {
  /** GenAppKey of LoRaWAN 1.0, or AppKey of LoRaWAN 1.1, 16 bytes. */
  key: Uint8Array;
  /** Which. */
  isV11?: boolean;
}

/** A payload on its way to devices. */
export interface Down {
  port: number;
  payload: Uint8Array;
  /** To a multicast group; else by unicast. */
  isGroup: boolean;
  /** McAddr, where `isGroup`; else 0. */
  addr: number;
  /** Frame count, where `isGroup`; else 0. */
  count: number;
}

/** What a device told in its last FragSessionStatusAns. */
export interface Status {
  /** Fragments that it heard, repeats included, at most 16,383. */
  received: number;
  /** Pieces that it missed, at most 255, which stands for more too. */
  missing: number;
  /** It had too little memory for the matrix. */
  norows: boolean;
}

/** Where a device stands. */
export interface Stage {
  stage: StageKind;
  /** 0 at `StageKind.UPDATED`. */
  request: RequestKind | 0;
  /** Of the refusal at `StageKind.STOPPED`; else 0. */
  bits: number;
}

// ---- The library

/** What {@link load} reads the module from. */
export type Source = ArrayBuffer | Uint8Array | URL | Response | WebAssembly.Module;

/** Loads the module; without an argument fuota.wasm beside this file. A page gives a URL or `fetch("..")`. */
export function load(source?: Source | Promise<Source>): Promise<Library>;

/** The module with its memory. All objects that are made of it share that. */
export class Library {
  /** Of an instance of fuota.wasm, which imports nothing, for who makes one by himself. Throws an `Error` at another version. */
  constructor(exports: WebAssembly.Exports);

  /** The calls of fuota.h themselves, `memory`, and the heap: `fuota_heap_take`, `fuota_heap_give`, `fuota_heap_used`. */
  readonly exports: WebAssembly.Exports;

  /** MAJOR, MINOR and PATCH. */
  version(): [number, number, number];

  /** 32. */
  pointerBits(): number;

  /** McAppSKey of a group, by which its payloads are encrypted, from its McKey of 16 bytes and its McAddr (TS005-1.0.0, Multicast
   * security). */
  mcAppSKey(mcKey: Uint8Array, addr: number): Uint8Array;

  /** McNetSKey of a group, by which its frames have their MIC. Network servers call it McNwkSKey. */
  mcNetSKey(mcKey: Uint8Array, addr: number): Uint8Array;

  /** FragSessionDeleteReq, by which a device deletes the session of an index, 0 to 3. */
  fragSessionDelete(index: number): Down;

  /** McGroupDeleteReq, by which a device deletes the group of an id, 0 to 3. */
  mcGroupDelete(id: number): Down;

  /** DevDeleteImageReq, by which a device deletes the image of a firmware version that it has received and does not run. */
  devDeleteImage(version: number): Down;

  /** ForceDeviceResyncReq, after which a device asks for the time `count` times, 0 to 7. */
  forceDeviceResync(count: number): Down;

  /** The commands of a payload of port 200 to 203, each on a line; `isUp` says that it goes from a device. Throws
   * {@link NoText} where the payload spells none. */
  decode(port: number, isUp: boolean, payload: Uint8Array): string;

  /** What the program `fuota` does with the words behind its name, over files by their names and no others. Throws
   * {@link NoMemory}. */
  run(words: readonly (string | Uint8Array)[], files?: Readonly<Record<string, Uint8Array>> | ReadonlyMap<string, Uint8Array>): Run;
}

/** The places of the fields of each struct of fuota.h, in bytes, for who makes a call of {@link Library.exports} by himself. */
export const LAYOUT: Readonly<
  Record<string, { size: number; fields: Record<string, { at: number; size: number }> }>
>;

/** A receiver of one file at a time (TS004), with session 0 alone. */
export class Receiver {
  /** With all memory that it will ever need, and no session. */
  constructor(library: Library, size?: Size);

  /** FragSessionSetupReq: all refusal bits of its answer (1 coding, 2 no room, 4 no such index, 8 another descriptor), 0 where
   * the session lives. */
  setUp(setup: Setup): number;

  /** Hears a payload of port 201 that came by unicast: a DataFragment of session 0 is heard, and anything else passed over;
   * `mark` is the caller's own. */
  hear(payload: Uint8Array, mark: number): void;

  /** What the session shows; null without one. */
  view(): View | null;

  /** The whole file; null before it is whole. */
  file(): Uint8Array | null;

  /** FragSessionStatusAns as its 5 bytes; null where none is to be sent. `isAll` is the request's Participants bit. */
  status(isAll: boolean): Uint8Array | null;

  /** Gives its memory back; each later call but this is {@link NoObject}. An object that is forgotten is freed some time. */
  free(): void;
  [Symbol.dispose](): void;
}

/**
 * A device of all four packages. With a flash its sessions are held there, and are down until `power`.
 *
 * It is saved after each call, and before its uplinks go out, whole or not at all: the bytes of `save`, of `flash`, and of both
 * files of `firmware`.
 */
export class Device {
  /** With all memory that it will ever need. Throws {@link OutOfRange} where a number of the configuration is out of its range,
   * or the flash has no room for four spans. */
  constructor(library: Library, config: Config, options?: DeviceOptions);

  /** The device that saved these bytes. Sessions that lay in memory are gone. Throws {@link Corrupt} where no such device saved
   * them. */
  static restore(library: Library, config: Config, saved: Uint8Array, options?: RestoreOptions): Device;

  /** Opens the sessions that are held in its flash, and offers each file that is whole, and was not when the device was last up,
   * to next. Throws {@link BadFlash}, and then they are down. */
  power(): void;

  /** The bytes of its flash, to be kept with those of `save`, all or none of both; none where sessions are in memory. */
  flash(): Uint8Array;

  /** Brings a payload at `t` ms of true time, at most 4,294,967,295,999. Throws {@link Deaf}, {@link Refused} and {@link Full}
   * where its commands did not act, which is counted, and {@link NoPower}. A reboot that is due at `t` is carried out before the
   * payload and after it, also where its commands do not act, but not at `NoPower` and `OutOfRange`. */
  deliver(port: number, payload: Uint8Array, t: number, options?: DeliverOptions): void;

  /** Brings what the radio heard at `t` ms of true time. A multicast frame of the group that is heard is as its payload is to
   * `deliver`; {@link Foreign} at other bytes, which are counted as deaf. */
  radio(frame: Uint8Array, t: number, options?: RadioOptions): void;

  /** Its counters. */
  counts(): Counts;

  /** What was received to run next is to it. */
  next(): Next;

  /** Both image formats are known from now on, and what was received to run next is read again. */
  raiseFormats(): void;

  /** Wakes at `t` ms of true time and asks for the time (TS003). Throws {@link Full} where it holds 8 uplinks. A reboot that is
   * due at `t` is carried out before and after. */
  wake(t: number): void;

  /** Takes the oldest uplink that is held; null where none is. */
  takeUplink(): Uplink | null;

  /** What the session of an index, 0 to 3, shows; null without one, and where they are down. */
  view(index: number): View | null;

  /** The whole file of the session of an index; null before it is whole. */
  file(index: number): Uint8Array | null;

  /** The version of the firmware that runs, 0 at first, and another after a reboot into a received image. */
  running(): number;

  /** What the device knows, {@link SAVED_DEVICE} bytes; it holds the keys of its groups. */
  save(): Uint8Array;

  /** The image file that was received to run next, or else the one that runs; no bytes where there is none. */
  firmware(isNext: boolean): Uint8Array;

  /** Gives its memory back; each later call but this is {@link NoObject}. An object that is forgotten is freed some time. */
  free(): void;
  [Symbol.dispose](): void;
}

/**
 * The server of a campaign. Its devices are numbered from 1.
 *
 * It is saved after a call, and before the payload that it gave goes out, whole or not at all: saved later, a frame count could
 * be sent twice.
 */
export class Server {
  /** At the start of a campaign, of a plan, 1 to 64 devices and an image file. A device may be the bytes of its GenAppKey of
   * LoRaWAN 1.0. Throws {@link WrongField} and {@link Refused}, where the image is no image file. */
  constructor(library: Library, plan: Plan, devices: readonly (PlanDevice | Uint8Array)[], image: Uint8Array);

  /** The server of this plan, devices and image that saved these bytes. Throws {@link Corrupt} where no such server saved them,
   * and what the constructor throws. */
  static restore(
    library: Library, plan: Plan, devices: readonly (PlanDevice | Uint8Array)[], image: Uint8Array, saved: Uint8Array,
  ): Server;

  /** The next fragment to all devices (TS004); null where all were sent. Throws {@link Spent}. */
  nextFragment(): Down | null;

  /** FragSessionStatusReq to all devices, answered by those that miss a fragment. Throws {@link Spent}. */
  statusAll(): Down;

  /** What the server asks of a device now, by unicast; it is sent again when no answer comes. Null where it is updated or
   * refused. */
  ask(dev: number): Down | null;

  /** Takes an uplink of a device that came on a port at `t` ms of GPS time, and moves its stage; the answer to send, or null.
   * Throws {@link Refused} where the payload spells no commands. */
  uplink(dev: number, port: number, payload: Uint8Array, t: number): Down | null;

  /** A payload to the group as its multicast frame of LoRaWAN 1.0.x; null where the payload is not to the plan's group, or for
   * port 0. A network server that is given payloads makes the frames itself. */
  frame(down: Down): Uint8Array | null;

  /** What a device told last of the campaign's session; null where it told nothing. */
  lastStatus(dev: number): Status | null;

  /** The number of the fragment that is sent next, from 1; where all were sent, one more than that of the last. */
  fragmentNumber(): number;

  /** The group's next frame count, from its `min` to its `max`, where none is left; 0 without a group. */
  frameCount(): number;

  /** Where a device stands. */
  ledger(dev: number): Stage;

  /** What the server knows, at most {@link SAVED_SERVER} bytes. There is no key among it. */
  save(): Uint8Array;

  /** Gives its memory back; each later call but this is {@link NoObject}. An object that is forgotten is freed some time. */
  free(): void;
  [Symbol.dispose](): void;
}
