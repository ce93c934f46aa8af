// Firmware update over the air for LoRaWAN (TS003, TS004, TS005 and TS006, 1.0.0): the library for C as a module of WebAssembly,
// with its calls as classes. What each takes, gives and throws stands in fuota.d.mts.
//
// What a call reads or writes in memory lies in one block of the module's heap, which is given back after it: `callOf`. A new call
// is made by a method; a new struct of fuota.h is one more `Struct`, whose places follow from the kinds of its fields.

// ---- Numbers

export const MAX_PAYLOAD = 242;
export const MAX_FRAME = 255;
export const SAVED_DEVICE = 492;
export const SAVED_SERVER = 428;
export const LONGEST_SPAN = 631_573;

// The version of fuota.h that this is for. While MAJOR is 0 another MINOR is another interface.
const MAJOR = 0;
const MINOR = 1;
const LONGEST_BLOCK = 2 ** 31 - 1;
const STATUS_LENGTH = 5;
const FIRST_ROOM = 2048;
const FIRST_OUTPUT = 65_536;

export const Answer = Object.freeze({
  DONE: 0, NOTHING: 1, NO_OBJECT: 2, RANGE: 3, NO_ROOM: 4, NO_MEMORY: 5, REFUSED: 6, DEAF: 7, FULL: 8, SPENT: 9, CORRUPT: 10,
  FOREIGN: 11, DOWN: 12, FLASH: 13,
});
export const Verdict = Object.freeze({ RECEIVING: 0, COMPLETE: 1, NO_ROWS: 2, CONFLICT: 3 });
export const Size = Object.freeze({ SMALL: 0, MIDDLE: 1, LARGE: 2 });
export const Field = Object.freeze({ FRAG_SIZE: 1, PARITY: 2, GROUP: 3, WINDOW: 4, DEVICES: 5, INDEX: 6 });
export const StageKind = Object.freeze({ AT: 0, UPDATED: 1, STOPPED: 2 });
export const RequestKind = Object.freeze({
  VERSION: 1, GROUP: 2, FRAGMENTS: 3, WINDOW: 4, STATUS: 5, IMAGE: 6, REBOOT: 7, CHECK: 8,
});
export const Why = Object.freeze({ PORT: 0, UNKNOWN: 1, SHORT: 2, TOO_LONG: 3 });
export const ImageState = Object.freeze({ NONE: 0, CORRUPT: 1, INCOMPATIBLE: 2, VALID: 3 });
export const Exit = Object.freeze({
  DONE: 0, USAGE: 2, IMAGE_REFUSED: 3, SCRIPT_REFUSED: 4, READ_FAULT: 5, WRITE_FAULT: 6, MEMORY: 7, TOO_LONG: 8,
  NOT_COMPLETE: 9,
});

// The name of a value of these.
const nameOf = (values, number) => Object.keys(values).find((name) => values[name] === number) ?? String(number);

// ---- Errors

export class FuotaError extends Error {}

// By their answers.
const ERRORS = [];

// The error of an answer, with the words that it has where there are no better ones.
function errorOf(name, answer, words) {
  const kind = class extends FuotaError {
    constructor(message = words) {
      super(message);
    }
  };
  Object.defineProperty(kind, "name", { value: name });
  Object.assign(kind.prototype, { name, answer });
  ERRORS[answer] = kind;
  return kind;
}

export const NoObject = errorOf("NoObject", Answer.NO_OBJECT, "there is no receiver, device or server: it was freed");
export const OutOfRange = errorOf("OutOfRange", Answer.RANGE, "an argument is out of its range");
export const NoRoom = errorOf("NoRoom", Answer.NO_ROOM, "the text has no room");
export const NoMemory = errorOf("NoMemory", Answer.NO_MEMORY, "there was not enough memory");
export const Refused = errorOf("Refused", Answer.REFUSED, "the payload spells no commands, or the image is no image file");
export const Deaf = errorOf("Deaf", Answer.DEAF, "the device did not hear the payload");
export const Full = errorOf("Full", Answer.FULL, "the device would hold more than 8 uplinks");
export const Spent = errorOf("Spent", Answer.SPENT, "the frame counts of the group are spent");
export const Corrupt = errorOf("Corrupt", Answer.CORRUPT, "the saved bytes are of no object that is so set up");
export const Foreign = errorOf("Foreign", Answer.FOREIGN, "the bytes are no frame of the group that the device hears");
export const NoPower = errorOf("NoPower", Answer.DOWN, "the sessions of the device are down until it gets power");
export const BadFlash = errorOf("BadFlash", Answer.FLASH, "the flash has something at a session's place that is no session's");

export class WrongField extends OutOfRange {
  constructor(field) {
    super(`the plan is wrong: ${nameOf(Field, field)}`);
    this.field = field;
  }
}
WrongField.prototype.name = "WrongField";

export class NoText extends Refused {
  constructor(at, why) {
    super(`no text, from byte ${at} on: ${nameOf(Why, why)}`);
    this.at = at;
    this.why = why;
  }
}
NoText.prototype.name = "NoText";

// ---- What callers give

function shown(value) {
  if (typeof value === "string") return JSON.stringify(value);
  if (typeof value !== "object" || value === null) return typeof value === "function" ? "a function" : String(value);
  return `of type ${value.constructor?.name ?? "Object"}`;
}

function wrongType(name, value, wanted) {
  return new TypeError(`${name} is ${shown(value)}, and not ${wanted}`);
}

function bytesOf(name, value) {
  // (that of another window is one too)
  const isBytes = ArrayBuffer.isView(value) && value[Symbol.toStringTag] === "Uint8Array";
  if (!isBytes) throw wrongType(name, value, "a Uint8Array");
  return value;
}

function payloadOf(value) {
  const { length } = bytesOf("payload", value);
  if (length > MAX_PAYLOAD) throw new OutOfRange(`the payload has ${length} bytes, and may have ${MAX_PAYLOAD}`);
  return value;
}

function textOf(name, value) {
  if (typeof value !== "string") throw wrongType(name, value, "a string");
  return new TextEncoder().encode(value);
}

// A word is a text, or bytes that may be none.
const wordOf = (value) => (ArrayBuffer.isView(value) ? bytesOf("word", value) : textOf("word", value));

// Files by their names, of an object or a Map.
function filesOf(value) {
  if (typeof value !== "object" || value === null) throw wrongType("files", value, "an object or a Map");
  const all = value instanceof Map ? [...value] : Object.entries(value);
  return all.map(([name, bytes]) => [textOf("name", name), bytesOf(name, bytes)]);
}

// The named values of an object, and no others.
function known(what, names, values) {
  if (typeof values !== "object" || values === null) throw wrongType(what, values, "an object");
  const unknown = Object.keys(values).find((name) => !names.includes(name));
  if (unknown !== undefined) throw new TypeError(`${what} has ${unknown}, which is none of ${names.join(", ")}`);
  return values;
}

// ---- Structs of C

// A field's kind: the bytes that it takes, and what they are multiples of; `of` gives what is written for a caller's value.
class Numeric {
  constructor(size) {
    const bits = 8 * size;
    const word = size === 8 ? "BigUint64" : `Uint${bits}`;
    this.size = this.align = size;
    this.none = 0;
    this.max = Math.min(2 ** bits - 1, Number.MAX_SAFE_INTEGER);
    this.read = (view, at) => Number(view[`get${word}`](at, true));
    this.write = (view, at, value) => view[`set${word}`](at, size === 8 ? BigInt(value) : value, true);
  }

  of(name, value) {
    if (typeof value !== "number") throw wrongType(name, value, "a number");
    if (!Number.isInteger(value) || value < 0 || value > this.max) {
      throw new OutOfRange(`${name} is ${value}, and not a whole number from 0 to ${this.max}`);
    }
    return value;
  }
}

const U8 = new Numeric(1);
const U16 = new Numeric(2);
const U32 = new Numeric(4);
const U64 = new Numeric(8);
const LENGTH = U64;

const BOOL = {
  size: 1,
  align: 1,
  none: false,
  read: (view, at) => view.getUint8(at) !== 0,
  write: (view, at, value) => view.setUint8(at, value ? 1 : 0),
  of(name, value) {
    if (typeof value !== "boolean") throw wrongType(name, value, "true or false");
    return value;
  },
};

// So many bytes.
class Bytes {
  constructor(size, of) {
    this.size = size;
    this.align = 1;
    this.none = new Uint8Array(0);
    this.of = of;
  }

  read(view, at) {
    return new Uint8Array(view.buffer, at, this.size).slice();
  }

  write(view, at, value) {
    new Uint8Array(view.buffer, at, this.size).set(value);
  }
}

const KEY = new Bytes(16, (name, value) => {
  const { length } = bytesOf(name, value);
  if (length !== 16) throw new OutOfRange(`${name} has ${length} bytes, and not 16`);
  return value.slice();
});
const PAYLOAD = new Bytes(MAX_PAYLOAD, (_name, value) => payloadOf(value).slice());

// A struct of fuota.h, with its fields in their order, as C lays it out.
class Struct {
  constructor(name, kinds) {
    this.name = name;
    this.fields = [];
    let at = 0;
    let widest = 1;
    for (const [field, kind] of Object.entries(kinds)) {
      at = Math.ceil(at / kind.align) * kind.align;
      this.fields.push({ name: field, at, kind });
      at += kind.size;
      widest = Math.max(widest, kind.align);
    }
    this.size = Math.ceil(at / widest) * widest;
  }

  // What is written for a caller's values: a field that is not named is 0.
  of(values) {
    known(this.name, this.fields.map((field) => field.name), values);
    return this.fields.map(({ name, kind }) => (values[name] === undefined ? kind.none : kind.of(name, values[name])));
  }

  write(view, at, written) {
    this.fields.forEach((field, number) => field.kind.write(view, at + field.at, written[number]));
  }

  read(view, at) {
    return Object.fromEntries(this.fields.map((field) => [field.name, field.kind.read(view, at + field.at)]));
  }
}

const HANDLE = new Struct("handle", { at: U64 });
const VIEW = new Struct("view", { mark: U64, fileLength: LENGTH, received: U16, missing: U16, verdict: U8 });
const SETUP = new Struct("setup", {
  descriptor: U32, nbFrag: U16, fragSize: U8, index: U8, mask: U8, algo: U8, delay: U8, padding: U8,
});
const CONFIG = new Struct("config", {
  hw: U32, offset: U32, area: U32, descriptor: U32, rows: U16, formats: U8, sessions: U8, groups: U8, hasDescriptor: BOOL,
  isClassC: BOOL, isV11: BOOL, key: KEY,
});
const ARRIVAL = new Struct("arrival", { t: U64, mark: U64, word: U32, addr: U32, count: U32, isGroup: BOOL });
const UPLINK = new Struct("uplink", { due: U64, length: LENGTH, port: U8, payload: PAYLOAD });
const PLAN = new Struct("plan", {
  addr: U32, min: U32, max: U32, start: U32, freq: U32, parity: U16, fragSize: U8, timeout: U8, dr: U8, periodicity: U8,
  index: U8, id: U8, hasGroup: BOOL, hasWindow: BOOL, isClassB: BOOL, key: KEY,
});
const PLAN_DEVICE = new Struct("planDevice", { key: KEY, isV11: BOOL });
const COUNTS = new Struct("counts", { deaf: U64, refused: U64, full: U64, dropped: U64 });
const NEXT = new Struct("next", { version: U32, state: U8 });
const STATUS = new Struct("status", { received: U16, missing: U8, norows: BOOL });
const DOWN = new Struct("down", { length: LENGTH, addr: U32, count: U32, port: U8, isGroup: BOOL, payload: PAYLOAD });
const STAGE = new Struct("stage", { stage: U8, request: U8, bits: U8 });
const DECODED = new Struct("decoded", { length: LENGTH, at: U16, why: U8 });
const WORD = new Struct("word", { bytes: U64, bytesLength: LENGTH });
const FILE = new Struct("file", { name: U64, nameLength: LENGTH, bytes: U64, bytesLength: LENGTH });
const RAN = new Struct("ran", { length: LENGTH, status: U8 });
// (places that a call writes a number to)
const VERSION = new Struct("version", { version: U32 });
const NUMBER = new Struct("number", { number: U16 });
const COUNT = new Struct("count", { count: U32 });
const WRONG = new Struct("field", { field: U8 });
const SESSION_KEY = new Struct("session key", { key: KEY });

const placesOf = ({ size, fields }) => ({
  size, fields: Object.fromEntries(fields.map(({ name, at, kind }) => [name, { at, size: kind.size }])),
});
export const LAYOUT = Object.freeze({
  receiver: placesOf(HANDLE),
  device: placesOf(HANDLE),
  server: placesOf(HANDLE),
  ...Object.fromEntries(
    [VIEW, SETUP, CONFIG, ARRIVAL, UPLINK, PLAN, PLAN_DEVICE, COUNTS, NEXT, STATUS, DOWN, STAGE, DECODED, WORD,
      FILE, RAN]
      .map((struct) => [struct.name, placesOf(struct)]),
  ),
});

// A payload that a device or server gives, of its length.
const sent = ({ length, payload, ...rest }) => ({ ...rest, payload: payload.slice(0, length) });

// ---- Words of a call that lie in memory

// Bytes at a place that `callOf` finds; `put` writes them before the call, and `take` reads them as `value` after it. Where they
// are of any number, their `count` is a word of the call too.
class Placed {
  constructor(size, { count, put = () => {}, take = () => undefined }) {
    Object.assign(this, { size, count, put, take, at: 0, value: undefined });
  }

  words() {
    return this.count === undefined ? [this.at] : [this.at, BigInt(this.count)];
  }
}

const given = (bytes) => new Placed(bytes.length, {
  count: bytes.length,
  put: ({ buffer }, at) => new Uint8Array(buffer, at, bytes.length).set(bytes),
});

function fieldsOf(struct, values) {
  const written = struct.of(values);
  return new Placed(struct.size, { put: (view, at) => struct.write(view, at, written) });
}

function listOf(struct, all) {
  const written = all.map((values) => struct.of(values));
  return new Placed(all.length * struct.size, {
    count: all.length,
    put: (view, at) => written.forEach((one, number) => struct.write(view, at + number * struct.size, one)),
  });
}

// Structs of addresses with their lengths: what stands there comes after all of them.
function addressed(struct, rows) {
  const all = rows.flat();
  return new Placed(rows.length * struct.size + all.reduce((sum, bytes) => sum + filledUp(bytes.length), 0), {
    count: rows.length,
    put(view, at) {
      let to = at + rows.length * struct.size;
      all.forEach((bytes, number) => {
        view.setBigUint64(at + 16 * number, BigInt(to), true);
        view.setBigUint64(at + 16 * number + 8, BigInt(bytes.length), true);
        new Uint8Array(view.buffer, to, bytes.length).set(bytes);
        to += filledUp(bytes.length);
      });
    },
  });
}

const told = (struct) => new Placed(struct.size, { take: (view, at) => struct.read(view, at) });

const roomFor = (count) => new Placed(count, {
  count,
  take: ({ buffer }, at) => new Uint8Array(buffer, at, count).slice(),
});

const filledUp = (size) => Math.ceil(size / 8) * 8;

// ---- The library

export async function load(source = new URL("fuota.wasm", import.meta.url)) {
  const from = await source;
  const module = from instanceof WebAssembly.Module ? from : await WebAssembly.compile(await bytesFrom(from));
  return new Library((await WebAssembly.instantiate(module, {})).exports);
}

async function bytesFrom(source) {
  if (source instanceof ArrayBuffer || ArrayBuffer.isView(source)) return source;
  if (source instanceof URL && source.protocol === "file:") return (await import("node:fs/promises")).readFile(source);
  const response = source instanceof URL ? await fetch(source) : source;
  if (!(typeof Response === "function" && response instanceof Response)) {
    throw wrongType("source", source, "bytes, a URL, a Response or a WebAssembly.Module");
  }
  if (!response.ok) throw new Error(`${response.url} answers with status ${response.status}`);
  return response.arrayBuffer();
}

export class Library {
  constructor(exports) {
    this.exports = exports;
    const [major, minor] = this.version();
    if (major !== MAJOR || minor !== MINOR) {
      throw new Error(`the module is of version ${major}.${minor}, and fuota.mjs of ${MAJOR}.${MINOR}`);
    }
  }

  version() {
    const number = this.exports.fuota_version();
    return [number >>> 16, (number >>> 8) & 255, number & 255];
  }

  pointerBits() {
    return this.exports.fuota_pointer_bits();
  }

  mcAppSKey(mcKey, addr) {
    return this.#sessionKey("mc_app_s_key", mcKey, addr);
  }

  mcNetSKey(mcKey, addr) {
    return this.#sessionKey("mc_net_s_key", mcKey, addr);
  }

  #sessionKey(name, mcKey, addr) {
    const found = told(SESSION_KEY);
    callOf(this, name, fieldsOf(SESSION_KEY, { key: mcKey }), U32.of("addr", addr), found);
    return found.value.key;
  }

  fragSessionDelete(index) {
    return this.#request("frag_session_delete", U8.of("index", index));
  }

  mcGroupDelete(id) {
    return this.#request("mc_group_delete", U8.of("id", id));
  }

  devDeleteImage(version) {
    return this.#request("dev_delete_image", U32.of("version", version));
  }

  forceDeviceResync(count) {
    return this.#request("force_device_resync", U8.of("count", count));
  }

  #request(name, number) {
    const down = told(DOWN);
    isDone(callOf(this, name, number, down));
    return sent(down.value);
  }

  decode(port, isUp, payload) {
    const direction = BOOL.of("isUp", isUp);
    let room = FIRST_ROOM;
    for (;;) {
      const text = roomFor(room);
      const out = told(DECODED);
      const answer = callOf(this, "decode", U8.of("port", port), Number(direction), given(payloadOf(payload)), text, out);
      const { length, at, why } = out.value;
      if (answer === Answer.DONE) return new TextDecoder().decode(text.value.subarray(0, length));
      if (answer === Answer.REFUSED) throw new NoText(at, why);
      if (answer !== Answer.NO_ROOM) throw new ERRORS[answer]();
      room = length;
    }
  }

  run(words, files = {}) {
    if (!Array.isArray(words)) throw wrongType("words", words, "an array");
    const line = ["fuota", ...words].map((word) => [wordOf(word)]);
    const given = filesOf(files);
    let room = FIRST_OUTPUT + 2 * given.reduce((sum, [, bytes]) => sum + bytes.length, 0);
    for (;;) {
      const output = roomFor(room);
      const out = told(RAN);
      const answer = callOf(this, "run", addressed(WORD, line), addressed(FILE, given), output, out);
      const { length, status } = out.value;
      if (answer === Answer.DONE) return { status, output: output.value.slice(0, length) };
      if (answer !== Answer.NO_ROOM) throw new ERRORS[answer]();
      room = length;
    }
  }
}

// A block of the module's heap; what it held is 0.
function taken({ memory, fuota_heap_take: take }, size) {
  const at = size > LONGEST_BLOCK ? 0 : take(size);
  if (at === 0) throw new NoMemory();
  new Uint8Array(memory.buffer, at, size).fill(0);
  return at;
}

// Makes a call, and gives what it answers.
function callOf({ exports }, name, ...words) {
  const call = exports[`fuota_${name}`];
  const placed = words.filter((word) => word instanceof Placed);
  if (placed.length === 0) return call(...words);
  // (8 bytes more, so that what has none has a place too)
  const block = taken(exports, placed.reduce((sum, word) => sum + filledUp(word.size), 8));
  try {
    let at = block;
    for (const word of placed) {
      word.at = at;
      word.put(new DataView(exports.memory.buffer), at);
      at += filledUp(word.size);
    }
    const answer = call(...words.flatMap((word) => (word instanceof Placed ? word.words() : word)));
    // (the memory is another buffer where it has grown)
    for (const word of placed) word.value = word.take(new DataView(exports.memory.buffer), word.at);
    return answer;
  } finally {
    exports.fuota_heap_give(block);
  }
}

// Whether there was something, by a number of Answer; an error is thrown.
function isDone(answer) {
  if (answer !== Answer.DONE && answer !== Answer.NOTHING) throw new ERRORS[answer]();
  return answer === Answer.DONE;
}

// ---- Objects

// An object of the library by its handle, 8 bytes of the module's heap.
class Handle {
  #library;
  #kind;
  #at = 0;

  constructor(library, kind) {
    if (!(library instanceof Library)) throw wrongType("library", library, "what load() gives");
    this.#library = library;
    this.#kind = kind;
    this.#at = taken(library.exports, HANDLE.size);
  }

  call(name, ...words) {
    if (this.#at === 0) throw new NoObject();
    return callOf(this.#library, `${this.#kind}_${name}`, this.#at, ...words);
  }

  // Makes a call that answers with a number of Answer: whether there was something.
  done(name, ...words) {
    return isDone(this.call(name, ...words));
  }

  // What a call writes into the struct that comes last; null where there is nothing.
  told(name, struct, ...words) {
    const out = told(struct);
    return this.done(name, ...words, out) ? out.value : null;
  }

  // What a call copies into so many bytes.
  copied(name, count, ...words) {
    const into = roomFor(count);
    const length = Number(this.call(name, ...words, into));
    return length === count ? into.value : into.value.slice(0, length);
  }

  free() {
    if (this.#at === 0) return;
    this.call("free");
    this.#library.exports.fuota_heap_give(this.#at);
    this.#at = 0;
  }
}

// Objects that nobody freed before they were forgotten.
const FORGOTTEN = new FinalizationRegistry((handle) => handle.free());

let handleOf;

class Held {
  #handle;

  static {
    handleOf = (held) => held.#handle;
  }

  constructor(library, kind, name, ...words) {
    const handle = new Handle(library, kind);
    try {
      handle.done(name, ...words);
    } catch (fault) {
      handle.free();
      throw fault;
    }
    this.#handle = handle;
    FORGOTTEN.register(this, handle, handle);
  }

  free() {
    FORGOTTEN.unregister(this.#handle);
    this.#handle.free();
  }

  [Symbol.dispose ?? Symbol.for("Symbol.dispose")]() {
    this.free();
  }
}

// The whole file of what a view shows; null before it is whole.
function fileOf(held, view, ...words) {
  const isWhole = view !== null && view.verdict === Verdict.COMPLETE;
  return isWhole ? handleOf(held).copied("file", view.fileLength, ...words, 0n) : null;
}

export class Receiver extends Held {
  constructor(library, size = Size.SMALL) {
    super(library, "receiver", "new", U8.of("size", size));
  }

  setUp(setup) {
    return handleOf(this).call("set_up", fieldsOf(SETUP, setup));
  }

  hear(payload, mark) {
    handleOf(this).done("hear", given(payloadOf(payload)), BigInt(U64.of("mark", mark)));
  }

  view() {
    return handleOf(this).told("view", VIEW);
  }

  file() {
    return fileOf(this, this.view());
  }

  status(isAll) {
    const bytes = handleOf(this).copied("status", STATUS_LENGTH, Number(BOOL.of("isAll", isAll)));
    return bytes.length > 0 ? bytes : null;
  }
}

const NONE = new Uint8Array(0);
const MADE = ["flash", "span", "size"];
const RESTORED = [...MADE, "running", "next"];
const ARRIVED = ["mark", "word"];

// The group by which a payload comes, as an arrival has it.
function groupOf(group) {
  if (typeof group !== "object") throw wrongType("group", group, "an address and a count");
  return { addr: U32.of("addr", group.addr), count: U32.of("count", group.count), isGroup: true };
}

export class Device extends Held {
  #area;
  #flashLength;

  // (`saved` is what `restore` hands on)
  constructor(library, config, options = {}, saved = undefined) {
    const { flash, span = LONGEST_SPAN, size = Size.LARGE, running = NONE, next = NONE } = known(
      "options", saved === undefined ? MADE : RESTORED, options,
    );
    const name = saved === undefined ? "new" : "restore";
    const held = flash === undefined ? [] : [U32.of("span", span), given(bytesOf("flash", flash))];
    const kept = saved === undefined
      ? []
      : [given(saved), given(bytesOf("running", running)), given(bytesOf("next", next))];
    super(
      library, "device", flash === undefined ? name : `${name}_in_flash`, U8.of("size", size), fieldsOf(CONFIG, config),
      ...held, ...kept,
    );
    this.#area = config.area;
    this.#flashLength = flash === undefined ? 0 : flash.length;
  }

  static restore(library, config, saved, options = {}) {
    return new this(library, config, options, bytesOf("saved", saved));
  }

  power() {
    handleOf(this).done("power");
  }

  flash() {
    return handleOf(this).copied("flash", this.#flashLength, 0n);
  }

  deliver(port, payload, t, options = {}) {
    const { mark = 0, word = 0, group = null } = known("options", [...ARRIVED, "group"], options);
    const arrival = fieldsOf(ARRIVAL, { t: U64.of("t", t), mark, word, ...(group === null ? {} : groupOf(group)) });
    handleOf(this).done("deliver", U8.of("port", port), given(payloadOf(payload)), arrival);
  }

  radio(frame, t, options = {}) {
    const { mark = 0, word = 0 } = known("options", ARRIVED, options);
    const when = BigInt(U64.of("t", t));
    handleOf(this).done("radio", given(bytesOf("frame", frame)), when, U32.of("word", word), BigInt(U64.of("mark", mark)));
  }

  counts() {
    return handleOf(this).told("counts", COUNTS);
  }

  next() {
    return handleOf(this).told("next", NEXT);
  }

  raiseFormats() {
    handleOf(this).done("raise");
  }

  wake(t) {
    handleOf(this).done("wake", BigInt(U64.of("t", t)));
  }

  takeUplink() {
    const uplink = handleOf(this).told("take_uplink", UPLINK);
    return uplink && sent(uplink);
  }

  view(index) {
    return handleOf(this).told("view", VIEW, U8.of("index", index));
  }

  file(index) {
    return fileOf(this, this.view(index), U8.of("index", index));
  }

  running() {
    return handleOf(this).told("running", VERSION).version;
  }

  save() {
    return handleOf(this).copied("save", SAVED_DEVICE);
  }

  firmware(isNext) {
    return handleOf(this).copied("firmware", this.#area, Number(BOOL.of("isNext", isNext)), 0n);
  }
}

export class Server extends Held {
  // (`saved` is what `restore` hands on)
  constructor(library, plan, devices, image, saved = undefined) {
    if (!Array.isArray(devices)) throw wrongType("devices", devices, "an array");
    const listed = listOf(PLAN_DEVICE, devices.map((device) => (ArrayBuffer.isView(device) ? { key: device } : device)));
    const kept = saved === undefined ? [] : [given(saved)];
    const words = [fieldsOf(PLAN, plan), listed, given(bytesOf("image", image)), ...kept];
    const wrong = told(WRONG);
    try {
      super(library, "server", saved === undefined ? "new" : "restore", ...words, wrong);
    } catch (fault) {
      throw fault instanceof OutOfRange ? new WrongField(wrong.value.field) : fault;
    }
  }

  static restore(library, plan, devices, image, saved) {
    return new this(library, plan, devices, image, bytesOf("saved", saved));
  }

  nextFragment() {
    return downOf(this, "next_fragment");
  }

  statusAll() {
    return downOf(this, "status_all");
  }

  ask(dev) {
    return downOf(this, "ask", U8.of("dev", dev));
  }

  uplink(dev, port, payload, t) {
    const when = BigInt(U64.of("t", t));
    return downOf(this, "uplink", U8.of("dev", dev), U8.of("port", port), given(payloadOf(payload)), when);
  }

  frame(down) {
    known("down", ["port", "payload", "isGroup", "addr", "count"], down);
    const fields = fieldsOf(DOWN, { ...down, length: payloadOf(down.payload).length });
    const bytes = handleOf(this).copied("frame", MAX_FRAME, fields);
    return bytes.length > 0 ? bytes : null;
  }

  lastStatus(dev) {
    return handleOf(this).told("last_status", STATUS, U8.of("dev", dev));
  }

  fragmentNumber() {
    return handleOf(this).told("fragment_number", NUMBER).number;
  }

  frameCount() {
    return handleOf(this).told("frame_count", COUNT).count;
  }

  ledger(dev) {
    return handleOf(this).told("ledger", STAGE, U8.of("dev", dev));
  }

  save() {
    return handleOf(this).copied("save", SAVED_SERVER);
  }
}

// The payload that a server gives; null where there is none.
function downOf(server, name, ...words) {
  const down = handleOf(server).told(name, DOWN, ...words);
  return down && sent(down);
}
