// Each call and each exception, what is wrongly asked, and what memory stays: a line of JSON for each try, with what is wrong with
// it, or null. node calls.mjs FOLDER IMAGE
import assert from "node:assert/strict";
import { readFileSync } from "node:fs";
import { createServer } from "node:http";
import { pathToFileURL } from "node:url";
import { drawFrom } from "./sender.mjs";

const [folder, source] = process.argv.slice(2);
const fuota = await import(pathToFileURL(`${folder}/fuota.mjs`));
const { Answer, Device, Field, ImageState, Library, load, Receiver, RequestKind, Server, Size, StageKind, Verdict, Why } = fuota;
const image = readFileSync(source);
const bytes = readFileSync(`${folder}/fuota.wasm`);

const made = new Set();
// A library that notes which calls are made.
function noting({ exports }) {
  return new Library(new Proxy(exports, {
    get(of, name) {
      made.add(name);
      return of[name];
    },
  }));
}

const library = noting(await load());
const used = () => library.exports.fuota_heap_used();
const hex = (text) => Uint8Array.from(Buffer.from(text, "hex"));
const PIECES = ["0801001122", "0803005500", "0804003344"].map(hex);
const SETUP = { descriptor: 7, nbFrag: 3, fragSize: 2, padding: 1 };
const SETUP_REQ = hex("0200030002000107000000");
const FILE = [0x11, 0x22, 0x33, 0x44, 0x55];
const CONFIG = { hw: 1, area: 3000, rows: 16, formats: 1, sessions: 1, groups: 1, isClassC: true };
const SMALL = { size: Size.SMALL };
// (with room for the records of small sessions)
const SPAN = 30_000;
const FLASH = { ...SMALL, span: SPAN, flash: new Uint8Array(4 * SPAN) };
const STACK = 524_288;
const KEYS = [new Uint8Array(16), { key: new Uint8Array(16), isV11: true }];
const PLAN = { fragSize: 13, parity: 1 };
const GROUP = { addr: 5, min: 0, max: 3, hasGroup: true, hasWindow: true };

async function tried(name, test) {
  const before = used();
  let fault = null;
  try {
    await test();
    assert.equal(used(), before, "bytes of the heap are left");
  } catch (why) {
    fault = String(why.stack ?? why);
  }
  console.log(JSON.stringify({ name, fault }));
}

// A call throws the error of a name, with that answer and words.
function throws(name, call, words = /./) {
  assert.throws(call, (fault) => {
    const kind = fuota[name] ?? globalThis[name];
    assert(fault instanceof kind, `${fault} is no ${name}`);
    assert.equal(fault.name, name);
    assert.match(fault.message, words);
    assert(fault.stack.startsWith(name));
    if (name !== "TypeError") assert(fault instanceof fuota.FuotaError && fault instanceof Error);
    return true;
  });
}

// An object that is freed when the test is over.
function using(object, test) {
  try {
    return test(object);
  } finally {
    object.free();
  }
}

await tried("a receiver", () => using(new Receiver(library), (receiver) => {
  assert.equal(receiver.view(), null);
  assert.equal(receiver.file(), null);
  assert.equal(receiver.setUp({ ...SETUP, index: 1 }), 4);
  assert.equal(receiver.setUp({ ...SETUP, nbFrag: 257, fragSize: 48 }), 2);
  assert.equal(receiver.setUp(SETUP), 0);
  PIECES.forEach((payload, number) => {
    assert.equal(receiver.file(), null);
    receiver.hear(payload, number === 2 ? Number.MAX_SAFE_INTEGER : number);
  });
  const mark = Number.MAX_SAFE_INTEGER;
  assert.deepEqual(receiver.view(), { mark, fileLength: 5, received: 3, missing: 0, verdict: Verdict.COMPLETE });
  assert.deepEqual([...receiver.file()], FILE);
  assert.equal(receiver.status(false), null);
  assert.deepEqual(receiver.status(true), hex("0103000000"));
}));

await tried("a receiver of each size", () => {
  for (const size of Object.values(Size)) using(new Receiver(library, size), () => {});
});

await tried("a device", () => using(new Device(library, CONFIG, SMALL), (device) => {
  device.wake(1000);
  device.deliver(201, SETUP_REQ, 1000);
  assert.deepEqual([device.takeUplink().port, device.takeUplink()?.port], [202, 201]);
  assert.equal(device.takeUplink(), null);
  PIECES.forEach((payload, number) => device.deliver(201, payload, 2000 + number, { mark: number, word: 7 }));
  assert.equal(device.view(0).mark, 2);
  assert.equal(device.view(1), null);
  assert.deepEqual([...device.file(0)], FILE);
  assert.equal(device.file(1), null);
  assert.deepEqual(device.counts(), { deaf: 0, refused: 0, full: 0, dropped: 0 });
  assert.deepEqual(device.next(), { version: 0, state: ImageState.CORRUPT });
  device.raiseFormats();
  assert.equal(device.running(), 0);
  assert.deepEqual([...device.firmware(true)], FILE);
  assert.equal(device.firmware(false).length, 0);
  assert.equal(device.flash().length, 0);
  device.power();
  const saved = device.save();
  assert.equal(saved.length, fuota.SAVED_DEVICE);
  using(Device.restore(library, CONFIG, saved, { ...SMALL, next: device.firmware(true) }), (again) => {
    assert(again instanceof Device);
    assert.deepEqual([...again.firmware(true)], FILE);
    assert.equal(again.view(0), null);
  });
}));

await tried("a device in flash", () => using(new Device(library, CONFIG, FLASH), (device) => {
  throws("NoPower", () => device.deliver(201, SETUP_REQ, 0));
  device.power();
  device.deliver(201, SETUP_REQ, 0);
  PIECES.forEach((payload, mark) => device.deliver(201, payload, 0, { mark }));
  const [flash, saved] = [device.flash(), device.save()];
  assert.equal(flash.length, 4 * SPAN);
  using(Device.restore(library, CONFIG, saved, { ...FLASH, flash, next: device.firmware(true) }), (again) => {
    again.power();
    assert.deepEqual([...again.file(0)], FILE);
    assert.deepEqual(again.flash(), flash);
  });
  // (a closed gate before an open one)
  flash[65] = 0;
  using(new Device(library, CONFIG, { ...FLASH, flash }), (foreign) => throws("BadFlash", () => foreign.power()));
}));

await tried("a server", () => using(new Server(library, { ...PLAN, ...GROUP }, KEYS, image), (server) => {
  assert.deepEqual(server.ask(2), { port: 203, payload: Uint8Array.of(1), isGroup: false, addr: 0, count: 0 });
  assert.deepEqual(server.ledger(2), { stage: StageKind.AT, request: RequestKind.VERSION, bits: 0 });
  assert.equal(server.lastStatus(1), null);
  assert.deepEqual([server.fragmentNumber(), server.frameCount()], [1, 0]);
  const down = server.nextFragment();
  assert.deepEqual([down.port, down.isGroup, down.addr, down.count], [201, true, 5, 0]);
  assert.deepEqual([server.fragmentNumber(), server.frameCount()], [2, 1]);
  assert.deepEqual([...down.payload.subarray(3)], [...image.subarray(0, 13)]);
  const frame = server.frame(down);
  assert.deepEqual([frame.length, frame[0], frame[8]], [29, 0x60, 201]);
  assert.equal(server.frame({ ...down, addr: 1 }), null);
  assert.equal(server.statusAll().count, 1);
  assert.equal(server.uplink(1, 201, hex("0134125601"), 0), null);
  assert.deepEqual(server.lastStatus(1), { received: 0x1234, missing: 0x56, norows: true });
  const answer = server.uplink(2, 202, hex("010000000010"), 1000);
  assert.equal(answer.port, 202);
  using(Server.restore(library, { ...PLAN, ...GROUP }, KEYS, image, server.save()), (again) => {
    assert(again instanceof Server);
    assert.equal(again.nextFragment().count, 2);
    throws("Spent", () => again.nextFragment());
    throws("Spent", () => again.statusAll());
  });
}));

await tried("a server without a group", () => using(new Server(library, PLAN, KEYS, image), (server) => {
  let sent = 0;
  for (let down = server.nextFragment(); down !== null; down = server.nextFragment(), sent++) assert(!down.isGroup);
  assert.equal(sent, 5);
  assert.deepEqual([server.fragmentNumber(), server.frameCount()], [6, 0]);
}));

await tried("session keys", () => {
  const key = hex("00112233445566778899aabbccddeeff");
  assert.deepEqual(library.mcAppSKey(key, 0x11223344), hex("1076bbc2ea64f6e75805688798928aba"));
  assert.deepEqual(library.mcNetSKey(key, 0x11223344), hex("9f0420feddea37d9f057e1a21f2cd4ca"));
  throws("OutOfRange", () => library.mcAppSKey(key.subarray(1), 0), /key has 15 bytes, and not 16/);
  throws("OutOfRange", () => library.mcNetSKey(key, 2 ** 32), /addr/);
});

await tried("requests that no campaign makes", () => {
  const asked = [
    library.fragSessionDelete(3), library.mcGroupDelete(2), library.devDeleteImage(0x01020304), library.forceDeviceResync(7),
  ];
  assert.deepEqual(asked.map(({ port }) => port), [201, 200, 203, 202]);
  assert.deepEqual(asked.map(({ payload }) => payload), ["0303", "0302", "0504030201", "0307"].map(hex));
  assert(asked.every(({ isGroup }) => !isGroup));
  throws("OutOfRange", () => library.fragSessionDelete(4));
  throws("OutOfRange", () => library.mcGroupDelete(4));
  throws("OutOfRange", () => library.devDeleteImage(2 ** 32), /version/);
  throws("OutOfRange", () => library.forceDeviceResync(8));
});

await tried("texts", () => {
  assert.match(library.decode(201, true, hex("0102000100")), /^FragSessionStatusAns .*\n$/);
  assert.equal(library.decode(201, true, new Uint8Array(0)), "");
  assert(library.decode(200, false, new Uint8Array(242)).length > 4096);
  throws("NoText", () => library.decode(201, true, hex("01020001")), /SHORT/);
  throws("NoText", () => library.decode(9, true, hex("01")), /PORT/);
  const fault = (() => {
    try {
      return library.decode(201, true, hex("01020001"));
    } catch (why) {
      return why;
    }
  })();
  assert.deepEqual([fault.at, fault.why, fault.answer], [4, Why.SHORT, Answer.REFUSED]);
  assert(fault instanceof fuota.Refused);
});

await tried("errors of a receiver", () => {
  throws("OutOfRange", () => new Receiver(library, 3));
  using(new Receiver(library), (receiver) => {
    throws("OutOfRange", () => receiver.hear(new Uint8Array(243), 0), /243 bytes/);
    receiver.hear(new Uint8Array(242), 0);
  });
});

await tried("errors of a device", () => {
  throws("OutOfRange", () => new Device(library, { ...CONFIG, groups: 5 }));
  throws("OutOfRange", () => new Device(library, CONFIG, { ...FLASH, flash: new Uint8Array(4 * SPAN - 1) }));
  using(new Device(library, { ...CONFIG, isClassC: false }, SMALL), (device) => {
    throws("Deaf", () => device.deliver(201, SETUP_REQ, 0));
    throws("OutOfRange", () => device.wake(4_294_967_296_000));
    throws("OutOfRange", () => device.view(4));
    assert.equal(device.counts().deaf, 1);
  });
  using(new Device(library, CONFIG, SMALL), (device) => {
    throws("Refused", () => device.deliver(201, hex("ff"), 0));
    throws("Foreign", () => device.radio(new Uint8Array(20), 0));
    throws("OutOfRange", () => device.deliver(201, new Uint8Array(243), 0), /243 bytes/);
    for (let k = 0; k < 8; k++) device.wake(k);
    throws("Full", () => device.wake(9));
    const saved = device.save();
    saved[100] ^= 1;
    throws("Corrupt", () => Device.restore(library, CONFIG, saved, SMALL));
    throws("Corrupt", () => Device.restore(library, CONFIG, new Uint8Array(0), SMALL));
  });
});

await tried("errors of a server", () => {
  const wrong = (plan, field, devices = KEYS) => assert.throws(
    () => new Server(library, { ...PLAN, ...plan }, devices, image),
    (fault) => fault instanceof fuota.WrongField && fault instanceof fuota.OutOfRange && fault.field === field
      && fault.name === "WrongField",
  );
  wrong({ fragSize: 0 }, Field.FRAG_SIZE);
  wrong({ parity: 513 }, Field.PARITY);
  wrong({ index: 4 }, Field.INDEX);
  wrong({ hasGroup: true }, Field.GROUP);
  wrong({ hasGroup: true, max: 3 }, Field.WINDOW);
  wrong({}, Field.DEVICES, []);
  throws("Refused", () => new Server(library, PLAN, KEYS, image.subarray(1)));
  throws("Corrupt", () => Server.restore(library, PLAN, KEYS, image, new Uint8Array(50)));
  using(new Server(library, PLAN, KEYS, image), (server) => {
    throws("Refused", () => server.uplink(1, 203, new Uint8Array(1), 0));
    throws("OutOfRange", () => server.uplink(3, 203, new Uint8Array(1), 0));
    throws("OutOfRange", () => server.uplink(1, 203, new Uint8Array(243), 0), /243 bytes/);
    throws("OutOfRange", () => server.ledger(3));
    throws("OutOfRange", () => server.ask(0));
  });
});

await tried("what is wrongly asked", () => {
  throws("TypeError", () => new Receiver(), /library is undefined, and not what load\(\) gives/);
  throws("TypeError", () => new Receiver(library, "small"), /size is "small", and not a number/);
  throws("TypeError", () => new Device(library), /config is undefined, and not an object/);
  throws("TypeError", () => new Device(library, CONFIG, Size.SMALL), /options is 0, and not an object/);
  throws("TypeError", () => new Device(library, CONFIG, { running: image }), /options has running, which is none of flash/);
  throws("TypeError", () => new Device(library, { ...CONFIG, isClassC: 1 }), /isClassC is 1, and not true or false/);
  throws("OutOfRange", () => new Device(library, { ...CONFIG, key: new Uint8Array(15) }), /key has 15 bytes, and not 16/);
  throws("TypeError", () => new Server(library, PLAN, new Uint8Array(16), image), /devices is of type Uint8Array, and not an array/);
  throws("TypeError", () => new Server(library, PLAN, ["00"], image), /planDevice is "00", and not an object/);
  throws("TypeError", () => new Server(library, PLAN, KEYS, [...image]), /image is of type Array, and not a Uint8Array/);
  throws("TypeError", () => Server.restore(library, PLAN, KEYS, image), /saved is undefined, and not a Uint8Array/);
  throws("TypeError", () => library.decode(201, "up", image), /isUp is "up", and not true or false/);
  using(new Receiver(library), (receiver) => {
    throws("TypeError", () => receiver.setUp({ nbfrag: 3 }), /setup has nbfrag, which is none of descriptor, nbFrag,/);
    throws("OutOfRange", () => receiver.setUp({ nbFrag: 65536 }), /nbFrag is 65536, and not a whole number from 0 to 65535/);
    throws("TypeError", () => receiver.hear("0801001122", 1), /payload is "0801001122", and not a Uint8Array/);
    throws("TypeError", () => receiver.hear(PIECES[0]), /mark is undefined, and not a number/);
    throws("TypeError", () => receiver.hear(PIECES[0], 1n), /mark is 1, and not a number/);
    for (const mark of [-1, 0.5, NaN, Infinity, 2 ** 53]) throws("OutOfRange", () => receiver.hear(PIECES[0], mark));
    throws("TypeError", () => Receiver.prototype.view.call({}));
  });
  using(new Device(library, CONFIG, SMALL), (device) => {
    throws("TypeError", () => device.deliver(201, PIECES[0]), /t is undefined, and not a number/);
    throws("TypeError", () => device.deliver(201, PIECES[0], 0, { group: { addr: 1 } }), /count is undefined/);
    throws("TypeError", () => device.deliver(201, PIECES[0], 0, { group: 7 }), /group is 7/);
    throws("OutOfRange", () => device.deliver(256, PIECES[0], 0), /port is 256, and not a whole number from 0 to 255/);
  });
});

await tried("freed objects", () => {
  const all = [
    new Receiver(library), new Device(library, CONFIG, SMALL), new Server(library, PLAN, KEYS, image),
  ];
  for (const object of all) {
    object.free();
    object.free();
    const args = { setUp: [SETUP], hear: [PIECES[0], 1], status: [true], deliver: [201, PIECES[0], 0], radio: [PIECES[0], 0],
      wake: [0], firmware: [true], ask: [1], ledger: [1], lastStatus: [1], uplink: [1, 201, PIECES[0], 0],
      frame: [{ payload: PIECES[0] }] };
    for (const name of Object.getOwnPropertyNames(Object.getPrototypeOf(object))) {
      const given = args[name] ?? (object instanceof Device && ["view", "file"].includes(name) ? [0] : []);
      if (name !== "constructor") throws("NoObject", () => object[name](...given));
    }
  }
});

await tried("disposed objects", () => {
  if (!Symbol.dispose) return;
  const receiver = new Receiver(library);
  receiver[Symbol.dispose]();
  throws("NoObject", () => receiver.view());
});

await tried("forgotten objects", async () => {
  const before = used();
  (() => {
    for (let k = 0; k < 20; k++) new Device(library, CONFIG, SMALL);
  })();
  assert(used() > before);
  for (let k = 0; k < 50 && used() > before; k++) {
    globalThis.gc();
    await new Promise((resolve) => setTimeout(resolve, 10));
  }
});

await tried("two libraries", async () => {
  const other = await load(bytes);
  const [one, two] = [new Receiver(library), new Receiver(other)];
  one.setUp(SETUP);
  assert.equal(two.view(), null);
  two.free();
  one.free();
});

await tried("blocks of the heap", () => {
  const { fuota_heap_take: take, fuota_heap_give: give, memory } = library.exports;
  const draw = drawFrom(1);
  const blocks = new Map();
  const end = ([at, bytes]) => {
    const there = new Uint8Array(memory.buffer, at, bytes.length);
    assert.equal(Buffer.compare(there, bytes), 0, `a block at ${at} is not as it was filled`);
    give(at);
    blocks.delete(at);
  };
  for (let round = 0; round < 3000; round++) {
    if (draw(2) && blocks.size > 0) end([...blocks][draw(blocks.size)]);
    const size = 1 + draw(draw(20) ? 300 : 200_000);
    const at = take(size);
    assert(at > 0 && at % 8 === 0 && !blocks.has(at));
    blocks.set(at, new Uint8Array(size).fill(draw(256)));
    new Uint8Array(memory.buffer, at, size).set(blocks.get(at));
  }
  [...blocks].forEach(end);
});

await tried("the memory grows", () => {
  const before = library.exports.memory.buffer;
  const all = Array.from({ length: 20 }, () => new Device(library, CONFIG));
  assert(library.exports.memory.buffer.byteLength > before.byteLength);
  all.forEach((device) => device.free());
  const length = library.exports.memory.buffer.byteLength;
  const again = Array.from({ length: 20 }, () => new Device(library, CONFIG));
  assert.equal(library.exports.memory.buffer.byteLength, length);
  again.forEach((device) => device.free());
});

await tried("the memory grows within a call", async () => {
  const few = await load(bytes);
  const { fuota_heap_take: take, memory } = few.exports;
  const { byteLength } = memory.buffer;
  // (what is left has room for the words of a call, but not for a text beside them)
  take(byteLength - take(8) - 3000);
  assert.equal(memory.buffer.byteLength, byteLength);
  assert(few.decode(200, false, new Uint8Array(242)).length > 4096);
  assert(memory.buffer.byteLength > byteLength);
});

await tried("more memory than there is", async () => {
  const few = await load(bytes);
  const flash = Object.defineProperty(new Uint8Array(0), "length", { value: 2 ** 32 + 8 });
  throws("NoMemory", () => new Device(few, CONFIG, { ...FLASH, flash }));
});

await tried("what the module is read from", async () => {
  const web = createServer((asked, answer) => {
    answer.writeHead(asked.url === "/fuota.wasm" ? 200 : 404, { "Content-Type": "application/wasm" });
    answer.end(bytes);
  });
  await new Promise((resolve) => web.listen(0, "127.0.0.1", resolve));
  try {
    const url = new URL(`http://127.0.0.1:${web.address().port}/fuota.wasm`);
    const module = new WebAssembly.Module(bytes);
    const sources = [bytes, bytes.buffer.slice(bytes.byteOffset, bytes.byteOffset + bytes.length), url, await fetch(url),
      fetch(url), module, pathToFileURL(`${folder}/fuota.wasm`)];
    for (const from of sources) assert.deepEqual((await load(from)).version(), library.version());
    await assert.rejects(load(new URL("/other", url)), /status 404/);
    await assert.rejects(load("fuota.wasm"), /source is "fuota.wasm", and not bytes/);
    await assert.rejects(load(image), WebAssembly.CompileError);
  } finally {
    web.close();
  }
});

await tried("the program as a call", () => {
  const { Exit } = fuota;
  const said = (words, files) => {
    const { status, output } = library.run(words, files);
    return [status, new TextDecoder().decode(output)];
  };
  const payload = new TextEncoder().encode("01\n");
  const text = "line 1\nDevVersionReq\nend\n";
  assert.deepEqual(said(["decode", "203", "down", "file"], { file: payload }), [Exit.DONE, text]);
  assert.deepEqual(said(["decode", "203", "down", "--", "-"], new Map([["-", payload]])), [Exit.DONE, text]);
  assert.deepEqual(said(["decode", "203", "down", "file"], { other: payload }), [Exit.READ_FAULT, "read fault\n"]);
  assert.deepEqual(said(["campaign", "image", "script"], { image }), [Exit.READ_FAULT, "read fault\n"]);
  assert.deepEqual(said(["campaign", "image", "script"], { image: payload }), [Exit.IMAGE_REFUSED, "image refused\n"]);
  assert.deepEqual(said(["capture", "file"], { file: new Uint8Array(1_048_577) }), [Exit.TOO_LONG, "too long 1048577\n"]);
  assert.equal(said([])[0], Exit.USAGE);
  assert.equal(said([Uint8Array.of(255)])[0], Exit.USAGE);
  // (longer than the room that is there at first)
  const many = new TextEncoder().encode(`${"00".repeat(242)}\n`.repeat(300));
  assert(said(["decode", "200", "down", "file"], { file: many })[1].length > 1_000_000);
  throws("TypeError", () => library.run("capture"), /words is "capture", and not an array/);
  throws("TypeError", () => library.run([5]), /word is 5, and not a string/);
  throws("TypeError", () => library.run(["capture"], { file: "text" }), /file is "text", and not a Uint8Array/);
  throws("TypeError", () => library.run(["capture"], null), /files is null, and not an object or a Map/);
});

await tried("another version", () => {
  assert.throws(() => new Library({ fuota_version: () => 0x0200 }), /of version 0\.2, and fuota\.mjs of 0\.1/);
  assert.deepEqual([library.version(), library.pointerBits()], [[0, 1, 0], 32]);
});

// (the stack lies at the front of the memory, which was zeros, and grows down)
await tried("a quarter of the stack is enough", () => {
  const stack = new Uint8Array(library.exports.memory.buffer, 0, STACK);
  const most = STACK - stack.findIndex((byte) => byte !== 0);
  assert(most > 1000 && most < STACK / 4, `${most} bytes`);
});

await tried("each call is made", () => {
  const names = Object.keys(library.exports).filter((name) => !["memory", "fuota_heap_used"].includes(name));
  assert.deepEqual(names.filter((name) => !made.has(name)), []);
});
