// The heap fails at each block in turn, that of a call's words too: each call throws NoMemory, and gives all blocks back; after so
// many blocks as it takes it does not. Prints the blocks of each. node exhausted.mjs FOLDER IMAGE, where the folder's module has
// failing_heap.c before its heap.
import assert from "node:assert/strict";
import { readFileSync } from "node:fs";
import { pathToFileURL } from "node:url";

const [folder, source] = process.argv.slice(2);
const fuota = await import(pathToFileURL(`${folder}/fuota.mjs`));
const { Device, Foreign, Library, load, NoMemory, Receiver, Server, Size, Verdict } = fuota;
// (what the linker wraps is handed out by this name)
const { exports } = await load();
const library = new Library({ ...exports, fuota_heap_take: exports.__wrap_fuota_heap_take });
const { fuota_heap_fails_after: failsAfter, fuota_heap_used: used } = exports;
const EVER = 2 ** 31 - 1;
const image = readFileSync(source);
const config = { hw: 1, area: 3000, rows: 16, formats: 2, sessions: 1, groups: 1, isClassC: true };
const small = { size: Size.SMALL };
const inFlash = { ...small, flash: new Uint8Array(120_000), span: 30_000 };
const plan = { fragSize: 13 };
const keys = [new Uint8Array(16)];
const GROUP = { addr: 5, max: 9, hasGroup: true, hasWindow: true };

function tried(name, call, free = () => {}) {
  const before = used();
  for (let blocks = 0; ; blocks++) {
    failsAfter(blocks);
    let made;
    try {
      made = call();
    } catch (fault) {
      failsAfter(EVER);
      assert(fault instanceof NoMemory, `${name} at block ${blocks}: ${fault}`);
      assert.equal(used(), before, `${name} at block ${blocks}`);
      continue;
    }
    failsAfter(EVER);
    free(made);
    assert.equal(used(), before, name);
    console.log(`${name}: ${blocks}`);
    return;
  }
}

// (the device hears no group)
function radio() {
  try {
    device.radio(new Uint8Array(20), 1000);
  } catch (fault) {
    if (!(fault instanceof Foreign)) throw fault;
  }
}

const freed = (object) => object.free();
const device = new Device(library, config, inFlash);
device.power();
const plain = new Device(library, config, small);
const server = new Server(library, { ...plan, ...GROUP }, keys, image);
const receiver = new Receiver(library);
receiver.setUp({ nbFrag: 1, fragSize: 2 });
const [saved, kept, down] = [device.save(), server.save(), server.nextFragment()];
const inMemory = plain.save();
plain.free();
tried("receiver, small", () => new Receiver(library), freed);
tried("receiver, large", () => new Receiver(library, Size.LARGE), freed);
tried("device, small", () => new Device(library, config, small), freed);
tried("device, large", () => new Device(library, config), freed);
tried("device, in flash", () => new Device(library, config, inFlash), freed);
tried("device, restored", () => Device.restore(library, config, inMemory, small), freed);
tried("device, restored in flash", () => Device.restore(library, config, saved, inFlash), freed);
tried("server", () => new Server(library, plan, keys, image), freed);
tried("server, restored", () => Server.restore(library, { ...plan, ...GROUP }, keys, image, kept), freed);
tried("request", () => library.fragSessionDelete(0));
tried("session key", () => library.mcAppSKey(new Uint8Array(16), 1));
tried("text", () => library.decode(200, false, new Uint8Array(242)));
const file = new TextEncoder().encode("01\n");
tried("program", () => library.run(["decode", "203", "down", "file"], { file }));
tried("setUp", () => assert.equal(receiver.setUp({ nbFrag: 1, fragSize: 2 }), 0));
tried("hear", () => receiver.hear(Uint8Array.of(0x08, 1, 0, 7, 7), 1));
tried("receiver's view", () => assert.equal(receiver.view().verdict, Verdict.COMPLETE));
tried("receiver's file", () => assert.deepEqual([...receiver.file()], [7, 7]));
tried("receiver's status", () => assert.equal(receiver.status(true).length, 5));
tried("deliver", () => device.deliver(202, Uint8Array.of(0x00), 1000));
tried("radio", radio);
tried("counts", () => device.counts());
tried("next", () => device.next());
tried("uplink of a device", () => device.takeUplink());
tried("device's view", () => device.view(0));
tried("running", () => device.running());
tried("device's save", () => device.save());
tried("firmware", () => device.firmware(true));
tried("flash", () => device.flash());
tried("ask", () => server.ask(1));
tried("frame", () => server.frame(down));
tried("status of all", () => server.statusAll());
tried("uplink at a server", () => server.uplink(1, 201, Uint8Array.of(0x01, 1, 0, 1, 0), 0));
tried("last status", () => server.lastStatus(1));
tried("number of the next fragment", () => server.fragmentNumber());
tried("next frame count", () => server.frameCount());
tried("ledger", () => server.ledger(1));
tried("server's save", () => server.save());
for (const object of [device, server, receiver]) object.free();
assert.equal(used(), 0);
