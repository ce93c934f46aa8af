// A campaign between a server and a device, which loses every third fragment: prints what c/campaign.c prints.
// node campaign.mjs FOLDER IMAGE
import { readFileSync } from "node:fs";
import { pathToFileURL } from "node:url";

const [folder, source] = process.argv.slice(2);
const { Device, load, RequestKind, Server, Size, StageKind } = await import(pathToFileURL(`${folder}/fuota.mjs`));
const image = readFileSync(source);
const key = Uint8Array.from([0x2B, 0x7E, 0x15, 0x16, ...new Array(12).fill(0)]);

const library = await load();
const server = new Server(library, { fragSize: 48, parity: 64 }, [key], image);
const config = { hw: 1, area: 262144, rows: 64, formats: 2, sessions: 1, groups: 1, isClassC: true, key };
const device = new Device(library, config, { size: Size.LARGE });

// A payload comes to the device at t.
function deliver(down, t, mark) {
  device.deliver(down.port, down.payload, t, { mark, word: 0x5EED, group: down.isGroup ? down : null });
}

// A payload comes down at t, what the device sends goes up, and what the server answers comes down.
function radio(down, t, mark) {
  deliver(down, t, mark);
  for (let up = device.takeUplink(); up !== null; up = device.takeUplink()) {
    const answer = server.uplink(1, up.port, up.payload, t);
    if (answer !== null) deliver(answer, t, mark);
  }
}

let sent = 0;
let heard = 0;
for (let t = 1000; server.ledger(1).stage === StageKind.AT && t <= 100_000; t += 1000) {
  if (server.ledger(1).request === RequestKind.STATUS) {
    for (let down = server.nextFragment(); down !== null; down = server.nextFragment()) {
      sent++;
      if (sent % 3 === 0) continue;
      heard++;
      radio(down, t, sent);
    }
  }
  const asked = server.ask(1);
  if (asked !== null) radio(asked, t, sent);
}
console.log(`sent ${sent} heard ${heard}`);
const file = device.file(0);
if (file !== null && image.equals(file)) console.log(`the file is as sent, ${file.length} bytes`);
const isUpdated = server.ledger(1).stage === StageKind.UPDATED;
console.log(`${isUpdated ? "updated" : "not updated"}, running ${device.running()}`);
device.free();
server.free();
