// Captures of network servers' logs, as the page makes them: each line of the input has a log in base64, the device that is asked
// for, and its rows; each line of the output what comes of it. The words name a file of the tables that tools/web_page makes.
import { readFileSync } from "node:fs";
import { createInterface } from "node:readline";
import { captureOfLog } from "../../web/page/logs.mjs";

const tables = JSON.parse(readFileSync(process.argv[2]));
for await (const line of createInterface({ input: process.stdin })) {
  const { log, device, rows } = JSON.parse(line);
  console.log(JSON.stringify(await captureOfLog(tables, new Uint8Array(Buffer.from(log, "base64")), device, rows)));
}
