// Runs of the program in a worker, one after another, with a stop.
import { byId } from "./draw.mjs";

export class Stopped extends Error {}

const base64 = (id) => Uint8Array.from(atob(byId(id).textContent.trim()), (letter) => letter.charCodeAt(0));

async function unpacked(bytes) {
  return new Response(new Blob([bytes]).stream().pipeThrough(new DecompressionStream("gzip"))).arrayBuffer();
}

let module = null;
let worker = null;
let waiting = null;
let stop = null;

async function begun() {
  module ??= WebAssembly.compile(await unpacked(base64("module")));
  if (worker) return;
  const source = new Blob([byId("worker").textContent], { type: "text/javascript" });
  worker = new Worker(URL.createObjectURL(source));
  worker.addEventListener("message", ({ data }) => {
    const { done, failed } = waiting;
    waiting = null;
    if (data.fault) failed(new Error(data.fault));
    else done(data);
  });
  worker.addEventListener("error", (event) => {
    const { failed } = waiting ?? {};
    ended();
    failed?.(new Error(event.message || "the worker ended"));
  });
  worker.postMessage(await module);
}

function ended() {
  worker?.terminate();
  worker = waiting = null;
}

// What the program writes and ends with, and the milliseconds that it took.
export async function run(line, files) {
  await begun();
  return new Promise((done, failed) => {
    waiting = { done, failed };
    worker.postMessage({ line, files });
  });
}

// Work of more runs than one, or of one that is long: what is called says how far it is. While it goes on no other work begins, and
// the stop ends it.
export async function long(what, work) {
  stop?.();
  let stopped = false;
  const status = byId("status");
  const button = byId("stop");
  const bar = byId("bar");
  const mine = () => {
    stopped = true;
    const { failed } = waiting ?? {};
    ended();
    failed?.(new Stopped());
  };
  stop = mine;
  status.textContent = what;
  bar.hidden = button.hidden = false;
  bar.removeAttribute("value");
  const tell = (share, said) => {
    if (stopped) throw new Stopped();
    bar.value = share;
    status.textContent = said;
  };
  try {
    return await work(tell);
  } catch (fault) {
    if (!(fault instanceof Stopped)) throw fault;
    if (stop === mine) status.textContent = "stopped";
    return null;
  } finally {
    if (stop === mine) {
      stop = null;
      bar.hidden = button.hidden = true;
    }
  }
}

export function stopNow() {
  stop?.();
}
