#!/usr/bin/env node
// The program `fuota` in WebAssembly, as the program is called: it lies beside fuota.mjs and fuota.wasm, reads the files that its
// words name, and writes what Library.run gives. By the word --cases it answers many: each line of its input is a case in JSON, a
// folder and words, and each line of its output what came of it, a status and a text. Each case has an instance of its own. The
// bytes of words and texts stand there as the letters of these numbers.
import { readFileSync, writeSync } from "node:fs";
import { createInterface } from "node:readline";
import { load } from "./fuota.mjs";

const module = await WebAssembly.compile(readFileSync(new URL("fuota.wasm", import.meta.url)));
const bytesOf = (letters) => Buffer.from(letters, "latin1");

async function answer(words) {
  const files = new Map();
  for (const word of words) {
    try {
      files.set(word.toString(), new Uint8Array(readFileSync(word)));
    } catch {
      // (a word that names no file, or a folder)
    }
  }
  return (await load(module)).run(words, files);
}

if (process.argv[2] === "--cases") {
  for await (const line of createInterface({ input: process.stdin })) {
    const { folder, words } = JSON.parse(line);
    process.chdir(folder);
    const { status, output } = await answer(words.map(bytesOf));
    console.log(JSON.stringify({ status, text: Buffer.from(output).toString("latin1") }));
  }
} else {
  // (the bytes of the words, which node has as texts)
  const all = readFileSync("/proc/self/cmdline").toString("latin1").split("\0").slice(0, -1);
  const { status, output } = await answer(all.slice(all.length - process.argv.length + 2).map(bytesOf));
  for (let at = 0; at < output.length;) at += writeSync(1, output, at);
  process.exitCode = status;
}
