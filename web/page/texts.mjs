// What the program writes (docs/FORMATS.md), as values. Nothing here decides what a payload or a script means.

// Why a line is refused, in words.
export const CAUSES = {
  limit: "it is longer than 600 bytes, or one line, flash, fragment or frame count too many",
  syntax: "it is no line of the format; after the last line: “end” is missing",
  order: "a line of this kind may not stand here",
  range: "a number is outside its range",
  device: "there is no such device (for power: none with a flash)",
  unsent: "no such payload was sent, or no such uplink is there yet",
  time: "this time is over",
};

// Why reading a payload stops, in words.
export const STOPS = {
  port: "no package is on this port",
  unknown: "no command begins with this byte",
  short: "the payload ends within this command",
};

const linesOf = (text) => text.replace(/\n$/, "").split("\n");

// A refused line: its number and the cause. Null where the text says something else.
export function refusalOf(text) {
  const found = /^line (\d+) (\w+)\n$/.exec(text);
  return found && { line: Number(found[1]), why: found[2] };
}

// "name=value" words of a command's text.
const fieldsOf = (line) => Object.fromEntries([...line.matchAll(/(\w+)=(\S*)/g)].map(([, name, value]) => [name, value]));

export const bytesOf = (hex) => Uint8Array.from(hex.match(/../g) ?? [], (digits) => parseInt(digits, 16));

// "complete at 12", "norows at 12", "conflict at 12" or "receiving".
function stateOf(words) {
  const [state, , at] = words;
  return { state, at: at === undefined ? null : Number(at) };
}

// The text of `capture`: entries with their commands, counts, and the sessions at the end with their files.
export function captureOf(text) {
  const entries = [];
  const sessions = [];
  let counts = "";
  for (const line of linesOf(text)) {
    const entry = /^line (\d+) (\d+) (up|down)$/.exec(line);
    const session = /^session (\d) received (\d+) missing (\d+) (.*)$/.exec(line);
    if (entry) {
      entries.push({ line: Number(entry[1]), port: Number(entry[2]), way: entry[3], said: [] });
    } else if (session) {
      sessions.push({ index: Number(session[1]), received: Number(session[2]), missing: Number(session[3]), ...stateOf(session[4].split(" ")) });
    } else if (line.startsWith("file ")) {
      sessions.at(-1).file = bytesOf(line.slice(5));
    } else if (line.startsWith("counts ")) {
      counts = line.slice(7);
    } else if (entries.length > 0 && line !== "end") {
      entries.at(-1).said.push(line);
    }
  }
  return { entries, counts, sessions };
}

// The setups and fragments that a capture brings a session, in the order of their lines: of the last setup, or the one before, how
// many pieces there are and which fragments came.
export function heardBy(entries, index) {
  let setup = null;
  let heard = [];
  for (const { line, port, way, said } of entries) {
    if (port !== 201 || way !== "down") continue;
    for (const command of said) {
      const fields = fieldsOf(command);
      if (fields.index !== String(index)) continue;
      if (command.startsWith("FragSessionSetupReq ")) {
        // (the same setup again changes nothing)
        if (setup?.command === command) continue;
        setup = { command, line, pieces: Number(fields.nbfrag), size: Number(fields.fragsize) };
        heard = [];
      } else if (setup && command.startsWith("DataFragment ") && fields.bytes.length === 2 * setup.size) {
        heard.push({ line, number: Number(fields.n) });
      }
    }
  }
  return setup && { ...setup, heard };
}

// The text of `decode` for one payload: its commands, and where and why reading stops.
export function decodedOf(text) {
  const commands = [];
  let stop = null;
  for (const line of linesOf(text).slice(1)) {
    const refused = /^refused (\d+) (\w+)$/.exec(line);
    if (refused) stop = { at: Number(refused[1]), why: refused[2] };
    else if (line !== "end") commands.push(line);
  }
  return { commands, stop };
}

// The text of `campaign`: the image's line, and each device.
export function reportOf(text) {
  const devices = [];
  let image = "";
  for (const line of linesOf(text)) {
    const device = /^device (\d+) (.*) clock (\d+) token (\d+) running (\d+) next (.*)$/.exec(line);
    const session = /^session 0 received (\d+) missing (\d+) (.*)$/.exec(line);
    if (line.startsWith("image ")) image = line.slice(6);
    else if (device) devices.push({ number: Number(device[1]), stage: device[2], clock: device[3], token: device[4], running: device[5], next: device[6], counts: "", session: null });
    else if (line.startsWith("counts ")) devices.at(-1).counts = line.slice(7);
    else if (session) {
      const words = session[3].split(" ");
      devices.at(-1).session = { received: Number(session[1]), missing: Number(session[2]), words: session[3], ...stateOf(words) };
    }
  }
  return { image, devices };
}
