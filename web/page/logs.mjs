// A network server's log as a capture, to the byte as fuota-capture makes it, with the same errors. Which members of a message
// name its device, its group and its kind, and which hold other messages, is told by the tables of python/fuota, which
// tools/web_page puts into the page. What a message carries, and how a log is gone through, is said here as there; tests/package
// asks both of each of its logs.

class Wrong extends Error {}

const EUI_LENGTH = 8;
const OBJECT = "an object";
const LIST = "a list";
const TEXT = "a text";
const TRUTH = "a truth value";

// ---- Values, as Python reads and shows them

// JSON.parse has 201 for 201.0, not all digits of a long number, and no NaN: such numbers become texts that begin with this.
const NUMBER = `number ${Math.random()} `;
const TOKENS = /"[^"\\]*(?:\\[^][^"\\]*)*"?|NaN|-?Infinity|-?(?:0|[1-9]\d*)(?:\.\d+)?(?:[eE][-+]?\d+)?/g;

const decoder = new TextDecoder("utf-8", { fatal: true });

const isNumber = (value) => typeof value === "number" || (typeof value === "string" && value.startsWith(NUMBER));

function parsed(line) {
  const isKept = (token) => token.startsWith('"') || /^-?\d{1,15}$/.test(token);
  try {
    return JSON.parse(decoder.decode(line).replace(TOKENS, (token) => (isKept(token) ? token : JSON.stringify(NUMBER + token))));
  } catch (why) {
    throw new Wrong(`not JSON: ${why.message}`);
  }
}

function typeOf(value) {
  if (value === null) return "null";
  if (Array.isArray(value)) return LIST;
  return isNumber(value) ? "a number" : { string: TEXT, boolean: TRUTH, object: OBJECT }[typeof value];
}

// (beside those with an exponent, which Python spells otherwise)
function shownNumber(text) {
  const value = Number(text);
  if (/^-?\d+$/.test(text)) return text;
  return Number.isInteger(value) ? value.toFixed(1) : String(value).replace("Infinity", "inf").toLowerCase();
}

function shownText(text) {
  const quote = text.includes("'") && !text.includes('"') ? '"' : "'";
  const escaped = (letter) => {
    const code = letter.codePointAt(0);
    const [mark, digits] = code < 0x100 ? ["x", 2] : code < 0x10000 ? ["u", 4] : ["U", 8];
    return { "\n": "\\n", "\r": "\\r", "\t": "\\t" }[letter] ?? `\\${mark}${code.toString(16).padStart(digits, "0")}`;
  };
  return quote + text.replaceAll("\\", "\\\\").replaceAll(quote, `\\${quote}`).replace(/(?! )[\p{C}\p{Z}]/gu, escaped) + quote;
}

function shownWhole(value) {
  if (typeOf(value) === LIST) return `[${value.map(shownWhole).join(", ")}]`;
  if (typeOf(value) === TEXT) return shownText(value);
  if (isNumber(value)) return typeof value === "number" ? String(value) : shownNumber(value.slice(NUMBER.length));
  if (typeOf(value) !== OBJECT) return { null: "None", true: "True", false: "False" }[value];
  return `{${Object.entries(value).map(([name, inner]) => `${shownText(name)}: ${shownWhole(inner)}`).join(", ")}}`;
}

const shown = (value) => [...shownWhole(value)].slice(0, 40).join("");

// ---- Members

// A member, which has to be of one of these types; null where it is absent.
function memberOf(members, name, ...types) {
  const value = members[name] ?? null;
  if (value !== null && !types.includes(typeOf(value))) throw new Wrong(`${name} is not ${types.join(" or ")}: ${shown(value)}`);
  return value;
}

// A text at a place, as deviceInfo.devEui.
function textAt(members, place) {
  const outer = place.split(".");
  const name = outer.pop();
  return memberOf(outer.reduce((inner, step) => memberOf(inner, step, OBJECT) ?? {}, members), name, TEXT);
}

const hasAll = (members, names) => names.split(" ").every((name) => name in members);

// (an object or a text)
const isFilled = (value) => value !== null && Object.keys(value).length > 0;

const hexOf = (octets) => Array.from(octets, (octet) => octet.toString(16).padStart(2, "0")).join("");

// ---- What a message of each server carries; null where it is none of the server's

const payload = (way, port, text, leftOut = null) => ({ way, port: port ?? null, text: text ?? null, leftOut });

const PAYLOADS = {
  chirpstack(members, _holder, { groups, uplink_marks: marks }) {
    if (!("fPort" in members) && !("data" in members)) return null;
    const { fPort: port, data } = members;
    if (marks.some((mark) => hasAll(members, mark)) && !groups.some((name) => members[name])) return payload("up", port, data);
    if (memberOf(members, "isEncrypted", TRUTH)) return payload("down", port, data, "encrypted");
    // (the server is to make a payload of such an object)
    const isMade = isFilled(memberOf(members, "object", OBJECT)) || isFilled(memberOf(members, "jsonObject", TEXT)) || !("data" in members);
    return payload("down", port, data, isMade && !data ? "without payload" : null);
  },
  "things-stack"(members, holder) {
    if (holder === "downlinks") {
      const { f_port: port, frm_payload: text } = members;
      const isMade = isFilled(memberOf(members, "decoded_payload", OBJECT));
      return payload("down", port, text, isMade && !text ? "without payload" : null);
    }
    for (const [name, way] of [["uplink_message", "up"], ["downlink_sent", "down"]]) {
      const inner = memberOf(members, name, OBJECT);
      if (inner !== null) return payload(way, inner.f_port, inner.frm_payload);
    }
    return null;
  },
};

// ---- The log

// What is taken of a log: its objects, whose they are, and how many messages were taken and left out, by kind.
class Log {
  constructor({ servers, holders, left_out: kinds, limits, patterns }, askedFor) {
    const [eui, base64] = [patterns.eui, patterns.base64].map((pattern) => new RegExp(`^(?:${pattern})$`));
    Object.assign(this, { servers: Object.entries(servers), holders, kinds, limits, eui, base64, askedFor });
    this.device = null;
    this.devices = new Set();
    this.objects = [];
    this.taken = { up: 0, down: 0, multicast: 0 };
    this.leftOut = {};
  }

  octetsOf(text) {
    return typeOf(text) === TEXT && this.base64.test(text) ? Uint8Array.from(atob(text), (letter) => letter.charCodeAt(0)) : null;
  }

  euiOf(text) {
    if (this.eui.test(text)) return text.replace(/[-:. ]/g, "").toLowerCase();
    const octets = this.octetsOf(text);
    if (octets?.length !== EUI_LENGTH) throw new Wrong(`invalid EUI: ${shown(text)}`);
    return hexOf(octets);
  }

  deviceOf(members, outer = null) {
    const texts = this.servers.flatMap(([, { euis_at: places }]) => places.map((place) => textAt(members, place)));
    const named = [...new Set([...texts.filter(Boolean).map((text) => this.euiOf(text)), ...(outer ? [outer] : [])])].sort();
    if (named.length > 1) throw new Wrong(`a message of ${named[0]} and of ${named[1]}`);
    return named[0] ?? null;
  }

  payloadOf(members, holder = null) {
    for (const [name, tables] of this.servers) {
      const found = PAYLOADS[name](members, holder, tables);
      if (found) return found;
    }
    return null;
  }

  // The messages that a message holds, each with the name of the member that holds it.
  partsOf(members) {
    return Object.entries(this.holders).flatMap(([name, types]) => {
      const held = memberOf(members, name, ...types) ?? [];
      return (Array.isArray(held) ? held : [held]).map((part) => {
        if (typeOf(part) !== OBJECT) throw new Wrong(`an item of ${name} is not an object: ${shown(part)}`);
        return [name, part];
      });
    });
  }

  // The messages of a line: those that it holds, or itself where it carries something or holds none.
  * messagesOf(members) {
    const device = this.deviceOf(members);
    const found = this.payloadOf(members);
    const parts = found ? [] : this.partsOf(members);
    for (const [name, part] of parts) {
      const inner = this.payloadOf(part, name);
      yield { members: part, device: this.deviceOf(part, device), found: inner };
    }
    if (parts.length === 0) yield { members, device, found };
  }

  isMulticast(members) {
    return this.servers.flatMap(([, { groups }]) => groups.map((name) => memberOf(members, name, TEXT))).some(Boolean);
  }

  kindOf(members) {
    const kinds = this.servers.flatMap(([, server]) => Object.entries(server.kinds));
    const isEmpty = (name) => Array.isArray(members[name]) && members[name].length === 0;
    return kinds.find(([names]) => hasAll(members, names))?.[1] ?? (Object.keys(this.holders).some(isEmpty) ? "empty list" : "other");
  }

  // What a message carries as a line of a capture.
  objectOf({ port, way, text }) {
    if (port !== null && !(typeof port === "number" && port >= 0 && port < 256)) throw new Wrong(`invalid port: ${shown(port)}`);
    const octets = this.octetsOf(text ?? "");
    if (!octets) throw new Wrong(`the payload is not base64: ${shown(text)}`);
    const most = this.limits.payload;
    if (octets.length > most) throw new Wrong(`a payload of ${octets.length} bytes, and not of at most ${most}`);
    return JSON.stringify({ port, dir: way, hex: hexOf(octets) });
  }

  // Why a message is left out; null where it is taken.
  reason({ members, device, found }, isMulticast) {
    if (this.askedFor && device && device !== this.askedFor) return "of another device";
    if (!found) return this.kindOf(members);
    if (found.port === null) return "without port";
    if (found.port === 0) return "of port 0";
    if (this.askedFor && !device && !isMulticast) return "without an EUI";
    return found.leftOut;
  }

  leave(reason) {
    this.leftOut[reason] = (this.leftOut[reason] ?? 0) + 1;
  }

  take(message) {
    const { members, device, found } = message;
    if (device && found) this.devices.add(device);
    const isMulticast = this.isMulticast(members);
    const line = found && this.objectOf(found);
    const reason = this.reason(message, isMulticast);
    if (reason) return this.leave(reason);
    if (device && this.device && device !== this.device) throw new Wrong(`a message of ${device}, and not of ${this.device}`);
    this.device ??= device;
    this.objects.push(line);
    this.taken[found.way] += 1;
    this.taken.multicast += isMulticast;
  }

  takeLine(line) {
    if (line.length === 0) return this.leave("empty line");
    const members = parsed(line);
    if (typeOf(members) !== OBJECT) throw new Wrong("not a JSON object");
    for (const message of this.messagesOf(members)) this.take(message);
  }

  counts() {
    const { up, down, multicast } = this.taken;
    const many = (count, one, several) => `${count} ${count === 1 ? one : several}`;
    const kinds = Object.entries(this.kinds).filter(([kind]) => this.leftOut[kind]);
    const left = kinds.map(([kind, several]) => many(this.leftOut[kind], kind, several));
    const taken = `taken: ${many(up, "uplink", "uplinks")}, ${many(down, "downlink", "downlinks")}`;
    return `${taken}${multicast ? ` (${multicast} by multicast)` : ""}; left out: ${left.join(", ") || "nothing"}`;
  }

  // The capture of a device with so many rows.
  capture(rows) {
    const { lines, capture } = this.limits;
    // (the header is a line too)
    if (this.objects.length >= lines) throw new Wrong(`${this.objects.length} payloads, and not at most ${lines - 1}`);
    const text = [`capture 1 ${rows}`, ...this.objects].map((line) => `${line}\n`).join("");
    if (text.length > capture) throw new Wrong(`a capture of ${text.length} bytes, and not of at most ${capture}`);
    return text;
  }
}

const [NEW_LINE, RETURN] = [10, 13];
const MANY = 500;

function* linesOf(bytes) {
  for (let from = 0, to = 0; from < bytes.length; from = to) {
    while (to < bytes.length && bytes[to] !== NEW_LINE && bytes[to] !== RETURN) to++;
    yield bytes.subarray(from, to);
    to += bytes[to] === RETURN && bytes[to + 1] === NEW_LINE ? 2 : 1;
  }
}

// The capture of a log, of one device where that is asked for: its text and the counts of what was taken, or what is wrong. With it
// come the EUIs of the devices that have payloads there. Between lines `pause` is told how much was read.
export async function captureOfLog(tables, bytes, device, rows, pause = () => {}) {
  const log = new Log(tables, device);
  let number = 0;
  let fault = null;
  const wordsOf = (why) => {
    if (!(why instanceof Wrong || why instanceof RangeError)) throw why;
    return why.message;
  };
  for (const line of linesOf(bytes)) {
    number += 1;
    try {
      log.takeLine(line);
    } catch (why) {
      fault ??= `line ${number}: ${wordsOf(why)}`;
    }
    if (number % MANY === 0) await pause((line.byteOffset - bytes.byteOffset) / bytes.length, number);
  }
  const found = { devices: [...log.devices], fault };
  if (fault) return found;
  try {
    return { ...found, text: log.capture(rows), counts: log.counts() };
  } catch (why) {
    return { ...found, fault: wordsOf(why) };
  }
}
