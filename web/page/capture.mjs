// A capture, or a network server's log of which one is made: its sessions, which pieces came and which were made good, as a picture
// that fills line by line, and the files.
import { across, byId, copier, element, picture, saver, shown, svg, text, words } from "./draw.mjs";
import { captureOfLog } from "./logs.mjs";
import { long, run } from "./runner.mjs";
import { captureOf, CAUSES, heardBy, refusalOf } from "./texts.mjs";

const HEADER = "A capture begins with “capture 1” and the rows of the device, a network server's log with an object in JSON.";
const OBJECTS = "Each line of a log has to be one object in JSON, as the network server publishes it.";
const SEVERAL = "The log has messages of several devices: choose one above.";

let tables = null;
let log = null;

const encoder = new TextEncoder();

// (after a mark of the order of bytes, which the decoder takes out)
const isLog = (bytes) => /^\s*[[{]/.test(words(bytes.subarray(0, 1000)));

function read(name, bytes) {
  log = isLog(bytes) ? { name, bytes } : null;
  byId("log").hidden = log === null;
  return log ? readLog("") : readCapture(name, bytes);
}

async function readLog(device) {
  const { name, bytes } = log;
  const told = byId("capture-told");
  const rows = byId("log-rows");
  told.replaceChildren();
  if (!rows.checkValidity() || rows.value === "") {
    told.append(element("p", { class: "fault", role: "alert" }, `“rows” is outside its range: ${rows.min} to ${rows.max}`));
    return;
  }
  const made = await long(`reading ${name}`, (tell) => captureOfLog(tables, bytes, device || null, Number(rows.value), async (share, lines) => {
    tell(share, `reading ${name}: ${lines} lines`);
    await new Promise((done) => setTimeout(done));
  }));
  if (made === null) return;
  const choices = [["", "the only one in the log"], ...made.devices.map((eui) => [eui, eui])];
  byId("log-device").replaceChildren(...choices.map(([value, label]) => element("option", { value, ...(value === device && { selected: "" }) }, label)));
  if (made.fault) {
    byId("status").textContent = `${name}: refused`;
    told.append(refusedLog(made));
    return;
  }
  const capture = encoder.encode(made.text);
  const saves = element("p", {}, copier("copy the capture", () => made.text), " ", saver("save the capture", "made-capture.txt", capture));
  await readCapture(`the capture of ${name}`, capture, element("p", {}, `From the log ${made.counts}.`), saves);
}

function refusedLog({ fault }) {
  const part = element("div", { class: "fault", role: "alert" }, element("p", {}, `The log is refused, ${fault}.`));
  const number = /^line (\d+): /.exec(fault)?.[1];
  if (number) part.append(element("pre", {}, words(log.bytes).split(/\r\n|\r|\n/)[number - 1].slice(0, 300)));
  if (/: not (JSON|a JSON object)/.test(fault)) part.append(element("p", {}, OBJECTS));
  if (/: a message of \w+, and not of /.test(fault)) part.append(element("p", {}, SEVERAL));
  return part;
}

async function readCapture(name, bytes, ...before) {
  const told = byId("capture-told");
  told.replaceChildren();
  const ran = await long(`reading ${name}`, () => run(["capture", "file"], { file: bytes }));
  if (ran === null) return;
  const said = words(ran.output);
  byId("status").textContent = `${name}: ${bytes.length} bytes read in ${Math.round(ran.ms)} ms`;
  if (ran.status !== 0) {
    told.append(refused(said, bytes));
    return;
  }
  const { entries, counts, sessions } = captureOf(said);
  told.append(...before, element("p", {}, `${entries.length} payloads; ${counts}.`));
  if (sessions.length === 0) told.append(element("p", {}, "No session was set up, so there is no file."));
  for (const session of sessions) told.append(sessionPart(session, entries));
  told.append(
    element("h3", {}, "What the program wrote"), element("p", {}, copier("copy as text", () => said), " ", saver("save", "capture.txt", ran.output)),
    element("pre", { tabindex: "0", "aria-label": "what the program wrote" }, shown(ran.output)),
  );
}

function refused(said, bytes) {
  const refusal = refusalOf(said);
  if (refusal === null) return element("p", { class: "fault", role: "alert" }, `The program says: ${said}`);
  const part = element("div", { class: "fault", role: "alert" });
  part.append(element("p", {}, `Line ${refusal.line} is refused: ${CAUSES[refusal.why] ?? refusal.why}.`));
  const line = words(bytes).split("\n")[refusal.line - 1];
  if (line !== undefined) part.append(element("pre", {}, line.slice(0, 300)));
  if (refusal.line === 1) part.append(element("p", {}, HEADER));
  return part;
}

function stateWords({ state, at, received, missing }) {
  if (state === "complete") return `complete at line ${at}, by ${received} fragments`;
  if (state === "norows") return `given up at line ${at}: more pieces were lost than there are rows; ${missing} are missing`;
  if (state === "conflict") return `at line ${at} fragments contradict each other: no file fits them`;
  return `${missing} pieces are missing, ${received} fragments received`;
}

function sessionPart(session, entries) {
  const part = element("section", { "aria-label": `session ${session.index}` }, element("h3", {}, `Session ${session.index}`));
  part.append(element("p", {}, `${stateWords(session)}.`));
  if (session.file) part.append(element("p", {}, saver(`save the file (${session.file.length} bytes)`, `session${session.index}.bin`, session.file)));
  const told = heardBy(entries, session.index);
  if (told) part.append(timeOf(session, told, entries.at(-1).line));
  return part;
}

// Which pieces came up to each line. That a session is complete is what the program says; nothing is solved here.
function timeOf(session, { line: first, pieces, size, heard }, last) {
  const wide = across();
  const columns = pieces > 512 ? 64 : 32;
  const cell = Math.min(wide / columns, 20);
  const rows = Math.ceil(pieces / columns);
  const up = 26;
  const coded = heard.filter(({ number }) => number > pieces);
  const height = up + rows * cell + 44;
  const lost = svg("path", { class: "lost" });
  const came = svg("path", { class: "came" });
  const made = svg("path", { class: "made" });
  const ticks = svg("path", { class: "coded" });
  const square = (number) => `M${((number - 1) % columns) * cell + 1} ${up + Math.floor((number - 1) / columns) * cell + 1}h${cell - 2}v${cell - 2}h${2 - cell}z`;
  const label = text(0, 14, "");
  const drawn = picture(wide, height, `Pieces of session ${session.index}`, label, lost, came, made, ticks,
    text(0, up + rows * cell + 16, coded.length > 0 ? `${coded.length} coded fragments:` : "no coded fragment came"));
  const slider = element("input", { type: "range", min: first, max: last, value: last, id: `line-${session.index}` });
  const said = element("output", { for: `line-${session.index}` });
  const apart = Math.min(12, (wide - 160) / Math.max(1, coded.length));

  function show() {
    const now = Number(slider.value);
    const there = new Set(heard.filter(({ line, number }) => line <= now && number <= pieces).map(({ number }) => number));
    const isWhole = session.state === "complete" && now >= session.at;
    const others = Array.from({ length: pieces }, (_, at) => at + 1).filter((number) => !there.has(number));
    came.setAttribute("d", [...there].map(square).join(""));
    made.setAttribute("d", isWhole ? others.map(square).join("") : "");
    lost.setAttribute("d", isWhole ? "" : others.map(square).join(""));
    const codedNow = coded.filter(({ line }) => line <= now).length;
    ticks.setAttribute("d", Array.from({ length: codedNow }, (_, at) => `M${150 + at * apart} ${up + rows * cell + 6}v12`).join(""));
    const mended = isWhole ? `${others.length} made good by coded fragments` : `${others.length} not there yet`;
    const line = `line ${now}: ${there.size} of ${pieces} pieces came, ${mended}; ${codedNow} coded fragments`;
    label.textContent = `${pieces} pieces of ${size} bytes`;
    said.textContent = line;
    slider.setAttribute("aria-valuetext", line);
  }

  let playing = 0;
  const play = element("button", { type: "button" }, "play");
  play.addEventListener("click", () => {
    clearInterval(playing);
    slider.value = first;
    const step = Math.max(1, Math.ceil((last - first) / 120));
    playing = setInterval(() => {
      slider.value = Number(slider.value) + step;
      show();
      if (Number(slider.value) >= last) clearInterval(playing);
    }, 30);
  });
  slider.addEventListener("input", show);
  show();
  const control = element("p", { class: "slide" }, element("label", { for: `line-${session.index}` }, "line of the capture"), slider, play);
  return element("div", {}, drawn, legend(), control, element("p", {}, said));
}

function legend() {
  const one = (name, what) => element("span", {}, svgSquare(name), ` ${what}`);
  return element("p", { class: "legend" }, one("came", "came"), one("made", "made good by coded fragments"), one("lost", "not there"));
}

function svgSquare(name) {
  return svg("svg", { viewBox: "0 0 12 12", width: 12, height: 12, "aria-hidden": "true" }, svg("path", { class: name, d: "M1 1h10v10h-10z" }));
}

export function begin(example, known) {
  tables = known;
  const drop = byId("drop");
  const take = async (file) => file && read(file.name, new Uint8Array(await file.arrayBuffer()));
  for (const name of ["dragover", "dragenter"]) {
    drop.addEventListener(name, (event) => {
      event.preventDefault();
      drop.classList.add("over");
    });
  }
  drop.addEventListener("dragleave", () => drop.classList.remove("over"));
  drop.addEventListener("drop", (event) => {
    event.preventDefault();
    drop.classList.remove("over");
    take(event.dataTransfer.files[0]);
  });
  byId("capture-file").addEventListener("change", (event) => take(event.target.files[0]));
  byId("capture-text").addEventListener("input", ({ target }) => target.value && read("what was pasted", encoder.encode(target.value)));
  for (const id of ["log-device", "log-rows"]) byId(id).addEventListener("change", () => readLog(byId("log-device").value));
  byId("capture-example").addEventListener("click", () => read("the example", example));
}

