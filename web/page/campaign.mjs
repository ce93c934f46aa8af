// A campaign: an image and a script, the report, and where each device stands after each line.
import { across, byId, copier, element, linked, picture, saver, shown, svg, table, text, unlinked, words } from "./draw.mjs";
import { long, run } from "./runner.mjs";
import { CAUSES, refusalOf, reportOf } from "./texts.mjs";

// The server's stages in their order.
const STAGES = ["version", "group", "fragments", "window", "status", "image", "reboot", "check", "updated"];
const MOST_LINES = 160;
const MOST_LINKED = 6000;
const LEFT = 64;

let image = null;
let example = null;

const encoder = new TextEncoder();

function link(script) {
  const isShort = image.bytes === example.image && script.length <= MOST_LINKED;
  return isShort ? `#campaign/${linked(encoder.encode(script))}` : "#campaign";
}

async function play() {
  const script = byId("script").value;
  const told = byId("campaign-told");
  told.replaceChildren();
  history.replaceState(null, "", link(script));
  await long("playing the campaign", async (tell) => {
    const { status, output, ms } = await run(["campaign", "image", "script"], { image: image.bytes, script: encoder.encode(script) });
    byId("status").textContent = `played in ${Math.round(ms)} ms`;
    const said = words(output);
    if (status !== 0) {
      told.append(refused(said, script));
      return;
    }
    const { image: line, devices } = reportOf(said);
    told.append(element("p", {}, `Image: ${line}.`), devicesTable(devices));
    const time = element("div");
    told.append(time, element("h3", {}, "The report"), element("p", {}, copier("copy as text", () => said), " ", saver("save", "report.txt", output)),
      element("pre", { tabindex: "0", "aria-label": "the report" }, shown(output)));
    await inTime(script.replace(/\n$/, "").split("\n"), devices.length, time, tell);
    byId("status").textContent = `played in ${Math.round(ms)} ms`;
  });
}

function devicesTable(devices) {
  const rows = devices.map((device) => [
    String(device.number), device.stage, device.running, device.next,
    device.session ? `${device.session.received} received, ${device.session.missing} missing, ${device.session.words}` : "none", device.counts,
  ]);
  return table("devices at the end", ["device", "stage", "runs version", "next", "session", "counts"], rows);
}

function refused(said, script) {
  const refusal = refusalOf(said);
  if (refusal === null) {
    const why = said.startsWith("image refused") ? "The image is no image file: tools/make_image makes one of a body." : `The program says: ${said}`;
    return element("p", { class: "fault", role: "alert" }, why);
  }
  const lines = script.split("\n");
  const from = Math.max(0, refusal.line - 4);
  const part = element("div", { class: "fault", role: "alert" }, element("p", {}, `Line ${refusal.line} is refused, ${refusal.why}: ${CAUSES[refusal.why] ?? refusal.why}.`));
  const listing = element("pre", {});
  lines.slice(from, refusal.line + 2).forEach((line, at) => {
    const number = from + at + 1;
    const row = `${String(number).padStart(5)}  ${line.slice(0, 200)}`;
    listing.append(number === refusal.line ? element("mark", {}, row) : row, "\n");
  });
  if (refusal.line > lines.length) listing.append(element("mark", {}, `${String(refusal.line).padStart(5)}  (no such line)`));
  const go = element("button", { type: "button" }, "go to the line");
  go.addEventListener("click", () => {
    const start = lines.slice(0, refusal.line - 1).join("\n").length + (refusal.line > 1 ? 1 : 0);
    byId("script").focus();
    byId("script").setSelectionRange(start, start + (lines[refusal.line - 1] ?? "").length);
  });
  part.append(listing, element("p", {}, go));
  return part;
}

// Where the devices stand after a line is what the program reports of the script up to there, with "end" after it.
async function inTime(lines, count, place, tell) {
  const last = lines.lastIndexOf("end");
  const first = lines.findIndex((line) => !/^(fuota|image|group|window|device) /.test(line));
  if (last <= first || count === 0) return;
  const step = Math.max(1, Math.ceil((last - first) / MOST_LINES));
  const seen = [];
  for (let at = first; at < last; at += step) {
    const script = encoder.encode(`${lines.slice(0, at + 1).join("\n")}\nend\n`);
    const { status, output } = await run(["campaign", "image", "script"], { image: image.bytes, script });
    if (status === 0) seen.push({ line: at + 1, devices: reportOf(words(output)).devices });
    tell((at - first) / (last - first), `line ${at + 1} of ${last}`);
  }
  if (seen.length > 0) place.append(element("h3", {}, "Over the lines of the script"), timePicture(seen, count, last), legend());
}

function timePicture(seen, count, last) {
  const row = 46;
  const right = across() - 10;
  const first = seen[0].line;
  const wide = (right - LEFT) / Math.max(1, last - first);
  const x = (line) => LEFT + (line - first) * wide;
  const parts = [];
  for (let device = 0; device < count; device++) {
    const up = 22 + device * row;
    parts.push(text(0, up + 18, `device ${device + 1}`));
    let steps = "";
    let bars = "";
    let whole = null;
    seen.forEach(({ line, devices }, at) => {
      const { stage, session } = devices[device];
      const level = Math.max(0, STAGES.indexOf(stage.split(" ")[0]));
      const y = up + 26 - 26 * (level / (STAGES.length - 1));
      steps += `${at === 0 ? "M" : "L"}${x(line).toFixed(1)} ${y.toFixed(1)}`;
      const next = x(seen[at + 1]?.line ?? last);
      if (session && session.state !== "complete") bars += `M${x(line).toFixed(1)} ${up + 33}H${next.toFixed(1)}`;
      if (session?.state === "complete") whole ??= session.at;
    });
    parts.push(svg("path", { class: "rule", d: `M${LEFT} ${up + 26}H${right}M${LEFT} ${up}H${right}` }));
    parts.push(svg("path", { class: "open", d: bars }), svg("path", { class: "stage", d: steps }));
    if (whole !== null) parts.push(svg("path", { class: "whole", d: `M${x(whole).toFixed(1)} ${up + 33}H${right}` }));
  }
  parts.push(text(LEFT, 12, `line ${first}`), text(right, 12, `line ${last}`, "end"));
  return picture(right + 10, 22 + count * row, "Stage and session of each device over the lines", ...parts);
}

function legend() {
  const one = (name, what) => element("span", {}, svg("svg", { viewBox: "0 0 20 12", width: 20, height: 12, "aria-hidden": "true" }, svg("path", { class: name, d: "M1 6h18" })), ` ${what}`);
  return element("p", { class: "legend" }, one("stage", "stage, from “version” below to “updated” above"), one("open", "session, pieces missing"), one("whole", "session complete"));
}

function takeImage(name, bytes) {
  image = { name, bytes };
  byId("image-name").textContent = `${name}, ${bytes.length} bytes`;
}

// From a link: a script over the example's image.
export function open([code]) {
  const bytes = code ? unlinked(code) : null;
  if (bytes === null) return;
  takeImage("the example", example.image);
  byId("script").value = words(bytes);
  play();
}

export function begin(given) {
  example = given;
  const first = () => {
    takeImage("the example", example.image);
    byId("script").value = example.script;
  };
  first();
  byId("campaign-example").addEventListener("click", () => {
    first();
    play();
  });
  byId("campaign-play").addEventListener("click", play);
  byId("image-file").addEventListener("change", async ({ target }) => {
    const [file] = target.files;
    if (file) takeImage(file.name, new Uint8Array(await file.arrayBuffer()));
  });
  byId("script-file").addEventListener("change", async ({ target }) => {
    const [file] = target.files;
    if (file) byId("script").value = await file.text();
  });
}
