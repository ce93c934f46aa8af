// A plan: how many coded fragments a loss asks for, by campaigns that the program plays here. The losses are drawn by the page;
// tools/plan_campaign also draws bursts, and says what theory says.
import { across, byId, copier, element, picture, svg, table, text, words } from "./draw.mjs";
import { long, run } from "./runner.mjs";
import { reportOf } from "./texts.mjs";

const FIELDS = ["pieces", "size", "loss", "coded", "rows", "devices", "seed"];
const MOST_LINES = 20_000;
const MOST_DEVICES = 64;
const HEAD = 49;
const DOWN = 240;
const LEFT = 50;
const UP = 20;
const SHARES = [50, 90, 99];

// Numbers from 0 to 1, the same for the same seed (mulberry32).
function drawn(seed) {
  let state = seed >>> 0;
  return () => {
    state = (state + 0x6d2b79f5) >>> 0;
    let mixed = Math.imul(state ^ (state >>> 15), state | 1);
    mixed ^= mixed + Math.imul(mixed ^ (mixed >>> 7), mixed | 61);
    return ((mixed ^ (mixed >>> 14)) >>> 0) / 2 ** 32;
  };
}

// An image file of format 1 with so many bytes (docs/FORMATS.md).
async function imageOf(length) {
  const body = Uint8Array.from({ length: length - HEAD }, (_, at) => (at * at) % 251);
  const file = new Uint8Array(length);
  const view = new DataView(file.buffer);
  file.set(new TextEncoder().encode("FUIM"));
  [1, 0, 0, 0].forEach((byte, at) => { file[5 + at] = byte; });
  file[4] = 1;
  view.setUint32(9, 2, true);
  view.setUint32(13, body.length, true);
  file.set(new Uint8Array(await crypto.subtle.digest("SHA-256", body)), 17);
  file.set(body, HEAD);
  return file;
}

// The script of a campaign for devices with these losses, and for each line the fragment that it brings.
function scriptOf(plan, losses) {
  const count = losses.length;
  const fragments = plan.pieces + plan.coded;
  const lines = ["fuota 1", `image ${plan.size} ${plan.coded}`];
  for (let device = 1; device <= count; device++) lines.push(`device ${device} c 1 ${plan.rows} 0 ${"0".repeat(32)}`);
  for (const before of [0, count]) {
    for (let device = 1; device <= count; device++) lines.push(`ask ${device}`, `down ${before + device} ${device}`, `up ${before + device}`);
  }
  const brought = [];
  for (let fragment = 1; fragment <= fragments; fragment++) {
    lines.push("frag");
    losses.forEach((lost, at) => {
      if (lost[fragment - 1]) return;
      lines.push(`down ${2 * count + fragment} ${at + 1}`);
      brought[lines.length] = fragment;
    });
  }
  lines.push("end");
  return { script: `${lines.join("\n")}\n`, brought };
}

function planOf() {
  const plan = Object.fromEntries(FIELDS.map((name) => [name, Number(byId(`plan-${name}`).value)]));
  const wrong = FIELDS.find((name) => !byId(`plan-${name}`).checkValidity() || byId(`plan-${name}`).value === "");
  if (wrong) throw new RangeError(`“${wrong}” is outside its range: ${byId(`plan-${wrong}`).min} to ${byId(`plan-${wrong}`).max}`);
  const length = plan.pieces * plan.size;
  if (length < HEAD || length > 262_144) throw new RangeError(`an image has 49 to 262,144 bytes, and not ${length}`);
  const most = Math.min(MOST_DEVICES, Math.floor((MOST_LINES - 3 - plan.pieces - plan.coded) / (7 + plan.pieces + plan.coded)));
  return { ...plan, length, most: Math.max(1, most) };
}

async function play() {
  const told = byId("plan-told");
  told.replaceChildren();
  let plan;
  try {
    plan = planOf();
  } catch (fault) {
    told.append(element("p", { class: "fault", role: "alert" }, fault.message));
    return;
  }
  history.replaceState(null, "", `#plan/${FIELDS.map((name) => `${name}=${plan[name]}`).join("&")}`);
  await long("playing campaigns", async (tell) => {
    const image = await imageOf(plan.length);
    const next = drawn(plan.seed);
    // for each session how many coded fragments were sent when it was complete, or null
    const needed = [];
    while (needed.length < plan.devices) {
      const count = Math.min(plan.most, plan.devices - needed.length);
      const losses = Array.from({ length: count }, () => Array.from({ length: plan.pieces + plan.coded }, () => next() < plan.loss / 100));
      const { script, brought } = scriptOf(plan, losses);
      const { status, output } = await run(["campaign", "image", "script"], { image, script: new TextEncoder().encode(script) });
      const said = words(output);
      if (status !== 0) throw new Error(`the program says: ${said}`);
      for (const { session } of reportOf(said).devices) {
        needed.push(session?.state === "complete" ? Math.max(0, brought[session.at] - plan.pieces) : null);
      }
      told.replaceChildren(curve(plan, needed));
      tell(needed.length / plan.devices, `${needed.length} of ${plan.devices} devices`);
    }
    told.append(...sums(plan, needed));
    byId("status").textContent = `${plan.devices} devices played`;
  });
}

const sharesOf = (plan, needed) => Array.from({ length: plan.coded + 1 }, (_, sent) => needed.filter((n) => n !== null && n <= sent).length / needed.length);

function curve(plan, needed) {
  const shares = sharesOf(plan, needed);
  const wide = across() - LEFT - 20;
  const x = (sent) => LEFT + (wide * sent) / Math.max(1, plan.coded);
  const y = (share) => UP + DOWN - DOWN * share;
  const parts = [0, 25, 50, 75, 100].flatMap((percent) => [
    svg("path", { class: "rule", d: `M${LEFT} ${y(percent / 100)}h${wide}` }), text(LEFT - 6, y(percent / 100) + 4, `${percent} %`, "end"),
  ]);
  const step = [1, 2, 5, 10, 20, 50, 100].find((each) => plan.coded <= 10 * each) ?? 100;
  for (let sent = 0; sent <= plan.coded; sent += step) parts.push(text(x(sent), UP + DOWN + 18, String(sent), "middle"));
  parts.push(text(LEFT + wide / 2, UP + DOWN + 38, "coded fragments sent", "middle"));
  parts.push(svg("path", { class: "stage", d: `M${shares.map((share, sent) => `${x(sent).toFixed(1)} ${y(share).toFixed(1)}`).join("L")}` }));
  parts.push(svg("path", { class: "dots", d: shares.map((share, sent) => `M${x(sent).toFixed(1)} ${y(share).toFixed(1)}h0`).join("") }));
  return picture(LEFT + wide + 20, UP + DOWN + 46, "Share of complete sessions over the coded fragments that were sent", ...parts);
}

function sums(plan, needed) {
  const shares = sharesOf(plan, needed);
  const first = (percent) => String(shares.findIndex((share) => share >= percent / 100)).replace("-1", "more than were sent");
  const rows = SHARES.map((percent) => [`${percent} %`, first(percent)]);
  const never = needed.filter((n) => n === null).length;
  const said = shares.map((share, sent) => `${sent}\t${(100 * share).toFixed(1)}`).join("\n");
  return [
    table("coded fragments for a share of complete sessions", ["complete", "coded fragments"], rows),
    element("p", {}, `${never} of ${needed.length} sessions were not complete at the end.`),
    element("p", {}, copier("copy the curve as text", () => `coded\tcomplete %\n${said}\n`)),
  ];
}

// From a link: the fields.
export function open([fields]) {
  if (!fields) return;
  for (const [name, value] of new URLSearchParams(fields)) {
    if (FIELDS.includes(name) && /^\d{1,9}(\.\d{1,3})?$/.test(value)) byId(`plan-${name}`).value = value;
  }
  play();
}

export function begin() {
  byId("plan-form").addEventListener("submit", (event) => {
    event.preventDefault();
    play();
  });
}
