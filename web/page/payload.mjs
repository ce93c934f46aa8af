// A payload: its commands as it is typed, or the byte at which reading stops.
import { byId, copier, element, words } from "./draw.mjs";
import { run } from "./runner.mjs";
import { CAUSES, decodedOf, refusalOf, STOPS } from "./texts.mjs";

let asked = 0;

const hexOf = () => byId("payload-hex").value.replace(/[\s:.,-]|0x/gi, "");

async function show() {
  const mine = ++asked;
  const port = byId("payload-port").value;
  const way = document.querySelector("input[name=way]:checked").value;
  const hex = hexOf();
  history.replaceState(null, "", `#payload/${port}/${way}/${/^[0-9a-f]{0,484}$/i.test(hex) ? hex.toLowerCase() : ""}`);
  const { status, output } = await run(["decode", port, way, "file"], { file: new TextEncoder().encode(`${hex}\n`) });
  // (a later letter has its own answer)
  if (mine !== asked) return;
  const told = byId("payload-told");
  const said = words(output);
  const { commands, stop } = decodedOf(said);
  if (status !== 0) {
    const refusal = refusalOf(said);
    told.replaceChildren(element("p", { class: "fault" }, refusal?.why === "limit" ? "More than 242 bytes are no payload." : hex.length % 2 ? "The last byte has one digit yet." : `These are no hex digits: ${CAUSES[refusal?.why] ?? said}`));
    return;
  }
  told.replaceChildren();
  if (commands.length > 0 || !stop) told.append(element("pre", { "aria-label": "commands" }, commands.join("\n") || "no commands"));
  if (stop) told.append(stopped(hex, stop));
  told.append(element("p", {}, copier("copy as text", () => said)));
}

function stopped(hex, { at, why }) {
  const pairs = hex.match(/../g) ?? [];
  const place = element("code", {}, pairs.slice(0, at).join(" "), at > 0 ? " " : "", element("mark", {}, pairs[at] ?? "end"), " ", pairs.slice(at + 1).join(" "));
  return element("div", { class: "fault" }, element("p", {}, `Reading stops at byte ${at}, counted from 0: ${STOPS[why] ?? why}.`), element("p", { class: "hex" }, place));
}

// From a link: port, way and hex.
export function open([port, way, hex]) {
  if (/^20[0-3]$/.test(port ?? "")) byId("payload-port").value = port;
  const chosen = document.querySelector(`input[name=way][value=${way === "up" ? "up" : "down"}]`);
  chosen.checked = true;
  if (/^[0-9a-f]+$/i.test(hex ?? "")) byId("payload-hex").value = hex;
  show();
}

export function begin() {
  for (const id of ["payload-port", "payload-hex"]) byId(id).addEventListener("input", show);
  for (const one of document.querySelectorAll("input[name=way]")) one.addEventListener("change", show);
}
