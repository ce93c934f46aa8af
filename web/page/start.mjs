// The page's four views, of which the part of the address after # names one, and what it shows.
import * as campaign from "./campaign.mjs";
import * as capture from "./capture.mjs";
import { byId } from "./draw.mjs";
import * as payload from "./payload.mjs";
import * as plan from "./plan.mjs";
import { stopNow } from "./runner.mjs";

const VIEWS = { capture: () => {}, payload: payload.open, campaign: campaign.open, plan: plan.open };

const data = (id) => Uint8Array.from(atob(byId(id).textContent.trim()), (letter) => letter.charCodeAt(0));

function route() {
  const [name, ...rest] = decodeURIComponent(location.hash.slice(1)).split("/");
  const view = name in VIEWS ? name : "capture";
  for (const other of Object.keys(VIEWS)) {
    byId(other).hidden = other !== view;
    const link = document.querySelector(`nav a[href="#${other}"]`);
    if (other === view) link.setAttribute("aria-current", "page");
    else link.removeAttribute("aria-current");
  }
  stopNow();
  byId("status").textContent = "";
  VIEWS[view](rest);
}

function failed(event) {
  byId("status").textContent = `This failed: ${event.reason?.message ?? event.message}`;
}

addEventListener("unhandledrejection", failed);
addEventListener("error", failed);
addEventListener("hashchange", route);
byId("stop").addEventListener("click", stopNow);
capture.begin(data("example-capture"), JSON.parse(byId("tables").textContent));
payload.begin();
campaign.begin({ image: data("example-image"), script: new TextDecoder().decode(data("example-script")) });
plan.begin();
route();
