// Elements of the page and of its pictures. What comes from outside is put by `textContent` alone, so it is never markup.

const SVG = "http://www.w3.org/2000/svg";

export const byId = (id) => document.getElementById(id);

// An element with attributes, and with texts and elements in it.
export function element(name, attributes = {}, ...inner) {
  return filled(document.createElement(name), attributes, inner);
}

export function svg(name, attributes = {}, ...inner) {
  return filled(document.createElementNS(SVG, name), attributes, inner);
}

function filled(made, attributes, inner) {
  for (const [name, value] of Object.entries(attributes)) made.setAttribute(name, value);
  for (const one of inner) made.append(one instanceof Node ? one : document.createTextNode(one));
  return made;
}

// How wide a picture is: as the page, between these.
export const across = () => Math.max(320, Math.min(680, byId("main").clientWidth));

// A picture of a width and a height, with its title for readers of screens.
export function picture(width, height, title, ...parts) {
  const made = svg("svg", { viewBox: `0 0 ${width} ${height}`, role: "img" }, svg("title", {}, title), ...parts);
  made.style.maxWidth = `${width}px`;
  return made;
}

export const text = (x, y, words, anchor = "start") => svg("text", { x, y, "text-anchor": anchor }, words);

// A table with a head; each cell is a text or an element.
export function table(caption, heads, rows) {
  const head = element("tr", {}, ...heads.map((name) => element("th", { scope: "col" }, name)));
  const body = rows.map((row) => element("tr", {}, ...row.map((cell) => element("td", {}, cell))));
  const made = element("table", {}, element("caption", {}, caption), element("thead", {}, head), element("tbody", {}, ...body));
  return element("div", { class: "wide", tabindex: "0", role: "region", "aria-label": caption }, made);
}

// So much of a text as a page bears.
const MOST_SHOWN = 100_000;
const decoder = new TextDecoder();

export const words = (output) => decoder.decode(output);

export function shown(output) {
  return output.length <= MOST_SHOWN ? words(output) : `${words(output.subarray(0, MOST_SHOWN))}\n… (${output.length} bytes in all; copy or save them)`;
}

// What keeps bytes as a file, under this name.
export function saver(label, name, bytes) {
  const link = element("a", { download: name, class: "button" }, label);
  link.href = URL.createObjectURL(new Blob([bytes]));
  return link;
}

// What puts a text into the clipboard.
export function copier(label, textOf) {
  const button = element("button", { type: "button" }, label);
  button.addEventListener("click", async () => {
    const done = await copied(textOf());
    button.textContent = done ? "copied" : "not copied";
    setTimeout(() => { button.textContent = label; }, 1500);
  });
  return button;
}

async function copied(what) {
  try {
    await navigator.clipboard.writeText(what);
    return true;
  } catch {
    const area = element("textarea", { "aria-label": "text to copy" });
    area.value = what;
    document.body.append(area);
    area.select();
    const done = document.execCommand("copy");
    area.remove();
    return done;
  }
}

// Bytes as a short text of a link, and back.
export const linked = (bytes) => btoa(String.fromCharCode(...bytes)).replaceAll("+", "-").replaceAll("/", "_").replaceAll("=", "");

export function unlinked(code) {
  try {
    return Uint8Array.from(atob(code.replaceAll("-", "+").replaceAll("_", "/")), (letter) => letter.charCodeAt(0));
  } catch {
    return null;
  }
}
