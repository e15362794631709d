/**
 * The productions of a sheet as railroad diagrams: a track for each production of a name, from left
 * to right the items of its text side, and under the track its XML.
 *
 * @typedef {import("./productions.mjs").Productions} Productions
 * @typedef {import("./productions.mjs").Production} Production
 */
import { counted, seen } from "./characters.mjs";

const SPACE = "http://www.w3.org/2000/svg";
const BOX = { height: 24, gap: 14, inset: 8 };
const TRACK = { height: 52, left: 34, middle: 18 };
const TITLE = 32;
const LONGEST_XML = 110;

const measure = document.createElement("canvas").getContext("2d");

/** Makes an element of a diagram. */
function drawn(name, attributes, ...children) {
  const element = document.createElementNS(SPACE, name);
  for (const [key, value] of Object.entries(attributes)) element.setAttribute(key, value);
  element.append(...children);
  return element;
}

/** Returns the parts of an XML side in one line. */
function xmlOf(parts) {
  return parts.map((it) => {
    if (it.kind === "string") return `"${seen(it.value)}"`;
    if (it.kind === "ignorable") return `[${it.name}]`;
    if (it.kind === "slot") return `[${it.name} ${it.slot}]`;
    const attributes = it.attributes.map(({ name, items }) => ` ${name}=${xmlOf(items)}`).join("");
    const inner = xmlOf(it.parts);
    return inner === "" ? `<${it.tag}${attributes}/>` : `<${it.tag}${attributes}>${inner}</${it.tag}>`;
  }).join("");
}

/** Returns an XML side as it fits under a track. */
function caption(production) {
  const xml = xmlOf(production.xml);
  return xml.length > LONGEST_XML ? `${xml.slice(0, LONGEST_XML)} ..` : xml;
}

/** The diagrams of a sheet in a panel. */
export class Diagrams {
  #rules;
  #sheet = null;
  #tracks = new Map();

  /**
   * @param {HTMLElement} panel
   * @param {(production: Production) => void} choose is told which track the reader chooses
   */
  constructor(panel, choose) {
    this.panel = panel;
    this.#rules = panel.querySelector(".rules");
    this.choose = choose;
  }

  /**
   * @param {Productions | null} sheet null leaves the diagrams of the last sheet that could be read
   */
  set sheet(sheet) {
    if (sheet === null || sheet === this.#sheet) return;
    this.#sheet = sheet;
    this.#tracks.clear();
    const names = [...new Set(sheet.productions.map((it) => it.name))];
    const counts = [counted(names.length, "name"), counted(sheet.productions.length, "production")];
    this.panel.querySelector("output").value = counts.join(", ");
    measure.font = `13px ${getComputedStyle(document.documentElement).getPropertyValue("--code")}`;
    this.#rules.replaceChildren(...names.map((it) => this.#rule(it)));
  }

  /** Shows a production, by its number, as that of the cursor; none where there is no number. */
  show(number) {
    this.#rules.querySelector(".here")?.classList.remove("here");
    const track = this.#tracks.get(number);
    if (track === undefined) return;
    track.classList.add("here");
    const [view, place] = [this.#rules, track].map((it) => it.getBoundingClientRect());
    if (place.top < view.top || place.bottom > view.bottom) {
      this.#rules.scrollTop += place.top - view.top - view.height / 3;
    }
  }

  /** Draws all productions of a name. */
  #rule(name) {
    const productions = this.#sheet.productions.filter((it) => it.name === name);
    const tracks = productions.map((it, place) => this.#track(it, place * TRACK.height));
    const width = Math.max(...tracks.map((it) => it.width));
    const height = productions.length * TRACK.height;
    tracks.forEach((it, place) => it.close(width, place));
    const sides = productions.map((it) => it.text.map((item) => this.#word(item)).join(" "));
    const label = `${name}: ${sides.join(", or ")}`;
    const svg = drawn("svg", { width: width + TRACK.left, height, "aria-label": label },
      ...tracks.map((it) => it.group));
    const section = document.createElement("section");
    section.id = `rule-${name}`;
    section.style.containIntrinsicHeight = `${height + TITLE}px`;
    const title = Object.assign(document.createElement("h3"), { textContent: name });
    section.append(title, svg);
    return section;
  }

  /** Draws a track from the rail on its left, and returns how wide it is and how it is joined. */
  #track(production, top) {
    const middle = top + TRACK.middle;
    const boxes = [];
    let at = TRACK.left;
    for (const item of production.text) {
      const box = this.#box(item, at, middle);
      boxes.push(box.group);
      at += box.width + BOX.gap;
    }
    const xml = drawn("text", { class: "xml", x: TRACK.left, y: middle + 27 }, caption(production));
    const ground = drawn("rect", { class: "ground", x: 20, y: top + 1, height: TRACK.height - 4, rx: 4 });
    const group = drawn("g", { class: "track" }, ground, ...boxes, xml);
    group.addEventListener("click", (event) => {
      if (event.target.closest("a") === null) this.choose(production);
    });
    this.#tracks.set(production.number, group);
    const close = (width, place) => {
      ground.setAttribute("width", width - 24);
      group.insertBefore(rails(middle, width, place), ground.nextSibling);
    };
    const wide = Math.max(at, TRACK.left + measure.measureText(xml.textContent).width * 0.85);
    return { group, width: wide + BOX.gap, close };
  }

  #word(item) {
    return item.kind === "string" ? `“${seen(item.value)}”` : item.name;
  }

  /** Draws an item, from a place on. */
  #box(item, x, middle) {
    const word = item.kind === "string" ? seen(item.value) : item.name;
    const isTerminal = this.#sheet.terminals.has(item.name);
    const kind = item.kind === "slot" ? (isTerminal ? "terminal" : "name") : item.kind;
    const width = measure.measureText(word).width + 2 * BOX.inset;
    const rx = kind === "name" ? 2 : BOX.height / 2;
    const box = [
      drawn("rect", { x, y: middle - BOX.height / 2, width, height: BOX.height, rx }),
      drawn("text", { x: x + BOX.inset, y: middle + 5 }, word),
    ];
    if (isTerminal) box.push(drawn("title", {}, this.#sheet.terminals.get(item.name)));
    const group = kind === "name"
      ? drawn("a", { class: kind, href: `#rule-${item.name}` }, ...box)
      : drawn("g", { class: kind }, ...box);
    return { group, width };
  }
}

/** Draws the line of a track and the rails that join it to the track before. */
function rails(middle, width, place) {
  const line = `M8 ${middle} H${width}`;
  const above = middle - TRACK.height;
  const joined = place === 0 ? "" : `M14 ${above} V${middle} M${width - 6} ${above} V${middle}`;
  return drawn("path", { d: `${line} ${joined}` });
}
