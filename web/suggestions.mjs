/**
 * The characters that may come next, as buttons: those with a meaning of their own one by one,
 * letters and digits in a list that opens.
 *
 * @typedef {[string, string][]} Ranges pairs of a first and a last character, both included
 */
import { ANY, classOf, grouped, nameOf } from "./characters.mjs";

const SHOWN = { " ": "␣ space", "\n": "↵ line end", "\t": "⇥ tab", "\r": "carriage return" };
const MOST = 700;

/** Makes a button that types a character. */
function button(character, type) {
  const it = document.createElement("button");
  it.type = "button";
  it.className = "letter";
  it.textContent = SHOWN[character] ?? (/\p{M}/u.test(character) ? `◌${character}` : character);
  it.ariaLabel = nameOf(character);
  it.addEventListener("click", () => type(character));
  return it;
}

/** Returns the characters of a class that ranges have. */
function charactersOf(name, ranges) {
  const found = [];
  for (const [first, last] of ranges) {
    for (let code = first.codePointAt(0); code <= last.codePointAt(0); code += 1) {
      const character = String.fromCodePoint(code);
      if (classOf(character) === name && /\p{Assigned}/u.test(character)) found.push(character);
      if (found.length === MOST) return found;
    }
  }
  return found;
}

/** Makes a list that opens, with the characters of a class. */
function list(name, ranges, type) {
  const details = document.createElement("details");
  details.append(Object.assign(document.createElement("summary"), { textContent: name }));
  details.addEventListener("toggle", () => {
    if (details.childElementCount > 1) return;
    const ground = document.createElement("div");
    ground.append(...charactersOf(name, ranges).map((it) => button(it, type)));
    details.append(ground);
  });
  return details;
}

/**
 * Makes the buttons of ranges.
 *
 * @param {Ranges} ranges
 * @param {string[]} closing those that close a bracket, which come first
 * @param {(character: string) => void} type is told which character is clicked
 * @returns {(HTMLElement | string)[]}
 */
export function suggestions(ranges, closing, type) {
  const { characters, classes } = grouped(ranges, closing);
  const lists = classes.map((it) => (it === ANY ? it : list(it, ranges, type)));
  return [...characters.map((it) => button(it, type)), ...lists];
}
