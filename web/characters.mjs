/**
 * Characters that can come next, as one shows them: those with a meaning of their own one by one,
 * letters, digits and accents as a class.
 *
 * @typedef {[string, string][]} Ranges pairs of a first and a last character, both included
 * @typedef {{characters: string[], classes: string[]}} Grouped
 */
const CLASSES = [
  [/\p{M}/u, "an accent"],
  [/\p{Nd}/u, "a digit"],
  [/\p{Script=Latin}/u, "a Latin letter"],
  [/\p{Script=Greek}/u, "a Greek letter"],
  [/\p{Script=Coptic}/u, "a Coptic letter"],
  [/\p{L}/u, "a letter of another script"],
];
/** The class of a range that is too long to be looked into. */
export const ANY = "nearly any character";
const NAMES = {
  " ": "a space", "\n": "a line end", "\r": "a carriage return", "\t": "a tab", "\u0323": "a dot below",
};
const HIDDEN = /^[\p{M}\p{C}\p{Z}]$/u;
/** The most characters of a class that are shown one by one. */
const FEW = 6;
/** The length from which a range is not looked into. */
const LONG = 4096;

/** Returns the class of a character, or null where it has a meaning of its own. */
export function classOf(character) {
  return CLASSES.find(([pattern]) => pattern.test(character))?.[1] ?? null;
}

/**
 * Counts the characters of a range by their classes, of which null is none; keeps the plain ones.
 */
function count(first, last, classes) {
  const [begin, end] = [first.codePointAt(0), last.codePointAt(0)];
  for (let code = begin; code <= end; code++) {
    const character = String.fromCodePoint(code);
    if (/\p{Cn}/u.test(character)) continue;
    const name = classOf(character);
    if (!classes.has(name)) classes.set(name, { size: 0, plain: [] });
    classes.get(name).size += 1;
    // what stands in a long range beyond ASCII is there for its neighbours
    if (code < 0x80 || end - begin < FEW) classes.get(name).plain.push(character);
  }
}

/** Orders characters: those that close first, those that are not seen last. */
function ordered(characters, closing) {
  const rank = (it) => (HIDDEN.test(it) ? 2 : closing.includes(it) ? 0 : 1);
  return characters.sort((one, other) => rank(one) - rank(other) || (one < other ? -1 : 1));
}

/**
 * Groups the characters of ranges.
 *
 * @param {Ranges} ranges
 * @param {string[]} closing those that close a bracket
 * @returns {Grouped}
 */
export function grouped(ranges, closing = []) {
  const found = new Map();
  const isLong = ([first, last]) => last.codePointAt(0) - first.codePointAt(0) >= LONG;
  for (const [first, last] of ranges.filter((it) => !isLong(it))) count(first, last, found);
  const isFew = ([name, { size }]) => name === null || size <= FEW;
  const few = [...found].filter(isFew).flatMap(([, { plain }]) => plain);
  // a carriage return is but another way to write a line end
  const characters = few.filter((it) => it !== "\r" || !few.includes("\n"));
  const classes = [...found].filter((it) => !isFew(it)).map(([name]) => name);
  if (ranges.some(isLong)) classes.push(ANY);
  return { characters: ordered(characters, closing), classes };
}

/** Returns letters as they are shown: blanks, and marks without a letter, can be seen. */
export function seen(letters) {
  const shown = letters.replaceAll(" ", "␣").replaceAll("\n", "↵").replaceAll("\t", "⇥");
  return shown.replace(/^\p{M}/u, "◌$&");
}

/** Returns a number of things of a name. */
export function counted(number, name) {
  return `${number} ${name}${number === 1 ? "" : "s"}`;
}

/** Returns how a character is called in a sentence; a word stands in quotes. */
export function nameOf(character) {
  if (character in NAMES) return NAMES[character];
  const code = character.codePointAt(0).toString(16).toUpperCase().padStart(4, "0");
  return HIDDEN.test(character) ? `U+${code}` : `“${character}”`;
}

/**
 * Returns what can come next, as a sentence tells it.
 *
 * @param {Ranges} ranges
 * @param {string[]} closing the characters that close a bracket
 * @param {number} most how many characters are told
 */
export function told(ranges, closing = [], most = 12) {
  const { characters, classes } = grouped(ranges, closing);
  const words = [...characters.slice(0, most).map(nameOf), ...classes];
  if (characters.length > most) words.push("others");
  return words.join(", ") || "the end";
}
