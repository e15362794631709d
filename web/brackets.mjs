/**
 * What was opened before a place of a document and is not closed there.
 *
 * @typedef {import("./productions.mjs").Productions} Productions
 * @typedef {{begin: number, end: number, sure: boolean}} Opened where the opening stands, and
 *   whether it is certain that nothing closed it
 */
const TAG = /<!--.*?-->|<\?.*?\?>|<!\[CDATA\[.*?\]\]>|<(?<close>\/?)[^\s>/]+(?:"[^"]*"|'[^']*'|[^>"'])*>/gsu;
const SIGN = /^[\p{P}\p{S}]/u;

/**
 * Returns the offset of the innermost character of fences that is open at the end of a text, or -1.
 */
function openFence(before, fences) {
  const open = [];
  const closing = new Map(fences.map(([left, right]) => [right, left]));
  const opening = new Set(closing.values());
  for (let at = 0; at < before.length; at += 1) {
    if (opening.has(before[at])) open.push(at);
    else if (before[open.at(-1)] === closing.get(before[at])) open.pop();
  }
  return open.at(-1) ?? -1;
}

/**
 * Returns of each production that begins with a string, and is no empty mark, that string, the last
 * one that is a sign, and whether it is a block, which holds ignorables.
 */
function marksOf(productions) {
  return productions.filter(({ text }) => text.length > 1 && text[0].kind === "string").map(({ text }) => {
    const [left, ...rest] = text.filter((it) => it.kind === "string").map((it) => it.value);
    const right = text.at(-1).kind === "slot" ? undefined : rest.findLast((it) => SIGN.test(it));
    return { left, right, isBlock: text.some((it) => it.kind === "ignorable") };
  });
}

/** Returns the opening whose fence character stands at a place. */
function fenced(before, at, marks) {
  const begin = ({ left }) => at - left.indexOf(before[at]);
  const standing = marks.filter((it) => it.left.includes(before[at]) && before.startsWith(it.left, begin(it)));
  standing.sort((one, other) => other.left.length - one.left.length);
  const found = standing[0];
  return found && { begin: begin(found), end: begin(found) + found.left.length, sure: true, isBlock: found.isBlock };
}

/** Returns whether a mark is opened in letters and not closed after it. */
function isOpenIn(letters, { left, right }) {
  if (left === right) return letters.split(left).length % 2 === 0;
  const begin = letters.lastIndexOf(left);
  return begin >= 0 && !letters.includes(right, begin + left.length);
}

/**
 * Returns the last opening by a mark that has no fence and begins after a place, if there is one.
 * Of marks that open alike each may close it.
 */
function unfenced(before, from, marks) {
  const inside = before.slice(from + 1);
  const signs = marks.filter(({ left, right }) => SIGN.test(left) && right !== undefined);
  const closed = new Set(signs.filter((it) => !isOpenIn(inside, it)).map(({ left }) => left));
  const found = signs.filter(({ left }) => !closed.has(left)).map(({ left }) => {
    const begin = from + 1 + inside.lastIndexOf(left);
    return { begin, end: begin + left.length, sure: false };
  });
  found.sort((one, other) => other.end - one.end || one.begin - other.begin);
  return found[0] ?? null;
}

/**
 * Returns what was opened in a text before an offset and is open there: the innermost bracket of
 * the fences, or a mark without a fence that begins after it; a block only at the end of the text.
 */
function openedMark(text, offset, productions, fences) {
  const before = text.slice(0, offset);
  const at = openFence(before, fences);
  const isFence = (letters) => fences.flat().some((it) => letters.includes(it));
  const marks = marksOf(productions);
  const open = unfenced(before, at, marks.filter(({ left }) => !isFence(left)));
  if (open !== null || at < 0) return open;
  const bracket = fenced(before, at, marks);
  return bracket && (!bracket.isBlock || offset === text.length) ? bracket : null;
}

/**
 * Returns the tag of the innermost element that is open at an offset of an XML document; of the
 * root only at the end.
 */
function openedElement(xml, offset) {
  const open = [];
  for (const it of xml.slice(0, offset).matchAll(TAG)) {
    if (it.groups.close === "/") open.pop();
    else if (it.groups.close === "" && !it[0].endsWith("/>")) open.push(it);
  }
  const tag = open.at(-1);
  if (tag === undefined || (open.length === 1 && offset < xml.length)) return null;
  return { begin: tag.index, end: tag.index + tag[0].length, sure: true };
}

/**
 * Returns what was opened in a document before an offset and is not closed there.
 *
 * @param {"text" | "xml"} side
 * @param {string} document
 * @param {number} offset
 * @param {{productions: Productions | null, fences: [string, string][]}} sheet what its source
 *   says, and the pairs of characters that always stand one inside the other
 * @returns {Opened | null}
 */
export function openedBefore(side, document, offset, { productions, fences }) {
  if (side === "xml") return openedElement(document, offset);
  return productions && openedMark(document, offset, productions.productions, fences);
}
