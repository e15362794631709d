/** What may be typed next. */
import { ANY, classOf, grouped, nameOf } from "../characters.mjs";
import { markLength } from "../places.mjs";
import { quoted, rangesOf } from "../xsugar.mjs";

const KIND_OF_OPERATOR = 24;
/** What is put in for a class where it may come. */
const SAMPLES = [..."aAαΑ1ⲁ\u0301"];
/** The length up to which what can be typed is continued. */
const LONGEST = 16;

/** Returns, for each word, the ranges of characters that can come after it where it is typed. */
function nextAfter(sheet, before, words) {
  const at = [...before].length;
  let script = `put 0 0 ${quoted(before)}\n`;
  let length = 0;
  for (const word of words) {
    script += `put ${at} ${length} ${quoted(word)}\n`;
    length = [...word].length;
    script += `next ${at + length}\n`;
  }
  const answers = sheet.session(script).split("\n");
  return words.map((_, place) => rangesOf(answers[2 * place + 2]));
}

/** Returns characters with those after them of which each is the only one that can come. */
function continued(sheet, before, characters) {
  const words = [...characters];
  let growing = [...words.keys()];
  for (let length = 1; growing.length > 0 && length < LONGEST; length += 1) {
    const after = nextAfter(sheet, before, growing.map((it) => words[it]));
    growing = growing.filter((it, place) => {
      const [first, last] = after[place].length === 1 ? after[place][0] : [];
      const isOnly = first !== undefined && first === last;
      if (isOnly) words[it] += first;
      return isOnly;
    });
  }
  return words;
}

function labelOf(word) {
  const isHidden = /^[\p{M}\p{C}\p{Z}]$/u.test(word);
  return isHidden ? nameOf(word) : word.replaceAll("\n", "↵");
}

/** Returns a character of a class that ranges have. */
function sampleOf(name, ranges) {
  const isIn = (it) => ranges.some(([first, last]) => first <= it && it <= last);
  const sample = SAMPLES.find((it) => classOf(it) === name && isIn(it));
  for (const [first, last] of sample ? [] : ranges) {
    for (let code = first.codePointAt(0); code <= last.codePointAt(0); code += 1) {
      if (classOf(String.fromCodePoint(code)) === name) return String.fromCodePoint(code);
    }
  }
  return sample;
}

/** Returns a list of completions, in this order, of labels and what they put in for a range. */
export function listOf(words, kind, range) {
  const items = words.map(([label, newText], place) => ({
    label, kind, sortText: String(place).padStart(3, "0"), textEdit: { range, newText },
  }));
  return { isIncomplete: true, items };
}

/**
 * Returns the completions at an offset of a text, what closes a bracket first. A class of
 * characters is one item, which puts in one of them.
 *
 * @param {import("./open_document.mjs").OpenDocument} document
 * @param {number} offset
 * @param {import("./notation.mjs").Notation} notation
 */
export function completionsAt(document, offset, { sheet, closing }) {
  const before = document.text.slice(markLength(document.text), offset);
  const ranges = sheet.next(before) ?? [];
  const { characters, classes } = grouped(ranges, closing);
  const words = continued(sheet, before, characters).map((word) => [labelOf(word), word]);
  const samples = classes.filter((it) => it !== ANY).map((name) => [name, sampleOf(name, ranges)]);
  const range = document.range(offset, offset);
  return listOf([...words, ...samples], KIND_OF_OPERATOR, range);
}
