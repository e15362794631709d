/**
 * What an editor shows of a document that is refused.
 *
 * @typedef {import("./open_document.mjs").OpenDocument} OpenDocument
 * @typedef {import("./notation.mjs").Notation} Notation
 * @typedef {{range: object, message: string, relatedInformation: object[]}} Diagnostic
 */
import { openedBefore } from "../brackets.mjs";
import { told } from "../characters.mjs";
import {
  ForeignError,
  NotUtf8Error,
  NotXmlError,
  OutOfMemoryError,
  SuspectError,
  XsugarError,
} from "../errors.mjs";
import { standingAt } from "../places.mjs";

const ERROR = 1;

function diagnostic(range, message, relatedInformation = []) {
  return { range, message, relatedInformation, severity: ERROR, source: "xsugar" };
}

function related(document, range, message) {
  return { location: { uri: document.uri, range }, message };
}

/** Returns a word of a report in quotes; what cannot be seen is shown as in a string of a sheet. */
function shown(word) {
  const hidden = (it) => (it === "\n" ? "\\n" : `\\u{${it.codePointAt(0).toString(16)}}`);
  return `"${word.replace(/[\p{C}\p{Zl}\p{Zp}]/gu, hidden)}"`;
}

/** Says what is suspect of the production at the first of the error's lines. */
function suspicion({ side, production, lines, cut, words }) {
  const where = `on the ${side === "xml" ? "XML" : "text"} side`;
  if (cut === null) {
    return `${where}, ${production} may spell ${shown(words[0])} here and at line ${lines[1]}`;
  }
  const [left, middle, right] = words;
  const ways = [[left + middle, right], [left, middle + right]];
  const [longer, shorter] = ways.map((way) => way.map(shown).join(" "));
  return `${where}, ${production} can be cut after item ${cut} into ${longer} or ${shorter}`;
}

function ofSuspect(document, error) {
  return error.lines.map((line, place) => {
    const others = error.lines.filter((_, other) => other !== place);
    const message = suspicion({ ...error, lines: [line, ...others] });
    const spot = (it) => related(document, document.lineRange(it), "the same word is spelled here");
    return diagnostic(document.lineRange(line), message, others.map(spot));
  });
}

function ofSheetError(document, error) {
  if (error instanceof SuspectError) return ofSuspect(document, error);
  if (error.offset !== null) {
    const [word] = /^\S*/u.exec(document.text.slice(error.offset));
    return [diagnostic(document.range(error.offset, error.offset + word.length), "not expected here")];
  }
  const message = error.report.replace(/^sheet: (?:line \d+: )?/u, "");
  return [diagnostic(document.lineRange(error.line ?? 1), message)];
}

function hasPlace(error) {
  return [ForeignError, NotUtf8Error, NotXmlError].some((it) => error instanceof it);
}

/** Returns where a bracket or an element was opened that is not closed. */
function openings(document, opened) {
  if (opened === null) return [];
  const { begin, end, sure } = opened;
  const message = `“${document.text.slice(begin, end)}” was opened here${sure ? "" : ", perhaps"}`;
  return [related(document, document.range(begin, end), message)];
}

/** Says what is wrong at the place of an error. */
function messageOf(error, kind, closing) {
  if (error instanceof NotXmlError) return "not XML";
  if (error instanceof NotUtf8Error) return "half a character";
  return kind === "text" && error.expected ? `expected ${told(error.expected, closing)}` : "not expected here";
}

function ofDocumentError(document, notation, error) {
  if (!hasPlace(error)) {
    return diagnostic(document.lineRange(1), error.report.replace(/^input: /u, ""));
  }
  const { kind, text } = document;
  const { offset } = error;
  const range = document.range(offset, offset + standingAt(text, kind, offset).length);
  const opened = openings(document, openedBefore(kind, text, offset, notation));
  return diagnostic(range, messageOf(error, kind, notation.closing), opened);
}

/** Says of a document in one line why it is refused. */
export function refusalOf(error, { kind }, { closing }) {
  const place = `line ${error.line}, column ${error.column}`;
  return hasPlace(error) ? `${place}: ${messageOf(error, kind, closing)}` : error.message;
}

/** Returns what a call refused; want of memory is thrown on. */
function refused(call) {
  try {
    call();
    return null;
  } catch (error) {
    if (!(error instanceof XsugarError) || error instanceof OutOfMemoryError) throw error;
    return error;
  }
}

/**
 * Returns the diagnostics of a sheet that is being written.
 *
 * @param {OpenDocument} document
 * @param {import("../xsugar.mjs").Xsugar} xsugar
 * @returns {Diagnostic[]}
 */
export function diagnosticsOfSheet(document, xsugar) {
  const error = refused(() => xsugar.open(document.text).close());
  return error === null ? [] : ofSheetError(document, error);
}

/** Returns the other document of a text or an XML document, or throws why there is none. */
export function otherOf({ kind, text }, { sheet }) {
  return kind === "xml" ? sheet.toText(text) : sheet.toXml(text);
}

/**
 * Returns the diagnostics of a text or an XML document.
 *
 * @param {OpenDocument} document
 * @param {Notation} notation
 * @returns {Diagnostic[]}
 */
export function diagnosticsOf(document, notation) {
  const error = refused(() => otherOf(document, notation));
  return error === null ? [] : [ofDocumentError(document, notation, error)];
}
