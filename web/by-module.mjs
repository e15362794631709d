#!/usr/bin/env node
/**
 * The program over web/xsugar.wasm, as tests/run asks a server for it: on standard input its
 * folder, the number of its words and these, a line each. The commands on documents open the sheet
 * of their file and call its methods; the others go through `run`. A file that cannot be read is
 * one that the run does not have.
 */
import { readFileSync, writeFileSync } from "node:fs";
import { createInterface } from "node:readline";
import { load, XsugarError } from "./xsugar.mjs";

const LONGEST = { sheet: 65_536, document: 1_048_576, certificate: 268_435_456 };
const FORMS = [undefined, "asis", "nfc", "nfd"];
const SIDES = ["text", "xml"];
const SHIPPED = ["@leiden", "@leiden2"];

const xsugar = await load(readFileSync(new URL("xsugar.wasm", import.meta.url)));

/** Returns the bytes of a file, one more than it may have at most; null where it cannot be read. */
function read(name, most) {
  try {
    return readFileSync(Buffer.from(name, "latin1")).subarray(0, most + 1);
  } catch {
    return null;
  }
}

/** Returns the method of a sheet that does a command on documents, or null where it is none. */
function method([verb, , first, ...rest]) {
  const isAlone = rest.length === 0;
  const [form] = rest;
  const isFormed = rest.length < 2 && FORMS.includes(form);
  switch (verb) {
    case "to-xml": return isAlone && FORMS.includes(first) ? (sheet, it) => sheet.toXml(it, first) : null;
    case "to-text": return first === undefined ? (sheet, it) => sheet.toText(it) : null;
    case "round":
      if (first === "xml" && isAlone) return (sheet, it) => sheet.roundXml(it);
      return first === "text" && isFormed ? (sheet, it) => sheet.roundText(it, form) : null;
    case "to-tree":
      if (first === "xml" && isAlone) return (sheet, it) => sheet.toTree(it, "xml");
      return first === "text" && isFormed ? (sheet, it) => sheet.toTree(it, "text", form) : null;
    case "from-tree": return isAlone && SIDES.includes(first) ? (sheet, it) => sheet.fromTree(it, first) : null;
    case "session": return first === undefined ? (sheet, it) => sheet.session(it) : null;
    default: return null;
  }
}

/** Opens the sheet and does the work. */
function bySheet(work, source, document) {
  const sheet = xsugar.open(source);
  try {
    return { status: 0, output: work(sheet, document), message: "" };
  } finally {
    sheet.close();
  }
}

/** Runs the words with the files that they name. */
function byRun(words, document) {
  const said = words.map((it) => Buffer.from(it, "latin1"));
  const files = { document };
  const name = (kind, at) => {
    const found = read(words[at], LONGEST[kind]);
    said[at] = found === null ? "gone" : kind;
    files[kind] = found ?? "";
  };
  const hasSheet = words.length > 1 && !["sheet", "make"].includes(words[0]);
  if (hasSheet && !words[1].startsWith("@")) name("sheet", 1);
  if (words.length === 4 && words[0] === "check" && words[2] === "cert") name("certificate", 3);
  return xsugar.run(said, files);
}

/** Does a run in its folder; returns its status. */
function ran(folder, words) {
  process.chdir(folder);
  const document = read(".input", LONGEST.document);
  const work = words.length > 1 ? method(words) : null;
  const source = SHIPPED.includes(words[1]) ? words[1] : work && read(words[1], LONGEST.sheet);
  let told;
  try {
    told = work && source !== null ? bySheet(work, source, document) : byRun(words, document);
  } catch (error) {
    if (!(error instanceof XsugarError)) throw error;
    told = { status: error.status, output: "", message: error.report && `${error.report}\n` };
  }
  writeFileSync(".out", told.output);
  writeFileSync(".notes", told.message);
  return told.status;
}

const input = createInterface({ input: process.stdin.setEncoding("latin1"), crlfDelay: Infinity });
const lines = input[Symbol.asyncIterator]();
const line = async () => (await lines.next()).value;

for (let folder = await line(); folder !== undefined; folder = await line()) {
  const words = [];
  for (let left = Number(await line()); left > 0; left -= 1) words.push(await line());
  process.stdout.write(`${ran(Buffer.from(folder, "latin1").toString(), words)}\n`);
}
