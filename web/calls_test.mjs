/** Tests the calls of xsugar.mjs over web/xsugar.wasm. Run by web/test-module. */
import assert from "node:assert/strict";
import { spawnSync } from "node:child_process";
import { readdirSync, readFileSync } from "node:fs";
import { test } from "node:test";
import { fileURLToPath } from "node:url";
import { inXml, placeOf } from "./places.mjs";
import * as api from "./xsugar.mjs";

const PAIR = 'xsugar-1\nstart s\nterminal d = /[0-9]/\nignorable w = / */ ""\n'
  + 's : "(" [d a] [w] "," [d b] ")" = <p><y>[d b]</y><x>[d a]</x></p>\n';
const WORD = 'xsugar-1\nstart s\nterminal w = /[ -~α-ω\\u{10000}-\\u{10FFFF}]*/\ns : [w a] = <s a=[w a]/>\n';
const XML = "<p><y>7</y><x>3</x></p>\n";
const OUTLINE = '0 tree 1\n1 a "3"\n1 b "7"\n';
const BLOCK = "<=\n1. [αβ] .2\n=>\n";

const module = await WebAssembly.compile(readFileSync(new URL("xsugar.wasm", import.meta.url)));
const xsugar = await api.load(module);
const pair = xsugar.open(PAIR);
const bytes = (text) => new TextEncoder().encode(text);

/** Checks that a call throws an error of this class with these parts. */
function refuses(call, kind, parts) {
  assert.throws(call, (error) => {
    assert.equal(error.constructor, kind);
    assert.equal(error.name, kind.name);
    assert.ok(error instanceof api.XsugarError);
    assert.deepEqual(Object.fromEntries(Object.keys(parts).map((it) => [it, error[it]])), parts);
    return true;
  });
}

test("documents are translated both ways", () => {
  assert.equal(pair.toXml("(3  ,7)"), XML);
  assert.equal(pair.toXml("(3,7)", "nfc"), XML);
  assert.equal(pair.toText(XML), "(3,7)");
  assert.equal(pair.roundText("(3  ,7)", "nfd"), "(3,7)");
  assert.equal(pair.roundXml("<p><y>7</y><x>3</x></p>"), XML);
});

test("trees are written as outlines, and read", () => {
  assert.equal(pair.toTree("(3,7)"), OUTLINE);
  assert.equal(pair.toTree(XML, "xml"), OUTLINE);
  assert.equal(pair.fromTree(OUTLINE), XML);
  assert.equal(pair.fromTree(OUTLINE, "text"), "(3,7)");
});

test("an answer is of the type of its document", () => {
  assert.deepEqual(pair.toXml(bytes("(3,7)")), bytes(XML));
  assert.deepEqual(pair.toText(Buffer.from(XML)), bytes("(3,7)"));
  assert.equal(xsugar.open(bytes(PAIR)).toXml("(3,7)"), XML);
});

test("a form is one of three, and a side one of two", () => {
  assert.throws(() => pair.toXml("(3,7)", "nfkc"), TypeError);
  assert.throws(() => pair.toTree("(3,7)", "toString"), TypeError);
});

test("the included sheets are opened by their names", () => {
  assert.equal(xsugar.open("@leiden").toText("<ab><lb n=\"1\"/>α</ab>"), "<=\n1. α\n=>\n");
  const sheet = xsugar.open("@leiden2");
  assert.equal(sheet.toText(sheet.toXml(BLOCK)), BLOCK);
});

test("a sheet that is closed has no calls, and may be closed again", () => {
  const sheet = xsugar.open(PAIR);
  sheet.close();
  sheet.close();
  assert.throws(() => sheet.toXml("(3,7)"), /closed/u);
});

test("a foreign text has its place and what is expected there", () => {
  refuses(() => pair.toXml("(3\n,7]"), api.ForeignError, {
    status: 1, report: "input: foreign after 2 symbols", message: 'line 1, column 3: expected " " ","',
    symbols: 2, line: 1, column: 3, offset: 2, expected: [[" ", " "], [",", ","]],
  });
  refuses(() => pair.toXml("(3,7))"), api.ForeignError, {
    message: "line 1, column 6: expected the end", line: 1, column: 6, offset: 5, expected: [],
  });
  const greek = xsugar.open('xsugar-1\nstart s\ns : [t a] = <s>[t a]</s>\nterminal t = /[α-ω\u{300}]/\n');
  refuses(() => greek.toXml("a"), api.ForeignError, {
    message: 'line 1, column 1: expected "\\u{300}" "α"-"ω"', expected: [["\u0300", "\u0300"], ["α", "ω"]],
  });
  refuses(() => pair.toXml("\ufeff(3,7"), api.ForeignError, {
    symbols: 4, line: 1, column: 5, offset: 5, expected: [[")", ")"]],
  });
});

test("an offset counts units of a string, a column characters", () => {
  const sheet = xsugar.open('xsugar-1\nstart s\nterminal w = /[^\\n]*/\ns : [w a] "\\n." = <s a=[w a]/>\n');
  refuses(() => sheet.toXml("\u{1D538}\n\u{1D538}"), api.ForeignError, {
    symbols: 2, line: 2, column: 1, offset: 3, expected: [[".", "."]],
  });
  refuses(() => sheet.toXml("\u{1D538}\n.\u{1D538}"), api.ForeignError, { line: 2, column: 2, offset: 4 });
});

test("in a normal form the characters of that form are counted", () => {
  const sheet = xsugar.open("@leiden2");
  const [composed, apart] = ["<=\n1. \u03ac]\n=>\n", "<=\n1. \u03b1\u0301]\n=>\n"];
  const place = (text, form, column, offset) =>
    refuses(() => sheet.toXml(text, form), api.ForeignError, { line: 2, column, offset });
  place(composed, "nfd", 6, null);
  place(apart, "nfc", 5, null);
  place(composed, "nfc", 5, 7);
  place(apart, "nfd", 6, 8);
});

test("foreign XML has its place", () => {
  const place = (xml, line, column, offset) =>
    refuses(() => pair.toText(xml), api.ForeignError, { line, column, offset, expected: null });
  place("<p>\n<y>7</y></p>", 1, 4, 3);
  place("<p><y>7</y></p>", 1, 12, 11);
  place("<p><!-- x --><y>x</y></p>", 1, 17, 16);
  place("<p><y><![CDATA[7x]]></y></p>", 1, 17, 16);
  place("<p><y>&#x37;&lt;</y></p>", 1, 13, 12);
  place("<p q='1'><y>7</y></p>", 1, 4, 3);
});

test("symbols of XML stand where scripts/symbols lists them", (context) => {
  const top = fileURLToPath(new URL("..", import.meta.url));
  const listed = (file) => spawnSync("python3", ["scripts/symbols", "xml", file], { cwd: top, encoding: "utf8" });
  if (listed("examples/dates.xml").error) return context.skip("no python3");
  for (const name of readdirSync(`${top}/examples`).filter((it) => it.endsWith(".xml"))) {
    const document = readFileSync(`${top}/examples/${name}`, "utf8");
    const places = listed(`examples/${name}`).stdout.matchAll(/^\d+: line (\d+), column (\d+): /gmu);
    const found = [...inXml(document), document.length].map((offset) => placeOf(document, offset));
    assert.deepEqual(found.map((it) => [it.line, it.column]), [...places].map((it) => [Number(it[1]), Number(it[2])]), name);
    assert.ok(found.length > 1);
  }
});

test("attributes are read in the order of their names", () => {
  const sheet = xsugar.open('xsugar-1\nstart s\nterminal d = /[0-9]/\ns : [d a] [d b] = <s a=[d a] b=[d b]/>\n');
  refuses(() => sheet.toText("<s b='x' a='y'/>"), api.ForeignError, { symbols: 2, offset: 12 });
  refuses(() => sheet.toText("<s b='x'\n\ta = '1'/>"), api.ForeignError, { symbols: 5, line: 1, column: 7, offset: 6 });
  refuses(() => sheet.toText("<s b='1' a='1'>2</s>"), api.ForeignError, { symbols: 7, offset: 15 });
});

test("what is no document is told apart", () => {
  refuses(() => pair.toText("\ufeff<p>\n&nbsp;</p>"), api.NotXmlError, {
    status: 4, message: "line 2, column 1: not XML", characters: 4, line: 2, column: 1, offset: 5,
  });
  refuses(() => pair.toXml(Uint8Array.of(40, 206, 177, 10, 255)), api.NotUtf8Error, {
    status: 4, report: "input: byte 4: not UTF-8", byte: 4, line: 2, column: 1, offset: 3,
  });
  refuses(() => pair.toXml("(α\n\ud835"), api.NotUtf8Error, { byte: 4, line: 2, column: 1, offset: 3 });
  refuses(() => pair.toXml(" ".repeat(1_048_577)), api.TooLongError, { status: 7 });
  refuses(() => pair.fromTree('0 tree 1\n1 a "3"\n'), api.OutlineError, { status: 11, line: 3 });
  refuses(() => pair.session("put\n"), api.ScriptError, { status: 10, line: 1 });
});

test("a sheet that is refused has its place", () => {
  refuses(() => xsugar.open('xsugar-1\nstart s\ns : "a = <s/>\n'), api.SheetError, {
    status: 2, byte: 21, line: 3, column: 5, offset: 21, weight: null,
  });
  refuses(() => xsugar.open('xsugar-1\nstart s\n# αβ\ns : "a = <s/>\n'), api.SheetError, {
    byte: 28, line: 4, column: 5, offset: 26,
  });
  refuses(() => xsugar.open("xsugar-1\nstart s\nt : = <s/>\n"), api.SheetError, {
    report: "sheet: line 2: start is not a nonterminal", byte: null, line: 2, column: null, offset: null,
  });
  const items = Array.from({ length: 17 }, (_, at) => `[t a${at}]`).join(" ");
  const heavy = `xsugar-1\nstart s\nterminal t = /([a-z]{50}){10}/\ns : ${items} = <s>${items}</s>\n`;
  assert.throws(() => xsugar.open(heavy), (error) => error instanceof api.SheetError && error.weight > 8192);
});

test("a suspect has its lines and words", () => {
  const shared = 'xsugar-1\nstart s\nterminal w = /[a-z]+/\ns : "a" = <s/>\ns : [w x] = <t>[w x]</t>\n';
  refuses(() => xsugar.open(shared), api.SuspectError, {
    status: 3, side: "text", production: "s", line: 4, lines: [4, 5], cut: null, words: ["a"],
  });
  const cut = 'xsugar-1\nstart s\nterminal w = /[ab\\n]+/\ns : [w x] [w y] = <s x=[w x] y=[w y]/>\n';
  assert.throws(() => xsugar.open(cut), (error) => {
    assert.deepEqual([error.side, error.production, error.lines, error.cut], ["text", "s", [4], 1]);
    assert.equal(error.words.length, 3);
    return error instanceof api.SuspectError && error instanceof api.SheetError;
  });
});

test("what can come next is told as ranges", () => {
  assert.deepEqual(pair.next("(3"), [[" ", " "], [",", ","]]);
  assert.deepEqual(pair.next("(3,"), [["0", "9"]]);
  assert.deepEqual(pair.next("(3,7)"), []);
  assert.equal(pair.next("(x"), null);
  assert.equal(xsugar.open(WORD).next('"\\\n'), null);
  assert.deepEqual(xsugar.open(WORD).next('"\\\u{10ffff}'), [[" ", "~"], ["α", "ω"], ["\u{10000}", "\u{10ffff}"]]);
});

test("a command is run as by the program", () => {
  const files = { sheet: PAIR, document: "(3,7)" };
  assert.deepEqual(xsugar.run(["to-xml", "sheet"], files), { status: 0, output: XML, message: "" });
  assert.deepEqual(xsugar.run(["to-xml", "sheet"], { sheet: PAIR, document: "(3" }), {
    status: 1, output: "", message: "input: foreign after 2 symbols\n",
  });
  const certificate = xsugar.run(["prove", "sheet"], files).output;
  const accepted = "accepted: 1 terminals, 1 ignorables, 1 nonterminals, 1 productions\n";
  assert.equal(xsugar.run(["check", "sheet", "cert", "certificate"], { ...files, certificate }).output, accepted);
  assert.equal(xsugar.run(["check", "gone"]).status, 6);
  assert.equal(xsugar.run([]).status, 5);
  assert.equal(xsugar.run(["to-xml sheet"]).status, 5);
});

test("after want of memory the instance and its sheets go on", async () => {
  const small = await api.load(module, { megabytes: 24 });
  const sheet = small.open("@leiden2");
  const long = `<=\n${"1. [αβγ] δε\n".repeat(60_000)}=>\n`;
  for (let round = 0; round < 3; round += 1) {
    refuses(() => sheet.toXml(long), api.OutOfMemoryError, { status: 8, message: "want of memory" });
    refuses(() => small.run(["to-xml", "@leiden2"], { document: long }), api.OutOfMemoryError, {});
    assert.equal(sheet.toText(sheet.toXml(BLOCK)), BLOCK);
  }
  refuses(() => small.open(bytes(" ".repeat(24 << 20))), api.OutOfMemoryError, {});
  assert.equal(small.open("@leiden2").toText(sheet.toXml(BLOCK)), BLOCK);
});

test("each memory either suffices for the same answer or is wanting", async () => {
  const text = `<=\n${"1. [αβγ] δε\n".repeat(2000)}=>\n`;
  const xml = xsugar.open("@leiden2").toXml(text);
  const ends = new Set();
  for (let megabytes = 2; megabytes <= 40; megabytes += 2) {
    const limited = await api.load(module, { megabytes });
    try {
      assert.equal(limited.open("@leiden2").toXml(text), xml);
      ends.add("done");
    } catch (error) {
      assert.ok(error instanceof api.OutOfMemoryError, error);
      ends.add("wanting");
    }
    assert.equal(limited.open(PAIR).toXml("(3,7)"), XML);
  }
  assert.deepEqual([...ends], ["wanting", "done"]);
});

test("calls keep no memory", async () => {
  const limited = await api.load(module, { megabytes: 16 });
  for (let round = 0; round < 3000; round += 1) {
    const sheet = limited.open(PAIR);
    assert.equal(sheet.toXml("(3,7)"), XML);
    assert.throws(() => sheet.toXml("(3"), api.ForeignError);
    sheet.close();
    assert.throws(() => limited.open("xsugar-1\nstart s\n"), api.SheetError);
    limited.run(["check", "sheet"], { sheet: PAIR });
  }
});

test("instances stand by themselves", async () => {
  const other = await api.load(readFileSync(new URL("xsugar.wasm", import.meta.url)));
  const sheet = other.open(PAIR);
  assert.equal(pair.toXml("(1,2)"), XML.replace("7", "2").replace("3", "1"));
  assert.equal(sheet.toXml("(3,7)"), XML);
});
