/**
 * Text and XML translated into each other by a stylesheet, through the core as WebAssembly. It runs
 * in node, in a page and in a worker, and asks for nothing else.
 *
 *     const xsugar = await load(await readFile("web/xsugar.wasm"));
 *     const sheet = xsugar.open("@leiden2");
 *     const xml = sheet.toXml("<=\n1. [αβ] .2\n=>\n");
 *     sheet.toText(xml);
 *     sheet.close();
 *
 * A document is a string or a Uint8Array of UTF-8, and its answer is of the same type. What is
 * refused is thrown, as one of the classes of errors.mjs. After any of them, want of memory too,
 * the module and its open sheets go on.
 *
 * @typedef {string | Uint8Array} Document
 * @typedef {"text" | "xml"} Side
 * @typedef {"asis" | "nfc" | "nfd"} Form how the characters of a text are taken
 * @typedef {{status: number, output: string, message: string}} Ran how a command ended, and what it
 *   wrote, or reported where the status is not 0
 */
import {
  ForeignError,
  NotUtf8Error,
  NotXmlError,
  OutlineError,
  OutOfMemoryError,
  quoted,
  ScriptError,
  SheetError,
  SuspectError,
  TooLongError,
  unquoted,
  XsugarError,
} from "./errors.mjs";
import { markLength, offsetBehind, offsetOfXmlSymbol, placeOf } from "./places.mjs";

export * from "./errors.mjs";

const MEMORY = 8;
const KINDS = {
  1: "foreign", 3: "sheet bad", 4: "sheet ill", 5: "heavy", 6: "suspect", 7: "not UTF-8",
  8: "not XML", 14: "long", 15: "script bad", 16: "outline bad",
};
const FORMS = { asis: 0, nfc: 1, nfd: 2 };
const SIDES = { text: 0, xml: 1 };
const SHIPPED = { "@leiden": "xsugar_sheet_leiden", "@leiden2": "xsugar_sheet_leiden2" };

/** The sizes of the structures of include/xsugar.h, and where their parts stand. */
const ANSWER = { size: 32, length: 8, place: 16, kind: 24 };
const BYTES = { size: 16, length: 8 };
const SHEET = { size: 16 };

/**
 * The memory of an instance at first, and at most unless `load` is told less, in pages of 64 KiB.
 */
const PAGES = { initial: 32, maximum: 16384 };
const PAGES_OF_MEGABYTE = 16;

const ENCODER = new TextEncoder();
const DECODER = new TextDecoder("utf-8", { ignoreBOM: true });

/** Returns the bytes of a document; half a pair of units of a string becomes no UTF-8. */
function encoded(document) {
  if (typeof document !== "string") return document;
  const bytes = ENCODER.encode(document);
  const half = document.search(/\p{Surrogate}/u);
  if (half >= 0) bytes[ENCODER.encode(document.slice(0, half)).length] = 0xff;
  return bytes;
}

function decoded(document) {
  return typeof document === "string" ? document : DECODER.decode(document);
}

/** Returns the number of a name, as the core is told it. */
function numberOf(numbers, name) {
  if (!Object.hasOwn(numbers, name)) {
    throw new TypeError(`${name} is none of ${Object.keys(numbers).join(", ")}`);
  }
  return numbers[name];
}

/** A pointer that is handed to the core. */
class Pointer {
  /** @param {number} at */
  constructor(at) {
    this.at = at;
  }
}

/** How a call ended: its status, the kind of its outcome, the number that this tells, and bytes. */
class Told {
  constructor(status, kind, place, bytes) {
    Object.assign(this, { status, kind: KINDS[kind], place, bytes });
  }

  get report() {
    return DECODER.decode(this.bytes).replace(/\n$/u, "");
  }
}

/** The instance of the module: its calls and its memory. */
class Core {
  #calls;
  #memory;

  /**
   * @param {WebAssembly.Exports} calls
   * @param {WebAssembly.Memory} memory
   */
  constructor(calls, memory) {
    this.#calls = calls;
    this.#memory = memory;
  }

  get #bytes() {
    return new Uint8Array(this.#memory.buffer);
  }

  get #view() {
    return new DataView(this.#memory.buffer);
  }

  /** Returns a block of so many bytes, all zero. */
  take(size) {
    const at = Number(this.#calls.xsugar_take(BigInt(size)));
    if (at === 0) throw new OutOfMemoryError();
    this.#bytes.fill(0, at, at + size);
    return at;
  }

  /** Frees a block. */
  give(at) {
    this.#calls.xsugar_free(BigInt(at));
  }

  /** Closes a sheet and frees its handle. */
  close(handle) {
    this.#calls.xsugar_sheet_close(BigInt(handle.at));
    this.give(handle.at);
  }

  /**
   * Calls a function of the core and frees what it handed out.
   *
   * @param {string} name
   * @param {...(Uint8Array | Uint8Array[] | Pointer | number)} given
   * @returns {Told}
   */
  call(name, ...given) {
    const sizes = given.flat().map((it) => (it instanceof Uint8Array ? it.length : 0));
    const heads = given.map((it) => (Array.isArray(it) ? it.length * BYTES.size : 0));
    const block = this.take([ANSWER.size, ...sizes, ...heads].reduce((sum, it) => sum + it));
    try {
      const values = this.#placed(given, block + ANSWER.size);
      this.#view.setBigUint64(block, BigInt(block), true);
      const status = this.#calls[name](...values, BigInt(block));
      if (status === MEMORY) throw new OutOfMemoryError();
      return this.#told(status, block);
    } finally {
      this.give(block);
    }
  }

  /** Writes what is handed to a call into its block, from a place on, and returns its values. */
  #placed(given, begin) {
    const [bytes, view] = [this.#bytes, this.#view];
    let heads = begin;
    let at = begin + given.reduce((sum, it) => sum + (Array.isArray(it) ? it.length * BYTES.size : 0), 0);
    const placed = (it) => {
      const values = [BigInt(at), BigInt(it.length)];
      bytes.set(it, at);
      at += it.length;
      return values;
    };
    return given.flatMap((it) => {
      if (typeof it === "number") return [it];
      if (it instanceof Pointer) return [BigInt(it.at)];
      if (it instanceof Uint8Array) return placed(it);
      const values = [BigInt(heads), BigInt(it.length)];
      for (const [start, length] of it.map(placed)) {
        view.setBigUint64(heads, start, true);
        view.setBigUint64(heads + BYTES.length, length, true);
        heads += BYTES.size;
      }
      return values;
    });
  }

  /** Reads an answer and frees its bytes. */
  #told(status, answer) {
    const view = this.#view;
    const number = (at) => Number(view.getBigUint64(answer + at, true));
    const [at, length] = [number(0), number(ANSWER.length)];
    const bytes = this.#bytes.slice(at, at + length);
    if (length > 0) this.give(at);
    return new Told(status, view.getUint32(answer + ANSWER.kind, true), number(ANSWER.place), bytes);
  }
}

/** Returns the error that tells why a sheet was not opened. */
function sheetError(told, source) {
  if (told.kind === "suspect") return new SuspectError(told.status, told.report);
  const error = new SheetError(told.status, told.report);
  if (told.kind === "sheet bad") {
    const offset = DECODER.decode(encoded(source).subarray(0, told.place)).length;
    Object.assign(error, placeOf(decoded(source), offset), { byte: told.place });
  } else if (told.kind === "sheet ill") {
    error.line = told.place;
  } else if (told.kind === "heavy") {
    error.weight = told.place;
  }
  return error;
}

/** Returns a character in quotes; one that cannot be seen alone as a sheet may write it. */
function visible(character) {
  return /^[ \p{L}\p{N}\p{P}\p{S}]$/u.test(character) && !/["\\]/u.test(character)
    ? `"${character}"`
    : quoted(character);
}

/** Returns ranges of characters as a message shows them. */
function shown(ranges) {
  const words = ranges.map(([first, last]) =>
    first === last ? visible(first) : `${visible(first)}-${visible(last)}`);
  return words.join(" ") || "the end";
}

/** Returns the ranges of characters that an answer `next` of a session has. */
export function rangesOf(answer) {
  const ranges = answer.matchAll(/"((?:[^"\\]|\\.)*)"(?:-"((?:[^"\\]|\\.)*)")?/gsu);
  return [...ranges].map(([, first, last]) => [unquoted(first), unquoted(last ?? first)]);
}

/** A sheet that was read, checked and opened. */
export class Sheet {
  #core;
  #handle;

  /**
   * Use `open` of what `load` gives.
   *
   * @param {Core} core
   * @param {Document} source
   */
  constructor(core, source) {
    this.#core = core;
    this.#handle = new Pointer(core.take(SHEET.size));
    try {
      const shipped = Object.hasOwn(SHIPPED, source);
      const told = shipped
        ? core.call(SHIPPED[source], this.#handle)
        : core.call("xsugar_sheet_open", encoded(source), this.#handle);
      if (told.status !== 0) throw sheetError(told, source);
    } catch (error) {
      this.close();
      throw error;
    }
  }

  /** Frees what is kept of the sheet; a later call by it is an error. */
  close() {
    if (this.#handle !== null) this.#core.close(this.#handle);
    this.#handle = null;
  }

  /**
   * Translates a text to XML.
   *
   * @param {Document} text
   * @param {Form} form
   */
  toXml(text, form = "asis") {
    return this.#done("xsugar_to_xml", text, "text", form, numberOf(FORMS, form));
  }

  /**
   * Translates XML to a text.
   *
   * @param {Document} xml
   */
  toText(xml) {
    return this.#done("xsugar_to_text", xml, "xml", "asis");
  }

  /**
   * Puts a text into its normal spelling.
   *
   * @param {Document} text
   * @param {Form} form
   */
  roundText(text, form = "asis") {
    return this.#done("xsugar_round_text", text, "text", form, numberOf(FORMS, form));
  }

  /**
   * Puts XML into its normal spelling.
   *
   * @param {Document} xml
   */
  roundXml(xml) {
    return this.#done("xsugar_round_xml", xml, "xml", "asis");
  }

  /**
   * Returns the outline of the tree of a document of a side.
   *
   * @param {Document} document
   * @param {Side} side
   * @param {Form} form
   */
  toTree(document, side = "text", form = "asis") {
    const numbers = [numberOf(SIDES, side), numberOf(FORMS, form)];
    return this.#done("xsugar_to_tree", document, side, form, ...numbers);
  }

  /**
   * Returns the document of a side that has the tree of an outline.
   *
   * @param {Document} outline
   * @param {Side} side
   */
  fromTree(outline, side = "xml") {
    return this.#done("xsugar_from_tree", outline, "outline", "asis", numberOf(SIDES, side));
  }

  /**
   * Plays an edit script over a text that begins empty, and returns its answers.
   *
   * @param {Document} script
   */
  session(script) {
    return this.#done("xsugar_session", script, "script", "asis");
  }

  /**
   * Returns the ranges of the characters that can come after a text, as pairs of the first and the
   * last: none where only the end can, null where the text begins no document, or is too long to
   * ask.
   *
   * @param {string} text
   * @returns {[string, string][] | null}
   */
  next(text) {
    const script = `put 0 0 ${quoted(text)}\nnext ${[...text].length}\n`;
    const told = this.#call("xsugar_session", encoded(script));
    const line = /\nnext(.*)\n$/u.exec(decoded(told.bytes));
    if (told.status !== 0 || line === null) return null;
    return rangesOf(line[1]);
  }

  #call(name, ...given) {
    if (this.#handle === null) throw new Error("the sheet is closed");
    return this.#core.call(name, this.#handle, ...given);
  }

  #done(name, document, side, form, ...numbers) {
    const told = this.#call(name, encoded(document), ...numbers);
    if (told.status !== 0) throw this.#error(told, document, side, form);
    return typeof document === "string" ? decoded(told.bytes) : told.bytes;
  }

  /** Returns the error that tells why a document was refused. */
  #error(told, document, side, form) {
    const { status, report, kind, place } = told;
    if (kind === "long") return new TooLongError(status, report);
    if (kind === "outline bad") return new OutlineError(status, report, place);
    if (kind === "script bad") return new ScriptError(status, report, place);
    if (kind === "not UTF-8") {
      const right = decoded(encoded(document).subarray(0, place));
      return new NotUtf8Error(status, report, place, placeOf(right, right.length));
    }
    const text = decoded(document);
    if (kind === "not XML") {
      const at = placeOf(text, offsetBehind(text, place));
      const message = `line ${at.line}, column ${at.column}: not XML`;
      return new NotXmlError(status, report, message, place, at);
    }
    if (kind === "foreign") return this.#foreign(told, text, side, form);
    return new XsugarError(status, report);
  }

  /** Returns the error that tells which symbol of a document does not fit. */
  #foreign({ status, report, place: symbols }, document, side, form) {
    const counted = form === "asis" ? document : document.normalize(form.toUpperCase());
    const isText = side === "text";
    const offset = isText ? offsetBehind(counted, symbols) : offsetOfXmlSymbol(counted, symbols);
    const place = placeOf(counted, offset);
    const expected = isText ? this.next(counted.slice(markLength(counted), offset)) : null;
    const said = expected === null ? "not expected here" : `expected ${shown(expected)}`;
    const message = `line ${place.line}, column ${place.column}: ${said}`;
    if (counted !== document) place.offset = null;
    return new ForeignError(status, report, message, symbols, place, expected);
  }
}

/** The module, as `load` gives it. */
export class Xsugar {
  #core;

  /** @param {Core} core */
  constructor(core) {
    this.#core = core;
  }

  /**
   * Opens a sheet: the text of one, or the name of one that is included, `@leiden` or `@leiden2`.
   * Throws a SheetError, or its SuspectError, where it is not accepted.
   *
   * @param {Document} source
   * @returns {Sheet}
   */
  open(source) {
    return new Sheet(this.#core, source);
  }

  /**
   * Runs a command as the program does. The words that name its files are `sheet` and
   * `certificate`, as in `run(["check", "sheet"], {sheet})`; the document is its input.
   *
   * @param {string[]} words
   * @param {{sheet?: Document, certificate?: Document, document?: Document}} files
   * @returns {Ran}
   */
  run(words, { sheet = "", certificate = "", document = "" } = {}) {
    const files = [sheet, certificate, document].map(encoded);
    const { status, bytes } = this.#core.call("xsugar_run", words.map(encoded), ...files);
    const text = decoded(bytes);
    return { status, output: status === 0 ? text : "", message: status === 0 ? "" : text };
  }
}

/**
 * Makes an instance of the module. Each has a memory of its own, so several workers have one each.
 *
 * @param {Uint8Array | WebAssembly.Module} module the bytes of web/xsugar.wasm, or what was
 *   compiled
 * @param {{megabytes?: number}} options the memory that it takes at most, from 2 to 1,024, as it is
 *   where nothing is said
 * @returns {Promise<Xsugar>}
 */
export async function load(module, { megabytes = PAGES.maximum / PAGES_OF_MEGABYTE } = {}) {
  const compiled = module instanceof WebAssembly.Module ? module : await WebAssembly.compile(module);
  const memory = new WebAssembly.Memory({ ...PAGES, maximum: megabytes * PAGES_OF_MEGABYTE });
  const { exports } = await WebAssembly.instantiate(compiled, { env: { memory } });
  return new Xsugar(new Core(exports, memory));
}
