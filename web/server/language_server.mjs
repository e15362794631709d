/**
 * What the server answers to the messages of an editor, by the Language Server Protocol 3.17.
 *
 * @typedef {{id?: number | string, method?: string, params?: object}} Message
 */
import { resolve } from "node:path";
import { fileURLToPath } from "node:url";
import { OutOfMemoryError, XsugarError } from "../xsugar.mjs";
import { completionsAt } from "./completion.mjs";
import { diagnosticsOf, diagnosticsOfSheet, otherOf, refusalOf } from "./diagnostics.mjs";
import { tagCompletionsAt } from "./next_tags.mjs";
import { Notation } from "./notation.mjs";
import { OpenDocument } from "./open_document.mjs";
import { symbolsOf } from "./symbols.mjs";

const CODE = {
  invalidRequest: -32600, unknownMethod: -32601, invalidParams: -32602, notInitialized: -32002,
  failed: -32803,
};
const MESSAGE_OF_ERROR = 1;
const INCREMENTAL = 2;
/** How long a document rests after a change before it is checked, in milliseconds. */
const REST = { sheet: 300, text: 0, xml: 0 };
const CAPABILITIES = {
  textDocumentSync: { openClose: true, change: INCREMENTAL, save: true },
  completionProvider: { triggerCharacters: [...' .[](){}<>="/*|'] },
  documentSymbolProvider: true,
  documentFormattingProvider: true,
  executeCommandProvider: { commands: ["xsugar.toXml", "xsugar.toText"] },
};

/** A request that is not answered, with the code that says why. */
class Refusal extends Error {
  constructor(code, message) {
    super(message);
    this.code = code;
  }
}

/** Returns whether a document was refused, and not memory. */
function isRefusal(error) {
  return error instanceof XsugarError && !(error instanceof OutOfMemoryError);
}

/** Returns the path of the folder that the editor works in. */
function folderOf({ workspaceFolders, rootUri }) {
  const uri = workspaceFolders?.[0]?.uri ?? rootUri ?? "";
  return uri.startsWith("file:") ? fileURLToPath(uri) : process.cwd();
}

/** The server: what it knows, and what it does at each message. */
export class LanguageServer {
  #xsugar;
  #send;
  #exit;
  /** @type {"new" | "ready" | "down"} */
  #state = "new";
  #folder = process.cwd();
  #sheetName = "@leiden2";
  /** The open sheet; null where it cannot be opened, undefined before that was tried. */
  #notation = undefined;
  #documents = new Map();
  #timers = new Map();

  #requests = {
    "initialize": (params) => this.#initialize(params),
    "shutdown": () => this.#shutDown(),
    "textDocument/completion": (params) => this.#complete(params),
    "textDocument/documentSymbol": (params) => this.#outline(params),
    "textDocument/formatting": (params) => this.#format(params),
    "workspace/executeCommand": (params) => this.#execute(params),
  };

  #notifications = {
    "textDocument/didOpen": ({ textDocument }) => this.#open(textDocument),
    "textDocument/didChange": (params) => this.#change(params),
    "textDocument/didSave": ({ textDocument }) => this.#saved(textDocument.uri),
    "textDocument/didClose": ({ textDocument }) => this.#close(textDocument.uri),
    "workspace/didChangeConfiguration": ({ settings }) => this.#useSheet(settings?.xsugar?.sheet),
  };

  /**
   * @param {import("../xsugar.mjs").Xsugar} xsugar
   * @param {(message: Message) => void} send
   * @param {(status: number) => void} exit
   */
  constructor(xsugar, send, exit) {
    this.#xsugar = xsugar;
    this.#send = send;
    this.#exit = exit;
  }

  /** @param {Message} message */
  receive({ id, method, params = {} }) {
    if (method === "exit") this.#exit(this.#state === "down" ? 0 : 1);
    else if (method !== undefined && id !== undefined) this.#answer(id, method, params);
    else if (this.#state === "ready") this.#guarded(() => this.#notifications[method]?.(params));
  }

  #answer(id, method, params) {
    try {
      this.#send({ id, result: this.#request(method, params) ?? null });
    } catch (error) {
      const code = error instanceof Refusal ? error.code : CODE.failed;
      this.#send({ id, error: { code, message: error.message } });
      if (error instanceof OutOfMemoryError) this.#tell(error.message);
    }
  }

  #request(method, params) {
    if (this.#state === "new" && method !== "initialize") {
      throw new Refusal(CODE.notInitialized, "the server is not initialized");
    }
    if (this.#state === "down" || (this.#state === "ready" && method === "initialize")) {
      throw new Refusal(CODE.invalidRequest, `${method} is not expected any more`);
    }
    if (!Object.hasOwn(this.#requests, method)) {
      throw new Refusal(CODE.unknownMethod, `${method} is not known`);
    }
    return this.#requests[method](params);
  }

  /** Does what nothing is answered to; what fails is told to the user. */
  #guarded(action) {
    try {
      action();
    } catch (error) {
      this.#tell(error.message);
    }
  }

  #tell(message) {
    this.#send({
      method: "window/showMessage",
      params: { type: MESSAGE_OF_ERROR, message: `xsugar: ${message}` },
    });
  }

  #initialize(params) {
    this.#state = "ready";
    this.#folder = folderOf(params);
    this.#sheetName = params.initializationOptions?.sheet ?? this.#sheetName;
    return { capabilities: CAPABILITIES, serverInfo: { name: "xsugar" } };
  }

  #shutDown() {
    this.#state = "down";
    for (const timer of this.#timers.values()) clearTimeout(timer);
  }

  get #sheetPath() {
    return this.#sheetName.startsWith("@") ? this.#sheetName : resolve(this.#folder, this.#sheetName);
  }

  /** Returns the open sheet, or null; why there is none is told once. */
  #opened() {
    if (this.#notation === undefined) {
      this.#notation = null;
      try {
        this.#notation = new Notation(this.#xsugar, this.#sheetPath);
      } catch (error) {
        this.#tell(`the sheet ${this.#sheetName} is not open: ${error.message}`);
      }
    }
    return this.#notation;
  }

  #openedOrRefused() {
    const notation = this.#opened();
    if (notation === null) throw new Refusal(CODE.failed, `the sheet ${this.#sheetName} is not open`);
    return notation;
  }

  /** Uses a sheet from now on, where it is another or has changed. */
  #useSheet(name, hasChanged = false) {
    if (typeof name !== "string" || (name === this.#sheetName && !hasChanged)) return;
    this.#notation?.sheet.close();
    this.#notation = undefined;
    this.#sheetName = name;
    for (const it of this.#documents.values()) this.#checkSoon(it);
  }

  #saved(uri) {
    const isOurs = uri.startsWith("file:") && fileURLToPath(uri) === this.#sheetPath;
    this.#useSheet(this.#sheetName, isOurs);
  }

  #document({ textDocument: { uri } }) {
    const document = this.#documents.get(uri);
    if (document === undefined) throw new Refusal(CODE.invalidParams, `${uri} is not open`);
    return document;
  }

  #open({ uri, version, text }) {
    const document = new OpenDocument(uri, version, text);
    this.#documents.set(uri, document);
    this.#checkSoon(document);
  }

  #change({ textDocument, contentChanges }) {
    const document = this.#document({ textDocument });
    for (const it of contentChanges) document.change(it);
    document.version = textDocument.version;
    this.#checkSoon(document);
  }

  #close(uri) {
    clearTimeout(this.#timers.get(uri));
    this.#documents.delete(uri);
    this.#publish({ uri, diagnostics: [] });
  }

  /** Checks a document once it rests: of several changes at once only the last counts. */
  #checkSoon(document) {
    const { uri, kind } = document;
    clearTimeout(this.#timers.get(uri));
    this.#timers.set(uri, setTimeout(() => this.#guarded(() => this.#check(document)), REST[kind]));
  }

  #check(document) {
    const { uri, version } = document;
    this.#publish({ uri, version, diagnostics: this.#diagnosticsOf(document) });
  }

  #diagnosticsOf(document) {
    if (document.kind === "sheet") return diagnosticsOfSheet(document, this.#xsugar);
    const notation = this.#opened();
    return notation === null ? [] : diagnosticsOf(document, notation);
  }

  #publish(params) {
    this.#send({ method: "textDocument/publishDiagnostics", params });
  }

  #complete(params) {
    const document = this.#document(params);
    if (document.kind === "sheet") return null;
    const complete = document.kind === "xml" ? tagCompletionsAt : completionsAt;
    return complete(document, document.offsetAt(params.position), this.#openedOrRefused());
  }

  #outline(params) {
    const document = this.#document(params);
    return document.kind === "sheet" ? [] : symbolsOf(document, this.#openedOrRefused());
  }

  /** Puts a document into its normal spelling; one that is refused stays as it is. */
  #format(params) {
    const document = this.#document(params);
    if (document.kind === "sheet") return null;
    const { sheet } = this.#openedOrRefused();
    try {
      const { kind, text } = document;
      const newText = kind === "xml" ? sheet.roundXml(text) : sheet.roundText(text);
      return newText === text ? [] : [{ range: document.whole, newText }];
    } catch (error) {
      if (!isRefusal(error)) throw error;
      return null;
    }
  }

  /** Returns the other document of one that is open, which is named by its URI. */
  #execute({ command, arguments: [uri] = [] }) {
    const document = this.#document({ textDocument: { uri } });
    const notation = this.#openedOrRefused();
    const isOfKind = command === (document.kind === "text" ? "xsugar.toXml" : "xsugar.toText");
    if (document.kind === "sheet" || !isOfKind) {
      throw new Refusal(CODE.invalidParams, `${command} is not for ${uri}`);
    }
    try {
      return otherOf(document, notation);
    } catch (error) {
      if (!isRefusal(error)) throw error;
      throw new Refusal(CODE.failed, refusalOf(error, document, notation));
    }
  }
}
