"use strict";
const { realpathSync } = require("node:fs");
const path = require("node:path");
const vscode = require("vscode");
const { Connection } = require("./connection.js");

/** @type {Connection} */
let connection;

function setting(name) {
  return vscode.workspace.getConfiguration("xsugar").get(name);
}

function identifier(document) {
  return { uri: document.uri.toString() };
}

function rangeOf({ start, end }) {
  return new vscode.Range(start.line, start.character, end.line, end.character);
}

/** Kinds count from 1 in the protocol and from 0 here. */
function kindOf(kind) {
  return kind - 1;
}

function diagnosticOf({ range, message, relatedInformation }) {
  const shown = new vscode.Diagnostic(rangeOf(range), message, vscode.DiagnosticSeverity.Error);
  shown.source = "xsugar";
  shown.relatedInformation = relatedInformation.map(({ location, message: said }) => {
    const place = new vscode.Location(vscode.Uri.parse(location.uri), rangeOf(location.range));
    return new vscode.DiagnosticRelatedInformation(place, said);
  });
  return shown;
}

function completionOf({ label, kind, filterText, sortText, textEdit }) {
  const item = new vscode.CompletionItem(label, kindOf(kind));
  return Object.assign(item, { filterText, sortText, insertText: textEdit.newText, range: rangeOf(textEdit.range) });
}

function symbolOf({ name, kind, range, selectionRange, children }) {
  const symbol = new vscode.DocumentSymbol(name, "", kindOf(kind), rangeOf(range), rangeOf(selectionRange));
  symbol.children = children.map(symbolOf);
  return symbol;
}

/** Tells the server of documents of languages as they are opened, changed, saved and closed. */
function follow(context, languages) {
  const { workspace } = vscode;
  const told = (document) => languages.includes(document.languageId);
  const opened = (document) => {
    if (!told(document)) return;
    const textDocument = { ...identifier(document), languageId: document.languageId, version: document.version };
    connection.notify("textDocument/didOpen", { textDocument: { ...textDocument, text: document.getText() } });
  };
  const changed = ({ document, contentChanges }) => {
    if (!told(document) || contentChanges.length === 0) return;
    const changes = contentChanges.map(({ range, text }) => ({ range, text }));
    const textDocument = { ...identifier(document), version: document.version };
    connection.notify("textDocument/didChange", { textDocument, contentChanges: changes });
  };
  const passed = (method) => (document) => {
    if (told(document)) connection.notify(method, { textDocument: identifier(document) });
  };
  const configured = () =>
    connection.notify("workspace/didChangeConfiguration", { settings: { xsugar: { sheet: setting("sheet") } } });
  context.subscriptions.push(
    workspace.onDidOpenTextDocument(opened),
    workspace.onDidChangeTextDocument(changed),
    workspace.onDidSaveTextDocument(passed("textDocument/didSave")),
    workspace.onDidCloseTextDocument(passed("textDocument/didClose")),
    workspace.onDidChangeConfiguration(configured),
  );
  workspace.textDocuments.forEach(opened);
}

/** Offers, in documents of languages, what the server answers to requests. */
function offer(context, languages) {
  const asked = (method, document, more = {}) =>
    connection.request(`textDocument/${method}`, { textDocument: identifier(document), ...more });
  const completions = {
    async provideCompletionItems(document, { line, character }) {
      const list = await asked("completion", document, { position: { line, character } });
      return list && new vscode.CompletionList(list.items.map(completionOf), list.isIncomplete);
    },
  };
  const symbols = {
    provideDocumentSymbols: async (document) => (await asked("documentSymbol", document)).map(symbolOf),
  };
  const edits = {
    async provideDocumentFormattingEdits(document) {
      const found = await asked("formatting", document, { options: {} });
      return found?.map(({ range, newText }) => new vscode.TextEdit(rangeOf(range), newText));
    },
  };
  const characters = [...' .[](){}<>="/*|'];
  context.subscriptions.push(
    vscode.languages.registerCompletionItemProvider(languages, completions, ...characters),
    vscode.languages.registerDocumentSymbolProvider(languages, symbols),
    vscode.languages.registerDocumentFormattingEditProvider(languages, edits),
  );
}

/** Shows the other document of the one that is being edited, beside it, where it is of languages. */
async function translate(command, language, languages) {
  const document = vscode.window.activeTextEditor?.document;
  if (document === undefined) return;
  if (!languages.includes(document.languageId)) {
    vscode.window.showErrorMessage("xsugar: this is no .leiden file; for XML files, see the setting xsugar.xml");
    return;
  }
  try {
    const words = { command, arguments: [identifier(document).uri] };
    const content = await connection.request("workspace/executeCommand", words);
    const other = await vscode.workspace.openTextDocument({ content, language });
    await vscode.window.showTextDocument(other, { viewColumn: vscode.ViewColumn.Beside, preserveFocus: true });
  } catch (error) {
    vscode.window.showErrorMessage(`xsugar: ${error.message}`);
  }
}

async function activate(context) {
  const found = vscode.languages.createDiagnosticCollection("xsugar");
  const server = path.join(realpathSync(__dirname), "..", "server.mjs");
  connection = new Connection(server, {
    "textDocument/publishDiagnostics": ({ uri, diagnostics }) =>
      found.set(vscode.Uri.parse(uri), diagnostics.map(diagnosticOf)),
    "window/showMessage": ({ message }) => vscode.window.showErrorMessage(message),
  });
  const rootUri = vscode.workspace.workspaceFolders?.[0]?.uri.toString() ?? null;
  const initializationOptions = { sheet: setting("sheet") };
  await connection.request("initialize", { processId: process.pid, rootUri, capabilities: {}, initializationOptions });
  connection.notify("initialized", {});
  const languages = ["leiden", "xsugar", ...(setting("xml") ? ["xml"] : [])];
  follow(context, languages);
  offer(context, languages);
  const command = (name, language) =>
    vscode.commands.registerCommand(name, () => translate(name, language, languages));
  context.subscriptions.push(found, command("xsugar.toXml", "xml"), command("xsugar.toText", "leiden"));
}

async function deactivate() {
  await connection?.stop();
}

module.exports = { activate, deactivate };
