// LOTOS: speaks with lotos-language-server. Made by companions/make-editor-files from the table of the reserved words.
"use strict";
const { spawn } = require("child_process");
const vscode = require("vscode");

// Messages to and from the server, each framed by its length.
class Channel {
  constructor(server, hear) {
    this.server = server;
    this.hear = hear;
    this.waiting = new Map();
    this.number = 0;
    this.kept = Buffer.alloc(0);
    server.stdout.on("data", (piece) => this.take(piece));
    server.stdin.on("error", () => {});
  }

  send(message) {
    const body = Buffer.from(JSON.stringify({ jsonrpc: "2.0", ...message }));
    this.server.stdin.write(`Content-Length: ${body.length}\r\n\r\n`);
    this.server.stdin.write(body);
  }

  tell(method, params) {
    this.send({ method, params });
  }

  ask(method, params) {
    this.number += 1;
    const id = this.number;
    const answer = new Promise((resolve) => this.waiting.set(id, resolve));
    this.send({ id, method, params });
    return answer;
  }

  take(piece) {
    this.kept = Buffer.concat([this.kept, piece]);
    for (;;) {
      const head = this.kept.indexOf("\r\n\r\n");
      const length = head < 0 ? null : /content-length: *(\d+)/i.exec(this.kept.toString("latin1", 0, head));
      if (!length || this.kept.length < head + 4 + Number(length[1])) return;
      const end = head + 4 + Number(length[1]);
      const message = JSON.parse(this.kept.toString("utf8", head + 4, end));
      this.kept = this.kept.subarray(end);
      if (message.method) this.hear(message.method, message.params);
      else if (this.waiting.has(message.id)) {
        this.waiting.get(message.id)(message.result === undefined ? null : message.result);
        this.waiting.delete(message.id);
      }
    }
  }
}

const position = (it) => new vscode.Position(it.line, it.character);
const range = (it) => new vscode.Range(position(it.start), position(it.end));
const location = (it) => new vscode.Location(vscode.Uri.parse(it.uri), range(it.range));
const edit = (it) => new vscode.TextEdit(range(it.range), it.newText);

function symbol(it) {
  const made = new vscode.DocumentSymbol(it.name, it.detail, it.kind - 1, range(it.range), range(it.selectionRange));
  made.children = it.children.map(symbol);
  return made;
}

function diagnostic(it) {
  const made = new vscode.Diagnostic(range(it.range), it.message, it.severity - 1);
  made.source = it.source;
  made.code = it.code;
  return made;
}

function completion(it) {
  const made = new vscode.CompletionItem(it.label, it.kind - 1);
  made.detail = it.detail;
  made.documentation = it.documentation;
  return made;
}

function quickFix(it) {
  const made = new vscode.CodeAction(it.title, vscode.CodeActionKind.QuickFix);
  made.edit = new vscode.WorkspaceEdit();
  for (const [uri, edits] of Object.entries(it.edit.changes)) made.edit.set(vscode.Uri.parse(uri), edits.map(edit));
  return made;
}

function providers(channel) {
  const text = (document) => ({ textDocument: { uri: document.uri.toString() } });
  const at = (document, place) => ({ ...text(document), position: { line: place.line, character: place.character } });
  const ask = (what, params) => channel.ask(`textDocument/${what}`, params);
  const selector = { language: "lotos", scheme: "file" };
  const languages = vscode.languages;
  return [
    languages.registerHoverProvider(selector, {
      provideHover: async (document, place) => {
        const found = await ask("hover", at(document, place));
        return found && new vscode.Hover(new vscode.MarkdownString(found.contents.value), range(found.range));
      } }),
    languages.registerDefinitionProvider(selector, {
      provideDefinition: async (document, place) => (await ask("definition", at(document, place)) || []).map(location) }),
    languages.registerReferenceProvider(selector, {
      provideReferences: async (document, place, context) =>
        (await ask("references", { ...at(document, place), context }) || []).map(location) }),
    languages.registerDocumentSymbolProvider(selector, {
      provideDocumentSymbols: async (document) => (await ask("documentSymbol", text(document)) || []).map(symbol) }),
    languages.registerCompletionItemProvider(selector, {
      provideCompletionItems: async (document, place) =>
        ((await ask("completion", at(document, place)) || { items: [] }).items).map(completion) }, "[", "!", "?", ":"),
    languages.registerDocumentFormattingEditProvider(selector, {
      provideDocumentFormattingEdits: async (document) => (await ask("formatting", { ...text(document), options: {} }) || []).map(edit) }),
    languages.registerCodeActionsProvider(selector, {
      provideCodeActions: async (document, where) =>
        (await ask("codeAction", { ...text(document), range: where, context: { diagnostics: [] } }) || []).map(quickFix) }),
  ];
}

let server = null;
let channel = null;

async function activate(context) {
  const settings = vscode.workspace.getConfiguration("lotos");
  const shown = vscode.languages.createDiagnosticCollection("lotos");
  server = spawn(settings.get("server") || "lotos-language-server", [], { stdio: ["pipe", "pipe", "ignore"] });
  server.on("error", (fault) => vscode.window.showErrorMessage(`lotos: ${fault.message}`));
  channel = new Channel(server, (method, params) => {
    if (method === "textDocument/publishDiagnostics") shown.set(vscode.Uri.parse(params.uri), params.diagnostics.map(diagnostic));
    if (method === "window/showMessage") vscode.window.showErrorMessage(params.message);
  });
  await channel.ask("initialize", { processId: process.pid, rootUri: null, capabilities: {},
    initializationOptions: { words: settings.get("words") || {} } });
  channel.tell("initialized", {});
  const isOurs = (document) => document.languageId === "lotos" && document.uri.scheme === "file";
  const named = (document) => ({ uri: document.uri.toString(), version: document.version });
  const open = (document) => isOurs(document) && channel.tell("textDocument/didOpen", {
    textDocument: { ...named(document), languageId: "lotos", text: document.getText() } });
  const workspace = vscode.workspace;
  workspace.textDocuments.forEach(open);
  context.subscriptions.push(
    shown,
    workspace.onDidOpenTextDocument(open),
    workspace.onDidChangeTextDocument((event) => isOurs(event.document) && channel.tell("textDocument/didChange", {
      textDocument: named(event.document),
      contentChanges: event.contentChanges.map((it) => ({ range: it.range, text: it.text })) })),
    workspace.onDidSaveTextDocument((document) => isOurs(document) && channel.tell("textDocument/didSave", {
      textDocument: named(document) })),
    workspace.onDidCloseTextDocument((document) => isOurs(document) && channel.tell("textDocument/didClose", {
      textDocument: named(document) })),
    ...providers(channel));
}

async function deactivate() {
  if (!channel) return;
  await channel.ask("shutdown", null);
  channel.tell("exit", null);
}

module.exports = { activate, deactivate };
