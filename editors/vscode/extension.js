// The client of tools/lsp for VS Code: it hands documents and questions to the server by the Language Server Protocol, and the
// answers to VS Code's own calls.
'use strict';
const vscode = require('vscode');
const { spawn } = require('child_process');
const path = require('path');

const LANGUAGE = 'zebludor';
const MOST_STARTS = 5;

// One process of the server, and the questions that it hasn't answered yet.
class Server {
  constructor(told, ended) {
    this.told = told;
    this.count = 0;
    this.asked = new Map();
    this.kept = Buffer.alloc(0);
    this.process = spawn(path.join(__dirname, 'lsp'), ['--stdio'], { stdio: ['pipe', 'pipe', 'ignore'] });
    this.process.stdout.on('data', (part) => this.take(part));
    this.process.stdin.on('error', () => undefined);
    this.process.on('error', (error) => this.end(ended, error.message));
    this.process.on('exit', () => this.end(ended, 'the language server has ended'));
  }

  end(ended, why) {
    if (!this.isOver) {
      this.isOver = true;
      for (const { reject } of this.asked.values()) reject(new Error(why));
      ended(why);
    }
  }

  send(message) {
    const body = Buffer.from(JSON.stringify({ jsonrpc: '2.0', ...message }));
    this.process.stdin.write(Buffer.concat([Buffer.from(`Content-Length: ${body.length}\r\n\r\n`), body]));
  }

  notify(method, params) {
    this.send({ method, params });
  }

  // The answer to a request. One that VS Code calls off is called off at the server too.
  ask(method, params, token) {
    const id = ++this.count;
    const answer = new Promise((resolve, reject) => this.asked.set(id, { resolve, reject }));
    this.send({ id, method, params });
    token?.onCancellationRequested?.(() => this.notify('$/cancelRequest', { id }));
    return answer;
  }

  take(part) {
    this.kept = Buffer.concat([this.kept, part]);
    for (;;) {
      const end = this.kept.indexOf('\r\n\r\n');
      const length = end < 0 ? null : /Content-Length: *(\d+)/i.exec(this.kept.toString('latin1', 0, end));
      if (!length || this.kept.length < end + 4 + Number(length[1])) return;
      const last = end + 4 + Number(length[1]);
      const message = JSON.parse(this.kept.toString('utf8', end + 4, last));
      this.kept = this.kept.subarray(last);
      this.answer(message);
    }
  }

  answer(message) {
    const waiting = this.asked.get(message.id);
    if (message.method) {
      this.told(message.method, message.params);
    } else if (waiting) {
      this.asked.delete(message.id);
      if (message.error) waiting.reject(new Error(message.error.message));
      else waiting.resolve(message.result);
    }
  }
}

// From VS Code's form to the protocol's, and back.
const spanOf = (it) => ({ start: it.start, end: it.end });
const rangeOf = (it) => new vscode.Range(it.start.line, it.start.character, it.end.line, it.end.character);
const locationOf = (it) => new vscode.Location(vscode.Uri.parse(it.uri), rangeOf(it.range));
const editOf = (it) => new vscode.TextEdit(rangeOf(it.range), it.newText);

function diagnosticOf(it) {
  const found = new vscode.Diagnostic(rangeOf(it.range), it.message, it.severity - 1);
  found.code = it.code;
  found.source = it.source;
  return found;
}

function completionOf(it) {
  const found = new vscode.CompletionItem(it.label, it.kind - 1);
  found.detail = it.detail;
  found.sortText = it.sortText;
  return found;
}

function symbolOf(it) {
  const found = new vscode.DocumentSymbol(it.name, '', it.kind - 1, rangeOf(it.range), rangeOf(it.selectionRange));
  found.children = it.children.map(symbolOf);
  return found;
}

function workspaceEditOf(it) {
  const found = new vscode.WorkspaceEdit();
  for (const [uri, edits] of Object.entries(it.changes)) found.set(vscode.Uri.parse(uri), edits.map(editOf));
  return found;
}

function actionOf(it) {
  const found = new vscode.CodeAction(it.title, vscode.CodeActionKind.QuickFix);
  found.edit = workspaceEditOf(it.edit);
  found.diagnostics = it.diagnostics.map(diagnosticOf);
  found.isPreferred = it.isPreferred;
  return found;
}

function hintOf(it) {
  const found = new vscode.InlayHint(new vscode.Position(it.position.line, it.position.character), it.label);
  found.paddingLeft = true;
  found.tooltip = it.tooltip;
  return found;
}

// The server that runs, begun anew if it has ended, with all documents that are open.
class Client {
  constructor() {
    this.starts = 0;
    this.underlined = vscode.languages.createDiagnosticCollection(LANGUAGE);
  }

  settings() {
    const found = vscode.workspace.getConfiguration(LANGUAGE);
    return { hints: found.get('hints'), off: found.get('off'), dialect: found.get('dialect') };
  }

  get isRunning() {
    return this.running && !this.running.isOver;
  }

  server() {
    if (this.isRunning) return this.running;
    if (this.starts >= MOST_STARTS) throw new Error('the language server has ended too often');
    this.starts += 1;
    this.running = new Server((method, params) => this.told(method, params), (why) => this.ended(why));
    const folders = (vscode.workspace.workspaceFolders || []).map((it) => ({ uri: it.uri.toString(), name: it.name }));
    const given = { processId: process.pid, rootUri: null, workspaceFolders: folders, capabilities: {}, initializationOptions: this.settings() };
    this.running.ask('initialize', given).catch(() => undefined);
    this.running.notify('initialized', {});
    vscode.workspace.textDocuments.forEach((it) => this.open(it));
    return this.running;
  }

  told(method, params) {
    if (method === 'textDocument/publishDiagnostics') {
      this.underlined.set(vscode.Uri.parse(params.uri), params.diagnostics.map(diagnosticOf));
    } else if (method === 'window/logMessage') {
      vscode.window.showErrorMessage(params.message);
    }
  }

  ended(why) {
    this.underlined.clear();
    if (!this.isLeaving) vscode.window.showErrorMessage(`zebludor: ${why}`);
  }

  // Of each document that opens, changes or closes. A server that is begun anew has it already as it is now.
  follow(document, tell) {
    if (document.languageId !== LANGUAGE) return;
    if (this.isRunning) tell();
    else this.server();
  }

  open(document) {
    if (document.languageId !== LANGUAGE) return;
    const it = { uri: document.uri.toString(), languageId: LANGUAGE, version: document.version, text: document.getText() };
    this.running.notify('textDocument/didOpen', { textDocument: it });
  }

  change(event) {
    const changes = event.contentChanges.map((it) => ({ range: spanOf(it.range), text: it.text }));
    const it = { uri: event.document.uri.toString(), version: event.document.version };
    this.running.notify('textDocument/didChange', { textDocument: it, contentChanges: changes });
  }

  close(document) {
    this.running.notify('textDocument/didClose', { textDocument: { uri: document.uri.toString() } });
  }

  configure() {
    if (this.isRunning) this.running.notify('workspace/didChangeConfiguration', { settings: { zebludor: this.settings() } });
  }

  // The answer to a question about a document, turned into VS Code's form; nothing if there is none.
  async ask(method, document, more, token, form) {
    const found = await this.server().ask(method, { textDocument: { uri: document.uri.toString() }, ...more }, token);
    return found === null || found === undefined ? undefined : form(found);
  }

  // What is asked for while typing fails without a word: the next keystroke asks again.
  async quietly(...asked) {
    try {
      return await this.ask(...asked);
    } catch {
      return undefined;
    }
  }

  leave() {
    this.isLeaving = true;
    if (!this.isRunning) return undefined;
    return this.running.ask('shutdown').then(() => this.running.notify('exit'), () => undefined);
  }
}

let client;

function providers() {
  const each = (method, form) => (document, position, token) => client.quietly(`textDocument/${method}`, document, { position }, token, form);
  const { languages } = vscode;
  const text = (it) => new vscode.Hover(new vscode.MarkdownString(it.contents.value), rangeOf(it.range));
  return [
    languages.registerHoverProvider(LANGUAGE, { provideHover: each('hover', text) }),
    languages.registerCompletionItemProvider(LANGUAGE, { provideCompletionItems: each('completion', (it) => it.items.map(completionOf)) }, '[', ','),
    languages.registerDefinitionProvider(LANGUAGE, { provideDefinition: each('definition', locationOf) }),
    languages.registerReferenceProvider(LANGUAGE, {
      provideReferences: (document, position, context, token) =>
        client.quietly('textDocument/references', document, { position, context }, token, (it) => it.map(locationOf)),
    }),
    languages.registerRenameProvider(LANGUAGE, {
      prepareRename: (document, position, token) => client.ask('textDocument/prepareRename', document, { position }, token, (it) => rangeOf(it.range)),
      provideRenameEdits: (document, position, newName, token) =>
        client.ask('textDocument/rename', document, { position, newName }, token, workspaceEditOf),
    }),
    languages.registerDocumentSymbolProvider(LANGUAGE, {
      provideDocumentSymbols: (document, token) => client.quietly('textDocument/documentSymbol', document, {}, token, (it) => it.map(symbolOf)),
    }),
    languages.registerCodeActionsProvider(LANGUAGE, {
      provideCodeActions: (document, range, _, token) =>
        client.quietly('textDocument/codeAction', document, { range: spanOf(range), context: { diagnostics: [] } }, token, (it) => it.map(actionOf)),
    }),
    languages.registerDocumentFormattingEditProvider(LANGUAGE, {
      provideDocumentFormattingEdits: (document, options, token) =>
        client.ask('textDocument/formatting', document, { options }, token, (it) => it.map(editOf)),
    }),
    languages.registerInlayHintsProvider(LANGUAGE, {
      provideInlayHints: (document, range, token) =>
        client.quietly('textDocument/inlayHint', document, { range: spanOf(range) }, token, (it) => it.map(hintOf)),
    }),
  ];
}

// Asks for a clock, and goes there, earlier or later.
async function goToClock() {
  const session = vscode.debug.activeDebugSession;
  const isClock = (text) => (/^[\d,_]+$/.test(text) ? undefined : 'a decimal number');
  const text = session && (await vscode.window.showInputBox({ prompt: 'The clock to go to, earlier or later', validateInput: isClock }));
  if (text) await session.customRequest('toClock', { clock: Number(text.replace(/[,_]/g, '')) });
}

function activate(context) {
  client = new Client();
  const { workspace } = vscode;
  context.subscriptions.push(
    vscode.commands.registerCommand('zebludor.toClock', goToClock),
    client.underlined,
    workspace.onDidOpenTextDocument((it) => client.follow(it, () => client.open(it))),
    workspace.onDidChangeTextDocument((it) => client.follow(it.document, () => client.change(it))),
    workspace.onDidCloseTextDocument((it) => client.follow(it, () => client.close(it))),
    workspace.onDidChangeConfiguration(() => client.configure()),
    ...providers(),
  );
  client.server();
}

exports.activate = activate;
exports.deactivate = () => client.leave();
