// VS Code's extension with a stand-in for VS Code: node vscode.js EXTENSION. It plays an editor's session, and prints what came of it as JSON.
'use strict';
const Module = require('module');

class Position {
  constructor(line, character) { Object.assign(this, { line, character }); }
}
class Range {
  constructor(a, b, c, d) { Object.assign(this, { start: new Position(a, b), end: new Position(c, d) }); }
  toJSON() { return [this.start, this.end]; }
}
// A class whose objects keep what they are made of, under these names.
const keeping = (...names) => class {
  constructor(...given) { names.forEach((name, at) => { this[name] = given[at]; }); }
};
const heard = {};
const providers = {};
const shown = [];
const underlined = new Map();
const documents = [];
const waiting = [];
const commands = {};
const asked = [];
const listen = (name) => (what) => { heard[name] = what; return { dispose() {} }; };
const provide = (name) => (language, what) => { providers[name] = { language, ...what }; return { dispose() {} }; };
const note = () => waiting.splice(0).forEach((it) => it());
const stand = {
  Position, Range,
  Location: keeping('uri', 'range'), TextEdit: keeping('range', 'newText'), Diagnostic: keeping('range', 'message', 'severity'),
  CompletionItem: keeping('label', 'kind'), DocumentSymbol: keeping('name', 'detail', 'kind', 'range', 'selectionRange'),
  CodeAction: keeping('title', 'kind'), InlayHint: keeping('position', 'label'), Hover: keeping('contents', 'range'),
  MarkdownString: keeping('value'),
  CodeActionKind: { QuickFix: 'quickfix' },
  WorkspaceEdit: class { constructor() { this.edits = {}; } set(uri, edits) { this.edits[uri] = edits; } },
  Uri: { parse: (text) => ({ text, toString: () => text, toJSON: () => text }) },
  window: { showErrorMessage: (text) => { shown.push(text); note(); }, showInputBox: async () => '1,200' },
  commands: { registerCommand: (name, what) => { commands[name] = what; return { dispose() {} }; } },
  debug: { activeDebugSession: { customRequest: async (...given) => { asked.push(given); } } },
  languages: {
    createDiagnosticCollection: () => ({ set: (uri, them) => { underlined.set(`${uri}`, them); note(); }, clear: () => underlined.clear() }),
    registerHoverProvider: provide('hover'), registerCompletionItemProvider: provide('completion'),
    registerDefinitionProvider: provide('definition'), registerReferenceProvider: provide('references'),
    registerRenameProvider: provide('rename'), registerDocumentSymbolProvider: provide('symbols'),
    registerCodeActionsProvider: provide('actions'), registerDocumentFormattingEditProvider: provide('formatting'),
    registerInlayHintsProvider: provide('hints'),
  },
  workspace: {
    textDocuments: documents, workspaceFolders: undefined,
    getConfiguration: () => ({ get: (name) => ({ hints: true, off: ['no-reset'], dialect: '' })[name] }),
    onDidOpenTextDocument: listen('open'), onDidChangeTextDocument: listen('change'),
    onDidCloseTextDocument: listen('close'), onDidChangeConfiguration: listen('set'),
  },
};
const load = Module._load;
let started;
const children = { ...require('child_process'), spawn: (...given) => { started = load('child_process').spawn(...given); return started; } };
Module._load = (name, ...more) => (name === 'vscode' ? stand : name === 'child_process' ? children : load(name, ...more));
const extension = require(process.argv[2]);

const open = (name, text, languageId = 'zebludor') => {
  const it = { uri: stand.Uri.parse(`file:///${name}`), version: 1, languageId, getText: () => text };
  documents.push(it);
  return it;
};
// Waits until a condition holds, which each message of the server may change.
const until = async (holds) => { while (!holds()) await new Promise((done) => { waiting.push(done); }); };
const messages = (it) => (underlined.get(`${it.uri}`) || []).map((one) => [one.range.start.line, one.severity, one.code, one.message]);

(async () => {
  const source = 'SEGMENT MAIN AT 50h\nstart:  MOV AL,34h\n        OUT 43h,AL\n        INC ticks\n        JMP start\nticks:  DB 5\nENDS\n';
  const [a, b] = [open('a.asm', source), open('b.asm', source)];
  open('c.c', 'int x;', 'c');
  extension.activate({ subscriptions: [] });
  await until(() => messages(a).length && messages(b).length);
  const told = { first: messages(a), languages: [...new Set(Object.values(providers).map((it) => it.language))], others: underlined.has('file:///c.c') };
  const token = { onCancellationRequested() {} };
  const at = (line, character) => new Position(line, character);
  told.hover = (await providers.hover.provideHover(a, at(2, 9), token)).contents.value;
  told.nothing = (await providers.hover.provideHover(a, at(6, 4), token)) === undefined;
  told.completion = (await providers.completion.provideCompletionItems(a, at(2, 12), token)).map((it) => [it.label, it.kind]);
  told.definition = await providers.definition.provideDefinition(a, at(4, 14), token);
  told.references = (await providers.references.provideReferences(a, at(4, 14), { includeDeclaration: true }, token)).map((it) => it.range.start.line);
  told.prepared = await providers.rename.prepareRename(a, at(4, 14), token);
  told.rename = (await providers.rename.provideRenameEdits(a, at(4, 14), 'begin', token)).edits;
  told.refused = await providers.rename.provideRenameEdits(a, at(4, 14), 'mov', token).catch((error) => error.message);
  told.symbols = (await providers.symbols.provideDocumentSymbols(a, token)).map((it) => [it.name, it.kind, it.children.map((child) => child.name)]);
  told.actions = (await providers.actions.provideCodeActions(a, new Range(3, 0, 3, 5), {}, token)).map((it) => [it.title, it.edit.edits]);
  told.hints = (await providers.hints.provideInlayHints(a, new Range(0, 0, 7, 0), token)).map((it) => it.label);
  told.formatting = await providers.formatting.provideDocumentFormattingEdits(a, {}, token);
  a.version = 2;
  heard.change({ document: a, contentChanges: [{ range: new Range(3, 12, 3, 17), text: 'BYTE [ticks]' }] });
  await until(() => !messages(a).length);
  told.mended = [messages(a), messages(b).length];
  heard.close(b);
  await until(() => !messages(b).length);
  heard.set();
  started.kill('SIGKILL');
  await until(() => shown.length);
  documents.splice(documents.indexOf(b), 1);
  a.getText = () => source.replace('ticks:', 'tocks:');
  heard.change({ document: a, contentChanges: [] });
  await until(() => messages(a).length);
  told.anew = messages(a);
  await commands['zebludor.toClock']();
  told.asked = asked;
  await extension.deactivate();
  told.shown = shown;
  console.log(JSON.stringify(told));
})();
