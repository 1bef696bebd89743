// What the extension for VS Code uses of that editor, in little: classes that keep what they are given, and calls that
// keep who is to be called.
'use strict';

const keeping = (...names) => class {
  constructor(...values) {
    names.forEach((name, place) => { this[name] = values[place]; });
  }
};

const providers = {};
const listeners = {};
const shown = [];
const published = new Map();
const waiting = [];

const on = (name) => (call) => { listeners[name] = call; return {}; };
const register = (name) => (language, provider) => { providers[name] = { language, ...provider }; return {}; };
const names = ['Hover', 'Definition', 'Reference', 'DocumentHighlight', 'Rename', 'DocumentSymbol',
  'DocumentFormattingEdit', 'CompletionItem'];

class WorkspaceEdit {
  constructor() { this.edits = {}; }

  set(uri, edits) { this.edits[uri.toString()] = edits; }
}

module.exports = {
  testing: { providers, listeners, shown, published, waiting },
  Range: keeping('startLine', 'startCharacter', 'endLine', 'endCharacter'),
  Location: keeping('uri', 'range'),
  TextEdit: keeping('range', 'newText'),
  Diagnostic: keeping('range', 'message', 'severity'),
  DiagnosticRelatedInformation: keeping('location', 'message'),
  DocumentSymbol: keeping('name', 'detail', 'kind', 'range', 'selectionRange'),
  CompletionItem: keeping('label', 'kind'),
  MarkdownString: keeping('value'),
  Hover: keeping('contents', 'range'),
  DocumentHighlight: keeping('range', 'kind'),
  WorkspaceEdit,
  DiagnosticSeverity: { Error: 0, Warning: 1, Information: 2, Hint: 3 },
  Uri: { parse: (text) => ({ toString: () => text }) },
  window: {
    createOutputChannel: () => ({ append: (text) => shown.push(text), appendLine: (text) => shown.push(text) }),
    showErrorMessage: (text) => shown.push(text),
    showWarningMessage: (text) => shown.push(text),
  },
  commands: { registerCommand: () => ({}) },
  workspace: {
    textDocuments: [],
    getConfiguration: () => ({ get: () => '' }),
    onDidOpenTextDocument: on('opened'),
    onDidChangeTextDocument: on('changed'),
    onDidSaveTextDocument: on('saved'),
    onDidCloseTextDocument: on('closed'),
  },
  languages: {
    createDiagnosticCollection: () => ({
      set: (uri, found) => {
        published.set(uri.toString(), found);
        waiting.splice(0).forEach((call) => call());
      },
      clear: () => published.clear(),
    }),
    ...Object.fromEntries(names.map((name) => [`register${name}Provider`, register(name)])),
  },
};
