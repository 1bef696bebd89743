// Starts tools/lsp for applications of rtic, and hands its answers to VS Code. It needs no package.
'use strict';

const fs = require('fs');
const path = require('path');
const vscode = require('vscode');
const { Client } = require('./client');

const LANGUAGE = 'rtic';
const SEVERITIES = [vscode.DiagnosticSeverity.Error, vscode.DiagnosticSeverity.Warning,
  vscode.DiagnosticSeverity.Information, vscode.DiagnosticSeverity.Hint];

let client = null;
let diagnostics = null;
let output = null;

// From the protocol to the editor and back; the kinds of symbols and completions count from 1 there.
const range = (one) => new vscode.Range(one.start.line, one.start.character, one.end.line, one.end.character);
const position = (one) => ({ line: one.line, character: one.character });
const location = (one) => new vscode.Location(vscode.Uri.parse(one.uri), range(one.range));
const edit = (one) => new vscode.TextEdit(range(one.range), one.newText);
const named = (document) => ({ uri: document.uri.toString() });
const place = (document, at) => ({ textDocument: named(document), position: position(at) });

function diagnostic(one) {
  const found = new vscode.Diagnostic(range(one.range), one.message, SEVERITIES[one.severity - 1]);
  found.code = one.code;
  found.source = one.source;
  found.relatedInformation = (one.relatedInformation || []).map(
    (more) => new vscode.DiagnosticRelatedInformation(location(more.location), more.message));
  return found;
}

function symbol(one) {
  const found = new vscode.DocumentSymbol(one.name, one.detail, one.kind - 1, range(one.range),
    range(one.selectionRange));
  found.children = one.children.map(symbol);
  return found;
}

function completion(one) {
  const found = new vscode.CompletionItem(one.label, one.kind - 1);
  found.detail = one.detail;
  found.sortText = one.sortText;
  found.range = range(one.textEdit.range);
  found.insertText = one.textEdit.newText;
  if (one.documentation) found.documentation = new vscode.MarkdownString(one.documentation.value);
  return found;
}

function workspaceEdit(answer) {
  const found = new vscode.WorkspaceEdit();
  for (const [uri, edits] of Object.entries((answer || { changes: {} }).changes)) {
    found.set(vscode.Uri.parse(uri), edits.map(edit));
  }
  return found;
}

const asked = (method, params, token) => client.request(`textDocument/${method}`, params, token);

const PROVIDERS = [
  ['registerHoverProvider', {
    async provideHover(document, at, token) {
      const answer = await asked('hover', place(document, at), token);
      return answer && new vscode.Hover(new vscode.MarkdownString(answer.contents.value), range(answer.range));
    },
  }],
  ['registerDefinitionProvider', {
    async provideDefinition(document, at, token) {
      const answer = await asked('definition', place(document, at), token);
      return answer && location(answer);
    },
  }],
  ['registerReferenceProvider', {
    async provideReferences(document, at, context, token) {
      const answer = await asked('references', { ...place(document, at), context }, token);
      return answer && answer.map(location);
    },
  }],
  ['registerDocumentHighlightProvider', {
    async provideDocumentHighlights(document, at, token) {
      const answer = await asked('documentHighlight', place(document, at), token);
      return answer && answer.map((one) => new vscode.DocumentHighlight(range(one.range), one.kind - 1));
    },
  }],
  ['registerRenameProvider', {
    async prepareRename(document, at, token) {
      const answer = await asked('prepareRename', place(document, at), token);
      if (!answer) throw new Error('no name is here that could be renamed');
      return { range: range(answer.range), placeholder: answer.placeholder };
    },
    async provideRenameEdits(document, at, newName, token) {
      return workspaceEdit(await asked('rename', { ...place(document, at), newName }, token));
    },
  }],
  ['registerDocumentSymbolProvider', {
    async provideDocumentSymbols(document, token) {
      return (await asked('documentSymbol', { textDocument: named(document) }, token)).map(symbol);
    },
  }],
  ['registerDocumentFormattingEditProvider', {
    async provideDocumentFormattingEdits(document, options, token) {
      return (await asked('formatting', { textDocument: named(document), options }, token)).map(edit);
    },
  }],
  ['registerCompletionItemProvider', {
    async provideCompletionItems(document, at, token) {
      return (await asked('completion', place(document, at), token)).map(completion);
    },
  }, '&'],
];

function opened(document) {
  if (client && document.languageId === LANGUAGE) {
    client.notify('textDocument/didOpen', {
      textDocument: { ...named(document), languageId: LANGUAGE, version: document.version, text: document.getText() },
    });
  }
}

function changed(event) {
  if (client && event.document.languageId === LANGUAGE && event.contentChanges.length) {
    const contentChanges = event.contentChanges.map((one) => ({
      range: { start: position(one.range.start), end: position(one.range.end) }, text: one.text,
    }));
    client.notify('textDocument/didChange', {
      textDocument: { ...named(event.document), version: event.document.version }, contentChanges,
    });
  }
}

function saved(document) {
  if (client && document.languageId === LANGUAGE) {
    client.notify('textDocument/didSave', { textDocument: named(document) });
  }
}

function closed(document) {
  if (client && document.languageId === LANGUAGE) {
    client.notify('textDocument/didClose', { textDocument: named(document) });
  }
}

function told(method, params) {
  if (method === 'textDocument/publishDiagnostics') {
    diagnostics.set(vscode.Uri.parse(params.uri), params.diagnostics.map(diagnostic));
  } else if (method === 'window/showMessage') {
    vscode.window.showWarningMessage(`rtic: ${params.message}`);
  }
}

// The path of tools/lsp: that of the settings, or of the repository in which this folder is or to which it is a link.
function server() {
  const set = vscode.workspace.getConfiguration('rtic').get('server');
  return set || path.join(fs.realpathSync(__dirname), '..', '..', 'tools', 'lsp');
}

async function start() {
  const file = server();
  if (!fs.existsSync(file)) {
    vscode.window.showErrorMessage(`rtic: there is no ${file}: set rtic.server to the path of tools/lsp`);
    return;
  }
  const started = new Client('python3', [file], {
    told,
    ended: (why) => {
      if (client === started) {
        client = null;
        output.appendLine(why);
        vscode.window.showErrorMessage(`rtic: ${why}`);
      }
    },
    log: (text) => output.append(text),
  });
  await started.request('initialize', { processId: process.pid, rootUri: null, capabilities: {} });
  started.notify('initialized', {});
  client = started;
  vscode.workspace.textDocuments.forEach(opened);
}

async function stop() {
  const last = client;
  client = null;
  diagnostics.clear();
  if (last) await last.stop();
}

async function activate(context) {
  output = vscode.window.createOutputChannel('rtic');
  diagnostics = vscode.languages.createDiagnosticCollection('rtic');
  context.subscriptions.push(
    output, diagnostics,
    vscode.workspace.onDidOpenTextDocument(opened), vscode.workspace.onDidChangeTextDocument(changed),
    vscode.workspace.onDidSaveTextDocument(saved), vscode.workspace.onDidCloseTextDocument(closed),
    vscode.commands.registerCommand('rtic.restart', async () => { await stop(); await start(); }),
    ...PROVIDERS.map(([register, provider, ...more]) => vscode.languages[register](LANGUAGE,
      Object.fromEntries(Object.entries(provider).map(([name, call]) => [name,
        (...words) => (client ? call(...words) : null)])), ...more)),
  );
  await start();
}

module.exports = { activate, deactivate: stop };
