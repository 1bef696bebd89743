// Drives the extension for VS Code with the stand-in beside this file: prints what its providers answer, as JSON.
'use strict';

const Module = require('module');
const path = require('path');

const stand = path.join(__dirname, 'vscode.js');
const resolve = Module._resolveFilename;
Module._resolveFilename = function (request, ...more) {
  return request === 'vscode' ? stand : resolve.call(this, request, ...more);
};

const vscode = require('vscode');
const extension = require(path.join(__dirname, '..', '..', '..', 'editors', 'vscode', 'extension.js'));

const { providers, listeners, shown, published, waiting } = vscode.testing;
const TEXT = 'app a(bits = 4);\ninterrupts { A = 1 }\ntask t(binds = A) { let x = 1; emit x }\n';
const uri = vscode.Uri.parse('file:///a.rtic');
const document = { uri, languageId: 'rtic', version: 1, getText: () => TEXT };
const at = (line, character) => ({ line, character });
const told = () => new Promise((call) => { waiting.push(call); });

async function main() {
  const found = {};
  vscode.workspace.textDocuments.push(document);
  const first = told();
  await extension.activate({ subscriptions: [] });
  await first;
  found.refused = published.get(uri.toString());
  const second = told();
  listeners.changed({
    document: { ...document, version: 2 },
    contentChanges: [{ range: { start: at(2, 37), end: at(2, 37) }, text: ';' }],
  });
  await second;
  found.accepted = published.get(uri.toString());
  found.hover = await providers.Hover.provideHover(document, at(2, 5));
  found.definition = await providers.Definition.provideDefinition(document, at(2, 36));
  found.references = await providers.Reference.provideReferences(document, at(2, 24), { includeDeclaration: true });
  found.highlights = await providers.DocumentHighlight.provideDocumentHighlights(document, at(2, 24));
  found.prepared = await providers.Rename.prepareRename(document, at(2, 24));
  found.renamed = (await providers.Rename.provideRenameEdits(document, at(2, 24), 'y')).edits;
  found.refusal = await providers.Rename.provideRenameEdits(document, at(2, 24), 'task')
    .catch((fault) => fault.message);
  found.symbols = await providers.DocumentSymbol.provideDocumentSymbols(document);
  found.edits = await providers.DocumentFormattingEdit.provideDocumentFormattingEdits(document, {});
  found.items = await providers.CompletionItem.provideCompletionItems(document, at(2, 36));
  found.languages = [...new Set(Object.values(providers).map((one) => one.language))];
  await extension.deactivate();
  found.stopped = await providers.Hover.provideHover(document, at(2, 5));
  found.shown = shown;
  console.log(JSON.stringify(found));
}

main().catch((fault) => { console.error(fault); process.exit(1); });
