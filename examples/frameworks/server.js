#!/usr/bin/env node
'use strict';
// A server by vscode-languageserver whose documents are laspidru's. Hover shows the document.
const { createConnection, ProposedFeatures, TextDocuments, TextDocumentSyncKind } = require('vscode-languageserver/node');
const { TextDocument } = require('laspidru');

const connection = createConnection(ProposedFeatures.all);
const documents = new TextDocuments({
  create: TextDocument.create,
  update(document, changes, version) {
    try {
      return TextDocument.update(document, changes, version);
    } catch (error) {
      connection.window.showErrorMessage(`${document.uri}: ${error.message}; reopen it`);
      return document;
    }
  },
});

connection.onInitialize(() => ({ capabilities: { textDocumentSync: TextDocumentSyncKind.Incremental, hoverProvider: true } }));
connection.onHover(({ textDocument }) => {
  const document = documents.get(textDocument.uri);
  return document ? { contents: [document.getText()] } : null;
});
documents.onDidChangeContent(({ document }) => connection.console.log(`${document.uri}: ${document.lineCount} lines`));
documents.listen(connection);
connection.listen();
