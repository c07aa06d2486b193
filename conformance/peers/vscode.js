// A server by vscode-languageserver, which shows its text in a hover, and the text after a list of text edits.
const { createConnection, TextDocuments } = require('vscode-languageserver/node');
const { TextDocument } = require('vscode-languageserver-textdocument');

const connection = createConnection(process.stdin, process.stdout);
const documents = new TextDocuments(TextDocument);
connection.onInitialize(() => ({ capabilities: { textDocumentSync: 2, hoverProvider: true } }));
connection.onHover(({ textDocument }) => ({ contents: documents.get(textDocument.uri).getText() }));
connection.onRequest('x/edited', ({ textDocument, edits }) => TextDocument.applyEdits(documents.get(textDocument.uri), edits));
documents.listen(connection);
connection.listen();
