// Answers the vectors by laspidru, for ask.py: a vector on each line of standard input, and a line of JSON for it.
//
// Copy this file, and replace `answer` by what asks your library. LASPIDRU_ADDON names the addon, if it isn't in bindings/node.
'use strict';
const readline = require('readline');

if (process.argv.length > 2) {
  console.error(`run.js takes no words: ${process.argv[2]}`);
  process.exit(2);
}
const { FrameFault, Framer, Server, TextDocument } = require('../bindings/node');

const REFUSALS = {
  INSIDE_CHARACTER: 'inside-character',
  REVERSED_RANGE: 'reversed-range',
  OVERLAP: 'overlap',
  OUT_OF_RANGE: 'invalid-params',
  INVALID_PARAMS: 'invalid-params',
  ALREADY_OPEN: 'already-open',
  NOT_OPEN: 'not-open',
  STALE_VERSION: 'stale-version',
};
const FAULTS = ['bad-header', 'header-too-long', 'missing-length', 'repeated-header', 'bad-length', 'body-too-long', 'bad-charset'];
const URI = 'file:///a';

/** A refusal of the library, and no other error. */
function refused(fault) {
  const word = REFUSALS[fault.code];
  if (!word) throw fault;
  const { change, edit, other, atEnd } = fault;
  const end = word === 'inside-character' && atEnd !== undefined ? { end: atEnd ? 'end' : 'start' } : {};
  return { refused: word, ...(word === 'invalid-params' ? {} : { change, edit, other, ...end }) };
}

const bytesOf = (message) => Buffer.from(JSON.stringify({ jsonrpc: '2.0', ...message }));

function serverOf(encoding) {
  const server = new Server({ encoding, isFixed: true });
  server.handle(bytesOf({ id: 1, method: 'initialize', params: { capabilities: {} } }));
  return server;
}

/** The word for what a server did with a message. */
function wordOf({ kind, reason }) {
  return kind === 'refused' ? REFUSALS[reason] : kind;
}

/** `TextDocument` counts UTF-16. Other units are counted by a server. */
function leftByServer({ encoding, text, changes, edits }) {
  const server = serverOf(encoding);
  server.handle(bytesOf({ method: 'textDocument/didOpen', params: { textDocument: { uri: URI, languageId: 'a', version: 1, text } } }));
  const contentChanges = edits ? server.batchOfEdits(URI, edits) : changes;
  const event = server.handle(bytesOf({ method: 'textDocument/didChange', params: { textDocument: { uri: URI, version: 2 }, contentChanges } }));
  return event.kind === 'changed' ? { text: server.text(URI) } : { refused: wordOf(event) };
}

function textLeft(vector) {
  if (vector.encoding !== 'utf-16') return leftByServer(vector);
  const document = TextDocument.create(URI, 'a', 1, vector.text);
  const canonical = vector.edits ? TextDocument.batchOfEdits(document, vector.edits) : TextDocument.canonical(document, vector.changes);
  const text = vector.edits ? TextDocument.applyEdits(document, vector.edits) : TextDocument.update(document, vector.changes, 2).getText();
  return { text, canonical };
}

function session(encoding, messages) {
  const server = serverOf(encoding);
  const answers = messages.map((message) => wordOf(server.handle(bytesOf(message))));
  const uris = [...new Set(messages.map(({ params }) => params.textDocument.uri))];
  const open = uris.filter((uri) => server.version(uri) !== undefined);
  return { answers, documents: open.map((uri) => ({ uri, version: server.version(uri), text: server.text(uri) })) };
}

function frames(pieces) {
  const framer = new Framer();
  const bodies = [];
  const write = (found) => bodies.push(...found.map((body) => body.toString('latin1')));
  try {
    for (const piece of pieces) write(framer.receive(Buffer.from(piece, 'latin1')));
    return { bodies, fault: null };
  } catch (fault) {
    if (!(fault instanceof FrameFault)) throw fault;
    write(fault.events);
    return { bodies, fault: { why: FAULTS[fault.frame - 1], offset: fault.offset } };
  }
}

function answer(vector) {
  if (vector.messages) return session(vector.encoding, vector.messages);
  if (vector.pieces) return frames(vector.pieces);
  try {
    return textLeft(vector);
  } catch (fault) {
    return refused(fault);
  }
}

readline.createInterface({ input: process.stdin }).on('line', (line) => {
  let found;
  try {
    found = answer(JSON.parse(line));
  } catch (fault) {
    found = { error: String(fault) };
  }
  console.log(JSON.stringify(found));
});
