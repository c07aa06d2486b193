'use strict';
// Texts that are kept as LSP 3.17 says, and both ends of a session, by a library that is proved (docs/node.md). `TextDocument` has the members
// of vscode-languageserver-textdocument. Unlike there a position inside a character is refused by a RangeError.
const { logFrom: madeFrom } = require('./log-from.js');

let addon; // what calls the library: what module.js has over laspidru.node, or over the WebAssembly module

const [encoder, decoder] = [new TextEncoder(), new TextDecoder()];

/** Bytes with what is called of Node's buffers, where there is no Node. */
class Bytes extends Uint8Array {
  static from(value) {
    return new Bytes(typeof value === 'string' ? encoder.encode(value) : value);
  }

  static alloc(size) {
    return new Bytes(size);
  }

  static byteLength(text) {
    return encoder.encode(text).length;
  }

  static concat(parts) {
    const all = new Bytes(parts.reduce((sum, part) => sum + part.length, 0));
    let used = 0;
    for (const part of parts) {
      all.set(part, used);
      used += part.length;
    }
    return all;
  }

  write(text, start) {
    return encoder.encodeInto(text, this.subarray(start)).written;
  }

  toString() {
    return decoder.decode(this);
  }
}

const Buffer = globalThis.Buffer ?? Bytes;
const UTF16 = 16;

let WORDS; // the names of the library's codes, by their numbers
let WHY; // and what each means, by its name

/** A RangeError as the library's refusals are. */
function refusal(code, message = WHY[code]) {
  return Object.assign(new RangeError(message), { code });
}

/** A line or a character as it is, where the library can take it: an integer from 0 to 2^32 - 1. Of a batch `kind` and `index` say where. */
function uint(value, kind, index) {
  if (value >>> 0 === value) return value;
  if (typeof value !== 'number') throw new TypeError('a line or a character is no number');
  const error = refusal('OUT_OF_RANGE', `${kind ? `${kind} ${index}: ` : ''}${value} is no line and no character`);
  throw kind ? Object.assign(error, { [kind]: index }) : error;
}

/** A text as it is. In UTF-8 a lone surrogate becomes U+FFFD, which is one UTF-16 unit too. */
function checked(text) {
  if (typeof text !== 'string') throw new TypeError('a text is no string');
  return text;
}

const NUMBERS = 8; // of each change: those of the library's struct, of which one is a half and one for room
const WHOLE = { start: { line: 0, character: 0 }, end: { line: 0, character: 0 } };
const ROOM = Buffer.alloc(65536); // for the texts of a short batch

/** The bytes of texts, one after the other. How many each has comes into its numbers. */
function joined(texts, units, numbers) {
  // (a UTF-16 unit has at most 3 bytes)
  const bytes = 3 * units <= ROOM.length ? ROOM : Buffer.alloc(texts.reduce((sum, text) => sum + Buffer.byteLength(text), 0));
  let used = 0;
  for (let index = 0; index < texts.length; index++) {
    const length = bytes.write(texts[index], used);
    numbers[NUMBERS * index + 4] = length;
    used += length;
  }
  return bytes;
}

/** Changes as the library takes them: eight numbers of each, and the bytes of all texts. */
function passed(changes, kind = 'change') {
  if (!Array.isArray(changes)) throw new TypeError('changes are no array');
  const numbers = new Uint32Array(NUMBERS * changes.length);
  const texts = [];
  let units = 0;
  for (let index = 0; index < changes.length; index++) {
    const { range, text } = changes[index];
    const { start, end } = range ?? WHOLE;
    const first = NUMBERS * index;
    numbers[first] = uint(start.line, kind, index);
    numbers[first + 1] = uint(start.character, kind, index);
    numbers[first + 2] = uint(end.line, kind, index);
    numbers[first + 3] = uint(end.character, kind, index);
    numbers[first + 6] = range ? 0 : 1;
    units += checked(text).length;
    texts.push(text);
  }
  return [numbers, joined(texts, units, numbers)];
}

/** Text edits as the addon takes them. */
function passedEdits(edits) {
  return passed(edits.map(({ range, newText }) => {
    if (!range) throw new TypeError('a text edit has no range');
    return { range, text: newText };
  }), 'edit');
}

/** A change as LSP writes it, from what the addon returns. */
function written([line, character, endLine, endCharacter, isWhole, text]) {
  if (isWhole) return { text };
  return { range: { start: { line, character }, end: { line: endLine, character: endCharacter } }, text };
}

/** The indexes at which the lines of a text start. CR, LF and CRLF end a line and nothing else does. */
function lineStarts(text) {
  const starts = [0];
  for (const end of text.matchAll(/\r\n|\r|\n/g)) starts.push(end.index + end[0].length);
  return starts;
}

/** The number of the last of these indexes that isn't after an index. */
function lastUpTo(starts, index) {
  let low = 0;
  let high = starts.length;
  while (high - low > 1) {
    const middle = (low + high) >>> 1;
    if (starts[middle] > index) high = middle;
    else low = middle;
  }
  return low;
}

class TextDocument {
  #uri;
  #languageId;
  #version;
  #document;
  #text;
  #starts; // of the lines, once an index was asked for after the last change

  constructor(uri, languageId, version, content) {
    this.#uri = uri;
    this.#languageId = languageId;
    this.#version = version;
    this.#document = addon.open(Buffer.from(checked(content)));
  }

  static create(uri, languageId, version, content) {
    return new TextDocument(uri, languageId, version, content);
  }

  /** Makes the changes of a didChange, in order, or throws and makes none of them. */
  static update(document, changes, version) {
    addon.change(document.#document, UTF16, ...passed(changes));
    document.#text = document.#starts = undefined;
    document.#version = version;
    return document;
  }

  /** The text that text edits leave, as a formatter returns them. All count in the text as it is, and `document` stays as it is. */
  static applyEdits(document, edits) {
    const copy = addon.open(Buffer.from(document.getText()));
    try {
      addon.applyEdits(copy, UTF16, ...passedEdits(edits));
      return addon.text(copy);
    } finally {
      addon.close(copy);
    }
  }

  /** The one canonical batch that means the same as these changes of a didChange. `document` stays as it is. */
  static canonical(document, changes) {
    return addon.canonical(document.#document, UTF16, ...passed(changes)).map(written);
  }

  /** The canonical batch of what text edits mean: the changes of the didChange that reports them. `document` stays as it is. */
  static batchOfEdits(document, edits) {
    return addon.batchOfEdits(document.#document, UTF16, ...passedEdits(edits)).map(written);
  }

  get uri() {
    return this.#uri;
  }

  get languageId() {
    return this.#languageId;
  }

  get version() {
    return this.#version;
  }

  get lineCount() {
    return addon.lineCount(this.#document);
  }

  /** A line, counted from 0, without its line end. The rest of the text is not read. */
  lineAt(line) {
    return addon.line(this.#document, uint(line));
  }

  /** The text, or the part in a range. The ends of a reversed range are swapped. */
  getText(range) {
    this.#text ??= addon.text(this.#document);
    return range ? this.#text.substring(this.offsetAt(range.start), this.offsetAt(range.end)) : this.#text;
  }

  #lines() {
    this.#starts ??= lineStarts(this.getText());
    return this.#starts;
  }

  /** The exact position of a line and a character, as the library has it. */
  #exact(line, character) {
    return addon.position(this.#document, UTF16, addon.offset(this.#document, UTF16, line, character));
  }

  /** The index in the text of a position. The first call after a change reads the text, and the others its line alone. */
  offsetAt({ line, character }) {
    const [exactLine, exactCharacter] = this.#exact(uint(line), uint(character));
    return this.#lines()[exactLine] + exactCharacter;
  }

  /** The position of an index in the text. One before the start is the start, one past the end the end, one inside a CRLF
   * the end of its line. The first call after a change reads the text, and the others the line alone. */
  positionAt(offset) {
    if (typeof offset !== 'number') throw new TypeError('an offset is no number');
    if (!Number.isInteger(offset)) throw refusal('OUT_OF_RANGE', `${offset} is no offset`);
    const starts = this.#lines();
    const index = Math.min(Math.max(offset, 0), this.getText().length);
    const number = lastUpTo(starts, index);
    const [line, character] = this.#exact(number, index - starts[number]);
    return { line, character };
  }

  /** Frees the text at once; else the collector does. Each later call that needs it throws, with the code EMPTY. */
  close() {
    addon.close(this.#document);
    this.#text = this.#starts = undefined;
  }
}

/** Bytes that were received, or a body. */
function bytesOf(value) {
  if (!(value instanceof Uint8Array)) throw new TypeError('bytes are no Uint8Array');
  return value;
}

/** A version, as the library can take it. */
function int(value) {
  if (typeof value !== 'number') throw new TypeError('a version is no number');
  if ((value | 0) !== value) throw refusal('OUT_OF_RANGE', `${value} is no version`);
  return value;
}

const utf8 = (text) => Buffer.from(checked(text));

const LIMITS = { maxBody: 16777216, maxText: 16777216, maxDocs: 1024, maxChanges: 65536 };

const OF_LIMITS = { maxBody: 'BAD_MAX_BODY', maxText: 'BAD_MAX_TEXT', maxDocs: 'BAD_MAX_DOCS', maxChanges: 'BAD_MAX_CHANGES' };

/** The four limits of options, which may have these others too. */
function limitsOf(options, others = []) {
  const unknown = Object.keys(options).find((it) => !Object.hasOwn(OF_LIMITS, it) && !others.includes(it));
  if (unknown !== undefined) throw new TypeError(`there is no option ${unknown}`);
  return Object.entries(OF_LIMITS).map(([name, code]) => {
    const limit = options[name] ?? LIMITS[name];
    if (limit >>> 0 !== limit) throw refusal(code);
    return limit;
  });
}

/** The number of an encoding. */
function unitsOf(name) {
  if (!Object.hasOwn(ENCODINGS, name)) throw refusal('BAD_ENCODING');
  return ENCODINGS[name];
}

/** A fault of a stream: which of F1 to F7 its `frame` has, and the byte `offset` on which that was decided. No more of the stream is
 * taken. `events` has what `receive` had before it. */
class FrameFault extends Error {
  constructor(frame, offset) {
    super(`${WHY.BAD_FRAME}: F${frame} at ${offset}`);
    Object.assign(this, { name: 'FrameFault', code: 'BAD_FRAME', offset, frame, events: [] });
  }
}

/** Takes a stream apart into the bodies of its messages, in whatever pieces it comes (LSP 3.17, Base Protocol). */
class Framer {
  #framer;
  #rest = Buffer.alloc(0);
  #at = 0;

  constructor({ maxBody = LIMITS.maxBody } = {}) {
    this.#framer = addon.newFramer(limitsOf({ maxBody })[0]);
  }

  /** The bodies of the messages that end in these bytes. A faulty frame throws FrameFault, whose `events` are the bodies before it. */
  receive(bytes) {
    return receive(this, bytes, (body) => body);
  }

  /** May the stream end here? No byte of a message is left, and there was no fault. */
  get isAtRest() {
    return addon.isAtRest(this.#framer) && this.#at === this.#rest.length;
  }

  /** Takes bytes, which stay until they are taken apart. */
  add(bytes) {
    this.#rest = this.#at < this.#rest.length ? Buffer.concat([this.#rest.subarray(this.#at), bytesOf(bytes)]) : bytesOf(bytes);
    this.#at = 0;
  }

  /** The next body that is whole, or undefined. One that waits, since it couldn't be handled yet, comes first. */
  next() {
    if (this.waiting !== undefined) return this.waiting;
    const [count, body] = addon.feed(this.#framer, this.#rest, this.#at);
    if (count < 0) throw new FrameFault(-count, body);
    this.#at += count;
    return body;
  }
}

/** What `handle` has of the next body that is whole, or undefined. A body that memory ran out for waits. */
function nextOf(framer, handle) {
  const body = framer.next();
  if (body === undefined) return undefined;
  framer.waiting = body;
  try {
    const event = handle(body);
    framer.waiting = undefined;
    return event;
  } catch (error) {
    if (error.code !== 'OUT_OF_MEMORY') framer.waiting = undefined;
    throw error;
  }
}

/** What `handle` has of each body that is whole. Each body is handled at its own step. */
function* steps(framer, handle) {
  for (let count = 0; ; count++) {
    let event;
    try {
      event = nextOf(framer, handle);
    } catch (error) {
      // An end that listens no more has no use for what follows.
      if (count > 0 && ['ENDED', 'WRONG_PHASE'].includes(error.code)) return;
      throw error;
    }
    if (event === undefined) return;
    yield event;
  }
}

/** What `handle` has of each body that ends in these bytes. Where memory runs out after some they are returned, and a call with no
 * bytes continues. */
function receive(framer, bytes, handle) {
  const events = [];
  framer.add(bytes);
  try {
    for (const event of steps(framer, handle)) events.push(event);
  } catch (error) {
    if (error instanceof FrameFault) error.events = events;
    else if (events.length > 0 && error.code === 'OUT_OF_MEMORY') return events;
    throw error;
  }
  return events;
}

const SERVER_KINDS = ['replied', 'changed', 'dropped', 'ignored', 'refused', 'exited'];
const CLIENT_KINDS = { 0: 'send', 3: 'ignored', 6: 'noted', 7: 'bad-server' };
const PHASES = ['new', 'asked', 'ready', 'closing', 'closed', 'done', 'failed'];
const NAMES = { 8: 'utf-8', 16: 'utf-16', 32: 'utf-32' };
const ENCODINGS = { 'utf-8': 8, 'utf-16': 16, 'utf-32': 32 };

/** A byte offset as it is, where the library can take it. */
function byteOffsetOf(value) {
  if (typeof value !== 'number') throw new TypeError('a byte offset is no number');
  if (!Number.isSafeInteger(value) || value < 0) throw refusal('OUT_OF_RANGE', `${value} is no byte offset`);
  return value;
}

/** What an end did with a message. */
class Event {
  constructor(kinds, body, [kind, reason, status, error, frame]) {
    this.kind = kinds[kind];
    this.body = body;
    if (frame) this.frame = frame;
    if (this.kind === 'replied') this.error = error;
    if (this.kind === 'exited') this.status = status;
    if (reason) [this.reason, this.why] = [WORDS[reason], WHY[WORDS[reason]]];
  }

  /** The document that the message opens, changes or closes, where it does one of these and its params are valid. */
  get uri() {
    return addon.uri(this.body);
  }
}

/** What both ends have. What is asked of open documents is undefined where no document of the URI is open. */
class End {
  #end;
  #kinds;
  #framer;

  constructor(end, kinds, maxBody) {
    this.#end = end;
    this.#kinds = kinds;
    this.#framer = new Framer({ maxBody });
  }

  /** What the end does with each message that ends in these bytes. Each is handled at its own step: until the next one the documents are
   * those that a request speaks of. A faulty frame throws FrameFault at its step, with no `events`. A loop that ends early leaves the rest
   * to the next call. */
  messages(bytes) {
    this.#framer.add(Buffer.from(bytesOf(bytes))); // (a copy, since the steps come later)
    return steps(this.#framer, (body) => this.handle(body));
  }

  /** The same as an array, once all of these messages are handled: a server's documents are then those after the last one. So answer
   * requests by `messages`. A faulty frame throws FrameFault, whose `events` came before it. */
  receive(bytes) {
    return receive(this.#framer, bytes, (body) => this.handle(body));
  }

  /** What the end does with the body of a message. */
  handle(body) {
    return new Event(this.#kinds, body, addon.deliver(this.#end, bytesOf(body)));
  }

  /** "new", "asked", "ready", "closing", "closed", "done" or "failed"; of a server "new", "ready", "closed" or "done". */
  get phase() {
    return PHASES[addon.state(this.#end)[0]];
  }

  /** The encoding that was agreed on; undefined before. */
  get encoding() {
    return NAMES[addon.state(this.#end)[2]];
  }

  get documentCount() {
    return addon.state(this.#end)[3];
  }

  /** The number of an encoding, or else of the session's; of UTF-16 before one is agreed on. */
  #units(name) {
    return name === undefined ? addon.state(this.#end)[2] || UTF16 : unitsOf(name);
  }

  /** The version of the open document of a URI. */
  version(uri) {
    return addon.document(this.#end, utf8(uri), false)?.[0];
  }

  /** The text of the open document of a URI. */
  text(uri) {
    return addon.document(this.#end, utf8(uri), true)?.[1];
  }

  /** A line, counted from 0, of the open document of a URI, without its line end. The rest of the text is not read. */
  lineAt(uri, line) {
    return addon.lineAt(this.#end, utf8(uri), uint(line));
  }

  /** The byte offset of a position in the open document of a URI: in the UTF-8 of its text. One after the line's end is the line's end.
   * Positions count units of the session's encoding, or of this one. */
  byteOffset(uri, { line, character }, encoding) {
    return addon.offsetAt(this.#end, utf8(uri), this.#units(encoding), uint(line), uint(character));
  }

  /** The exact position of a byte offset in the open document of a URI, in the session's encoding or in this one. */
  position(uri, byteOffset, encoding) {
    const found = addon.positionAt(this.#end, utf8(uri), this.#units(encoding), byteOffsetOf(byteOffset));
    return found && { line: found[0], character: found[1] };
  }

  /** A position of the session's encoding in another one. In 'utf-16' its character is an index in `lineAt(uri, ..)`. */
  positionIn(uri, position, encoding) {
    const byteOffset = this.byteOffset(uri, position);
    return byteOffset === undefined ? undefined : this.position(uri, byteOffset, encoding);
  }

  /** The canonical batch of what text edits mean on the open document of a URI: the changes of the didChange that reports them. All
   * count in the text as it is, which stays. */
  batchOfEdits(uri, edits) {
    return addon.batchOfEditsAt(this.#end, utf8(uri), this.#units(), ...passedEdits(edits)).map(written);
  }

  /** The frame of the one canonical didChange that means the same as these changes of the open document of a URI, under a version
   * greater than its own. The document stays as it is. */
  canonicalMessage(uri, version, changes) {
    return addon.canonicalMessage(this.#end, utf8(uri), int(version), this.#units(), ...passed(changes));
  }
}

/** A server's end of a session, without input and output of its own. */
class Server extends End {
  constructor({ encoding = 'utf-16', isFixed = false, wholeTexts = false, lenient = false, ...limits } = {}) {
    const numbers = [...limitsOf(limits), unitsOf(encoding), isFixed ? 1 : 0, wholeTexts ? 1 : 0, lenient ? 1 : 0];
    super(addon.newServer(Uint32Array.from(numbers)), SERVER_KINDS, numbers[0]);
  }
}

/** A client's end of a session: it keeps an editor's documents, and each call returns the bytes to send. What it receives changes no
 * document: its own calls do. */
class Client extends End {
  #client;

  constructor({ utf8 = false, utf32 = false, lenient = false, ...limits } = {}) {
    const numbers = [...limitsOf(limits), utf8 ? 1 : 0, utf32 ? 1 : 0, lenient ? 1 : 0];
    const client = addon.newClient(Uint32Array.from(numbers));
    super(client, CLIENT_KINDS, numbers[0]);
    this.#client = client;
  }

  /** Begins the session: `initialize`. */
  start() {
    return addon.call(this.#client, 0);
  }

  /** Opens a document: `textDocument/didOpen`. */
  open(uri, languageId, version, text) {
    return addon.openAt(this.#client, utf8(uri), utf8(languageId), int(version), utf8(text));
  }

  /** Changes a document: one `textDocument/didChange`, with the canonical batch, or where the server asked for it the whole text. */
  edit(uri, version, changes) {
    return addon.edit(this.#client, utf8(uri), int(version), ...passed(changes));
  }

  /** Closes a document: `textDocument/didClose`. */
  close(uri) {
    return addon.closeAt(this.#client, utf8(uri));
  }

  /** Asks the server to shut down. */
  shutdown() {
    return addon.call(this.#client, 1);
  }

  /** Ends the session, once `shutdown` was answered. */
  exit() {
    return addon.call(this.#client, 2);
  }

  /** What the client does with the body of a message of the server. */
  deliver(body) {
    return this.handle(body);
  }
}

/** A fault of a log: its `code`, its byte `offset`, which of F1 to F7 a faulty `frame` has, else 0, and the `output` up to it. */
class LogFault extends Error {
  constructor({ code, offset, frame, output }) {
    super(`${WHY[WORDS[code]]} at ${offset}`);
    Object.assign(this, { name: 'LogFault', code: WORDS[code], offset, frame, output });
  }
}

/** What a command wrote; `records` has the objects of the lines of JSON that trace and replay write. */
class LogOutput {
  constructor({ output, status, messages, refused }) {
    Object.assign(this, { output, status, messages, refused });
  }

  get records() {
    return this.output.toString('utf8').split('\n').slice(0, -1).map((line) => JSON.parse(line));
  }
}

const COMMANDS = { check: 0, explain: 1, trace: 2, replay: 3, normalise: 4, convert: 5 };
// As the addon takes them after the encoding
const FLAGS = ['lenient', 'squash', 'documents', 'texts', 'bodies', 'has_uri', 'brief', 'all'];
let read; // the bytes of a log that isn't bytes

function run(command, log, { at = 0, uri, encoding = 'utf-16', ...options } = {}, has = [], saved = undefined) {
  const flags = { ...options, has_uri: uri !== undefined };
  const numbers = [...limitsOf(options, ['lenient', ...has]), unitsOf(encoding), ...FLAGS.map((it) => (flags[it] ? 1 : 0))];
  const given = [bytesOf(read(log)), Uint32Array.from(numbers), byteOffsetOf(at), utf8(uri ?? ''), saved];
  const ended = addon.log(COMMANDS[command], ...given);
  if (ended.code !== 0) throw new LogFault(ended);
  if (ended.missing !== 0) throw refusal(WORDS[ended.missing]);
  return new LogOutput(ended);
}

// The commands of lspsync on the bytes of a log. In Node a log is also the path of a file, or the number of one that is open. Options are
// lspsync's: encoding, maxBody, maxText, maxDocs, maxChanges, lenient.

/** What a server answers to each record of a log, a line for each; with `explain` why, and what is suspicious; with
 * `brief` only lines that have that, with `all` each note on its line. Both mean `explain` too. */
const check = (log, { explain = false, ...options } = {}) =>
  run(explain || options.brief || options.all ? 'explain' : 'check', log, options, ['brief', 'all']);

/** All that is known of each record of a log, a line of JSON for each, also with `texts` and `bodies`. */
const trace = (log, options) => run('trace', log, options, ['texts', 'bodies']);

/** The documents that are open at the end of a log, or after the record `at`, a line of JSON for each; with `uri` the text of one. */
const replay = (log, { at, ...options } = {}) => {
  if (at !== undefined && byteOffsetOf(at) < 1) throw refusal('OUT_OF_RANGE');
  return run('replay', log, { at, ...options });
};

/** Whether the last text of a document is `saved`, as its editor saved it, and else which message made each line that
 * differs. The document is the one whose URI ends as `uri`; without it as the path of `saved`, or else the only one. */
const compare = (log, saved, { uri = typeof saved === 'string' ? saved : undefined, ...options } = {}) =>
  run('compare', log, { uri, ...options }, [], bytesOf(read(saved)));

/** The log with each accepted change as its canonical message; with `squash` each run of changes of one document as one, with `documents`
 * without the records that are neither about the session nor about a text. */
const normalise = (log, options) => run('normalise', log, options, ['squash', 'documents']);

/** A log of version 1 in version 2, with the replies that a server gives. */
const convert = (log, options) => run('convert', log, options);

/** A log of what an editor or a server wrote by itself (log-from.js). */
const logFrom = (log, options) => {
  const made = madeFrom(bytesOf(read(log)), options);
  return { ...made, log: Buffer.from(made.log) };
};

/** What the package has, over an addon, and what reads a log that isn't bytes. There is one for all that is made of it. */
function over(its, reading = (log) => log) {
  [addon, read] = [its, reading];
  const texts = addon.texts().map((text) => text.split(': '));
  WORDS = texts.map(([name]) => name);
  WHY = Object.fromEntries(texts);
  const number = addon.version();
  const version = [10000, 100, 1].map((of) => Math.floor(number / of) % 100).join('.');
  return { version, WHY, TextDocument, Framer, Server, Client, FrameFault, LogFault, check, trace, replay, compare, normalise, convert, logFrom };
}

module.exports = { over, Buffer };
