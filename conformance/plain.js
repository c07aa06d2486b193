// Text synchronisation as LSP 3.17 says it, by lines that are kept, and mistakes that such a program makes: ask.py node plain.js [MISTAKE]
// plain.py looks at whole texts in characters; this is written apart from it, by JavaScript's strings, which are in UTF-16. `test` expects
// that each mistake is found by a named case, also where a position inside a character is taken for the next one, as most programs take it:
// with a mistake this one does so. `node plain.js --mistakes` prints them all.
'use strict';
const readline = require('readline');

const MISTAKES = {
  'surrogates-apart': 'in UTF-8 the two surrogates of a character count three bytes each',
  'always-utf-16': 'UTF-16 units are counted, whatever was negotiated',
  'private-use': 'U+E000 to U+FFFF count two units',
  'columns': 'wide characters count two',
  'tab-stops': 'a tab counts up to the next stop',
  'marks': 'a combining mark counts nothing',
  'javascript-lines': 'U+2028 and U+2029 end lines, as in a regular expression of JavaScript',
  'lf-lines': 'a CR alone ends no line',
  'each-end': 'a CR and an LF after it end two lines',
  'no-empty-line': 'the empty line after the last line end is missing',
  'end-in-line': 'a character past the line\'s end is after the line end',
  'cr-in-line': 'a character past the end of a CRLF line is before the LF',
  'run-on': 'a character past the line\'s end is one of the next line',
  'end-of-lines': 'the end of a range over lines isn\'t clamped to its line\'s end, but to the start of the next line',
  'last-line-refused': 'a character past the end of the last line is refused',
  'lines-apart': 'a CR and an LF that meet stay two line ends',
  'line-end-of-document': 'inserted line ends become those of the first line',
  'trim-end': 'blanks at the end of an inserted text are dropped',
  'dollar': 'an inserted text is a template of String.replace',
  'unescape': 'escapes in a text are read twice',
  'text-decoder': 'a text goes through a TextDecoder, which drops a byte order mark',
  'composed': 'texts are normalised to NFC',
  'noncharacters': 'noncharacters become U+FFFD',
  'trim-document': 'line ends at the end of a text are dropped',
  'falsy-text': 'a change with an empty text is left out',
  'falsy-start': 'a range that starts at 0, 0 is none: the text is the whole one',
  'no-twins': 'a change that is like another of its message is left out',
  'sorted-changes': 'the changes of a message are sorted from the last to the first',
  'whole-ends': 'what comes after a whole text is left out',
  'lines-of-before': 'all changes find their lines in the text before the message',
  'default-sort': 'text edits are sorted by Array.sort, which compares words',
  'by-character': 'text edits are sorted by characters, then by lines',
  'by-end': 'text edits are sorted by their ends',
  'unclamped': 'text edits are sorted, and compared, by the numbers that came',
  'reversed-ties': 'insertions at one place come in the reverse order',
  'one-a-line': 'two text edits of a line are refused as overlapping',
  'like-changes': 'text edits are applied one after the other',
  'falsy-version': 'the version 0 of a change counts as missing',
  'falsy-open': 'the version 0 of an opened document becomes 1',
  'words': 'versions are compared as words',
  'without-sign': 'versions are compared by >>> 0',
  'next-version': 'a version must be the next one',
  'wraps': 'versions are counted in a number that wraps at the greatest one',
  'empty-message': 'a message without changes is left out',
  'remembers': 'the version of a closed document stays the least one',
  'closes-all': 'closing a document closes all',
  'last-opened': 'a change is one of the document that was opened last',
  'file-paths': 'a document is known by the path of its URI',
  'string-length': 'Content-Length counts UTF-16 units of the body',
  'chunk-texts': 'each chunk is decoded by itself',
  'chunk-is-frame': 'a chunk is one frame',
  'forgets-chunk': 'what a chunk has of an unfinished frame is dropped',
  'one-more-chunk': 'a body is whole with the next chunk',
  'length-first': 'the header begins with Content-Length',
  'exact-names': 'names of header fields are compared with their case',
  'loose-names': 'the length is the first number after Content-Length in the header',
  'last-empty-line': 'the body is after the last empty line that was read',
  'trimmed': 'the body is trimmed',
};

const mistake = process.argv[2];
const is = (name) => mistake === name;

class Refused extends Error {}

// Units

function width(character, encoding, column = 0) {
  if (is('always-utf-16')) encoding = 'utf-16';
  if (is('marks') && /\p{M}/u.test(character)) return 0;
  if (is('tab-stops') && character === '\t') return 4 - (column % 4);
  if (is('columns') && /[\u1100-\u115f\u2e80-\uffdc]/.test(character)) return 2;
  if (encoding === 'utf-32') return 1;
  if (encoding === 'utf-8') return is('surrogates-apart') && character.length === 2 ? 6 : Buffer.byteLength(character);
  return is('private-use') && character >= '\ue000' && character <= '\uffff' && character.length === 1 ? 2 : character.length;
}

/** The index of a character of a line, or of its end. */
function indexIn(line, character, encoding) {
  let index = 0;
  let units = 0;
  for (const letter of line) {
    if (units >= character) break;
    units += width(letter, encoding, units);
    index += letter.length;
  }
  if (units > character && !mistake) throw new Refused('inside-character');
  if (units < character && is('last-line-refused') && !/[\r\n]$/.test(line)) throw new Refused('past-the-end');
  return index;
}

// Lines, each with its line end; the last one has none

function linesOf(text) {
  const ends = { 'javascript-lines': /(?<=\r\n|\r(?!\n)|[\n\u2028\u2029])/, 'lf-lines': /(?<=\n)/, 'each-end': /(?<=[\r\n])/ };
  const lines = text.split(ends[mistake] || /(?<=\r\n|\r(?!\n)|\n)/);
  const last = lines[lines.length - 1];
  const isEnded = /[\r\n]$/.test(last) || (is('javascript-lines') && /[\u2028\u2029]$/.test(last));
  return isEnded && !(is('lf-lines') && last.endsWith('\r')) ? [...lines, ''] : lines;
}

/** What counts of a line for characters past its end. */
function content(line) {
  if (is('end-in-line')) return line;
  if (is('cr-in-line')) return line.replace(/\n$|\r$/, '');
  if (is('lf-lines')) return line.replace(/\r?\n$/, '');
  return line.replace(is('javascript-lines') ? /\r\n$|[\r\n\u2028\u2029]$/ : /\r\n$|[\r\n]$/, '');
}

class Text {
  constructor(text) {
    this.lines = linesOf(stored(text));
  }

  toString() {
    return this.lines.join('');
  }

  /** The line and the index in it of a position; the end of the text where there is no such line. */
  place({ line, character }, encoding) {
    const isUinteger = (number) => Number.isInteger(number) && number >= 0 && number < 2 ** 32;
    if (!isUinteger(line) || !isUinteger(character)) throw new Refused('invalid-params');
    const last = this.lines.length - 1;
    if (line > last || (is('no-empty-line') && line === last && line > 0 && this.lines[last] === '')) {
      return is('no-empty-line') && line === last ? { line: last - 1, index: content(this.lines[last - 1]).length } : { line: last, index: this.lines[last].length };
    }
    let own = content(this.lines[line]);
    if (is('run-on')) own = this.lines.slice(line).join('');
    let index = indexIn(own, character, encoding);
    while (is('run-on') && index > this.lines[line].length) index -= this.lines[line++].length;
    return { line, index };
  }

  range({ start, end }, encoding) {
    const places = [this.place(start, encoding), this.place(end, encoding)];
    const own = this.lines[end.line] || '';
    if (is('end-of-lines') && end.line > start.line && end.character > own.length) places[1].index = own.length;
    if (isBefore(places[1], places[0])) throw new Refused('reversed-range');
    return places;
  }

  /** Puts a text in place of a range. The lines beside it are cut anew, since a CR and an LF may meet there. */
  replace([start, end], text) {
    const by = is('lines-apart') ? 0 : 1;
    const first = Math.max(0, start.line - by);
    const last = Math.min(this.lines.length - 1, end.line + by);
    const before = this.lines.slice(first, start.line).join('') + this.lines[start.line].slice(0, start.index);
    const after = this.lines[end.line].slice(end.index) + this.lines.slice(end.line + 1, last + 1).join('');
    const between = last === this.lines.length - 1 ? linesOf(before + text + after) : linesOf(before + text + after).slice(0, -1);
    this.lines.splice(first, last - first + 1, ...between);
  }
}

function isBefore(a, b) {
  return a.line < b.line || (a.line === b.line && a.index < b.index);
}

/** A text as the program keeps it. */
function stored(text) {
  if (is('text-decoder')) return new TextDecoder().decode(Buffer.from(text));
  if (is('composed')) return text.normalize('NFC');
  if (is('noncharacters')) return text.replace(/[\ufdd0-\ufdef\ufffe\uffff]/g, '\ufffd');
  if (is('trim-document')) return text.replace(/[\r\n]+$/, '\n');
  if (is('unescape')) return text.replace(/\\u([0-9a-f]{4})/gi, (_, code) => String.fromCharCode(parseInt(code, 16)));
  return text;
}

/** An inserted text as the program takes it. */
function inserted(text, document) {
  const end = /\r\n|\r|\n/.exec(document);
  if (is('line-end-of-document') && end) return text.replace(/\r\n|\r|\n/g, end[0]);
  if (is('trim-end')) return text.replace(/[ \t]+$/, '');
  if (is('dollar')) return 'x'.replace('x', text);
  return stored(text);
}

// Changes and text edits

function sortedChanges(changes) {
  const start = ({ range }) => (range ? [range.start.line, range.start.character] : [0, 0]);
  return [...changes].sort((a, b) => start(b)[0] - start(a)[0] || start(b)[1] - start(a)[1]);
}

function chosen(changes) {
  if (is('falsy-text')) return changes.filter(({ text }) => text);
  if (is('no-twins')) return changes.filter((it, at) => !changes.slice(0, at).some((other) => JSON.stringify(other) === JSON.stringify(it)));
  if (is('sorted-changes')) return sortedChanges(changes);
  const whole = changes.findIndex(({ range }) => !range);
  return is('whole-ends') && whole >= 0 ? changes.slice(0, whole + 1) : changes;
}

function checkNumbers(changes) {
  for (const { range } of changes) if (range) new Text('').range({ start: range.start, end: range.start }, 'utf-32') && new Text('').place(range.end, 'utf-32');
}

function checkVersion(version) {
  if (!Number.isInteger(version) || version < -(2 ** 31) || version >= 2 ** 31) throw new Refused('invalid-params');
}

/** The text that the changes of a message leave. */
function changed(text, changes, encoding) {
  if (!is('last-line-refused')) checkNumbers(changes);
  let document = new Text(text);
  const old = new Text(text);
  for (const { range, text: bare } of chosen(changes)) {
    const isWhole = !range || (is('falsy-start') && !range.start.line && !range.start.character);
    if (isWhole) document = new Text(bare);
    else document.replace((is('lines-of-before') ? old : document).range(range, encoding), inserted(bare, String(document)));
  }
  return String(document);
}

const byWords = (a, b) => (`${a.start.line},${a.start.index}` < `${b.start.line},${b.start.index}` ? -1 : 1);
const byEnd = (a, b) => a.end.line - b.end.line || a.end.index - b.end.index;
const byNumbers = (edits) => (a, b) => {
  const [one, other] = [a, b].map(({ number }) => edits[number].range.start);
  return one.line - other.line || one.character - other.character;
};
const byCharacter = (a, b) => a.start.index - b.start.index || a.start.line - b.start.line;
const byPlace = (a, b) => a.start.line - b.start.line || a.start.index - b.start.index || (is('reversed-ties') ? b.number - a.number : a.number - b.number);

/** The text that text edits leave, which all count in the text before them. */
function edited(text, edits, encoding) {
  if (is('like-changes')) return changed(text, edits.map(({ range, newText }) => ({ range, text: newText })), encoding);
  if (!is('last-line-refused')) checkNumbers(edits);
  const document = new Text(text);
  const placed = edits.map(({ range, newText }, number) => {
    const [start, end] = document.range(range, encoding);
    return { start, end, number, text: newText };
  });
  placed.sort({ 'default-sort': byWords, 'by-character': byCharacter, 'by-end': byEnd, unclamped: byNumbers(edits) }[mistake] || byPlace);
  placed.forEach((edit, at) => {
    const next = placed[at + 1];
    if (next && (isBefore(next.start, edit.end) || (is('one-a-line') && next.start.line === edit.end.line))) throw new Refused('overlap');
  });
  for (const { start, end, text: put } of placed.reverse()) document.replace([start, end], put);
  return String(document);
}

// Sessions

class Session {
  constructor(encoding) {
    this.encoding = encoding;
    this.documents = new Map();
    this.closed = new Map();
  }

  /** Handles a message, and returns the word for it. */
  handle({ method, params }) {
    const { textDocument } = params;
    const uri = is('file-paths') ? textDocument.uri.replace(/^[a-z]+:\/+/, 'file:///').replace(/[?#].*/, '') : textDocument.uri;
    const handlers = { 'textDocument/didOpen': this.open, 'textDocument/didChange': this.change, 'textDocument/didClose': this.close };
    try {
      handlers[method].call(this, { ...textDocument, uri }, params);
      return 'changed';
    } catch (fault) {
      if (fault instanceof Refused) return fault.message;
      throw fault;
    }
  }

  open({ uri, version, text }) {
    checkVersion(version);
    if (this.documents.has(uri)) throw new Refused('already-open');
    if (is('remembers') && version <= this.closed.get(uri)) throw new Refused('stale-version');
    this.documents.set(uri, { version: is('falsy-open') ? version || 1 : version, text: stored(text) });
    this.last = uri;
  }

  change({ uri, version }, { contentChanges }) {
    checkVersion(version);
    checkNumbers(contentChanges);
    const document = this.documents.get(is('last-opened') ? this.last : uri);
    if (!document) throw new Refused('not-open');
    if (is('falsy-version')) version = version || document.version + 0.5;
    if (is('empty-message') && contentChanges.length === 0) return;
    if (this.isStale(version, document.version)) throw new Refused('stale-version');
    document.text = changed(document.text, contentChanges, this.encoding);
    document.version = is('falsy-version') ? Math.floor(version) : version;
  }

  isStale(version, current) {
    if (is('words')) return String(version) <= String(current);
    if (is('without-sign')) return version >>> 0 <= current >>> 0;
    if (is('next-version')) return version !== current + 1;
    if (is('wraps')) return version % (2 ** 31 - 1) <= current % (2 ** 31 - 1);
    return version <= current;
  }

  close({ uri }) {
    if (!this.documents.has(uri)) throw new Refused('not-open');
    this.closed.set(uri, this.documents.get(uri).version);
    if (is('closes-all')) this.documents.clear();
    else this.documents.delete(uri);
  }
}

function session(encoding, messages) {
  const server = new Session(encoding);
  const answers = messages.map((message) => server.handle(message));
  return { answers, documents: [...server.documents].map(([uri, { version, text }]) => ({ uri, version, text })) };
}

// Frames

const EMPTY_LINE = '\r\n\r\n';

/** The length that a header gives; undefined where it is none. */
function lengthIn(header) {
  const loose = /content-length:? *(\d+)/i.exec(header);
  if (is('loose-names')) return loose ? Number(loose[1]) : undefined;
  if (is('length-first') && !/^content-length:/i.test(header)) return undefined;
  const fields = header.split('\r\n').map((line) => /^([!#-'*+\-.0-9A-Z^-z|~]+):[ \t]*(.*?)[ \t]*$/.exec(line));
  if (fields.includes(null)) return undefined;
  const all = (name) => fields.filter(([, own]) => own === name || (!is('exact-names') && own.toLowerCase() === name.toLowerCase())).map(([, , value]) => value);
  const lengths = all('Content-Length');
  const types = all('Content-Type');
  const charset = /charset="?([^";]*)/i.exec(types[0] || '');
  if (charset && !/^utf-?8$/i.test(charset[1])) return undefined;
  const isLength = lengths.length === 1 && types.length < 2 && /^\d+$/.test(lengths[0]) && Number(lengths[0]) <= 2 ** 24;
  return isLength ? Number(lengths[0]) : undefined;
}

class Frames {
  constructor() {
    this.buffer = Buffer.alloc(0);
    this.bodies = [];
    this.waited = false; // for the rest of a body
  }

  /** Takes a chunk of the stream. */
  receive(chunk) {
    if (is('chunk-texts')) chunk = Buffer.from(chunk.toString());
    this.buffer = Buffer.concat([this.buffer, chunk]);
    while (this.takeFrame() && !is('chunk-is-frame'));
    if (is('forgets-chunk') || is('chunk-is-frame')) this.buffer = Buffer.alloc(0);
  }

  /** Takes the first frame, if it is whole. */
  takeFrame() {
    const end = is('last-empty-line') ? this.buffer.lastIndexOf(EMPTY_LINE) : this.buffer.indexOf(EMPTY_LINE);
    const length = end < 0 || end + EMPTY_LINE.length > 8192 ? undefined : lengthIn(this.buffer.toString('latin1', 0, end));
    if (length === undefined) return false;
    const rest = this.buffer.subarray(end + EMPTY_LINE.length);
    const bytes = is('string-length') ? Buffer.byteLength(rest.toString().slice(0, length)) : length;
    const isWhole = rest.length >= bytes || (is('one-more-chunk') && this.waited);
    this.waited = !isWhole;
    if (!isWhole) return false;
    const body = rest.toString('latin1', 0, bytes);
    this.bodies.push(is('trimmed') ? body.trim() : body);
    this.buffer = rest.subarray(bytes);
    return true;
  }
}

function frames(pieces) {
  const found = new Frames();
  for (const piece of pieces) found.receive(Buffer.from(piece, 'latin1'));
  return { bodies: found.bodies };
}

// Vectors

function answer({ encoding, text, changes, edits, messages, pieces }) {
  try {
    if (messages) return session(encoding, messages);
    if (pieces) return frames(pieces);
    return { text: edits ? edited(text, edits, encoding) : changed(text, changes, encoding) };
  } catch (fault) {
    if (fault instanceof Refused) return { refused: fault.message };
    throw fault;
  }
}

if (is('--mistakes')) {
  for (const [name, about] of Object.entries(MISTAKES)) console.log(`${name} ${about}`);
} else {
  readline.createInterface({ input: process.stdin }).on('line', (line) => console.log(JSON.stringify(answer(JSON.parse(line)))));
}
