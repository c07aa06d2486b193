'use strict';
// Makes a log of a session (docs/LOGS.md) of what an editor or a server wrote by itself, in Node and in the page of viewer/. The forms are those of
// bin/log_forms.py, and so is what is made: bin/test compares them. All text here is a string of bytes, one in each character, so that what isn't
// UTF-8 comes out as it went in; a character over 255 is half a character, for which only an escape was there.

const EDITOR = '>', SERVER = '<', CHANGE = 'textDocument/didChange', DOCUMENTS = ['textDocument/didOpen', CHANGE, 'textDocument/didClose'];
const LUA_DIGITS = 14; // the decimal digits that a number keeps in Lua's print

const fault = (words, code = 'BAD_LOG') => Object.assign(new Error(words), { code });
const faultAt = (line, words) => fault(`line ${line}: ${words}`);

// What `\s` is in Python, for bytes
const BLANK = ' \\t\\n\\r\\f\\v';
/** A pattern that is searched. Its `^` is the start of each line, which a line feed alone ends. */
const byLine = (...parts) => new RegExp(String.raw(...parts).replace(/(^|[^[])\^/g, '$1(?<=^|\\n)'), 'g');
const searching = (text, found, at = 0) => Object.assign(found, { lastIndex: at }).exec(text);

// Bytes, text, and JSON

/** Bytes as a string of them. */
function textOf(bytes) {
  const parts = [];
  for (let at = 0; at < bytes.length; at += 32768) parts.push(String.fromCharCode.apply(null, bytes.subarray(at, at + 32768)));
  return parts.join('');
}

const bytesOf = (text) => new Uint8Array(text.length).map((_, at) => text.charCodeAt(at));
const decoded = (text) => new TextDecoder().decode(bytesOf(text));

/** The bytes of a character; half a character stays as it is. */
function characterOf(code) {
  if (code > 0x10ffff) throw fault('there is no such character');
  return code >= 0xd800 && code < 0xe000 ? String.fromCharCode(code) : textOf(new TextEncoder().encode(String.fromCodePoint(code)));
}

const quoted = (text) => JSON.stringify(text).replace(/[\ud800-\udfff]/g, (half) => `\\u${half.charCodeAt(0).toString(16)}`);

/** A float as Python writes it. */
function floatOf(number) {
  if (!Number.isFinite(number)) throw fault('JSON has no such value');
  const [, lead, rest = '', power] = /^-?(\d)(?:\.(\d+))?e([-+]\d+)$/.exec(number.toExponential()), exponent = Number(power);
  const sign = number < 0 || Object.is(number, -0) ? '-' : '', digits = lead + rest;
  if (exponent < -4 || exponent >= 16) return `${sign}${lead}${rest && `.${rest}`}e${power[0]}${power.slice(1).padStart(2, '0')}`;
  if (exponent < 0) return `${sign}0.${'0'.repeat(-exponent - 1)}${digits}`;
  return `${sign}${digits.slice(0, exponent + 1).padEnd(exponent + 1, '0')}.${digits.slice(exponent + 1) || '0'}`;
}

/** The JSON of a value that a reader below made: objects are maps, integers BigInts, and floats numbers. */
function jsonOf(value) {
  if (value instanceof Map) return `{${[...value].map(([name, it]) => `${quoted(name)}:${jsonOf(it)}`).join(',')}}`;
  if (Array.isArray(value)) return `[${value.map(jsonOf).join(',')}]`;
  if (typeof value === 'string') return quoted(value);
  return typeof value === 'number' ? floatOf(value) : String(value);
}

const isObject = (value) => value !== null && typeof value === 'object' && !Array.isArray(value);

/** The offset after a quoted string that begins at an offset; -1 where it doesn't end. */
function stringEnd(text, at) {
  for (let end = at; ;) {
    end = text.indexOf(text[at], end + 1);
    if (end < 0) return -1;
    let before = end;
    while (text[before - 1] === '\\') before--;
    if ((end - before) % 2 === 0) return end + 1;
  }
}

const SCALAR = /-?(?:0|[1-9]\d*)(?:\.\d+)?(?:[eE][-+]?\d+)?|true|false|null/y, MARK = /["[\]{}]/g;

/** The offset after the JSON value that begins at an offset; -1 where there is none. */
function valueEnd(text, at) {
  if (text[at] === '"') return stringEnd(text, at);
  if (text[at] !== '{' && text[at] !== '[') return searching(text, SCALAR, at) ? SCALAR.lastIndex : -1;
  for (let depth = 0, end = at; ;) {
    const mark = searching(text, MARK, end);
    if (!mark) return -1;
    end = mark[0] === '"' ? stringEnd(text, mark.index) : mark.index + 1;
    if (end < 0) return -1;
    if (mark[0] !== '"') depth += '{['.includes(mark[0]) ? 1 : -1;
    if (depth === 0) return end;
  }
}

/** The JSON value at an offset, its text, and the offset after it. */
function jsonAt(text, at, line) {
  const end = valueEnd(text, at), body = text.slice(at, end);
  try {
    if (end >= 0) return { value: JSON.parse(body), body, end };
  } catch { /* (it's said below) */ }
  throw faultAt(line, "the message isn't whole");
}

const BLANKS = /[ \t\r\n]*/y;
const skipBlanks = (text, at) => at + searching(text, BLANKS, at)[0].length;

/** The text of each of an object's members, as it is there, by its name. */
function membersOf(body) {
  const members = new Map();
  for (let at = skipBlanks(body, body.indexOf('{') + 1); body[at] !== '}';) {
    const end = stringEnd(body, at), start = skipBlanks(body, skipBlanks(body, end) + 1), after = valueEnd(body, start);
    members.set(JSON.parse(body.slice(at, end)), body.slice(start, after));
    at = skipBlanks(body, after);
    if (body[at] === ',') at = skipBlanks(body, at + 1);
  }
  return members;
}

/** A message: who sent it, the line that it begins in, its value and its JSON. `stream` names the server where lines do. */
class Message {
  constructor(line, sender, value, body, stream) {
    const { method, id, params } = value;
    Object.assign(this, { line, sender, body, stream, hasId: id !== undefined, id: id ?? null, hasVersion: value.jsonrpc !== undefined });
    this.method = typeof method === 'string' ? method : undefined;
    this.uri = isObject(params) && isObject(params.textDocument) ? params.textDocument.uri ?? null : null;
    this.root = this.method === 'initialize' && isObject(params) && typeof params.rootUri === 'string' ? params.rootUri : '';
  }
}

/** What stands for the end of all that wrote into a log. */
const ended = (line) => new Message(line, undefined, {}, '');

/** The message whose JSON is at an offset. */
function messageAt(text, at, line, sender, stream) {
  const { value, body } = jsonAt(text, at, line);
  if (!isObject(value)) throw faultAt(line, 'the message is no JSON object');
  return new Message(line, sender, value, body, stream);
}

/** A message whose JSON isn't in the log, of what a reader made. */
function written(line, sender, value) {
  try {
    const body = jsonOf(value);
    return new Message(line, sender, JSON.parse(body), body);
  } catch (error) {
    throw faultAt(line, error.code ? error.message : 'it nests too deep');
  }
}

/** A message with `jsonrpc`, and with the null that a reply without a result and an error had. */
const withVersion = (value) => {
  const whole = new Map([['jsonrpc', '2.0'], ...value]);
  return ['method', 'error', 'result'].some((it) => whole.has(it)) ? whole : whole.set('result', null);
};

// What Lua, Lisp and Python print

/** Reads values from a text at an offset: what the readers of all languages share. */
class Reader {
  static quotes = /["']/;

  constructor(text, at, line) {
    Object.assign(this, { text, line, at });
    this.take(/[ \t\r\n\f]*/y);
  }

  fault(words) {
    return faultAt(this.line, `the message can't be read: ${words} before ${JSON.stringify(decoded(this.text.slice(this.at, this.at + 20)))}`);
  }

  /** Takes what matches here, with the blanks after it, and returns the match, or null. */
  take(found) {
    const match = searching(this.text, found, this.at);
    if (match) this.at = found.lastIndex;
    for (; match && ' \t\r\n\f'.includes(this.text[this.at] ?? '.'); this.at++);
    return match;
  }

  /** Takes a value: a string, of which `string` is passed what its quotes hold, or what `other` takes. */
  value(name) {
    const start = this.at, end = this.constructor.quotes.test(this.text[start]) ? stringEnd(this.text, start) : -1;
    if (end < 0) return this.other(name);
    this.at = end;
    this.take(/(?:)/y);
    return this.string(this.text.slice(start + 1, end - 1));
  }

  key() {
    const key = this.value();
    return typeof key === 'string' ? key : jsonOf(key);
  }

  /** Has `read` read what comes up to a mark, and returns the values that it puts it into. */
  until(close, values, read) {
    while (!this.take(close)) read(values);
    return values;
  }

  message() {
    try {
      const value = this.value();
      if (value instanceof Map) return withVersion(value);
    } catch (error) {
      if (error instanceof RangeError) throw faultAt(this.line, 'it nests too deep');
      throw error.message.startsWith('line ') ? error : this.fault(error.message);
    }
    throw faultAt(this.line, 'this is no message');
  }
}

const LETTERS = { a: '\x07', b: '\b', f: '\f', n: '\n', r: '\r', t: '\t', v: '\v' };

/** Reads what Neovim's vim.inspect prints. */
class Lua extends Reader {
  tables = new Map();
  isRounded = false;

  other(name) {
    const number = this.take(/-?\d+(?:\.\d+)?(?:e[-+]?\d+)?/y);
    if (number) return this.number(number[0]);
    const word = this.take(/vim\.empty_dict\(\)|vim\.NIL|true|false|nil/y), again = !word && this.take(/<table (\d+)>/y);
    if (word) return { 'vim.empty_dict()': new Map(), true: true, false: false }[word[0]] ?? null;
    if (again) return this.tables.get(again[1]) ?? null;
    const opened = this.take(/(?:<(\d+)>)?\{/y);
    if (!opened) throw this.fault('no value');
    const table = this.table(name);
    this.tables.set(opened[1], table);
    return table;
  }

  string(text) {
    return text.replace(/\\(?:(\d{1,3})|x([0-9A-Fa-f]{2})|u\{([0-9A-Fa-f]+)\}|([^]))/g, (_, decimal, hexadecimal, point, letter) => {
      if (letter !== undefined) return LETTERS[letter] ?? letter;
      return point ? characterOf(parseInt(point, 16)) : String.fromCharCode((decimal ? Number(decimal) : parseInt(hexadecimal, 16)) & 255);
    });
  }

  number(text) {
    if (/^-?\d+$/.test(text)) return BigInt(text);
    const number = Number(text);
    this.isRounded ||= Math.abs(number) >= 10 ** LUA_DIGITS;
    return Number.isInteger(number) && Math.abs(number) < 2 ** 63 ? BigInt(number) : number;
  }

  table(name) {
    const items = [], members = new Map();
    while (!this.take(/\}/y)) {
      const named = this.take(/([A-Za-z_]\w*)[ \t\n\r\f\v]*=(?!=)/y);
      if (named) members.set(named[1], this.value(named[1]));
      else if (this.take(/\[/y)) {
        const key = this.key();
        if (!this.take(/\][ \t\n\r\f\v]*=/y)) throw this.fault('no key');
        members.set(key, this.value(key));
      } else items.push(this.value());
      if (!this.take(/,/y) && this.text[this.at] !== '}') throw this.fault('no comma');
    }
    if (items.length && members.size) throw this.fault('a table with keys and without');
    return members.size || (!items.length && ['params', 'capabilities', 'result'].includes(name)) ? members : items;
  }
}

const ATOM = /[^\][ \t\n\r\f\v()"';#]+/y;
const LISP_LETTERS = { ...LETTERS, d: '\x7f', e: '\x1b', '\n': '', ' ': '' };
const LISP_WORDS = { nil: null, t: true, ':json-false': false, ':json-null': null, ':null': null, ':false': false };

/** Reads the property lists that Emacs prints. */
class Lisp extends Reader {
  static quotes = /"/;

  other(name) {
    if (this.take(/#s\(hash-table\b[^()]*?(?:\bdata[ \t\n\r\f\v]*)?(?=[()])/y)) return this.hashTable();
    if (this.take(/\(/y)) return this.object();
    return this.take(/\[/y) ? this.until(/\]/y, [], (items) => items.push(this.value())) : this.atom(name);
  }

  string(text) {
    const escape = /\\(?:([0-7]{1,3})|x([0-9A-Fa-f]+)|u([0-9A-Fa-f]{4})|U([0-9A-Fa-f]{8})|\^([^])|([^]))/g;
    return text.replace(escape, (_, octal, hexadecimal, short, long, control, letter) => {
      if (control !== undefined) return String.fromCharCode(control.charCodeAt(0) & 31);
      if (letter !== undefined) return LISP_LETTERS[letter] ?? letter;
      const code = octal ? parseInt(octal, 8) : parseInt(hexadecimal ?? short ?? long, 16);
      return octal && code < 256 ? String.fromCharCode(code) : characterOf(code);
    });
  }

  atom(name) {
    const found = this.take(ATOM);
    if (!found) throw this.fault('no value');
    const [word] = found;
    if (Object.hasOwn(LISP_WORDS, word)) return word === 'nil' && name === 'capabilities' ? new Map() : LISP_WORDS[word];
    if (/^[-+]?\d+\.?$/.test(word)) return BigInt(word.replace('.', ''));
    if (/^[-+]?(?:\d*\.\d+(?:e[-+]?\d+)?|\d+e[-+]?\d+)$/.test(word)) return Number(word);
    throw this.fault(`Emacs cut the message off (...), or '${word}' is no value,`);
  }

  object() {
    return this.until(/\)/y, new Map(), (members) => {
      const key = this.take(ATOM)?.[0];
      if (key?.[0] !== ':') throw this.fault('no key');
      const name = key.slice(1), value = this.value(name);
      if (!members.has(name)) members.set(name, value);
    });
  }

  hashTable() {
    const members = new Map(), read = () => {
      const key = this.key();
      members.set(key, this.value(key));
    };
    if (this.take(/\(/y)) this.until(/\)/y, members, read);
    if (!this.take(/\)/y)) throw this.fault('no end of a hash table');
    return members;
  }
}

const PYTHON_LETTERS = { ...LETTERS, '\n': '', '\\': '\\', "'": "'", '"': '"' };

/** Reads the dictionaries that Python prints. */
class Python extends Reader {
  other() {
    const number = this.take(/-?\d+(\.\d*)?(e[-+]?\d+)?/y), word = !number && this.take(/True|False|None/y);
    if (number) return number[1] ?? number[2] ? Number(number[0]) : BigInt(number[0]);
    if (word) return { True: true, False: false }[word[0]] ?? null;
    if (this.take(/\[/y)) return this.until(/\]/y, [], (items) => items.push(this.item()));
    if (!this.take(/\{/y)) throw this.fault('no value');
    return this.until(/\}/y, new Map(), (members) => {
      const key = this.key();
      if (!this.take(/:/y)) throw this.fault('no key');
      members.set(key, this.item());
    });
  }

  item() {
    const value = this.value();
    if (!this.take(/,/y) && !']}'.includes(this.text[this.at] ?? ' ')) throw this.fault('no comma');
    return value;
  }

  string(text) {
    const escape = /\\(?:([0-7]{1,3})|x([0-9A-Fa-f]{2})|u([0-9A-Fa-f]{4})|U([0-9A-Fa-f]{8})|([^]))/g;
    return text.replace(escape, (whole, octal, hexadecimal, short, long, letter) => letter !== undefined ? PYTHON_LETTERS[letter] ?? whole
      : characterOf(octal ? parseInt(octal, 8) : parseInt(hexadecimal ?? short ?? long, 16)));
  }
}

// The forms: `begins` finds the first line of one, `remedy` says how it comes to have messages, and `doubts` what can't be known of them.

class Form {
  /** The messages of a text: what `read` makes of each place that `head` finds. It may return the offset from which to search on. */
  * messages(text) {
    const head = this.headIn?.(text) ?? this.constructor.head;
    for (let at = 0, line = 1, last = -1, found; (found = searching(text, head, at));) {
      for (let feed; (feed = text.indexOf('\n', last + 1)) >= 0 && feed < found.index; last = feed) line++;
      const end = found.index + found[0].length;
      at = (yield* this.read(found, line, end, text)) ?? end;
    }
    this.leave?.();
  }
}

class Neovim extends Form {
  static title = "Neovim's lsp.log, in ~/.local/state/nvim or ~/.cache/nvim";
  static remedy = "it has them after vim.lsp.set_log_level('debug')";
  static begins = byLine`^\[(?:START|TRACE|DEBUG|INFO|WARN|ERROR)\]\[\d{4}-\d\d-\d\d \d\d:\d\d:\d\d\]`;
  static head = byLine`^\[(?:(START)|[A-Z]+)\]\[[^\]\n]*\](?: [^${BLANK}]+\t"rpc\.(send|receive)"\t)?`;

  * read([, start, way], line, end, text) {
    if (start) yield ended(line);
    if (!way) return;
    const reader = new Lua(text, end, line);
    yield written(line, way === 'send' ? EDITOR : SERVER, reader.message());
    this.isRounded ||= reader.isRounded;
  }

  * doubts(messages) {
    if (this.isRounded) yield `numbers of more than ${LUA_DIGITS} digits were rounded by Lua`;
    if (messages.some(({ sender, body }) => sender === SERVER && body.includes('[]'))) {
      yield "in the server's messages [] may have been {}: Neovim may print both alike";
    }
  }
}

class Eglot extends Form {
  static title = "eglot's events (M-x eglot-events-buffer)";
  static remedy = 'the :format of eglot-events-buffer-config has to be full or lisp';
  static begins = byLine`^\[(?:client|server)-(?:request|notification|reply)\] |^\[internal\] |^\[jsonrpc\] `;
  static head = byLine`^\[(client|server)-(?:request|notification|reply)\](?: \(id:[^)\n]*\))?[^\n]*:\n|${
    ''}^\[jsonrpc\] e\[[\d:.]+\] +(-->|<--) [^${BLANK}\[]*(?:\[[^\]\n]*\])?[^\n{]*`;

  * read([, end, arrow], line, at, text) {
    const sender = (end ?? arrow) === 'client' || arrow === '-->' ? EDITOR : SERVER, message = text[at] === '{' && messageAt(text, at, line, sender);
    if (message) yield message;
    if (message) return at + message.body.length;
    const reader = new Lisp(text, at, line);
    if ([undefined, '['].includes(text[reader.at])) throw faultAt(line, `the message isn't in it: ${Eglot.remedy}`); // (`short`)
    yield written(line, sender, reader.message());
    return reader.at;
  }

  * doubts(messages) {
    if (messages.some(({ sender, body }) => sender === SERVER && body.replaceAll('"result":null', '').includes(':null'))) {
      yield "in the server's messages null may have been {}: Emacs prints both as nil";
    }
  }
}

// What newer channels of VS Code put before a line: a time and a level. The newest have `trace` as the level, and nothing else.
const TIME = String.raw`\d{4}-\d\d-\d\d \d\d:\d\d:\d\d\.\d{3}`, STAMP = String.raw`^(?:${TIME} \[\w+\] )?`;
const NEWEST = String.raw`${TIME} \[trace\]`, TRACE = String.raw`(?:${STAMP}\[Trace - [^\]\n]*\]|^${NEWEST}) `;

class Trace extends Form {
  static title = 'a trace in words, of lsp-mode, gopls (-rpc.trace) or VS Code ("verbose")';
  static remedy = 'it has them with "verbose", not with "messages"';
  static begins = byLine`${TRACE}(?:Sending|Received) (?:request|notification|response) `;
  // (gopls' failed replies have the way where the time is, and the time after it)
  static head = byLine`${TRACE}(Sending|Received) (request|notification|response) '([^'\n]*?)(?: - \(([^\n]*?)\))?'?(?:\.| in )${
    ''}([^\n]*?)(?:\n|$| (?=(?:Params|Result|Error data): ))|${STAMP}${
    ''}\[Error - (?:[^\]\n]*\] (?:Sent|Received) #|(?:Sent|Received)\] [^#\n]*#)`;
  static data = new RegExp(String.raw`(?:${NEWEST} )?(Params|Result|Error data): (?=[^ \r\n])`, 'y');
  static atServer = byLine`${TRACE}Received request 'initialize - `;

  headIn(text) {
    Object.assign(this, { leftOut: 0, isAtServer: searching(text, Trace.atServer) !== null }); // (only an editor sends that)
    return Trace.head;
  }

  * read(found, line, at, text) {
    if (!found[1]) return void this.leftOut++;
    const data = searching(text, Trace.data, at), { body, end } = data ? jsonAt(text, Trace.data.lastIndex, line) : {};
    if (!data && text.indexOf('\n', at) < 0) throw faultAt(line, "the message isn't whole"); // (a line follows, of data or an empty one)
    const sender = (found[1] === 'Sending') === this.isAtServer ? SERVER : EDITOR;
    yield messageAt(`{"jsonrpc":"2.0",${this.members(line, found, data?.[1], body).join(',')}}`, 0, line, sender);
    return end;
  }

  members(line, [, , what, method, number, rest], kind, json) {
    const identity = number === undefined ? [] : [`"id":${/^-?\d+$/.test(number) ? number : quoted(number)}`];
    if (what !== 'response') {
      const needsParams = /^(?:textDocument\/did|initialize(?!d$))/.test(method);
      if (json === undefined && needsParams) throw faultAt(line, `${method} has no Params: ${Trace.remedy}`);
      return [...identity, `"method":${quoted(method)}`, ...(kind === 'Params' ? [`"params":${json}`] : [])];
    }
    const failed = new RegExp(`Request failed: ([^\\n]*) \\((-?\\d+)\\)\\.[${BLANK}]*$`).exec(rest);
    if (!failed) return [...identity, `"result":${json ?? 'null'}`];
    return [...identity, `"error":{"code":${failed[2]},"message":${quoted(failed[1])}${kind === 'Error data' ? `,"data":${json}` : ''}}`];
  }

  * doubts(messages) {
    if (this.leftOut) yield `${this.leftOut} replies that failed are left out: the trace has no code of theirs`;
    const kinds = new Set(messages.filter(({ method, hasId }) => method && hasId).map(({ sender, id }) => `${sender} ${typeof id}`));
    if (kinds.size > new Set([...kinds].map(([sender]) => sender)).size) {
      yield 'an id of digits is written as a number, where others are strings: the trace has no quotes around a string';
    }
    if (messages.some(({ sender, body }) => sender === SERVER && /\{\n  "/.test(body) && /": null\b/.test(body))) {
      yield "in the server's messages null may have been false: lsp-mode prints both alike";
    }
  }
}

class TraceJson extends Form {
  static title = "VS Code's trace in JSON, as LSP Inspector reads it, also as an array";
  static remedy = 'it has them with "verbosity": "verbose"';
  static begins = byLine`${STAMP}\[LSP *- [^\]\n]*\] \{|^(?:${NEWEST} |\[[${BLANK}]*)?\{[${BLANK}]*"(?:isLSPMessage|type)":`;
  static head = byLine`(?:${STAMP}\[LSP *- [^\]\n]*\]|^${NEWEST}) (?=\{)`;
  static bare = byLine`^(?=\{)`;
  static isArray = new RegExp(`^[${BLANK}]*\\[[${BLANK}]*\\{`);
  static inArray = new RegExp(`[[,][${BLANK}]*(?=\\{)`, 'g');

  headIn(text) {
    return TraceJson.isArray.test(text) ? TraceJson.inArray : searching(text, TraceJson.head) ? TraceJson.head : TraceJson.bare;
  }

  * read(found, line, at, text) {
    const { value: { type, message }, body, end } = jsonAt(text, at, line);
    if (typeof type === 'string' && /^(?:send|receive)-/.test(type) && isObject(message)) {
      yield new Message(line, type.startsWith('send-') ? EDITOR : SERVER, message, membersOf(body).get('message'));
    }
    return end;
  }
}

class Clangd extends Form {
  static title = "clangd's standard error (--log=verbose)";
  static remedy = 'it has them with --log=verbose';
  static begins = byLine`^[VIE]\[\d\d:\d\d:\d\d\.\d{3}\] `;
  static head = byLine`^V\[\d\d:\d\d:\d\d\.\d{3}\] (<<<|>>>) `;

  * read([, arrows], line, at, text) {
    yield messageAt(text, at, line, arrows === '<<<' ? EDITOR : SERVER);
  }
}

class Vim extends Form {
  static title = "Vim's log of channels (ch_logfile)";
  static remedy = "it has them where ch_logfile comes before the server's start";
  static begins = byLine`^==== start log session |^ *(?:\d+\.\d+ )?(?:SEND|RECV) on \d+\(`;
  static head = byLine`^==== (start) |^ *(?:\d+\.\d+ )?(SEND|RECV) on (\d+)\((?:in|out|sock)\): '`;
  static end = /'\r?\n|'$/g;
  static frame = /(?:Content-Type:[^\r\n]*\r\n)?Content-Length: *(\d{1,15})\r\n(?:Content-Type:[^\r\n]*\r\n)?\r\n/iy;
  waiting = new Map();
  notWhole = 0;

  * read([, start, way, channel], line, at, text) {
    if (start) this.leave();
    if (start) return void (yield ended(line));
    const close = searching(text, Vim.end, at), key = `${way} ${channel}`, isSent = way === 'SEND';
    if (!close) throw faultAt(line, `what was ${isSent ? 'sent' : 'received'} isn't whole`);
    let body, rest = (this.waiting.get(key) ?? '') + text.slice(at, close.index);
    while (([body, rest] = this.framed(rest))[0] !== undefined) yield messageAt(body, 0, line, isSent ? EDITOR : SERVER, channel);
    this.waiting.set(key, rest);
  }

  leave() {
    for (const { length } of this.waiting.values()) this.notWhole += length;
    this.waiting.clear();
  }

  /** The body of the first frame, if it is whole, and what comes after it. A channel without frames is of no language server. */
  framed(data) {
    const head = searching(data, Vim.frame), start = data.slice(0, 8).toLowerCase();
    if (!head) return [undefined, /content-/i.test(data) || 'content-'.startsWith(start) ? data : ''];
    const end = head[0].length + Number(head[1]);
    return data.length < end ? [undefined, data] : [data.slice(head[0].length, end), data.slice(end)];
  }

  * doubts() {
    if (this.notWhole) yield `${this.notWhole} bytes are no whole message, and left out`;
  }
}

class Devtools extends Form {
  static title = "lsp-devtools' lines of JSON (lsp-devtools record --to-file)";
  static remedy = 'each line has `source` and a message';
  static begins = byLine`^\{(?=[^\n]*"source": ?"(?:client|server)")`;
  static head = /[^ \t\r\n][^\n]*/g;

  * read([words], line) {
    const { value, body } = jsonAt(words, 0, line), sender = { client: EDITOR, server: SERVER }[value?.source];
    if (!isObject(value) || !sender) throw faultAt(line, 'there is no `source`');
    const members = membersOf(body), stream = value.session ?? undefined;
    yield isObject(value.message) ? new Message(line, sender, value.message, members.get('message'), stream)
      : messageAt(this.flat(value, members), 0, line, sender, stream);
  }

  flat(value, members) {
    const names = ['id', 'method', 'params', 'result', 'error'].filter((it) => (value[it] ?? null) !== null);
    const parts = names.map((it) => `"${it}":${members.get(it)}`);
    if (['method', 'error', 'result'].every((it) => !names.includes(it))) parts.push('"result":null');
    return `{${['"jsonrpc":"2.0"', ...parts].join(',')}}`;
  }
}

class Helix extends Form {
  static title = "Helix's log (hx -v), ~/.cache/helix/helix.log";
  static remedy = 'it has them with hx -v';
  static begins = byLine`^\d{4}-\d\d-\d\dT\d\d:\d\d:\d\d\.\d+ helix_[^${BLANK}]+ \[[A-Z]+\] `;
  static head = byLine`^[^${BLANK}]+ helix_lsp::transport \[INFO\] ([^\n{]*)(->|<-) (?=\{)`;

  * read([, server, arrow], line, at, text) {
    const message = messageAt(text, at, line, arrow === '->' ? EDITOR : SERVER, server);
    if (message.hasVersion) yield message; // (a result comes again, without its message)
  }
}

class Pylsp extends Form {
  static title = "pylsp's log (pylsp -vv --log-file FILE)";
  static remedy = 'it has them with -vv';
  static begins = byLine`^\d{4}-\d\d-\d\d \d\d:\d\d:\d\d,\d{3} [^${BLANK}]+ - [A-Z]+ - pylsp`;
  static head = byLine`^[\d: ,-]+ [^${BLANK}]+ - DEBUG - pylsp_jsonrpc\.endpoint - Handling \w+ from client (\{[^\n]*)`;

  * read([, words], line) {
    const reader = new Python(words, 0, line);
    let value = null;
    try {
      value = reader.value();
    } catch { /* (it's said below) */ }
    if (!(value instanceof Map) || reader.at < words.length) throw faultAt(line, "the message isn't whole");
    yield written(line, EDITOR, value);
  }

  * doubts() {
    yield "the server's messages are left out: pylsp writes only some of them";
  }
}

class LineFeeds extends Form {
  static title = 'a log of a session whose CRLFs became LFs, in git or in an editor';
  static remedy = 'it has no message with a header';
  static begins = /^(?:lsp-session-log 2\n[<>])?content-(?:length|type):[^\r\n]*\n/gi;
  static head = new RegExp(`([<>]?)(?:content-type:[^\\n]*\\n)?content-length: *\\d+\\n(?:content-type:[^\\n]*\\n)?\\n[${BLANK}]*(?=\\{)`, 'gi');

  * read([, mark], line, at, text) {
    const { body } = jsonAt(text, at, line);
    yield messageAt(text, at, line, mark === SERVER ? SERVER : EDITOR);
    return at + body.length;
  }
}

const FORMS = [Neovim, Eglot, Trace, TraceJson, Clangd, Vim, Devtools, Helix, Pylsp, LineFeeds];

// What editors write where no form is: what it is, and what makes it a log
const WITHOUT_MESSAGES = [
  [byLine`^(?:Command "[^"\n]*" is (?:not )?present on the path|Found the following clients for )`,
    "lsp-mode's *lsp-log*", 'with (setq lsp-log-io t) a buffer of its own has them'],
  [byLine`${STAMP}\[(?:Info|Warn|Error) *- [^\]\n]*\] `, "what VS Code's Output shows", 'it has them with "verbose"'],
];

// What is no log of an editor, and what it is
const OTHERS = [
  [/^(?!(?:lsp-session-log 2\n[<>])?content-(?:length|type):[^\r\n]*\n)(?:lsp-session-log 2\n|content-(?:length|type):)/i, 'this is a log of a session already, which lspsync reads'],
  [/^\x1f\x8b/, 'this is packed by gzip: `gzip -d` unpacks it'],
  [/^\{"(?:number|body|from)":/, 'these are lines of messages, which log-from-lines reads'],
  [/^[ \t\n\r\f\v]*$/, 'this is empty'],
];

/** The form whose line comes first. */
function formOf(text) {
  const other = OTHERS.find(([begins]) => begins.test(text));
  if (other) throw fault(`line 1: ${other[1]}`, 'UNKNOWN_FORM');
  for (const part of [text.slice(0, text.indexOf('\n', 65536)), text]) { // (mostly the beginning does, and that is quick)
    const found = FORMS.map((form) => ({ form, at: searching(part, form.begins)?.index ?? -1 })).filter(({ at }) => at >= 0);
    if (found.length) return new (found.reduce((first, next) => next.at < first.at ? next : first).form)();
  }
  const silent = WITHOUT_MESSAGES.find(([begins]) => searching(text, begins));
  if (silent) throw fault(`this is ${silent[1]}, and it has no message: ${silent[2]}`);
  throw fault(`line 1: no form that is known begins like ${JSON.stringify(decoded(text.split('\n', 1)[0].slice(0, 60)))}`, 'UNKNOWN_FORM');
}

/** Messages from an `initialize` on, or from the first line where it has none. */
class Session {
  constructor(line) {
    Object.assign(this, { line, messages: [], isMixed: false, late: 0 });
  }

  get isWhole() {
    return this.messages[0].method === 'initialize';
  }

  get described() {
    const { line, messages } = this, opened = new Set(messages.filter(({ method }) => method === DOCUMENTS[0]).map(({ uri }) => uri));
    return { line, messages: messages.length, documents: opened.size, root: decoded(messages[0].root) };
  }
}

/** The sessions of a file, without what an editor sent after `exit` and that isn't `initialize`. */
function sessionsOf(messages) {
  const found = [], open = new Map(), over = new Map();
  for (const message of messages) {
    const { stream, sender, method } = message, begins = sender === EDITOR && method === 'initialize';
    let session = open.get(stream);
    if (sender === undefined) { // (whatever wrote here has ended)
      open.clear();
      over.clear();
      continue;
    }
    if (!begins && !session && over.has(stream)) {
      session = over.get(stream);
      if (sender === EDITOR) {
        session.late++;
        continue;
      }
    }
    if (begins || !session) {
      const next = new Session(message.line);
      if (session) session.isMixed = next.isMixed = true;
      found.push(next);
      open.set(stream, session = next);
    }
    session.messages.push(message);
    if (sender === EDITOR && method === 'exit') {
      over.set(stream, session);
      open.delete(stream);
    }
  }
  return found;
}

/** The bytes of a log. */
function logOf(messages) {
  const hasMarks = messages.some(({ sender }) => sender === SERVER);
  const records = messages.map(({ sender, body }) => `${hasMarks ? sender : ''}Content-Length: ${body.length}\r\n\r\n${body}`);
  return bytesOf((hasMarks ? 'lsp-session-log 2\n' : '') + records.join(''));
}

/** What can't be known of a session. */
function* doubtsOf(form, sessions, session) {
  const { messages, isWhole, isMixed, late, line } = session, hasServer = messages.some(({ sender }) => sender === SERVER);
  if (sessions.length > 1) yield `of ${sessions.length} sessions this is the one from line ${line} on`;
  if (isMixed) yield "another `initialize` comes before this session's `exit`: messages of two servers may be mixed, since no line names its server";
  if (late) yield `messages after \`exit\` are left out: ${late}`;
  const reply = messages.findIndex(({ sender, method, id }) => sender === SERVER && method === undefined && id === messages[0].id);
  const change = messages.findIndex(({ method }) => method === CHANGE);
  if (isWhole && hasServer && (reply < 0 || (change >= 0 && change < reply))) {
    yield `the server's reply to \`initialize\` ${reply < 0 ? 'is missing' : 'comes after the first change'}, and lspsync calls such a log bad`;
  }
  yield* form.doubts?.(messages) ?? [];
  if (isWhole) return;
  const count = messages.filter(({ sender, method }) => sender === EDITOR && DOCUMENTS.includes(method)).length;
  yield `the beginning is missing: there is no \`initialize\`, so lspsync drops all that was sent, ${count} messages about documents`;
}

/** Makes a log of these bytes: of the session of that number, from 1, or of the last that has an `initialize`, or of the last. Where a line can't be
 * read `fault` says which, and the log is of what comes before it. What isn't known at all is thrown, with the code UNKNOWN_FORM or BAD_LOG. */
function logFrom(bytes, { session: number } = {}) {
  const text = textOf(bytes).replace(/^\xef\xbb\xbf/, ''), form = formOf(text), messages = [];
  let problem;
  try {
    for (const message of form.messages(text)) messages.push(message);
  } catch (error) {
    if (error.code !== 'BAD_LOG') throw error;
    problem = error;
  }
  const sessions = sessionsOf(messages), { title, remedy } = form.constructor;
  if (!sessions.length) throw problem ?? fault(`this is ${title}, and it has no message: ${remedy}`);
  const last = sessions.map(({ isWhole }) => isWhole).lastIndexOf(true);
  const index = number === undefined ? (last < 0 ? sessions.length - 1 : last) : number - 1, session = sessions[index];
  if (!session) throw fault(`there is no session ${number}: there are ${sessions.length}`);
  return { log: logOf(session.messages), form: title, session: index + 1, sessions: sessions.map(({ described }) => described),
    doubts: [...doubtsOf(form, sessions, session)], fault: problem?.message ?? '' };
}

module.exports = { logFrom };
