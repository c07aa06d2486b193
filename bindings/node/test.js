'use strict';
// The test of the binding for Node (node test.js). With --expose-gc the collector is tried too.
const assert = require('assert');
const fs = require('fs');
const path = require('path');
const { test } = require('node:test');
const { TextDocument, Framer, Server, Client, FrameFault, LogFault, WHY, version, ...logs } = require('./index.js');
const { check, trace, replay, compare, normalise, convert, logFrom } = logs;

const at = (line, character) => ({ line, character });
const change = (start, end, text) => ({ range: { start, end }, text });
const edit = (start, end, newText) => ({ range: { start, end }, newText });
const framed = (body) => Buffer.from(`Content-Length: ${Buffer.byteLength(body)}\r\n\r\n${body}`);
const exit = framed('{"jsonrpc":"2.0","method":"exit"}');
const opened = (text) => TextDocument.create('file:///a', 'plain', 1, text);

test('each name can be imported', async () => {
  const { default: all, 'module.exports': _, ...names } = await import('./index.js');
  assert.deepStrictEqual(Object.keys(names).sort(), Object.keys(all).sort());
});

test('positions and lines', () => {
  const document = opened('a\r\nb\u{1F600}');
  assert.strictEqual(document.lineCount, 2);
  assert.deepStrictEqual([document.lineAt(0), document.lineAt(1)], ['a', 'b\u{1F600}']);
  assert.throws(() => document.lineAt(2), { code: 'OUT_OF_RANGE' });
  assert.deepStrictEqual(document.positionAt(6), at(1, 3));
  assert.strictEqual(document.offsetAt(at(1, 3)), 6);
  assert.strictEqual(document.offsetAt(at(0, 9)), 1);
  assert.throws(() => document.offsetAt(at(1, 2)), { code: 'INSIDE_CHARACTER' });
  // Between CR and LF, before the start and past the end positionAt answers as vscode-languageserver-textdocument does.
  assert.deepStrictEqual([document.positionAt(2), document.positionAt(-1), document.positionAt(99)], [at(0, 1), at(0, 0), at(1, 3)]);
  assert.throws(() => document.positionAt(5), { name: 'RangeError', code: 'INSIDE_CHARACTER' });
});

test('changes', () => {
  const document = opened('a\r\nb\u{1F600}');
  TextDocument.update(document, [change(at(1, 0), at(1, 1), 'XY'), change(at(0, 0), at(0, 0), 'Q')], 2);
  assert.strictEqual(document.getText(), 'Qa\r\nXY\u{1F600}');
  assert.strictEqual(document.getText({ start: at(1, 0), end: at(1, 2) }), 'XY');
  assert.strictEqual(document.getText({ start: at(1, 2), end: at(1, 0) }), 'XY');
  assert.deepStrictEqual([document.uri, document.languageId], ['file:///a', 'plain']);
  assert.strictEqual(document.version, 2);

  assert.throws(() => TextDocument.update(document, [change(at(0, 1), at(0, 0), '')], 3),
    { name: 'RangeError', message: 'change at index 0: a range is reversed', code: 'REVERSED_RANGE', change: 0, atEnd: false });
  for (const refusing of [TextDocument.update, TextDocument.canonical]) {
    assert.throws(() => refusing(document, [change(at(0, 0), at(0, 0), ''), change(at(1, 0), at(1, 3), '')], 3),
      { message: 'change at index 1: a position lies inside a character', code: 'INSIDE_CHARACTER', change: 1, atEnd: true });
  }
  assert.strictEqual(document.getText(), 'Qa\r\nXY\u{1F600}');
  assert.strictEqual(document.version, 2);
});

test('numbers that are no line and no character are refused, and do not wrap', () => {
  const document = opened('a\r\nb\u{1F600}');
  for (const number of [-1, 0.5, NaN, 2 ** 32, Infinity]) {
    const refused = { name: 'RangeError', code: 'OUT_OF_RANGE' };
    assert.throws(() => document.lineAt(number), refused);
    assert.throws(() => document.offsetAt(at(number, 0)), refused);
    assert.throws(() => document.offsetAt(at(0, number)), refused);
    assert.throws(() => document.getText({ start: at(0, 0), end: at(number, 0) }), refused);
    for (const [start, end] of [[at(number, 0), at(0, 0)], [at(0, number), at(0, 0)], [at(0, 0), at(number, 0)], [at(0, 0), at(0, number)]]) {
      for (const refusing of [TextDocument.update, TextDocument.canonical]) {
        assert.throws(() => refusing(document, [{ text: '' }, change(start, end, '')], 3), { ...refused, change: 1 });
      }
      for (const refusing of [TextDocument.applyEdits, TextDocument.batchOfEdits]) {
        assert.throws(() => refusing(document, [{ range: { start, end }, newText: '' }]), { ...refused, edit: 0 });
      }
    }
  }
  for (const number of [0.5, NaN, Infinity]) assert.throws(() => document.positionAt(number), { name: 'RangeError', code: 'OUT_OF_RANGE' });
  assert.strictEqual(document.getText(), 'a\r\nb\u{1F600}');
});

test('values of other types are refused', () => {
  const document = opened('a\r\nb\u{1F600}');
  for (const other of [undefined, null, '0', 0n, {}]) {
    assert.throws(() => document.lineAt(other), TypeError);
    assert.throws(() => document.positionAt(other), TypeError);
    assert.throws(() => document.offsetAt(at(0, other)), TypeError);
    assert.throws(() => TextDocument.update(document, [change(at(0, 0), at(other, 0), '')], 3), TypeError);
  }
  for (const other of [undefined, null, 1, ['a'], Buffer.from('a')]) {
    assert.throws(() => TextDocument.create('file:///c', 'plain', 1, other), TypeError);
    assert.throws(() => TextDocument.update(document, [change(at(0, 0), at(0, 0), other)], 3), TypeError);
    assert.throws(() => TextDocument.applyEdits(document, [{ range: { start: at(0, 0), end: at(0, 0) }, newText: other }]), TypeError);
  }
  for (const other of [undefined, { text: '' }, 'text', new Array(1)]) {
    assert.throws(() => TextDocument.update(document, other, 3), TypeError);
    assert.throws(() => TextDocument.canonical(document, other), TypeError);
  }
  assert.throws(() => TextDocument.applyEdits(document, [{ newText: 'all' }]), TypeError);
  assert.deepStrictEqual([document.getText(), document.version], ['a\r\nb\u{1F600}', 1]);
});

test('halves of a surrogate pair in two texts stay two characters', () => {
  const halves = TextDocument.create('file:///h', 'plain', 1, '');
  TextDocument.update(halves, [change(at(0, 0), at(0, 0), 'a\uD83D'), change(at(0, 0), at(0, 0), '\uDE00b'), { text: 'c\uD83D' },
    change(at(0, 0), at(0, 1), '\uDE00d')], 2);
  assert.strictEqual(halves.getText(), '\uFFFDd\uFFFD');
});

test('long texts, and texts of all lengths in bytes', () => {
  const texts = ['\u{1F600}'.repeat(50000), '', '\u00e9'.repeat(33333), 'a\u20ac'];
  for (const count of [1, 2, 3, 4]) {
    const appended = texts.slice(0, count).map((text) => change(at(9, 0), at(9, 0), text));
    assert.strictEqual(TextDocument.update(TextDocument.create('file:///t', 'plain', 1, ''), appended, 2).getText(), texts.slice(0, count).join(''));
  }
});

test('more than four changes, and a whole text', () => {
  const document = opened('Q');
  TextDocument.update(document, Array.from({ length: 5 }, () => change(at(0, 0), at(0, 0), '\u00e9')), 2);
  assert.strictEqual(document.getText(), '\u00e9\u00e9\u00e9\u00e9\u00e9Q');
  TextDocument.update(document, [{ text: '' }], 3);
  assert.strictEqual(document.lineCount, 1);
});

test('text edits, and their canonical batch', () => {
  const formatted = TextDocument.create('file:///b', 'plain', 1, 'abc');
  assert.strictEqual(TextDocument.applyEdits(formatted, [edit(at(0, 0), at(0, 0), '1'), edit(at(0, 1), at(0, 2), '2')]), '1a2c');
  assert.strictEqual(TextDocument.applyEdits(formatted, [edit(at(0, 1), at(0, 1), '1'), edit(at(0, 1), at(0, 1), '2')]), 'a12bc');
  for (const refusing of [TextDocument.applyEdits, TextDocument.batchOfEdits]) {
    assert.throws(() => refusing(formatted, [edit(at(0, 1), at(0, 3), ''), edit(at(0, 0), at(0, 2), '')]),
      { name: 'RangeError', message: 'edits at the indexes 1 and 0: two edits overlap', code: 'OVERLAP', edit: 1, other: 0 });
    assert.throws(() => refusing(TextDocument.create('file:///d', 'plain', 1, '\u{1F600}'), [edit(at(0, 0), at(0, 1), '')]),
      { message: 'edit at index 0: a position lies inside a character', code: 'INSIDE_CHARACTER', edit: 0, atEnd: true });
  }
  const separate = [edit(at(0, 0), at(0, 0), '1'), edit(at(0, 1), at(0, 2), '2\u{1F600}')];
  assert.deepStrictEqual(TextDocument.batchOfEdits(formatted, separate),
    [change(at(0, 1), at(0, 2), '2\u{1F600}'), change(at(0, 0), at(0, 0), '1')]);
  assert.deepStrictEqual(TextDocument.batchOfEdits(formatted, []), []);
  assert.deepStrictEqual(TextDocument.canonical(formatted, [change(at(0, 1), at(0, 2), 'X'), change(at(0, 2), at(0, 3), '')]),
    [change(at(0, 1), at(0, 3), 'X')]);
  assert.deepStrictEqual(TextDocument.canonical(formatted, [{ text: 'abcd' }]), [change(at(0, 0), at(0, 3), 'abcd')]);
  assert.throws(() => TextDocument.canonical(formatted, [change(at(0, 1), at(0, 0), '')]), { code: 'REVERSED_RANGE' });
  assert.throws(() => TextDocument.applyEdits(formatted, [edit(at(0, 0), at(0, 1), ''), edit(at(0, 3), at(0, 2), '')]),
    { code: 'REVERSED_RANGE', edit: 1, atEnd: false });
  assert.strictEqual(formatted.getText(), 'abc');
});

test('a batch of many changes comes back whole, and its document can be closed', () => {
  const many = 20000;
  const long = TextDocument.create('file:///l', 'plain', 1, 'ab'.repeat(many));
  const spread = Array.from({ length: many }, (_, index) => edit(at(0, 2 * index), at(0, 2 * index + 1), 'X'));
  const batch = TextDocument.batchOfEdits(long, spread);
  assert.strictEqual(batch.length, many);
  assert.deepStrictEqual(batch[many - 1], change(at(0, 0), at(0, 1), 'X'));
  assert.strictEqual(TextDocument.update(long, batch, 2).getText(), 'Xb'.repeat(many));
  long.close();
  long.close();
  for (const refused of [() => long.getText(), () => long.lineCount, () => long.lineAt(0), () => long.offsetAt(at(0, 0)),
    () => long.positionAt(0), () => TextDocument.update(long, [{ text: '' }], 2), () => TextDocument.applyEdits(long, []),
    () => TextDocument.canonical(long, []), () => TextDocument.batchOfEdits(long, [])]) {
    assert.throws(refused, { name: 'RangeError', code: 'EMPTY' });
  }
});

test('the collector closes what nobody closed', () => {
  for (let count = 0; count < 1000; count++) TextDocument.create('file:///g', 'plain', 1, 'g'.repeat(1000));
  if (global.gc) global.gc();
});

const example = (name) => fs.readFileSync(path.join(__dirname, '..', '..', 'examples', name + '.log'));
const fault = (code, offset, frame, output) => (error) => error instanceof LogFault && error.code === code &&
  error.offset === offset && error.frame === frame && error.output.toString() === output;

test('commands on logs', () => {
  const stale = check(example('stale-version'));
  assert.strictEqual(stale.output.toString(), '1 reply\n2 changed\n3 refused S5\n4 refused S4\n5 changed\n');
  assert.deepStrictEqual([stale.status, stale.messages, stale.refused], [1, 5, 2]);
  assert.strictEqual(check(example('stale-version'), { lenient: true }).output.toString(),
    '1 reply\n2 changed\n3 changed\n4 refused S4\n5 changed\n');
  assert.strictEqual(replay(example('stale-version')).output.toString(),
    '{"languageId":"plaintext","text":"aXc","uri":"file:///a","version":2}\n');
  assert.deepStrictEqual(convert(example('typing')).output, example('typing-with-replies'));
  const saves = example('two-saves');
  const squashed = normalise(saves, { squash: true }).output;
  assert(squashed.length < normalise(saves).output.length);
  assert.deepStrictEqual(normalise(squashed, { squash: true }).output, squashed);
  assert.deepStrictEqual(replay(squashed).output, replay(saves).output);
  assert.deepStrictEqual(replay(Buffer.alloc(0)).output, Buffer.alloc(0));
});

test('what lspsync has beside the limits', () => {
  const file = path.join(__dirname, '..', '..', 'examples', 'stale-version.log');
  assert.match(check(file, { explain: true }).output.toString(), /^1 reply\n2 changed\n3 refused S5 of /);
  assert.match(check(file, { brief: true }).output.toString(), /^3 refused S5 of /);
  const records = trace(file, { bodies: true }).records;
  assert.deepStrictEqual(records.map(({ number, body }) => [number, body !== undefined]), [1, 2, 3, 4, 5].map((it) => [it, true]));
  assert.deepStrictEqual([trace(file).records[1].text, typeof trace(file, { texts: true }).records[1].text], [undefined, 'string']);
  const [{ uri, text }] = replay(file).records;
  assert.strictEqual(replay(file, { uri }).output.toString(), text);
  assert.notStrictEqual(replay(fs.openSync(file), { at: 2 }).records[0].text, text);
  assert.throws(() => replay(file, { at: 99 }), { code: 'OUT_OF_RANGE' });
  assert.throws(() => replay(file, { at: 0 }), { code: 'OUT_OF_RANGE' });
  assert.throws(() => replay(file, { uri: 'file:///none' }), { code: 'NOT_OPEN' });
  assert.throws(() => check(file, { texts: true }), TypeError);
  assert(normalise(example('two-saves'), { documents: true }).output.length <= normalise(example('two-saves')).output.length);
  assert.strictEqual(version, '0.1.0');
});

test('a log and the text that its editor saved', () => {
  const file = path.join(__dirname, '..', '..', 'examples', 'stale-version.log');
  const same = compare(file, Buffer.from('aXc'));
  assert.deepStrictEqual([same.status, same.output.toString()], [0, '"file:///a" after message 5: the text is the file\'s\n']);
  const other = compare(file, Buffer.from('abc'), { uri: '/a' });
  assert.deepStrictEqual([other.status, other.refused], [1, 2]);
  assert.match(other.output.toString(), /\nline 1 \(made by message 5\): "aXc"\n/);
  assert.throws(() => compare(file, __filename), { code: 'NOT_OPEN' });
  assert.strictEqual(compare(file, __filename, { uri: 'a' }).status, 1);
  assert.throws(() => compare(file, Buffer.from([255])), { code: 'NOT_UTF8' });
  assert.throws(() => compare(file, 'no such file'), { code: 'ENOENT' });
  assert.throws(() => compare(file, Buffer.alloc(0), { brief: true }), TypeError);
});

test('faulty logs, and refused options', () => {
  assert.throws(() => check(example('cut-short')), fault('CUT', 505, 0, '1 reply\n2 changed\n'));
  assert.throws(() => normalise(Buffer.from('Content-Length 2')), fault('BAD_FRAME', 14, 1, ''));
  assert.throws(() => convert(Buffer.from('lsp-session-log 2\n')), fault('BAD_LOG', 0, 0, ''));
  assert.throws(() => check(Buffer.alloc(0), { maxBody: 1 }), { code: 'BAD_MAX_BODY', message: WHY.BAD_MAX_BODY });
  assert.throws(() => check(Buffer.alloc(0), { maxBody: 2 ** 32 + 4096 }), { code: 'BAD_MAX_BODY' });
  assert.throws(() => check(Buffer.alloc(0), { encoding: 'utf-7' }), { code: 'BAD_ENCODING' });
  assert.throws(() => check('no such file'), { code: 'ENOENT' });
  assert.throws(() => check({}), TypeError);
});

// Numbers that look random.
let seed = 1;
function below(bound) {
  seed = (Math.imul(seed, 1103515245) + 12345) & 0x7fffffff;
  return (seed >>> 8) % bound;
}
const LETTERS = ['a', '\r', '\n', '\r\n', '\u00e9', '\u2028', '\u{1F600}'];
const someText = (most) => Array.from({ length: below(most) }, () => LETTERS[below(LETTERS.length)]).join('');

/** The index of a position, or undefined inside a character: LSP 3.17 as a plain program. */
function denoted(text, { line, character }) {
  let start = 0;
  for (; line > 0; line--) {
    const end = text.slice(start).match(/\r\n|\r|\n/);
    if (!end) return text.length;
    start += end.index + end[0].length;
  }
  const index = start + Math.min(character, text.slice(start).match(/^[^\r\n]*/)[0].length);
  return /[\ud800-\udbff]/.test(text[index - 1]) && /[\udc00-\udfff]/.test(text[index]) ? undefined : index;
}

test('offsets and positions are those of the plain program, after each of some changes', () => {
  for (let count = 0; count < 300; count++) {
    const document = TextDocument.create('file:///a', 'plain', 1, someText(12));
    for (let version = 2; version < 5; version++) {
      const text = document.getText();
      for (let line = 0; line < 5; line++) {
        for (let character = 0; character < 8; character++) {
          const index = denoted(text, at(line, character));
          if (index === undefined) assert.throws(() => document.offsetAt(at(line, character)), { code: 'INSIDE_CHARACTER' });
          else {
            assert.strictEqual(document.offsetAt(at(line, character)), index);
            assert.strictEqual(denoted(text, document.positionAt(index)), index);
          }
        }
      }
      TextDocument.update(document, [{ text: someText(12) }], version);
    }
  }
});

test('a client\'s refused calls', () => {
  const client = new Client({ utf8: true });
  assert.deepStrictEqual([client.phase, client.encoding, client.documentCount], ['new', undefined, 0]);
  assert.throws(() => client.open('a', 'c', 1, ''), { name: 'RangeError', code: 'WRONG_PHASE' });
  client.start();
  const [begun] = client.receive(framed('{"jsonrpc":"2.0","id":1,"result":{"capabilities":{"positionEncoding":"utf-8","textDocumentSync":2}}}'));
  assert.deepStrictEqual([begun.kind, begun.frame.toString(), client.encoding],
    ['send', framed('{"jsonrpc":"2.0","method":"initialized","params":{}}').toString(), 'utf-8']);
  assert.throws(() => client.edit('a', 1, []), { code: 'NOT_OPEN' });
  client.open('a', 'c', 1, '\u00e9');
  assert.throws(() => client.open('a', 'c', 1, ''), { code: 'ALREADY_OPEN' });
  assert.throws(() => client.edit('a', 1, []), { code: 'STALE_VERSION' });
  assert.throws(() => client.edit('a', 2, [change(at(0, 0), at(0, 1), '')]), { code: 'INSIDE_CHARACTER', change: 0, atEnd: true });
  assert.throws(() => client.open('b', 'c', 2 ** 31, ''), { code: 'OUT_OF_RANGE' });
  assert.throws(() => client.open('b', 'c', '1', ''), TypeError);
  assert.throws(() => client.open(1, 'c', 1, ''), TypeError);
  assert.throws(() => client.receive('text'), TypeError);
  assert.deepStrictEqual([client.version('a'), client.text('a'), client.text('b')], [1, '\u00e9', undefined]);
  const { kind, reason, why, uri } = client.deliver(Buffer.from('{'));
  assert.deepStrictEqual([kind, reason, why, uri], ['bad-server', 'NOT_AN_ANSWER', WHY.NOT_AN_ANSWER, undefined]);
  assert.deepStrictEqual([client.phase, client.text('a')], ['failed', '\u00e9']);
  assert.throws(() => client.deliver(Buffer.from('{}')), { code: 'WRONG_PHASE' });
  assert.throws(() => new Client({ maxDocs: 0 }), { code: 'BAD_MAX_DOCS', message: 'max_docs is out of its range, 1 to 65,536 documents' });
});

test('an option that there isn\'t is refused', () => {
  for (const [end, option] of [[Client, 'utf_8'], [Client, 'max_docs'], [Server, 'utf8'], [Server, 'toString']]) {
    assert.throws(() => new end({ [option]: 1 }), { name: 'TypeError', message: `there is no option ${option}` });
  }
});

test('an event names its document, and says why it was refused', () => {
  const [server, client] = [new Server(), new Client()];
  client.receive(server.receive(client.start())[0].frame);
  const events = server.receive(Buffer.concat([client.open('a', 'c', 1, 'x'), client.edit('a', 2, [])]));
  assert.deepStrictEqual(events.map((event) => [event.kind, event.uri]), [['changed', 'a'], ['changed', 'a']]);
  const stale = Buffer.from('{"jsonrpc":"2.0","method":"textDocument/didChange","params":{"textDocument":{"uri":"a","version":1},"contentChanges":[]}}');
  const { kind, uri, reason, why } = server.handle(stale);
  assert.deepStrictEqual([kind, uri, reason, why], ['refused', 'a', 'STALE_VERSION', 'the version is not greater than the current one']);
  assert.deepStrictEqual([server.phase, server.documentCount], ['ready', 1]);
});

test('a server\'s refused calls', () => {
  assert.throws(() => new Server({ encoding: 'utf-7' }), { code: 'BAD_ENCODING' });
  const ended = new Server();
  assert.deepStrictEqual(ended.receive(Buffer.concat([exit, exit])).map((event) => [event.kind, event.status]), [['exited', 1]]);
  assert.throws(() => ended.receive(exit), { code: 'ENDED' });
});

test('each message is handled at its own step', () => {
  const [serving, editing] = [new Server(), new Client()];
  editing.receive(serving.receive(editing.start())[0].frame);
  const asks = framed('{"jsonrpc":"2.0","id":"x","method":"a/b"}');
  const opens = editing.open('a', 'c', 1, 'x');
  const edits = editing.edit('a', 2, [change(at(0, 0), at(0, 0), 'y')]);
  const texts = [];
  for (const { kind } of serving.messages(Buffer.concat([opens, asks, edits, asks, editing.close('a'), asks]))) {
    if (kind === 'replied') texts.push(serving.text('a'));
  }
  assert.deepStrictEqual(texts, ['x', 'yx', undefined]);
  // The bytes are taken by the call itself, and may be used again. A loop that ends early leaves the rest to the next call.
  const piece = Buffer.concat([opens, asks, edits.subarray(0, 50)]);
  const left = serving.messages(piece);
  piece.fill(0);
  assert.deepStrictEqual([left.next().value.kind, serving.text('a')], ['changed', 'x']);
  assert.deepStrictEqual([...serving.messages(edits.subarray(50))].map(({ kind }) => kind), ['replied', 'changed']);
  assert.deepStrictEqual([[...left], [...serving.messages(Buffer.alloc(0))], serving.text('a')], [[], [], 'yx']);
  const faulty = serving.messages(Buffer.concat([asks, Buffer.from('Content-Length 2')]));
  assert.strictEqual(faulty.next().value.kind, 'replied');
  assert.throws(() => faulty.next(), (error) => error instanceof FrameFault && error.frame === 1 && error.events.length === 0);
  assert.throws(() => [...serving.messages(asks)], { code: 'FAILED' });
  assert.throws(() => serving.messages('text'), TypeError);
  const last = new Server();
  assert.deepStrictEqual([...last.messages(Buffer.concat([exit, exit]))].map(({ kind }) => kind), ['exited']);
  assert.throws(() => [...last.messages(exit)], { code: 'ENDED' });
});

test('edits on a server\'s documents', () => {
  const serving = new Server();
  assert.strictEqual(serving.encoding, undefined);
  const editing = new Client();
  editing.receive(serving.receive(editing.start())[0].frame);
  serving.receive(editing.open('a', 'c', 1, 'abc'));
  assert.strictEqual(serving.encoding, 'utf-16');
  const textEdit = (start, end, newText) => ({ range: { start: at(0, start), end: at(0, end) }, newText });
  assert.deepStrictEqual(serving.batchOfEdits('a', [textEdit(0, 0, '1'), textEdit(1, 2, '2')]),
    [change(at(0, 1), at(0, 2), '2'), change(at(0, 0), at(0, 0), '1')]);
  assert.throws(() => serving.batchOfEdits('a', [textEdit(0, 2, ''), textEdit(1, 3, '')]), { code: 'OVERLAP', edit: 0, other: 1 });
  assert.throws(() => serving.batchOfEdits('b', []), { code: 'NOT_OPEN' });
  assert.throws(() => serving.canonicalMessage('a', 1, []), { code: 'STALE_VERSION' });
  assert.throws(() => serving.canonicalMessage('a', 2, [change(at(0, 1), at(0, 0), '')]), { code: 'REVERSED_RANGE', change: 0 });
  const written = serving.canonicalMessage('a', 2, [change(at(0, 0), at(0, 1), 'x'), change(at(0, 1), at(0, 1), 'y')]);
  assert.deepStrictEqual(JSON.parse(written.subarray(written.indexOf('{'))).params,
    { contentChanges: [change(at(0, 0), at(0, 1), 'xy')], textDocument: { uri: 'a', version: 2 } });
  assert.deepStrictEqual([serving.version('a'), serving.text('a')], [1, 'abc']);
  assert.deepStrictEqual(serving.receive(written).map(({ kind }) => kind), ['changed']);
  assert.deepStrictEqual([serving.version('a'), serving.text('a')], [2, 'xybc']);
});

test('positions and lines of open documents, at both ends', () => {
  for (const [encoding, last] of [['utf-8', 5], ['utf-16', 3], ['utf-32', 2]]) {
    const [serving, editing] = [new Server({ encoding }), new Client({ utf8: true, utf32: true })];
    editing.receive(serving.receive(editing.start())[0].frame);
    serving.receive(editing.open('a', 'c', 1, 'a\r\nb\u{1F600}'));
    for (const end of [serving, editing]) {
      assert.strictEqual(end.encoding, encoding);
      assert.deepStrictEqual([at(1, last), at(1, 99), at(9, 0), at(0, 9)].map((place) => end.byteOffset('a', place)), [8, 8, 8, 1]);
      assert.deepStrictEqual([end.position('a', 8), end.position('a', 8, 'utf-16'), end.position('a', 3)], [at(1, last), at(1, 3), at(1, 0)]);
      assert.deepStrictEqual([end.byteOffset('a', at(1, 3), 'utf-16'), end.byteOffset('a', at(1, 2), 'utf-32')], [8, 8]);
      assert.deepStrictEqual(end.positionIn('a', at(9, 9), 'utf-16'), at(1, 3));
      assert.deepStrictEqual([end.lineAt('a', 0), end.lineAt('a', 1)], ['a', 'b\u{1F600}']);
      for (const offset of [2, 5, 9]) assert.throws(() => end.position('a', offset), { name: 'RangeError', code: 'INSIDE_CHARACTER' });
      assert.throws(() => end.byteOffset('a', at(1, 2), 'utf-16'), { code: 'INSIDE_CHARACTER' });
      assert.throws(() => end.lineAt('a', 2), { code: 'OUT_OF_RANGE' });
      for (const number of [-1, 0.5, NaN, 2 ** 53]) {
        assert.throws(() => end.lineAt('a', number), { code: 'OUT_OF_RANGE' });
        assert.throws(() => end.position('a', number), { code: 'OUT_OF_RANGE' });
        assert.throws(() => end.byteOffset('a', at(0, number)), { code: 'OUT_OF_RANGE' });
      }
      assert.throws(() => end.position('a', 0, 'utf-7'), { code: 'BAD_ENCODING' });
      assert.throws(() => end.position('a', '0'), TypeError);
      assert.throws(() => end.lineAt(1, 0), TypeError);
      assert.deepStrictEqual([end.lineAt('b', 0), end.byteOffset('b', at(0, 0)), end.position('b', 0), end.positionIn('b', at(0, 0), 'utf-8')],
        [undefined, undefined, undefined, undefined]);
    }
  }
  assert.deepStrictEqual([new Client().lineAt('a', 0), new Server().byteOffset('a', at(0, 0))], [undefined, undefined]);
});

test("a log of an editor's own", () => { // (bin/test has the forms)
  const own = 'V[10:12:13.123] <<< {"method":"initialize"}\nV[10:12:13.124] <<< {"method":"\xff"}\n';
  const { log, doubts, fault, sessions } = logFrom(Buffer.from(own, 'latin1'));
  assert.strictEqual(log.toString('latin1'), 'Content-Length: 23\r\n\r\n{"method":"initialize"}Content-Length: 14\r\n\r\n{"method":"\xff"}');
  assert.deepStrictEqual([doubts, fault, sessions], [[], '', [{ line: 1, messages: 2, documents: 0, root: '' }]]);
  assert.throws(() => logFrom(Buffer.from('none')), { code: 'UNKNOWN_FORM' });
  assert.throws(() => logFrom(Buffer.from('I[10:12:13.123] clangd\n')), { code: 'BAD_LOG', message: /with --log=verbose/ });
});

test('a framer', () => {
  const framer = new Framer({ maxBody: 4096 });
  assert.deepStrictEqual(framer.receive(Buffer.concat([framed('x'), framed(''), Buffer.from('Content-Le')])).map(String), ['x', '']);
  assert.throws(() => framer.receive(Buffer.from('ngth: 1\r\n\r\nyContent-Length 2')), (error) => error instanceof FrameFault &&
    error.frame === 1 && error.offset === 43 + 22 + 14 && error.events.map(String).join() === 'y');
  assert.throws(() => framer.receive(Buffer.alloc(0)), { code: 'FAILED' });
  assert(!framer.isAtRest && new Framer().isAtRest);
});
