// Both ends of sessions in Node, as `bindings/sessions` asks for them.
'use strict';
const fs = require('fs');
const { Client, Server, WHY } = require('.');

// The codes of laspidru.h by their names.
const CODES = Object.fromEntries(Object.keys(WHY).map((name, code) => [name, code]));
const KINDS = { replied: 0, changed: 1, dropped: 2, ignored: 3, refused: 4, exited: 5, send: 0, noted: 6, 'bad-server': 7 };
const URIS = ['file:///a', 'file:///b', 'file:///c'];

const plain = (text) => text.split('\\\\').map((part) => part.replace(/\\n/g, '\n').replace(/\\r/g, '\r')).join('\\');
const escaped = (text) => text.replace(/\\/g, '\\\\').replace(/\n/g, '\\n').replace(/\r/g, '\\r');

/** The words of a line; the last one of `count` has the rest. */
function words(line, count) {
  const found = line.split(' ');
  return [...found.slice(0, count - 1), found.slice(count - 1).join(' ')];
}

class Session {
  toServer = [];
  toClient = [];

  constructor([utf8, utf32, preferred, wholeTexts, maxText, maxDocs, maxChanges]) {
    const limits = { maxText, maxDocs, maxChanges };
    this.client = new Client({ utf8: Boolean(utf8), utf32: Boolean(utf32), ...limits });
    this.server = new Server({ encoding: `utf-${preferred}`, wholeTexts: Boolean(wholeTexts), ...limits });
  }

  call(word, ...values) {
    try {
      this.toServer.push(this.client[word](...values));
      return 'sent';
    } catch (error) {
      return `refused ${CODES[error.code]}`;
    }
  }

  /** Delivers the first message, in two pieces. */
  deliver(end, frames, replies) {
    const frame = frames.shift();
    const cut = Math.floor(frame.length * 2 / 3);
    const events = [...end.receive(frame.subarray(0, cut)), ...end.receive(frame.subarray(cut))];
    if (events.length !== 1) throw new Error(`${events.length} events`);
    if (events[0].frame) replies.push(events[0].frame);
    return events[0];
  }

  serve() {
    if (this.toServer.length === 0) return 'nothing';
    const { kind, reason, status = 0, error = 0 } = this.deliver(this.server, this.toServer, this.toClient);
    return `server ${KINDS[kind]} ${reason === undefined ? 0 : CODES[reason]} ${status} ${error}`;
  }

  hear() {
    if (this.toClient.length === 0) return 'nothing';
    const { kind, reason } = this.deliver(this.client, this.toClient, this.toServer);
    return `client ${KINDS[kind]} ${reason === undefined ? 0 : CODES[reason]}`;
  }

  end() {
    const found = [`waiting ${this.toServer.length} ${this.toClient.length}`];
    for (const uri of URIS) {
      for (const name of ['client', 'server']) {
        const version = this[name].version(uri);
        if (version !== undefined) found.push(`${name} ${uri} ${version} ${escaped(this[name].text(uri))}`);
      }
    }
    return found.join('\n');
  }
}

function change(line) {
  const [word, ...rest] = words(line, 6);
  const [startLine, start, endLine, end] = rest.slice(0, 4).map(Number);
  const text = plain(rest[4]);
  const range = { start: { line: startLine, character: start }, end: { line: endLine, character: end } };
  return word === 'change' ? { range, text } : { text };
}

const lines = fs.readFileSync(0, 'utf8').split('\n').slice(0, -1);
const output = [];
let session;
for (let at = 0; at < lines.length; at++) {
  const [word, ...rest] = words(lines[at], 4);
  if (word === 'session') {
    session = new Session(lines[at].split(' ').slice(1).map(Number));
  } else if (word === 'open') {
    output.push(session.call('open', rest[0], 'c', Number(rest[1]), plain(rest[2])));
  } else if (word === 'edit') {
    const count = Number(rest[2]);
    output.push(session.call('edit', rest[0], Number(rest[1]), lines.slice(at + 1, at + 1 + count).map(change)));
    at += count;
  } else if (word === 'close') {
    output.push(session.call('close', rest[0]));
  } else if (['toServer', 'toClient', 'end'].includes(word)) {
    output.push({ toServer: () => session.serve(), toClient: () => session.hear(), end: () => session.end() }[word]());
  } else {
    output.push(session.call(word));
  }
}
fs.writeFileSync(1, output.map((line) => `${line}\n`).join(''));
