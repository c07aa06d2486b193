#!/usr/bin/env node
'use strict';
// A language server over standard input, in Node. Hover shows the document as the server has it.
const { Server } = require('laspidru');

const server = new Server({ encoding: 'utf-16' });

function frame(message) {
  const body = Buffer.from(JSON.stringify(message));
  return Buffer.concat([Buffer.from(`Content-Length: ${body.length}\r\n\r\n`), body]);
}

/** What is sent: laspidru's reply, or in its place our own. */
function reply({ body, error, frame: given }) {
  if (error !== 0 && error !== -32601) return given;
  const { id, method, params } = JSON.parse(body);
  if (method === 'initialize') {
    const answer = JSON.parse(given.subarray(given.indexOf('\r\n\r\n') + 4));
    answer.result.capabilities.hoverProvider = true;
    return frame(answer);
  }
  if (method === 'textDocument/hover') {
    const text = server.text(params.textDocument.uri);
    return frame({ jsonrpc: '2.0', id, result: text === undefined ? null : { contents: [text] } });
  }
  return given;
}

process.exitCode = 1; // where the input ends before `exit`
process.stdin.on('data', (bytes) => {
  for (const event of server.messages(bytes)) {
    if (event.kind === 'replied') process.stdout.write(reply(event));
    if (event.kind === 'refused') console.error(event.uri, 'refused:', event.why);
    const isFaulty = event.error === -32700 || event.error === -32600; // a change may be lost with it
    if (isFaulty) console.error('faulty:', event.error, event.body.toString('utf8', 0, 200));
    if (event.kind === 'exited') {
      process.exitCode = event.status;
      process.stdin.destroy(); // the process ends once all is written
    }
  }
});
