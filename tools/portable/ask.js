'use strict';
// Runs the library's commands on logs, as ask.c does, over an addon (module.js): for Node, where LASPIDRU_ADDON
// names the module, and for a page.
const FAULT = 2;
const COMMANDS = [0, 3, 4, 5]; // as laspidru.h has them

/** The answers to the requests that these bytes have, in parts. */
function answered(addon, bytes) {
  const parts = [];
  const view = new DataView(bytes.buffer, bytes.byteOffset, bytes.length);
  for (let at = 0; at < bytes.length;) {
    const [command, encoding, length] = [0, 4, 8].map((it) => view.getUint32(at + it, true));
    const log = bytes.subarray(at + 12, at + 12 + length);
    const { code, status, output } = addon.log(COMMANDS[command], log,
      Uint32Array.of(1 << 24, 1 << 24, 1024, 65536, encoding, 0, 0, 0, 0, 0, 0), 0, new Uint8Array());
    parts.push(new Uint8Array(Uint32Array.of(code === 0 ? status : FAULT, output.length).buffer), output);
    at += 12 + length;
  }
  return parts;
}

if (typeof require === 'function' && require.main === module) {
  const fs = require('fs');
  const { addonOf, compiled } = require('../../bindings/node/module.js');
  fs.writeFileSync(1, Buffer.concat(answered(addonOf(compiled(fs.readFileSync(process.env.LASPIDRU_ADDON))), fs.readFileSync(0))));
}
