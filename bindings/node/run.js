'use strict';
// The programs in Node, on any system: run.js NAME WORD .. is what `NAME WORD ..` is elsewhere. LASPIDRU_PROGRAM names another module than the one
// beside this file.
const fs = require('fs');
const path = require('path');
const tty = require('tty');
const { compiled } = require('./module.js');
const { runProgram } = require('./program.js');

/** Makes a call again while a pipe that doesn't wait has nothing, or no room. */
function waited(call) {
  for (;;) {
    try {
      return call();
    } catch (error) {
      if (error.code === 'EOF') return 0; // (a pipe's end on Windows)
      if (error.code !== 'EAGAIN') throw error;
      Atomics.wait(new Int32Array(new SharedArrayBuffer(4)), 0, 0, 5);
    }
  }
}

const system = {
  read: (file, bytes) => waited(() => fs.readSync(file, bytes)),
  write: (file, bytes) => waited(() => fs.writeSync(file, bytes)),
  open: (file) => fs.openSync(file, 'r'),
  close: (file) => fs.closeSync(file),
  isTerminal: (file) => tty.isatty(file),
  isFile: (file) => fs.statSync(file).isFile(),
};

/** Runs a program with these words, and sets the status of the process: 70 where the module can't be run to its end. */
function run(name, words) {
  const file = process.env.LASPIDRU_PROGRAM || path.join(__dirname, `${name}.wasm`);
  try {
    process.exitCode = runProgram(compiled(fs.readFileSync(file)), [name, ...words], system);
  } catch (error) {
    const why = error.code === 'ENOENT' ? `${file} isn't there: for Node the programs are WebAssembly` : error.message;
    console.error(`${name}: ${why}`);
    process.exitCode = 70;
  }
}

module.exports = { run };
if (require.main === module) run(process.argv[2], process.argv.slice(3));
