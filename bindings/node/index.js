'use strict';
// The package for Node: over the addon that LASPIDRU_ADDON names, or else the one beside this file where it can be loaded, or else the module of
// WebAssembly beside it. LASPIDRU_ADDON may name a module too.
const fs = require('fs');
const path = require('path');
const { over } = require('./api.js');
const { addonOf, addonOver, compiled } = require('./module.js');

const MODULE = path.join(__dirname, 'laspidru.wasm');

/** Why the addon can't be loaded, in a sentence. `problem` is what the loader says. */
function why({ code, message: problem }) {
  const { platform, arch } = process;
  if (platform !== 'linux' || arch !== 'x64') return `laspidru's addon is for Linux on x64, and this Node is for ${platform} on ${arch}`;
  if (code === 'MODULE_NOT_FOUND') return "laspidru's addon isn't built: docs/INSTALL.md says how, and LASPIDRU_ADDON names it if it is elsewhere";
  const needed = /GLIBC_([0-9.]+)' not found/.exec(problem);
  const { glibcVersionRuntime: version } = process.report.getReport().header;
  if (needed) return `laspidru's addon needs glibc ${needed[1]} or newer, and this is glibc ${version}`;
  if (!version) return "laspidru's addon needs the C library glibc, and this Node has another one";
  return `laspidru's addon can't be loaded: ${problem}`;
}

const moduleAt = (file) => addonOf(compiled(fs.readFileSync(file)));

function loaded() {
  const named = process.env.LASPIDRU_ADDON;
  if (named?.endsWith('.wasm')) return moduleAt(named);
  try {
    return addonOver(require(named ? path.resolve(named) : './laspidru.node'));
  } catch (error) {
    if (!named && fs.existsSync(MODULE)) return moduleAt(MODULE);
    throw Object.assign(new Error(why(error)), { code: error.code, cause: error });
  }
}

/** The bytes of a log, or of the file of a path, an URL or a number. */
const read = (log) => (typeof log === 'string' || typeof log === 'number' || log instanceof URL ? fs.readFileSync(log) : log);

module.exports = over(loaded(), read);
// `import { TextDocument } from 'laspidru'` finds the names here: Node reads them from the source of a CommonJS module, and runs nothing of it.
0 && (module.exports = { version, WHY, TextDocument, Framer, Server, Client, FrameFault, LogFault, check, trace, replay, compare, normalise, convert, logFrom });
