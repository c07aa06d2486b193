"use strict";
// What the page's worker does: it runs lspsync, a WebAssembly module, on a log, and makes logs of what editors write themselves. viewer/page puts
// program.js and log-from.js of bindings/node before this.

const LONGEST_BODY = 20000, SHORTENED_BODY = 2000, MOST_BODIES = 2e8, MOST_GATHERED = 1 << 18, LONGEST_PIECE = 1 << 23, BETWEEN_POSTS = 50;
// How many bytes of the page's memory all records may take, of which a browser has 4 GB, and about how many one takes besides its texts.
const MOST_KEPT = 2.5e9, OF_A_RECORD = 1000;
const SIMD = Uint8Array.of(0, 97, 115, 109, 1, 0, 0, 0, 1, 5, 1, 96, 0, 1, 123, 3, 2, 1, 0, 10, 10, 1, 8, 0, 65, 0, 253, 15, 253, 98, 11);
const LACKS = "This browser's WebAssembly has no vectors of 128 bits (SIMD). Chrome and Edge 97, Firefox 102, Safari 16.4 and newer ones do.";

/** How many of at most so many UTF-16 units are equal at the start or the end of two texts. */
function common(old, text, most, isEnd) {
  let low = 0, high = most;
  while (low < high) {
    const middle = (low + high + 1) >> 1, part = it => isEnd ? it.slice(it.length - middle, it.length - low) : it.slice(low, middle);
    if (part(old) === part(text)) low = middle; else high = middle - 1;
  }
  return low;
}

/** What makes one text of another: the numbers of units that stay before and after it, and a text. No character is cut in two. */
function delta(old, text) {
  const shorter = Math.min(old.length, text.length);
  let before = common(old, text, shorter, false);
  if (before > 0 && (text.charCodeAt(before - 1) & 0xfc00) === 0xd800) before--;
  let after = common(old, text, shorter - before, true);
  if (after > 0 && (text.charCodeAt(text.length - after) & 0xfc00) === 0xdc00) after--;
  return [before, after, text.slice(before, text.length - after)];
}

/** Puts 0 for each text in a list of changes that is the document's whole text anyway. */
function leaveOut(changes, text) {
  for (const change of Array.isArray(changes) ? changes : []) if (change?.text === text) change.text = 0;
}

/** Makes a line of the trace what the page keeps: of a text what differs from the one before, of `canonical` the changes. `kept` has the texts,
 * about how many bytes all takes, and how long the bodies are together that concern no document: past a bound all long ones are shortened. */
function shorten(record, kept) {
  const { text, uri, body, canonical } = record, changes = canonical?.params?.contentChanges, params = body?.params;
  delete record.text;
  delete record.canonical;
  kept.size += OF_A_RECORD;
  if (Array.isArray(changes)) record.canonical = changes;
  if (text !== undefined) {
    record.delta = delta(kept.texts.get(uri) ?? "", text);
    kept.size += 3 * record.delta[2].length; // (`canonical` and `body` may have it too)
    kept.texts.set(uri, text);
    for (const list of [changes, params?.contentChanges, [params?.textDocument]]) leaveOut(list, text);
  } else if (record.method === "textDocument/didSave") {
    leaveOut([params], kept.texts.get(params?.textDocument?.uri) ?? 0);
  } else if (uri === undefined && body !== undefined) {
    const written = JSON.stringify(body), isLong = written.length > (kept.bodies > MOST_BODIES ? SHORTENED_BODY : LONGEST_BODY);
    kept.bodies += isLong ? SHORTENED_BODY : written.length;
    kept.size += isLong ? SHORTENED_BODY : written.length;
    if (isLong) record.body = `${written.slice(0, SHORTENED_BODY)} … (${written.length} characters in all)`;
  }
  return record;
}

/** Gathers what is written, and posts it to the page now and then, with how much of the log was read. */
class Gathered {
  constructor() {
    Object.assign(this, { parts: [], size: 0, read: 0, posted: performance.now(), fault: "" });
  }

  add(part, size) {
    this.parts.push(part);
    this.size += size;
    if (this.size > MOST_GATHERED || performance.now() - this.posted > BETWEEN_POSTS) this.post();
  }

  post() {
    postMessage({ parts: this.parts, read: this.read }, this.parts.filter(ArrayBuffer.isView).map(({ buffer }) => buffer));
    Object.assign(this, { parts: [], size: 0, posted: performance.now() });
  }
}

/** Takes the trace piece by piece, and gives its lines as records, up to one that is none. */
function linesOf(gathered) {
  const kept = { texts: new Map(), bodies: 0, size: 0 }, decoder = new TextDecoder("utf-8", { ignoreBOM: true });
  let line = "", count = 0;
  return piece => {
    for (let end; !gathered.fault && (end = piece.indexOf(10)) >= 0; piece = piece.subarray(end + 1)) {
      line += decoder.decode(piece.subarray(0, end));
      count++;
      try {
        gathered.add(shorten(JSON.parse(line), kept), line.length);
      } catch {
        gathered.fault = `Line ${count} of what the program wrote is no line of a trace.`;
      }
      if (kept.size > MOST_KEPT) {
        gathered.fault = `The log is too large to be shown whole: these are its first ${count} messages. The commands above read all of it.`;
      }
      line = "";
    }
    line += decoder.decode(piece, { stream: true });
  };
}

/** The files that the program can open, by their names, of which `log` is read piece by piece; and its outputs. A browser reads few long pieces
 * faster than many short ones. */
function systemOf(files, log, gathered, take, said) {
  const reader = new FileReaderSync(), opened = [];
  return {
    open(name) {
      if (!files.has(name)) throw Object.assign(new Error("no file"), { code: "ENOENT" });
      return opened.push({ name, read: 0, piece: new Uint8Array() }) + 2; // (0 to 2 are the standard ones)
    },
    read(number, bytes) {
      const file = opened[number - 3];
      if (!file.piece.length) file.piece = new Uint8Array(reader.readAsArrayBuffer(files.get(file.name).slice(file.read, file.read + LONGEST_PIECE)));
      const part = file.piece.subarray(0, bytes.length);
      bytes.set(part);
      file.piece = file.piece.subarray(part.length);
      file.read += part.length;
      if (file.name === log) gathered.read = file.read;
      return part.length;
    },
    write(number, bytes) {
      if (number === 1) take(bytes); else said.push(bytes.slice());
      if (gathered.fault) throw new Error(gathered.fault); // (which is a failed write to the program: it ends)
      return bytes.length;
    },
    close() {}, isTerminal: () => false, isFile: name => files.has(name),
  };
}

/** Bytes that were packed by gzip and written in base64. */
function unpacked(text) {
  const bytes = Uint8Array.from(atob(text), it => it.charCodeAt(0));
  return new Response(new Blob([bytes]).stream().pipeThrough(new DecompressionStream("gzip")));
}

/** The module, which a browser's later workers take as the first one has compiled it. */
async function compiled(engine) {
  if (typeof engine !== "string") return engine;
  try {
    const module = await WebAssembly.compile(await unpacked(engine).arrayBuffer());
    postMessage({ engine: module });
    return module;
  } catch (error) {
    throw globalThis.WebAssembly?.validate(SIMD) ? error : new Error(LACKS);
  }
}

let compiling;

/** What a file is made to, a log of its session of that number, or why it can't be. */
function madeOf(file, session) {
  try {
    const { log, ...made } = logFrom(new Uint8Array(new FileReaderSync().readAsArrayBuffer(file)), { session });
    return { ...made, log: new Blob([log]) };
  } catch ({ code, message }) {
    return { code, said: message };
  }
}

/** Makes a log of a file, or runs the program on a log, or without one only compiles it, for the first run. */
onmessage = async ({ data: { source, number, engine, words, files, isTrace } }) => {
  if (source) return postMessage({ made: madeOf(source, number) });
  compiling ??= compiled(engine);
  if (!words) return compiling.catch(() => {}); // (the first run says why)
  const gathered = new Gathered(), said = [], take = isTrace ? linesOf(gathered) : piece => gathered.add(piece.slice(), piece.length);
  const log = words.at(-1);
  try {
    if (typeof files.get(log) === "string") {
      files.set(log, await unpacked(files.get(log)).blob());
      postMessage({ log: files.get(log) });
    }
    const status = runProgram(await compiling, ["lspsync", ...words], systemOf(files, log, gathered, take, said));
    gathered.post();
    postMessage({ status: gathered.fault ? -1 : status, said: gathered.fault || await new Blob(said).text() });
  } catch (error) {
    gathered.post();
    postMessage({ status: -1, said: error.message });
  }
};
