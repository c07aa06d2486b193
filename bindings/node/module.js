'use strict';
// What calls the library for api.js: over the addon (addon.c), or over a WebAssembly module of the library. A function of the library takes a
// handle, numbers, positions, and bytes: a place in `room`, where structs are passed too, or an array. The layout is that of 64 bits, also in wasm32.
const { Buffer } = require('./api.js');

// declared: by tools/declared
const AT = {
  handle: { pointer: 0, is_full: 8, size: 16 },
  position: { line: 0, character: 4, size: 8 },
  edit: { start: 0, end: 8, len: 16, is_whole: 24, size: 32 },
  fault: { change: 0, at_end: 8, size: 16 },
  edits_fault: { edit: 0, other: 8, at_end: 16, size: 24 },
  line: { start: 0, end: 8, size: 16 },
  length: { bytes: 0, lines: 8, size: 16 },
  settings: { max_body: 0, max_text: 8, max_docs: 16, max_changes: 24, encoding: 32, is_fixed: 36, whole_texts: 37, lenient: 38, size: 40 },
  answer: { kind: 0, reason: 4, status: 8, error: 12, reply_len: 16, size: 24 },
  taken: { bytes: 0, body_len: 8, offset: 16, frame: 24, is_whole: 28, size: 32 },
  client_settings: { max_body: 0, max_text: 8, max_docs: 16, max_changes: 24, utf8: 32, utf32: 33, lenient: 34, size: 40 },
  state: { phase: 0, reason: 4, encoding: 8, documents: 16, size: 24 },
  opened: { version: 0, bytes: 8, size: 16 },
  log_settings: { max_body: 0, max_text: 8, max_docs: 16, max_changes: 24, at: 32, encoding: 40, lenient: 44, squash: 45, documents: 46, texts: 47, bodies: 48, has_uri: 49, brief: 50, all: 51, size: 56 },
  ending: { status: 0, frame: 4, missing: 8, messages: 16, refused: 24, offset: 32, output_len: 40, size: 48 },
};
// end of declared

const OK = 0;
const REPLIED = 0;
const ROOM = 65536;
const REPORTED_STEP = 65536; // the collector hears of a document's size after changes of so many bytes
const SERVER = ['encoding', 'is_fixed', 'whole_texts', 'lenient'];
const CLIENT = ['utf8', 'utf32', 'lenient'];
const LOG = ['encoding', 'lenient', 'squash', 'documents', 'texts', 'bodies', 'has_uri', 'brief', 'all'];
const SIMD = Uint8Array.of(0, 97, 115, 109, 1, 0, 0, 0, 1, 5, 1, 96, 0, 1, 123, 3, 2, 1, 0, 10, 10, 1, 8, 0, 65, 0, 253, 15, 253, 98, 11);

/** The module of these bytes, or an error that says what the engine lacks. */
function compiled(source) {
  try {
    return new WebAssembly.Module(source);
  } catch (error) {
    throw lacking(error);
  }
}

function lacking(error) {
  if (WebAssembly.validate(SIMD)) return error;
  const has = 'Node 16.4, Chrome and Edge 91, Firefox 89, Safari 16.4 and newer ones';
  return new Error(`laspidru's module needs WebAssembly with vectors of 128 bits (SIMD), which this engine lacks; it is in ${has}`, { cause: error });
}

/** The library in a WebAssembly module, which imports nothing. Sizes are i64 (BigInt), but malloc's. */
function inModule(module_) {
  const exported = new WebAssembly.Instance(module_, {}).exports;
  const { memory } = exported;
  const lib = { runOut() { throw new RangeError('out of memory'); } };
  const look = () => Object.assign(lib, { bytes: new Uint8Array(memory.buffer), view: new DataView(memory.buffer) });
  let trap;

  /** A function of the module, after which `bytes` and `view` are of its memory as it then is. After any has trapped none is called again: the
   * stack is as the trap left it. */
  const guarded = (call) => (...given) => {
    if (trap === undefined) {
      try {
        const result = call(...given);
        if (lib.bytes.buffer !== memory.buffer) look();
        return result;
      } catch (error) {
        trap = error;
      }
    }
    throw new Error("laspidru's module has trapped, as it does where its stack is spent, and is used no more", { cause: trap });
  };
  look();
  for (const [name, it] of Object.entries(exported)) if (typeof it === 'function') lib[name.replace('laspidru_', '')] = guarded(it);
  const place = (at) => at;
  const allocated = (size) => (size < 2 ** 31 ? lib.malloc(size) >>> 0 : 0) || lib.runOut();
  const free = (at) => { if (trap === undefined) lib.free(at); };
  const drop = (handle) => { if (trap === undefined) lib.handle_free(handle); };
  const finished = new FinalizationRegistry((at) => {
    drop(place(at));
    free(at);
  });
  const decoder = new TextDecoder('utf-8', { ignoreBOM: true });
  const room = allocated(ROOM);
  let used = 0;
  const own = []; // what long bytes have for a call

  function take(size) {
    const all = size < ROOM ? (size + 15) & ~15 : size;
    if (used + all <= ROOM) {
      used += all;
      return room + used - all;
    }
    const at = allocated(size);
    own.push(at);
    return at;
  }

  /** The bytes that a call copies, up to so many. */
  function copied(length, copy) {
    const [at, count] = [take(length || 1), take(8)];
    const code = copy(place(at), BigInt(length), place(count));
    return code === OK ? lib.bytes.subarray(at, at + lib.view.getUint32(count, true)) : lib.refuse(code);
  }

  return Object.assign(lib, {
    place,
    size: BigInt,
    /** A position by value: its line in the low half. */
    position: (line, character) => [BigInt.asIntN(64, (BigInt(character) << 32n) | BigInt(line))],
    take,
    array(array, length) {
      const at = take(length);
      lib.bytes.set(new Uint8Array(array.buffer, array.byteOffset, length), at);
      return place(at);
    },
    string: (length, copy) => decoder.decode(copied(length, copy)),
    buffer: (length, copy) => Buffer.from(copied(length, copy)),
    handle() {
      const held = { at: allocated(AT.handle.size) };
      lib.bytes.fill(0, held.at, held.at + AT.handle.size);
      finished.register(held, held.at);
      return held;
    },
    of: ({ at }) => place(at),
    isFull: ({ at }) => lib.bytes[at + AT.handle.is_full] !== 0,
    drop: ({ at }) => drop(place(at)),
    mark: () => [used, own.length],
    /** Frees what was taken since. */
    done([to, count] = [0, 0]) {
      used = to;
      own.splice(count).forEach(free);
    },
  });
}

/** The library in the addon. */
function inAddon(addon) {
  const bytes = new Uint8Array(ROOM);
  addon.bind(bytes);
  const it = (value) => value;
  let used = 0;
  return {
    ...addon,
    bytes,
    view: new DataView(bytes.buffer),
    take(size) {
      used += (size + 15) & ~15;
      return used - ((size + 15) & ~15);
    },
    place: it,
    size: it,
    position: (line, character) => [line, character],
    array: it,
    string(length, copy) {
      const found = copy(null, length, this.take(8)); // (the addon makes a string where it is passed no bytes to write)
      return typeof found === 'string' ? found : this.refuse(found);
    },
    buffer(length, copy) {
      const out = Buffer.allocUnsafe(length);
      const code = copy(out, length, this.take(8));
      return code === OK ? out : this.refuse(code);
    },
    of: it,
    mark: () => [used],
    done([to] = [0]) { used = to; },
  };
}

/** What api.js calls. */
function over(lib) {
  const { place, size, take } = lib;
  const texts = []; // [name, what it means] of each code, by its number

  function refusal(code, where = '', more = {}) {
    const [name, why] = texts[code] ?? ['UNKNOWN', `code ${code}`];
    return Object.assign(new RangeError(where + why), { code: name, ...more });
  }

  function refuse(code) {
    throw refusal(code);
  }

  const demand = (code) => code === OK || refuse(code);

  lib.runOut = () => refuse(texts.findIndex(([name]) => name === 'OUT_OF_MEMORY'));

  function zeroes(length) {
    const at = take(length);
    lib.bytes.fill(0, at, at + length);
    return at;
  }

  /** Makes calls, and frees what they took. */
  const within = (work) => (a, b, c, d, e, f) => {
    try {
      return work(a, b, c, d, e, f);
    } finally {
      lib.done();
    }
  };

  const u32 = (at) => lib.view.getUint32(at, true);
  const i32 = (at) => lib.view.getInt32(at, true);
  const u64 = (at) => u32(at) + 2 ** 32 * u32(at + 4);
  const bool = (at) => lib.bytes[at] !== 0;
  const isCode = (code, ...names) => names.includes(texts[code]?.[0]);

  /** Elements that are passed, and how many, as arguments. */
  const passed = (array, count = array.length, length = count) => [lib.array(array, length), size(count)];

  /** How many bytes the texts of edits have. Eight numbers of an edit are its struct. */
  function lengthOf(numbers) {
    let length = 0;
    for (let i = 4; i < numbers.length; i += 8) length += numbers[i];
    return length;
  }

  /** Edits and their texts, as arguments. */
  const editsOf = (numbers, texts) => [...passed(numbers, numbers.length / 8, numbers.byteLength), ...passed(texts, lengthOf(numbers))];

  /** The limits, and then these members of a struct. */
  function settingsOf(numbers, offsets, members) {
    const at = zeroes(offsets.size);
    for (let i = 0; i < 4; i++) lib.view.setUint32(at + 8 * i, numbers[i], true);
    members.forEach((member, i) => { lib.bytes[at + offsets[member]] = numbers[4 + i]; });
    return at;
  }

  /** What `found` has of the bytes that a call writes, so many of them. */
  function written(length, call, found = () => undefined, refused = refuse) {
    const at = take(length);
    const code = call(place(at));
    return code === OK ? found(at) : refused(code, at);
  }

  /** A new handle, filled by a call. */
  function made(fill) {
    const held = lib.handle();
    const code = fill(lib.of(held));
    return code === OK ? held : refuse(code);
  }

  const spare = lib.handle();
  /** A handle for the time of some work. */
  function during(work) {
    try {
      return work(lib.of(spare));
    } finally {
      lib.drop(spare);
    }
  }

  function refuseChange(code, at) {
    if (!isCode(code, 'INSIDE_CHARACTER', 'REVERSED_RANGE')) refuse(code);
    const change = u64(at + AT.fault.change);
    throw refusal(code, `change at index ${change}: `, { change, atEnd: bool(at + AT.fault.at_end) });
  }

  function refuseEdits(code, at) {
    const { edit: one, other: two, at_end: end } = AT.edits_fault;
    const [edit, other, atEnd] = [u64(at + one), u64(at + two), bool(at + end)];
    if (isCode(code, 'OVERLAP')) throw refusal(code, `edits at the indexes ${edit} and ${other}: `, { edit, atEnd, other });
    if (!isCode(code, 'INSIDE_CHARACTER', 'REVERSED_RANGE')) refuse(code);
    throw refusal(code, `edit at index ${edit}: `, { edit, atEnd });
  }

  /** The changes of a batch. */
  function changesOf(batch) {
    const [out, at] = [[], take(AT.edit.size)];
    const length = written(8, (to) => lib.batch_len(batch, to), u64);
    const mark = lib.mark();
    for (let index = 0; index < length; index++) {
      const copy = (out, most, count) => lib.batch_edit(batch, size(index), place(at), out, most, count);
      lib.buffer(0, copy); // (the edit alone, for the length of its text)
      out.push([u32(at), u32(at + 4), u32(at + 8), u32(at + 12), bool(at + AT.edit.is_whole), lib.string(u64(at + AT.edit.len), copy)]);
      lib.done(mark);
    }
    return out;
  }

  const batchOf = (call, refused) => during((batch) => written(AT.edits_fault.size, (at) => call(batch, at), () => changesOf(batch), refused));
  const textOf = (held, start, length) => lib.string(length, (out, most, count) => lib.document_copy(lib.of(held), size(start), out, most, count));
  const frameAt = (held, length) => lib.buffer(length, (out, most, count) => lib.session_frame(lib.of(held), size(0), out, most, count));

  /** Where the length of a document is written. */
  function lengthsAt(held) {
    const at = take(AT.length.size);
    demand(lib.document_size(lib.of(held), place(at)));
    return at;
  }

  /** After so many bytes were put in: where that is due, the collector hears how much memory a document has, else a program that drops many
   * would keep them too long. (That of a module it can't be told.) */
  function note(document, bytes) {
    document.putIn += bytes;
    if (!lib.report || document.putIn < REPORTED_STEP) return;
    document.putIn = 0;
    lib.report(document.held, u64(lengthsAt(document.held)));
  }

  /** Edits of a document by a call. (Without what others have in short, since this is each keystroke.) */
  const edited = (call, fault, refused) => (document, encoding, numbers, texts) => {
    const [at, length] = [take(fault.size), lengthOf(numbers)];
    const [edits, bytes] = [lib.array(numbers, numbers.byteLength), lib.array(texts, length)];
    const code = call(lib.of(document.held), encoding, edits, size(numbers.length / 8), bytes, size(length), place(at));
    if (code !== OK) refused(code, at);
    note(document, length);
  };

  /** The frame of a call of a client, which says how long it is. */
  const frameOf = (client, call, refused) => written(AT.fault.size + 8, (at) => call(lib.of(client), place(Number(at) + AT.fault.size), at),
    (at) => frameAt(client, u64(at + AT.fault.size)), refused);

  /** What a call has of an open document, which `found` reads where it was written; undefined where none of the URI is open. */
  function ofOpen(end, uri, call, found) {
    const handle = lib.of(end);
    const name = lib.array(uri, uri.length);
    const length = size(uri.length);
    const at = take(16);
    const code = call(handle, name, length, place(at));
    if (code !== OK) return isCode(code, 'NOT_OPEN') ? undefined : refuse(code);
    return found(at, (start, room) => lib.string(room, (out, most, count) =>
      lib.session_document_text(handle, name, length, size(start), out, most, count)));
  }

  const calls = {
    open(text) {
      const document = { held: made((handle) => lib.document_new(handle, ...passed(text))), putIn: REPORTED_STEP };
      note(document, 0);
      return document;
    },
    close({ held }) {
      lib.drop(held);
      lib.report?.(held, 0);
    },
    change: edited(lib.document_change, AT.fault, refuseChange),
    applyEdits: edited(lib.document_apply_edits, AT.edits_fault, refuseEdits),
    canonical: ({ held }, encoding, ...edits) =>
      batchOf((...out) => lib.document_canonical(lib.of(held), encoding, ...editsOf(...edits), ...out), refuseChange),
    batchOfEdits: ({ held }, encoding, ...edits) =>
      batchOf((...out) => lib.document_batch_of_edits(lib.of(held), encoding, ...editsOf(...edits), ...out), refuseEdits),
    text: ({ held }) => textOf(held, 0, u64(lengthsAt(held))),
    lineCount: ({ held }) => u64(lengthsAt(held) + AT.length.lines),
    line({ held }, line) {
      const at = take(AT.line.size);
      demand(lib.document_line(lib.of(held), line, place(at)));
      return textOf(held, u64(at + AT.line.start), u64(at + AT.line.end) - u64(at + AT.line.start));
    },
    offset({ held }, encoding, line, character) {
      const at = take(8);
      demand(lib.document_offset(lib.of(held), encoding, ...lib.position(line, character), place(at)));
      return u64(at);
    },
    position({ held }, encoding, offset) {
      const at = take(AT.position.size);
      demand(lib.document_position(lib.of(held), encoding, size(offset), place(at)));
      return [u32(at), u32(at + 4)];
    },
    log(command, log, numbers, last, uri, saved) {
      return during((output) => {
        const [at, settings, it] = [take(AT.ending.size), settingsOf(numbers, AT.log_settings, LOG), AT.ending];
        lib.view.setBigUint64(settings + AT.log_settings.at, BigInt(last), true);
        const read = [place(settings), ...passed(uri), ...(saved ? passed(saved) : []), ...passed(log), place(at)];
        const code = saved ? lib.log_compare(output, ...read) : lib.log_run(output, command, ...read);
        if (!lib.isFull(spare)) refuse(code);
        const ended = { code, status: u32(at + it.status), missing: u32(at + it.missing), frame: u32(at + it.frame) };
        const counts = { messages: u64(at + it.messages), refused: u64(at + it.refused), offset: u64(at + it.offset) };
        return { ...ended, ...counts, output: lib.buffer(u64(at + it.output_len), (...to) => lib.output_copy(output, size(0), ...to)) };
      });
    },
    newFramer: (maxBody) => made((handle) => lib.framer_new(handle, size(maxBody))),
    feed(framer, piece, start) {
      const [handle, it] = [lib.of(framer), AT.taken];
      return written(it.size, (at) => lib.framer_feed(handle, ...passed(piece.subarray(start)), at), (at) => {
        if (!bool(at + it.is_whole)) return [u64(at + it.bytes)];
        const body = lib.buffer(u64(at + it.body_len), (...to) => lib.framer_body(handle, size(0), ...to));
        lib.framer_next(handle);
        return [u64(at + it.bytes), body];
      }, (code, at) => (isCode(code, 'BAD_FRAME') ? [-u32(at + it.frame), u64(at + it.offset)] : refuse(code)));
    },
    isAtRest: (framer) => written(8, (at) => lib.framer_at_rest(lib.of(framer), at), bool),
    newServer: (numbers) => made((handle) => lib.server_new(handle, place(settingsOf(numbers, AT.settings, SERVER)))),
    newClient: (numbers) => made((handle) => lib.client_new(handle, place(settingsOf(numbers, AT.client_settings, CLIENT)))),
    deliver: (end, body) => written(AT.answer.size, (at) => lib.session_deliver(lib.of(end), ...passed(body), at), (at) => {
      const it = AT.answer;
      const out = [u32(at + it.kind), u32(at + it.reason), u32(at + it.status), i32(at + it.error)];
      if (out[0] === REPLIED) out.push(frameAt(end, u64(at + it.reply_len)));
      return out;
    }),
    uri(body) {
      try {
        return lib.string(body.length, (...to) => lib.message_uri(...passed(body), size(0), ...to));
      } catch (error) {
        if (error.code === 'NO_DOCUMENT') return undefined;
        throw error;
      }
    },
    texts: () => texts.map(([name, why]) => `${name}: ${why}`),
    version: () => lib.version(),
    call: (client, which) => frameOf(client, [lib.client_start, lib.client_shutdown, lib.client_exit][which]),
    openAt: (client, uri, language, version, text) => frameOf(client, (handle, length) =>
      lib.client_did_open(handle, ...passed(uri), ...passed(language), version, ...passed(text), length)),
    edit: (client, uri, version, ...edits) => frameOf(client, (handle, length, fault) =>
      lib.client_did_change(handle, ...passed(uri), version, ...editsOf(...edits), fault, length), refuseChange),
    closeAt: (client, uri) => frameOf(client, (handle, length) => lib.client_did_close(handle, ...passed(uri), length)),
    state: (end) => written(AT.state.size, (at) => lib.session_state(lib.of(end), at),
      (at) => [u32(at + AT.state.phase), u32(at + AT.state.reason), u32(at + AT.state.encoding), u64(at + AT.state.documents)]),
    document: (end, uri, withText) => ofOpen(end, uri, lib.session_document_state, (at, text) =>
      [i32(at + AT.opened.version), withText ? text(0, u64(at + AT.opened.bytes)) : undefined]),
    offsetAt: (end, uri, encoding, line, character) => ofOpen(end, uri, (handle, name, length, at) =>
      lib.session_document_offset(handle, name, length, encoding, ...lib.position(line, character), at), u64),
    positionAt: (end, uri, encoding, offset) => ofOpen(end, uri, (handle, name, length, at) =>
      lib.session_document_position(handle, name, length, encoding, size(offset), at),
    (at) => [u32(at + AT.position.line), u32(at + AT.position.character)]),
    lineAt: (end, uri, line) => ofOpen(end, uri, (handle, name, length, at) => lib.session_document_line(handle, name, length, line, at),
      (at, text) => text(u64(at + AT.line.start), u64(at + AT.line.end) - u64(at + AT.line.start))),
    batchOfEditsAt: (end, uri, encoding, ...edits) => batchOf((...out) =>
      lib.session_document_batch_of_edits(lib.of(end), ...passed(uri), encoding, ...editsOf(...edits), ...out), refuseEdits),
    canonicalMessage: (end, uri, version, encoding, ...edits) => during((output) => written(AT.fault.size + 8, (at) =>
      lib.session_document_canonical_message(lib.of(end), ...passed(uri), version, encoding, ...editsOf(...edits), output, at,
        place(Number(at) + AT.fault.size)), (at) => lib.buffer(u64(at + AT.fault.size), (...to) => lib.output_copy(output, size(0), ...to)), refuseChange)),
  };
  lib.refuse = () => undefined; // (there are no more texts)
  const textAt = within((code) => lib.string(120, (...to) => lib.code_text(code, size(0), ...to)));
  for (let text = textAt(0); text; text = textAt(texts.length)) texts.push(text.split(': '));
  lib.refuse = refuse;
  return Object.fromEntries(Object.entries(calls).map(([name, call]) => [name, within(call)]));
}

const addonOf = (module_) => over(inModule(module_));
const addonOver = (addon) => over(inAddon(addon));

module.exports = { addonOf, addonOver, compiled, lacking };
