import type * as laspidru from './index.js';

/**
 * Loads the library, once: of an URL, the bytes of the module, or the compiled module; without one `laspidru.wasm` beside this file. A failed
 * call may be made again. Where there is no Node, each `Buffer` is a `Uint8Array` whose `toString` decodes UTF-8.
 */
export function load(source?: string | URL | BufferSource | WebAssembly.Module): Promise<typeof laspidru>;
