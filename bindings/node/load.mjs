// The package where there is no Node, or for a bundler. tools/targets puts log-from.js, api.js and module.js before this, so that laspidru.mjs is one file.
let loading;

/** The bytes of a module, or the module that they were compiled to. */
async function fetched(source) {
  if (typeof source !== 'string' && !(source instanceof URL)) return source;
  const url = new URL(source, import.meta.url);
  if (url.protocol === 'file:' && globalThis.process?.versions?.node) {
    const files = 'node:fs/promises'; // (no bundler is to look for it)
    return (await import(/* webpackIgnore: true */ /* @vite-ignore */ files)).readFile(url);
  }
  const response = await fetch(url);
  if (!response.ok) throw new Error(`${url}: ${response.status} ${response.statusText}`);
  return response.arrayBuffer();
}

async function loaded(source) {
  const found = await fetched(source);
  const compiling = found instanceof WebAssembly.Module ? found : WebAssembly.compile(found);
  return over(addonOf(await Promise.resolve(compiling).catch((error) => { throw lacking(error); })));
}

/** Loads the library, once: of an URL, bytes or a module that was compiled; without one laspidru.wasm beside this file. */
export function load(source = new URL('./laspidru.wasm', import.meta.url)) {
  loading ??= loaded(source).catch((error) => {
    loading = undefined;
    throw error;
  });
  return loading;
}
