// Gives a page that was built with faults.c what that asks of its host: the numbers of the environment's words, and a note
// where a call fails. In a browser's worker `options` is set before; Node's runner hands it over with each run.
const { Instance, Module } = WebAssembly;
globalThis.faults = { options: {}, noted: undefined };
const compiled = new Map();

/** A module that was compiled before is taken again: there are thousands of runs of one. */
WebAssembly.Module = function (bytes) {
    const key = bytes.byteLength;
    if (!compiled.has(key)) compiled.set(key, new Module(bytes));
    return compiled.get(key);
};

WebAssembly.Instance = function (module, { host }) {
    const { options } = globalThis.faults;
    globalThis.faults.noted = undefined;
    let made;
    const word = (at, size) => new TextDecoder().decode(new Uint8Array(made.exports.memory.buffer, Number(at), Number(size)));
    const more = {
        option: (at, size) => BigInt(options[word(at, size)] ?? 0),
        note: (bytes) => {
            globalThis.faults.noted = (globalThis.faults.noted ?? 0) + bytes;
        },
    };
    made = new Instance(module, { host: { ...host, ...more } });
    return made;
};
