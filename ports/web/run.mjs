// node run.mjs HEADS.HTML WORD..: the module that the page holds, on the files of this folder and of those below it. The page
// is read as the browser would: so the tests try the very bytes that the page has.
import { readFileSync, readdirSync, writeSync } from "node:fs";
import { gunzipSync } from "node:zlib";
import { Folder, run } from "./host.mjs";

const [page, ...words] = process.argv.slice(2);
const held = /<script type="application\/gzip" id="module">([^<]*)<\/script>/.exec(readFileSync(page, "utf-8"));
const module = new WebAssembly.Module(gunzipSync(Buffer.from(held[1], "base64")));

/** Files are read when they are asked for: a folder may have others, of any size. */
class Disk {
    constructor(root) {
        this.files = new Map();
        this.#list(root, "");
    }

    #list(root, before) {
        for (const entry of readdirSync(root || ".", { withFileTypes: true })) {
            const name = before + entry.name;
            if (entry.isDirectory()) this.#list(name, `${name}/`);
            else if (entry.isFile()) this.files.set(name, name);
        }
    }

    keys() {
        return this.files.keys();
    }

    has(name) {
        return this.files.has(name);
    }

    get(name) {
        return this.files.has(name) ? new Uint8Array(readFileSync(name)) : undefined;
    }
}

const { status, out, side, memory } = run(module, words, new Folder(new Disk("")));
for (const [stream, bytes] of [[1, out], [2, side]]) {
    for (let at = 0; at < bytes.length; ) at += writeSync(stream, bytes, at);
}
if (process.env.HEADS_MEMORY) console.error(`memory ${memory}`);
process.exit(status);
