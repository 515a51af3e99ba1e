// node run_faults.mjs PAGE: runs the module of a page that was built with faults.c, once for each line of its input: a JSON text
// of the words, the files in base64, and the options. It answers with a line of JSON each.
import { readFileSync } from "node:fs";
import { createInterface } from "node:readline";
import { gunzipSync } from "node:zlib";
import "./faults.mjs";
import { Folder, run } from "../web/host.mjs";

const held = /<script type="application\/gzip" id="module">([^<]*)<\/script>/.exec(readFileSync(process.argv[2], "utf-8"));
const module = new WebAssembly.Module(gunzipSync(Buffer.from(held[1], "base64")));

/** How a run ended; one that traps has the status -1. */
function ended(words, folder) {
    try {
        return run(module, words, folder);
    } catch (error) {
        return { status: -1, out: "", side: String(error) };
    }
}

for await (const line of createInterface({ input: process.stdin })) {
    const { words, files, options } = JSON.parse(line);
    const bytes = new Map(Object.entries(files).map(([name, text]) => [name, new Uint8Array(Buffer.from(text, "base64"))]));
    globalThis.faults.options = options;
    const { status, out, side } = ended(words, new Folder(bytes));
    const [output, beside] = [out, side].map((it) => Buffer.from(it).toString("base64"));
    process.stdout.write(`${JSON.stringify({ status, out: output, side: beside, noted: globalThis.faults.noted ?? null })}\n`);
}
