// Runs the program in a worker, so that the page stays alive, and so that its memory is given back when the worker ends.
import { Folder, joined, run } from "./host.mjs";

const STEP = [83, 84, 69, 80, 32], EVERY = 100;

async function unpacked(text) {
    const packed = new Blob([Uint8Array.from(atob(text), (letter) => letter.charCodeAt(0))]);
    return new Response(packed.stream().pipeThrough(new DecompressionStream("gzip"))).arrayBuffer();
}

onmessage = async ({ data: { packed, words, files, from } }) => {
    try {
        const folder = new Folder(files, from);
        let steps = 0, told = 0;
        const tell = (stream, piece) => {
            if (stream !== 1 || !STEP.every((letter, at) => piece[at] === letter)) return;
            steps++;
            if (Date.now() - told < EVERY) return;
            told = Date.now();
            postMessage({ steps });
        };
        const ended = run(new WebAssembly.Module(await unpacked(packed)), words, folder, tell);
        postMessage({ ...ended, taken: [...folder.taken] }, [ended.out.buffer]);
    } catch (error) {
        postMessage({ fault: String(error) });
    }
};
