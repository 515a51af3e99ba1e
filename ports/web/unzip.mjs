// The files of a .zip, by the browser's own inflate. Nothing proves this file.

const END = 0x06054b50, ENTRY = 0x02014b50, LOCAL = 0x04034b50;
const STORED = 0, DEFLATED = 8, MOST_COMMENT = 65535, END_SIZE = 22;

async function inflated(bytes) {
    const stream = new Blob([bytes]).stream().pipeThrough(new DecompressionStream("deflate-raw"));
    return new Uint8Array(await new Response(stream).arrayBuffer());
}

/** Where the list of entries stands: the record at the file's end, before its comment. */
function end_of(view) {
    for (let at = view.byteLength - END_SIZE; at >= 0 && at >= view.byteLength - END_SIZE - MOST_COMMENT; at--) {
        if (view.getUint32(at, true) === END) return at;
    }
    throw new Error("this is no whole .zip");
}

/** A sum of bytes as .zip has it, of which each entry's is kept. */
const SUMS = Uint32Array.from({ length: 256 }, (_, n) => {
    for (let bit = 0; bit < 8; bit++) n = n & 1 ? (n >>> 1) ^ 0xedb88320 : n >>> 1;
    return n >>> 0;
});

function sum_of(bytes) {
    let sum = ~0;
    for (const byte of bytes) sum = SUMS[(sum ^ byte) & 255] ^ (sum >>> 8);
    return ~sum >>> 0;
}

/** A map from names to bytes. What can't be read so (a password, parts, over 4 GB) is an error that says it. */
export async function unzipped(bytes) {
    const view = new DataView(bytes.buffer, bytes.byteOffset, bytes.byteLength), end = end_of(view);
    const count = view.getUint16(end + 10, true), files = new Map();
    let at = view.getUint32(end + 16, true);
    if (count === 0xffff || at === 0xffffffff) throw new Error("a .zip of over 4 GB or 65,534 files isn't read");
    for (let n = 0; n < count; n++) {
        if (view.getUint32(at, true) !== ENTRY) throw new Error("the list of this .zip is spoiled");
        const flags = view.getUint16(at + 8, true), way = view.getUint16(at + 10, true);
        const sum = view.getUint32(at + 16, true), packed = view.getUint32(at + 20, true), size = view.getUint32(at + 24, true);
        const [name_size, extra, comment] = [28, 30, 32].map((place) => view.getUint16(at + place, true));
        const local = view.getUint32(at + 42, true);
        const name = new TextDecoder(flags & 0x800 ? "utf-8" : "latin1").decode(bytes.subarray(at + 46, at + 46 + name_size));
        at += 46 + name_size + extra + comment;
        if (name.endsWith("/")) continue;
        if (flags & 1) throw new Error(`${name} has a password`);
        if (view.getUint32(local, true) !== LOCAL) throw new Error(`${name}: its head is missing`);
        const start = local + 30 + view.getUint16(local + 26, true) + view.getUint16(local + 28, true);
        const body = bytes.subarray(start, start + packed);
        if (way !== STORED && way !== DEFLATED) throw new Error(`${name} is packed in a way that isn't read (${way})`);
        const content = way === STORED ? body.slice() : await inflated(body);
        if (content.length !== size || sum_of(content) !== sum) throw new Error(`${name} is spoiled in this .zip`);
        files.set(name.replaceAll("\\", "/"), content);
    }
    return files;
}
