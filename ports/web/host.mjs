// What the program, as a module of WebAssembly, calls of its host: files that are held in memory, output, the words of its
// command. Nothing proves this file.

const STDOUT = 1, STDERR = 2, FIRST_FILE = 3;

/** Thrown to end the program's call, with its status. */
class Ended extends Error {
    constructor(status) {
        super(`ended with ${status}`);
        this.status = status;
    }
}

/** The files of a folder and of those below it, by names as the program asks for them: `sub/a.dis`, `sub\a.dis`. */
export class Folder {
    /** files: a map from names, whose parts are parted by `/`, to bytes. `from`: where the program runs, as `model/`. */
    constructor(files, from = "") {
        this.files = files;
        this.from = from;
        this.folded = new Map([...files.keys()].map((name) => [name.toLowerCase(), name]));
        /** The names that were found only by taking small for capital letters, as Windows does. */
        this.taken = new Map();
    }

    /** The bytes of a file, or nothing. A folder that a name goes through has to be there, also before `..`. */
    find(name) {
        const parts = [];
        if (/^[/\\]/.test(name)) return undefined;
        for (const part of `${this.from}${name}`.split(/[/\\]+/)) {
            if (part === "..") {
                if (!parts.length || !this.#isFolder(parts)) return undefined;
                parts.pop();
            } else if (part !== ".") parts.push(part);
        }
        const whole = parts.join("/");
        if (this.files.has(whole)) return this.files.get(whole);
        const other = this.folded.get(whole.toLowerCase());
        if (other !== undefined) this.taken.set(name, other);
        return this.files.get(other);
    }

    #isFolder(parts) {
        const start = `${parts.join("/").toLowerCase()}/`;
        return [...this.folded.keys()].some((name) => name.startsWith(start));
    }
}

/** Joins pieces of bytes. */
export function joined(pieces) {
    const whole = new Uint8Array(pieces.reduce((sum, piece) => sum + piece.length, 0));
    pieces.reduce((at, piece) => (whole.set(piece, at), at + piece.length), 0);
    return whole;
}

/**
 * Runs the program once, with these words after its name. `told` is called with each piece that it writes: 1 or 2, bytes.
 * Returns its status, what it wrote, and the bytes of memory that it took.
 */
export function run(module, words, folder, told = () => {}) {
    const open = [], written = [[], []], encoder = new TextEncoder();
    const decoder = new TextDecoder("utf-8", { fatal: true });
    const given = ["heads", ...words].map((word) => encoder.encode(word));
    let memory;
    const bytes = (at, size) => new Uint8Array(memory.buffer, Number(at), Number(size));
    const name_of = (at, size) => {
        try {
            return decoder.decode(bytes(at, size));
        } catch {
            return undefined;
        }
    };
    const host = {
        open(at, size) {
            const name = name_of(at, size), file = name === undefined ? undefined : folder.find(name);
            return file ? FIRST_FILE - 1 + open.push({ file, at: 0 }) : -1;
        },
        read(number, at, size) {
            const it = open[number - FIRST_FILE];
            if (!it) return -1n;
            const part = it.file.subarray(it.at, it.at + Number(size));
            bytes(at, part.length).set(part);
            it.at += part.length;
            return BigInt(part.length);
        },
        write(number, at, size) {
            if (number !== STDOUT && number !== STDERR) return -1n;
            const piece = bytes(at, size).slice();
            written[number - STDOUT].push(piece);
            told(number, piece);
            return size;
        },
        close(number) {
            if (!open[number - FIRST_FILE]) return -1;
            open[number - FIRST_FILE] = undefined;
            return 0;
        },
        word(number, at, size) {
            const word = given[Number(number)];
            if (!word) return -1n;
            bytes(at, Math.min(word.length, Number(size))).set(word.subarray(0, Number(size)));
            return BigInt(word.length > Number(size) ? -2 : word.length);
        },
        end(status) {
            throw new Ended(status);
        },
    };
    const instance = new WebAssembly.Instance(module, { host });
    memory = instance.exports.memory;
    let status;
    try {
        status = instance.exports.start();
    } catch (error) {
        if (!(error instanceof Ended)) throw error;
        status = error.status;
    }
    return { status: status & 255, out: joined(written[0]), side: joined(written[1]), memory: memory.buffer.byteLength };
}
