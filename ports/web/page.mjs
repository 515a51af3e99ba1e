// The page: files come in, a worker runs the program, the result is shown.
import { Folder, joined } from "./host.mjs";
import { last_line } from "./listing.mjs";
import { HeadMap } from "../../tools/heads_tools/map/map.mjs";
import { scene_of_listing } from "./scene_of.mjs";
import { unzipped } from "./unzip.mjs";

const at = (id) => document.getElementById(id);
const NAME_FILE = /\.(nam|mfn)$/i, SHOWN = 100_000;
const SENTENCES = {
    1: "The words are not taken.",
    2: "The files are refused.",
    3: "A step has no bounds.",
    4: "A step did not settle in time.",
    5: "A file could not be read.",
    6: "The output could not be written.",
    7: "There is not enough memory.",
    8: "The listing is not certified.",
};
const PROMISES = {
    one: "Every exact solution of these files lies between its numbers.",
    two: "Whatever the stresses are between those of the two decks, at each time step, every exact solution lies between its numbers.",
};

/** What a status 0 says. */
function promise(command, is_two) {
    if (command === "write") return "This is the deck that was read, in one plain spelling.";
    return `The listing is ${command === "check" ? "certified" : "whole"}. ${is_two ? PROMISES.two : PROMISES.one}`;
}
const held = new Map();
/** The names of listings that the page made: those of files that were dropped are never taken. */
const made = new Set();
const map = new HeadMap(at("heads-map"));
let saved;
/** Counts the results that were asked for or dropped: what comes late for another one is not shown. */
let turn = 0;
/** Ends the worker that runs, if one does. */
let cancel;

function folder_of(name) {
    return name.slice(0, name.lastIndexOf("/") + 1);
}

/** A name as the program, which runs in the folder `from`, has to ask for it. */
function from_folder(name, from) {
    return name.startsWith(from) ? name.slice(from.length) : "../".repeat(from.split("/").length - 1) + name;
}

function is_listing(name) {
    return new TextDecoder("latin1").decode(held.get(name).subarray(0, 6)) === "HEADS ";
}

function offer(id, names, none) {
    const kept = at(id).value, options = names.map((name) => new Option(name, name));
    at(id).replaceChildren(...(none ? [new Option(none, "")] : []), ...options);
    if (names.includes(kept)) at(id).value = kept;
}

/** Shows which files there are, and offers them. A result is of the files that were there: it goes. */
function show_files() {
    const names = [...held.keys()].sort(), decks = names.filter((name) => NAME_FILE.test(name));
    offer("name", decks);
    offer("to", decks, "none");
    offer("zones", names.filter((name) => !NAME_FILE.test(name) && !is_listing(name)), "none");
    offer("listing", names.filter(is_listing), names.some(is_listing) ? "" : "none yet");
    at("held").textContent = names.length
        ? `${names.length} file${names.length > 1 ? "s" : ""}: ${names.slice(0, 12).join(", ")}${names.length > 12 ? ", .." : ""}`
        : "No files yet.";
    at("clear").hidden = !names.length;
    show_form();
}

function show_form() {
    const is_check = at("command").value === "check", is_write = at("command").value === "write";
    at("listing-label").hidden = !is_check;
    for (const id of ["to", "zones", "digits"]) at(id).disabled = is_write;
    at("go").disabled = Boolean(cancel) || !at("name").value || (is_check && !at("listing").value);
    at("stop").hidden = !cancel;
}

function drop_result() {
    turn++;
    at("result").hidden = true;
    if (saved) URL.revokeObjectURL(saved);
    saved = undefined;
}

async function take_file(file, name) {
    const bytes = new Uint8Array(await file.arrayBuffer());
    const files = /\.zip$/i.test(name) ? await unzipped(bytes) : [[name, bytes]];
    for (const [inner, content] of files) {
        held.set(inner, content);
        made.delete(inner);
    }
}

/** All files below an entry that was dropped. */
async function take_entry(entry) {
    if (entry.isFile) {
        const file = await new Promise((done, failed) => entry.file(done, failed));
        return take_file(file, entry.fullPath.replace(/^\//, ""));
    }
    const reader = entry.createReader();
    for (;;) {
        const some = await new Promise((done, failed) => reader.readEntries(done, failed));
        if (!some.length) return undefined;
        for (const inner of some) await take_entry(inner);
    }
}

async function take(work) {
    cancel?.();
    drop_result();
    try {
        await work();
        show_files();
    } catch (error) {
        show_files();
        at("held").textContent = `${error.message ?? error}. ${at("held").textContent}`;
    }
}

/** The words of the command, for a program that runs in the name file's folder. */
function words_of(from) {
    const command = at("command").value, name = (id) => from_folder(at(id).value, from);
    const words = [command === "quick" ? "run" : command, name("name")];
    if (command === "check") words.push(name("listing"));
    if (command !== "write") {
        if (at("to").value) words.push("--to", name("to"));
        if (at("zones").value) words.push("--zones", name("zones"));
        if (at("digits").value) words.push("--digits", at("digits").value);
    }
    if (at("wide").checked) words.push("--wide");
    if (command === "quick") words.push("--quick");
    return words;
}

function say(text, kind = "") {
    at("said").textContent = text;
    at("said").className = kind;
}

/** Runs the program once in a worker; `told` is called with the count of steps. Its end, or that it was stopped. */
function run(words, from, told = () => {}) {
    const code = new Blob([at("worker").textContent], { type: "text/javascript" }), place = URL.createObjectURL(code);
    const worker = new Worker(place);
    return new Promise((done) => {
        const end = (ended) => {
            URL.revokeObjectURL(place);
            worker.terminate();
            cancel = undefined;
            show_form();
            done(ended);
        };
        cancel = () => end({ is_stopped: true });
        worker.onmessage = ({ data }) => (data.steps === undefined ? end(data) : told(data.steps));
        worker.onerror = (event) => end({ fault: event.message ?? "the worker failed" });
        worker.postMessage({ packed: at("module").textContent, words, files: held, from });
        show_form();
    });
}

async function begin() {
    // What is asked for is kept: the choices may be changed before the answer comes.
    const name = at("name").value, from = folder_of(name), command = at("command").value;
    const asked = { command, name, from, wide: at("wide").checked ? ["--wide"] : [], listing: held.get(at("listing").value) };
    asked.zones = held.get(at("zones").value);
    const words = words_of(from), began = performance.now(), line = `heads ${words.join(" ")}`;
    drop_result();
    asked.turn = turn;
    at("result").hidden = false;
    for (const id of ["map", "save", "shown"]) at(id).hidden = true;
    at("facts").textContent = "";
    say(`${line} ..`);
    let steps = 0;
    const seconds = () => `${((performance.now() - began) / 1000).toFixed(1)} s`;
    const clock = setInterval(() => say(`${line} .. ${steps ? `${steps} steps, ` : ""}${seconds()}`), 500);
    const ended = await run(words, from, (count) => (steps = count));
    clearInterval(clock);
    if (asked.turn !== turn) return undefined;
    if (ended.is_stopped) return say(`${line}: stopped after ${seconds()}`, "bad");
    return show_end(asked, line, ended, seconds());
}

async function sha256(bytes) {
    if (!crypto.subtle) return "not known here: this page was not opened from a file or by https";
    const sum = new Uint8Array(await crypto.subtle.digest("SHA-256", bytes));
    return [...sum].map((byte) => byte.toString(16).padStart(2, "0")).join("");
}

async function show_end(asked, line, { status, out, side, taken, fault }, seconds) {
    if (fault) return say(`${line}: no answer: ${fault}`, "bad");
    const { command } = asked, sum = await sha256(out);
    if (asked.turn !== turn) return undefined;
    const text = new TextDecoder("latin1").decode(joined([out.subarray(0, SHOWN), side]));
    const last = last_line(out), well = status === 0 ? promise(command, line.includes(" --to ")) : "";
    say(well || `${SENTENCES[status] ?? `Status ${status}.`} ${last}`, well ? "well" : "bad");
    const names = taken.map(([asked, name]) => `; ${asked} was read as ${name}`).join("");
    at("facts").textContent = `${line}: status ${status}, ${out.length} bytes, sha256 ${sum}, ${seconds}${names}`;
    at("text").textContent = out.length > SHOWN ? `${text}\n..` : text;
    at("shown").hidden = false;
    if (status === 0 && command !== "check") keep(asked, out);
    if (status === 0 && command !== "write") await show_map(asked, command === "check" ? asked.listing : out, well);
    return undefined;
}

/** Shows the map of a listing, on the grid of its deck as the program reads that. */
async function show_map(asked, listing, verdict) {
    const { name, from, wide, zones } = asked, { status, out } = await run(["write", from_folder(name, from), ...wide], from);
    const source = `Made by heads.html, which isn't proved, of the listing with sha256 ${await sha256(listing)}`;
    if (asked.turn !== turn) return;
    const folder = new Folder(held, from), open = (named) => folder.find(named);
    const about = { time: time_unit(name), title: name, verdict, source, zones, open };
    const scene = scene_of_listing(listing, status === 0 ? out : undefined, about);
    at("map").hidden = !scene;
    if (!scene) return;
    const kept = scene.steps.length;
    at("left-out").textContent = kept < scene.all_steps ? `The map has ${kept} of ${scene.all_steps} steps. ` : "";
    map.show(scene);
}

/** ITMUNI, which `heads write` leaves out: the fifth number of the file DIS; 0 where it isn't found. */
function time_unit(name) {
    const text = (bytes) => new TextDecoder("latin1").decode(bytes.subarray(0, SHOWN));
    const words = (line) => line.split(/[\s,]+/).filter(Boolean);
    const line = text(held.get(name)).split("\n").map(words).find(([kind]) => /^dis$/i.test(kind ?? ""));
    const file = line && new Folder(held, folder_of(name)).find(line[2].replaceAll("\\", "/"));
    const first = file && text(file).split("\n").find((it) => it.trim() && !it.startsWith("#"));
    return first ? Number(words(first)[4]) || 0 : 0;
}

/** Offers what was written as a file, and a listing as one that can be checked. */
function keep({ command, name: deck }, out) {
    const stem = deck.replace(/\.[^.]*$/, ""), ending = command === "write" ? ".deck" : ".heads";
    const name = held.has(stem + ending) && !made.has(stem + ending) ? `${stem}.page${ending}` : stem + ending;
    saved = URL.createObjectURL(new Blob([out]));
    Object.assign(at("save"), { href: saved, download: name.slice(name.lastIndexOf("/") + 1), hidden: false });
    at("save").textContent = `Save ${at("save").download}`;
    if (command === "write") return;
    held.set(name, out);
    made.add(name);
    offer("listing", [...held.keys()].filter(is_listing).sort());
    at("listing").value = name;
}

at("form").onsubmit = (event) => {
    event.preventDefault();
    if (!at("go").disabled) begin();
};
at("command").onchange = at("name").onchange = at("listing").onchange = show_form;
at("pick").onchange = () => take(async () => {
    for (const file of at("pick").files) await take_file(file, file.webkitRelativePath || file.name);
    at("pick").value = "";
});
at("clear").onclick = () => take(async () => held.clear());
at("drop").ondragover = (event) => {
    event.preventDefault();
    at("drop").classList.add("over");
};
at("drop").ondragleave = () => at("drop").classList.remove("over");
at("drop").ondrop = (event) => {
    event.preventDefault();
    at("drop").classList.remove("over");
    const entries = [...event.dataTransfer.items].map((item) => item.webkitGetAsEntry()).filter(Boolean);
    take(async () => {
        for (const entry of entries) await take_entry(entry);
    });
};
show_files();
