(async ({ words, files, options = {} }) => {
    // Runs words on files by the page's own worker, one for all runs. A page that was built with faults.c gets what that
    // asks for from the text `faults_script`, which then stands before the worker's.
    const AROUND = `
        addEventListener("message", ({ data }) => globalThis.faults && (globalThis.faults.options = data.options));
        { const post = globalThis.postMessage.bind(globalThis);
          globalThis.postMessage = (data, ...more) => post({ ...data, noted: globalThis.faults?.noted ?? null }, ...more); }
    `;
    const bytes = (text) => Uint8Array.from(atob(text), (letter) => letter.charCodeAt(0));
    const text = (bytes) => btoa(bytes.reduce((sum, byte) => sum + String.fromCharCode(byte), ""));
    const held = new Map(Object.entries(files).map(([name, content]) => [name, bytes(content)]));
    window.tested ??= new Worker(URL.createObjectURL(
        new Blob([`{ ${window.faults_script ?? ""} }`, AROUND, document.getElementById("worker").textContent])));
    const ended = await new Promise((done, failed) => {
        window.tested.onmessage = ({ data }) => data.steps === undefined && done(data);
        window.tested.onerror = (event) => failed(new Error(event.message));
        window.tested.postMessage({ packed: document.getElementById("module").textContent, words, files: held, from: "", options });
    });
    if (ended.fault) return JSON.stringify({ status: -1, out: "", side: btoa(ended.fault), noted: ended.noted });
    return JSON.stringify({ status: ended.status, out: text(ended.out), side: text(ended.side), noted: ended.noted });
})
