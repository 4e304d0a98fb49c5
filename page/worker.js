// The worker: keeps an instance of the library, and answers the page's requests.
"use strict";

/** The module, from gzip in base 64. */
async function compiled(text) {
    const characters = atob(text);
    const packed = new Uint8Array(characters.length);
    for (let at = 0; at < packed.length; at += 1) {
        packed[at] = characters.charCodeAt(at);
    }
    const stream = new Blob([packed]).stream().pipeThrough(new DecompressionStream("gzip"));
    return WebAssembly.compile(await new Response(stream).arrayBuffer());
}

let module = null;
let library = null;
let isReady = null; // a promise: requests that come early wait for it

/** Makes the library, and says whether the browser can. */
async function start(text) {
    try {
        module = await compiled(text);
        library = new Library(module);
        postMessage({ ready: true });
    } catch (error) {
        postMessage({ failed: String(error.message) });
    }
}

/** The answer to a request. A trap makes a new instance. */
function answered(request) {
    try {
        return worked(library, request);
    } catch (error) {
        library = new Library(module);
        return { stopped: String(error.message) };
    }
}

onmessage = async ({ data }) => {
    if (data.module) {
        isReady = start(data.module);
    }
    await isReady;
    if (data.module || !library) {
        return;
    }
    const answer = answered(data);
    const held = [answer.shown, answer.notation].filter((bytes) => bytes && bytes !== answer.bytes);
    postMessage({ ...answer, number: data.number }, held.map((bytes) => bytes.buffer));
};
