// The package in browsers, which fetch the module.
import { load } from "./memory.js";

async function fetched() {
    const answer = await fetch(new URL("./cbor_diag.wasm", import.meta.url));
    if (!answer.ok) {
        throw new Error(`${answer.url}: ${answer.status}`);
    }
    // A server that does not know the type of the file is no reason to fail.
    return answer.headers.get("content-type") === "application/wasm"
        ? WebAssembly.compileStreaming(answer)
        : WebAssembly.compile(await answer.arrayBuffer());
}

load(await fetched());

export * from "./index.js";
