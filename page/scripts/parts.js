// What the page is made of: files beside it, or elements of it where it is one file (../bundle makes that).

/** What a browser must understand before it can run the engine with addresses of 64 bits. */
const MEMORY64 = new Uint8Array([0, 97, 115, 109, 1, 0, 0, 0, 5, 3, 1, 4, 1]);

const inside = (id) => document.getElementById(id);

/** Whether the page is one file. */
export const isOneFile = () => inside("engine-bytes") !== null;

/** The name of the engine's file for this browser; `#32` behind the page's address takes that of 32 bits. */
export function engineName() {
    const is64 = typeof WebAssembly === "object" && WebAssembly.validate(MEMORY64);
    return is64 && location.hash !== "#32" ? "engine.wasm" : "engine32.wasm";
}

/** Compiles the engine. */
export async function loadModule() {
    if (typeof WebAssembly !== "object") throw new Error("This browser cannot run the engine: it has no WebAssembly.");
    if (isOneFile()) {
        const packed = Uint8Array.from(atob(inside("engine-bytes").textContent), (it) => it.charCodeAt(0));
        const bytes = new Response(new Blob([packed]).stream().pipeThrough(new DecompressionStream("gzip")));
        return WebAssembly.compile(await bytes.arrayBuffer());
    }
    const response = await fetch(new URL(`../${engineName()}`, import.meta.url));
    if (!response.ok) throw new Error(`The engine could not be loaded: ${response.status} ${response.statusText}`);
    return WebAssembly.compile(await response.arrayBuffer());
}

/** What `build` wrote down of the engine: whether it is proved, and the sums of its files. */
export async function builtFrom() {
    if (isOneFile()) return JSON.parse(inside("built").textContent);
    const response = await fetch(new URL("../built.json", import.meta.url));
    return response.ok ? response.json() : { isProved: false };
}

/**
 * A worker. Its first script is made here, and not fetched: so the page's policy holds for it, which keeps it too from
 * sending anything elsewhere. A worker that is fetched would have a policy of its own.
 */
export function startWorker() {
    const whole = inside("worker-script")?.textContent;
    const script = whole ?? `import ${JSON.stringify(new URL("./worker.js", import.meta.url).href)};`;
    const url = URL.createObjectURL(new Blob([script], { type: "text/javascript" }));
    return new Worker(url, { type: whole ? "classic" : "module" });
}
