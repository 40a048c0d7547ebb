// The engine: a request of bytes in, an answer of bytes out. What stands behind the call is proved; this file is only tested.

/** The engine's memory never shrinks: where it has more bytes than this after a call, the next call begins with a new one. */
const MOST_KEPT = 256 * 1024 * 1024;

const encoder = new TextEncoder();
const NONE = new Uint8Array();

/** The bytes of a request: the program, its words, and each file by its name. A number has eight bytes, the lowest first. */
function requestOf(program, words, files) {
    const parts = [];
    const number = (value) => {
        const bytes = new Uint8Array(8);
        new DataView(bytes.buffer).setUint32(0, value, true);
        parts.push(bytes);
    };
    const piece = (bytes) => {
        number(bytes.length);
        parts.push(bytes);
    };
    piece(encoder.encode(program));
    number(words.length);
    for (const word of words) piece(encoder.encode(word));
    number(files.size);
    for (const [name, bytes] of files) {
        piece(encoder.encode(name));
        piece(bytes);
    }
    const request = new Uint8Array(parts.reduce((size, part) => size + part.length, 0));
    let at = 0;
    for (const part of parts) {
        request.set(part, at);
        at += part.length;
    }
    return request;
}

/** The engine over a module. */
export class Engine {
    constructor(module) {
        this.module = module;
        this.calls = null;
    }

    /**
     * Runs `fillcsv` or `flashfill` with the words after its name over files, bytes by name.
     * Returns its status and the bytes of its output, of its errors and of the file that it saved. The file `-` is standard input.
     * Throws where the engine stops in the middle.
     */
    run(program, words, files) {
        const request = requestOf(program, words, files);
        try {
            this.calls ??= new WebAssembly.Instance(this.module, {}).exports;
            let size = 2 * request.length + 1024 * 1024;
            for (;;) {
                const answer = this.#answer(request, size);
                if (answer.needed <= size) return answer;
                size = answer.needed;
            }
        } catch (trap) {
            this.calls = null;
            throw trap;
        } finally {
            if (this.calls && this.calls.memory.buffer.byteLength > MOST_KEPT) this.calls = null;
        }
    }

    /** The answer to a request in a room of this size; `needed` alone where that is too small. */
    #answer(request, size) {
        const { memory, page_reset: reset, page_room: room, fill_engine: call } = this.calls;
        reset();
        const from = room(BigInt(request.length));
        const to = room(BigInt(size));
        if (from === 0n || to === 0n) return { needed: 0, status: 6, out: NONE, err: NONE, saved: NONE };
        new Uint8Array(memory.buffer).set(request, Number(from));
        const needed = Number(call(from, BigInt(request.length), to, BigInt(size)));
        if (needed > size) return { needed };
        const bytes = new Uint8Array(memory.buffer, Number(to), needed).slice();
        const view = new DataView(bytes.buffer);
        let at = 1;
        const piece = () => {
            const from = at + 8;
            at = from + view.getUint32(at, true);
            return bytes.subarray(from, at);
        };
        return { needed, status: bytes[0], out: piece(), err: piece(), saved: piece() };
    }
}
