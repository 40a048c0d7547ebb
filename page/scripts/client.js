// The page's side of the worker. Of requests in one lane that wait, only the newest is sent.
import { startWorker } from "./parts.js";

export class Client {
    #worker = null;
    #ready = null;
    #held = new Map();
    #waiting = [];
    #sent = null;
    #sentAt = 0;
    #next = 1;

    /** `module` is the promise of the engine's module. */
    constructor(module) {
        this.module = module;
        this.#start();
    }

    #start() {
        const worker = startWorker();
        this.#worker = worker;
        this.#ready = this.module.then((module) => worker.postMessage({ module }));
        this.#ready.catch(() => {}); // told by each request
        this.#worker.onmessage = ({ data }) => this.#ended(data);
        this.#worker.onerror = (event) => this.#ended({ id: this.#sent?.id, failed: event.message ?? "the worker could not start" });
    }

    /** The lane of the request that is on its way. */
    get lane() {
        return this.#sent?.lane ?? null;
    }

    /** Whether a request is on its way. */
    get isBusy() {
        return this.#sent !== null;
    }

    /** How many milliseconds the request that is on its way has taken. */
    get busyFor() {
        return this.isBusy ? performance.now() - this.#sentAt : 0;
    }

    /** Holds these files for all later requests, bytes by name, and no others. */
    hold(files) {
        for (const name of [...this.#held.keys()].filter((it) => !files.has(it))) this.#hold(name, null);
        for (const [name, bytes] of files) if (this.#held.get(name) !== bytes) this.#hold(name, bytes);
    }

    #hold(name, bytes) {
        if (bytes) this.#held.set(name, bytes);
        else this.#held.delete(name);
        this.ask("hold", { name, bytes }).catch(() => {}); // told by the request that needs the file
    }

    /**
     * Sends a request, and returns what comes back; null where a newer one in the same lane has taken its place.
     * Rejects where the engine could not be loaded, or stopped in the middle.
     */
    ask(kind, request, lane = null) {
        return new Promise((resolve, reject) => {
            if (lane !== null) {
                for (const old of this.#waiting.filter((it) => it.lane === lane)) old.resolve(null);
                this.#waiting = this.#waiting.filter((it) => it.lane !== lane);
            }
            this.#waiting.push({ id: this.#next++, kind, request, lane, resolve, reject });
            this.#send();
        });
    }

    /** Stops the request that is on its way, with a new worker. Its answer is null. */
    stop() {
        const stopped = this.#sent;
        const left = this.#waiting;
        this.#worker.terminate();
        this.#sent = null;
        this.#start();
        const again = [...this.#held].map(([name, bytes]) => ({ id: this.#next++, kind: "hold", request: { name, bytes }, lane: null, resolve() {}, reject() {} }));
        this.#waiting = [...again, ...left.filter((it) => it.kind !== "hold")];
        stopped?.resolve(null);
        for (const old of left.filter((it) => it.kind === "hold")) old.resolve({});
        this.#send();
    }

    #send() {
        if (this.#sent || this.#waiting.length === 0) return;
        this.#sent = this.#waiting.shift();
        this.#sentAt = performance.now();
        const { id, kind, request } = this.#sent;
        const worker = this.#worker;
        this.#ready.then(
            () => worker.postMessage({ id, kind, request }),
            (error) => this.#ended({ id, failed: error.message }),
        );
    }

    #ended({ id, answer, failed }) {
        if (!this.#sent || this.#sent.id !== id) return;
        const { resolve, reject } = this.#sent;
        this.#sent = null;
        if (failed === undefined) resolve(answer);
        else reject(new Error(failed));
        this.#send();
    }
}
