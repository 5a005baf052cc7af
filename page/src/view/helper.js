// A helper is a worker of the page's own code. It does one task after the other; stopping it ends what it does.
import { spoken } from "../exact/marks.js";
import { unpacked } from "../exact/unpacked.js";

const SLOW = 150; // milliseconds after which a task that nobody needs any more is ended

let code = null; // of all workers

/** Unpacks the code of the workers; before that none starts. */
export async function unpackWorkers() {
  const [shared, program, own] = ["shared-code", "program", "worker-code"].map((id) => {
    return document.getElementById(id).textContent;
  });
  const texts = [shared, `self.program="${program.trim()}";`, await unpacked(own, "deflate").text()];
  code = new Blob(texts, { type: "text/javascript" });
}

export class Helper {
  constructor() {
    this.waiting = new Map();
    this.next = 0;
  }

  start() {
    const url = URL.createObjectURL(code);
    this.worker = new Worker(url);
    this.kept = null; // the number of the case that it keeps
    this.worker.onmessage = ({ data: { id, result, fault } }) => {
      const { resolve, reject } = this.waiting.get(id) ?? {};
      this.waiting.delete(id);
      this.since = performance.now();
      if (fault === undefined) resolve?.(result);
      else reject?.(new Error(fault));
    };
    this.worker.onerror = (event) => {
      event.preventDefault();
      this.stop("the helper failed");
    };
    URL.revokeObjectURL(url);
  }

  /** Does a task of worker.js: `what` are its settings. A task may be about a case, {number, text, rows, line}: its
   * number is sent, and the rest only to a worker that doesn't keep the case. */
  ask(task, what = {}, { number, ...known } = {}) {
    if (!this.worker) this.start();
    const id = (this.next += 1), about = number && { number, known: number === this.kept ? undefined : known };
    this.kept = number ?? this.kept;
    if (!this.waiting.size) this.since = performance.now();
    return new Promise((resolve, reject) => {
      this.waiting.set(id, { resolve, reject });
      this.worker.postMessage({ id, task, what, spoken, ...about });
    });
  }

  /** Ends what is being done; the next task starts a new worker. */
  stop(reason = "stopped") {
    this.worker?.terminate();
    this.worker = null;
    for (const { reject } of this.waiting.values()) reject(new Error(reason));
    this.waiting.clear();
  }

  /** The same where it has taken long already; a short task ends by itself sooner than a new worker starts. */
  stopIfSlow() {
    if (this.waiting.size && performance.now() - this.since > SLOW) this.stop();
  }
}
