// Runs the module of coop: the heap that the module asks its host for, one call in an instance of its own, and many
// calls in an instance that is wiped between them. For pages, workers and Node:
//
//     const engine = new Engine(new WebAssembly.Module(bytes));
//     const { status, line } = engine.run(["nucleolus"], new TextEncoder().encode(document));

const KiB = 1024;
const MiB = 1024 * KiB;
const PAGE = 64 * KiB;
// What the program ends with where the line has no room, and where memory isn't found.
const NO_ROOM = 6;
const OUT_OF_MEMORY = 7;
const STATUSES = [0, 1, 2, 3, NO_ROOM, OUT_OF_MEMORY];
// A pointer for empty slices. It must not be null.
const NOWHERE = 16;
const NO_MEMORY = { status: OUT_OF_MEMORY, line: new Uint8Array(0) };

/** The engine stopped, by a fault of its own or of its host: no answer, and no status of the program. */
export class EngineFault extends Error {
  name = "EngineFault";
}

/**
 * What the program answers to words and the bytes of a document, in a new instance: its status, and the bytes of its
 * line.
 *
 * The status is 7 where more than `most` bytes of memory are asked for, or where the host finds none; it is never 6.
 * For tests, `refused` is the number of a request for memory that is refused, and `room` is how many bytes a line may
 * have at first; beside the answer stand how many requests there were, and how many bytes of memory the module had.
 */
export function coop(module, words, document, { most = 1024 * MiB, refused = 0, room = roomFor(document) } = {}) {
  const typed = new TextEncoder().encode(words.join("\0"));
  for (; ; room *= 4) {
    const heap = new Heap(most, refused);
    const run = begun(module, heap), answer = run ? called(heap, run, typed, document, room) : NO_MEMORY;
    if (answer.status !== NO_ROOM) return { ...answer, requests: heap.requests, memory: heap.bytes.length };
  }
}

/**
 * One instance for many calls, made when it is first needed. Each call finds its memory as a new instance has it,
 * except for the memory's length, which the module doesn't ask for (sections.py sees to that). So `run` gives what
 * `coop` gives.
 *
 * After a call that stops or runs out of memory, or that took more than `kept` bytes, the next call has a new instance.
 */
export class Engine {
  #module;
  #most;
  #kept;
  #instance = null;

  constructor(module, { most = 1024 * MiB, kept = 32 * MiB } = {}) {
    [this.#module, this.#most, this.#kept] = [module, most, kept];
  }

  /** The status, and the bytes of the line. */
  run(words, document) {
    const typed = new TextEncoder().encode(words.join("\0"));
    for (let room = roomFor(document); ; room *= 4) {
      const answer = this.#call(typed, document, room);
      if (answer.status !== NO_ROOM) return answer;
    }
  }

  /** The memory that the next call will find, for tests; null if it will be that of a new instance. */
  get memory() {
    return this.#instance?.heap.bytes ?? null;
  }

  #call(typed, document, room) {
    const instance = this.#instance ?? this.#begin();
    this.#instance = null;
    if (!instance) return NO_MEMORY;
    const answer = called(instance.heap, instance.run, typed, document, room);
    if (answer.status !== OUT_OF_MEMORY && instance.heap.bytes.length <= this.#kept) {
      wipe(instance);
      this.#instance = instance;
    }
    return answer;
  }

  #begin() {
    const heap = new Heap(this.#most, 0), run = begun(this.#module, heap);
    return run && { heap, run, data: dataOf(heap) };
  }
}

// The bytes of a new instance from the first that isn't 0, and where that stands.
function dataOf(heap) {
  const own = heap.bytes.subarray(0, heap.next), at = own.findIndex((byte) => byte !== 0);
  return at < 0 ? { at: 0, bytes: own.slice(0, 0) } : { at, bytes: own.slice(at) };
}

// No byte behind the heap's end was written.
function wipe({ heap, data }) {
  heap.bytes.fill(0, 0, heap.next);
  heap.bytes.set(data.bytes, data.at);
  heap.rewind();
}

// The line of a nucleolus has its game in it. What else stands in a line was never seen to take more than 15 KB.
function roomFor(document) {
  return document.length + 64 * KiB;
}

// One call in an instance that no call has written to.
function called(heap, run, typed, document, room) {
  const places = [typed.length, document.length, room, 8].map((size) => heap.take(size));
  if (places.includes(0)) return NO_MEMORY;
  const [typedAt, documentAt, lineAt, countAt] = places;
  heap.bytes.set(typed, typedAt);
  heap.bytes.set(document, documentAt);
  const parts = [typedAt, typed.length, documentAt, document.length, lineAt, room, countAt];
  const status = guarded(() => run(...parts.map(BigInt)));
  const count = heap.view.getBigUint64(countAt, true);
  if (!STATUSES.includes(status) || count > room) throw new EngineFault(`the engine ended with ${status} and ${count}`);
  return { status, line: heap.bytes.slice(lineAt, lineAt + Number(count)) };
}

// The call of a new instance, or null where there is no memory for one.
function begun(module, heap) {
  try {
    const { exports } = new WebAssembly.Instance(module, { heap: heap.imports });
    heap.begin(exports.memory, Number(exports.__heap_base.value));
    return exports.coop_run;
  } catch (fault) {
    if (fault instanceof RangeError) return null;
    throw new EngineFault(`the engine doesn't start: ${fault}`, { cause: fault });
  }
}

function guarded(call) {
  try {
    return call();
  } catch (fault) {
    throw new EngineFault(`the engine stopped: ${fault}`, { cause: fault });
  }
}

// Blocks of 16, 32, 48, 64, 96, 128, .. bytes, at places that 16 divides. A block that is given back waits for the next
// request of its class. The class of each stands in a table beside the memory, one byte for 16 of the memory's.
//
// The module asks its host for memory as the library asks the C library. So what is proved stays as it is, and a test
// can refuse each request.
class Heap {
  constructor(most, refused) {
    this.most = most;
    this.refused = refused;
    this.requests = 0;
    this.waiting = [];
    this.bytes = new Uint8Array(0);
    this.imports = {
      rattle_alloc: (to, size) => this.tell(to, this.isRefused() ? 0 : this.take(numberOf(size))),
      rattle_realloc: (to, at, kept, size) =>
        this.tell(to, this.isRefused() ? 0 : this.move(numberOf(at), numberOf(kept), numberOf(size))),
      rattle_dealloc: (at) => this.give(numberOf(at)),
    };
  }

  // Takes the memory of an instance, where no byte from the base on is in use.
  begin(memory, base) {
    this.memory = memory;
    this.first = this.next = Math.ceil(base / 16) * 16;
    this.look(new Uint8Array(memory.buffer.byteLength / 16));
  }

  // No byte from the base on is in use any more.
  rewind() {
    this.next = this.first;
    this.waiting = [];
  }

  // A memory that has grown has a new buffer.
  look(classes) {
    this.view = new DataView(this.memory.buffer);
    this.bytes = new Uint8Array(this.memory.buffer);
    this.classes = classes;
  }

  // Whether the memory could be made to reach to an end.
  grow(end) {
    const has = this.bytes.length;
    if (end > this.most) return false;
    // A quarter more, so that it seldom grows.
    const wanted = Math.min(Math.max(end, has * 1.25), this.most);
    const pages = Math.ceil((wanted - has) / PAGE);
    try {
      const classes = new Uint8Array((has + pages * PAGE) / 16);
      classes.set(this.classes);
      this.memory.grow(pages);
      this.look(classes);
      return true;
    } catch (fault) {
      if (fault instanceof RangeError) return false;
      throw fault;
    }
  }

  // The place of a block, or 0 where there is none.
  take(size) {
    if (size > this.most) return 0;
    const kind = classOf(size);
    const waiting = this.waiting[kind]?.pop();
    if (waiting !== undefined) return waiting;
    const at = this.next;
    const end = at + roomOf(kind);
    if (end > this.bytes.length && !this.grow(end)) return 0;
    this.next = end;
    this.classes[at / 16] = kind;
    return at;
  }

  give(at) {
    (this.waiting[this.classes[at / 16]] ??= []).push(at);
  }

  // The place of a block of another size with the same first bytes, or 0 where there is none.
  move(at, kept, size) {
    if (size <= roomOf(this.classes[at / 16])) return at;
    const to = this.take(size);
    if (to !== 0) {
      this.bytes.copyWithin(to, at, at + kept);
      this.give(at);
    }
    return to;
  }

  // Counts a request: whether it is the one that is refused.
  isRefused() {
    this.requests += 1;
    return this.requests === this.refused;
  }

  // Answers a request: whether there is a block, and where. These are two numbers of 64 bits, written as halves, since
  // a BigInt takes memory.
  tell(to, at) {
    const place = numberOf(to), { view } = this;
    view.setUint32(place, at === 0 ? 0 : 1, true);
    view.setUint32(place + 4, 0, true);
    view.setUint32(place + 8, at || NOWHERE, true);
    view.setUint32(place + 12, 0, true);
  }
}

// Sizes and places have 64 bits.
function numberOf(big) {
  return Number(BigInt.asUintN(64, big));
}

// The class of a size below 2^31.
function classOf(size) {
  if (size <= 16) return 0;
  const power = 31 - Math.clz32(size - 1);
  const isSmall = power > 4 && size <= 3 * 2 ** (power - 1);
  return 2 * (power - 4) + (isSmall ? 1 : 2);
}

// How many bytes the blocks of a class have.
function roomOf(kind) {
  return (kind % 2 === 1 ? 24 : 16) * 2 ** Math.floor(kind / 2);
}
