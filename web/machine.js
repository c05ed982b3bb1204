// Calls of the proved program: its module runs in a worker, so that the page answers while a long run is made, and can end it.
"use strict";

// What the worker does. It lays bytes into the module's memory and takes a reply's bytes out of it; what they mean it doesn't know.
function workAtCalls() {
  const HEAD = 32; // the reply's four numbers: status, bytes on standard output, on standard error, and of the image
  let module = null;
  let instance = null;
  let room = 1 << 20;

  const exported = () => (instance ??= new WebAssembly.Instance(module, {})).exports;
  const view = (at, count) => new Uint8Array(exported().memory.buffer, Number(at), count);

  // A block of the module's heap, or an error where it has none.
  function take(count) {
    const at = exported().take(BigInt(Math.max(count, 1)));
    if (at === 0n) throw new Error("memory ran out");
    return at;
  }

  function put(bytes) {
    const at = take(bytes.length);
    view(at, bytes.length).set(bytes);
    return at;
  }

  // The bytes of the reply, from room that is large enough.
  function answered(line, file, input) {
    for (;;) {
      const at = [put(line), put(file), put(input), take(room)];
      const [own, held, fed, reply] = at;
      const lent = [own, BigInt(line.length), held, BigInt(file.length), fed, BigInt(input.length)];
      const count = Number(exported().pump_answer(...lent, reply, BigInt(room)));
      const bytes = count <= room ? view(reply, count).slice() : null;
      at.forEach((block) => exported().give(block));
      if (count === 0) throw new Error("memory ran out");
      if (bytes) return bytes;
      room = count;
    }
  }

  // The parts of a reply.
  function cut(bytes) {
    const numbers = new DataView(bytes.buffer);
    const number = (place) => Number(numbers.getBigUint64(8 * place, true));
    let at = HEAD;
    const next = (place) => bytes.slice(at, (at += number(place)));
    return { status: number(0), out: next(1), err: next(2), image: next(3) };
  }

  onmessage = ({ data }) => {
    if (data.module) {
      module = new WebAssembly.Module(data.module);
      return;
    }
    try {
      const began = performance.now();
      const reply = cut(answered(data.line, data.file, data.input));
      postMessage({ id: data.id, reply: { ...reply, took: performance.now() - began } });
    } catch (error) {
      instance = null; // a module that stopped in a call is not called again
      postMessage({ id: data.id, error: String(error.message ?? error) });
    }
  };
}

// A call was ended from outside.
class Ended extends Error {}

class Machine {
  constructor(bytes) {
    this.bytes = bytes;
    this.calls = new Map();
    this.count = 0;
    this.start();
  }

  start() {
    // A blob's worker is the one kind that a page from a file may start.
    const text = new Blob([`"use strict";(${workAtCalls})();`], { type: "text/javascript" });
    this.address = URL.createObjectURL(text);
    this.worker = new Worker(this.address);
    this.worker.onmessage = ({ data }) => this.settle(data);
    this.worker.onerror = (event) => this.fail(new Error(event.message ?? "the worker stopped"));
    this.worker.postMessage({ module: this.bytes });
  }

  settle({ id, reply, error }) {
    const call = this.calls.get(id);
    this.calls.delete(id);
    if (error === undefined) call?.resolve(reply);
    else call?.reject(new Error(error));
  }

  fail(error) {
    for (const call of this.calls.values()) call.reject(error);
    this.calls.clear();
  }

  // The reply to a line, with one file `file` and an input of these bytes.
  call(line, file, input = new Uint8Array()) {
    const id = ++this.count;
    const bytes = new TextEncoder().encode(line);
    return new Promise((resolve, reject) => {
      this.calls.set(id, { resolve, reject });
      this.worker.postMessage({ id, line: bytes, file, input });
    });
  }

  // Ends all calls that are being made.
  stop() {
    this.worker.terminate();
    URL.revokeObjectURL(this.address);
    this.fail(new Ended("ended"));
    this.start();
  }
}

// The module's bytes, as the script `made/module.js` has them.
function bytesOfModule(text) {
  const letters = atob(text);
  const bytes = new Uint8Array(letters.length);
  for (let at = 0; at < letters.length; at++) bytes[at] = letters.charCodeAt(at);
  return bytes;
}
