// The programs, which workers run. A worker runs one after another. `quick` is for what takes milliseconds; the others may be stopped.

class Stopped extends Error {}

const coder = new TextEncoder();
const decoder = new TextDecoder();
const modules = new Map();

// A program's bytes stand in the page in base64, deflated.
function moduleOf(program) {
  if (!modules.has(program)) {
    const packed = Uint8Array.from(atob(by("wasm-" + program).textContent.trim()), letter => letter.charCodeAt(0));
    modules.set(program, inflated(packed).then(WebAssembly.compile));
  }
  return modules.get(program);
}

// It is read part by part: where bytes are broken, Firefox would write an error of a `Response` to the console, though it is caught.
async function through(bytes, stream) {
  const reader = new Blob([bytes]).stream().pipeThrough(stream).getReader();
  const parts = [];
  for (let part = await reader.read(); !part.done; part = await reader.read()) parts.push(part.value);
  return new Uint8Array(await new Blob(parts).arrayBuffer());
}

const inflated = bytes => through(bytes, new DecompressionStream("deflate-raw"));
const deflated = bytes => through(bytes, new CompressionStream("deflate-raw"));

class Lane {
  constructor() {
    this.waiting = new Map();
    this.count = 0;
    this.worker = null;
  }

  start() {
    const url = URL.createObjectURL(new Blob([by("worker-code").textContent], { type: "text/javascript" }));
    this.worker = new Worker(url);
    URL.revokeObjectURL(url);
    this.worker.onmessage = ({ data }) => this.hear(data);
    this.worker.onerror = event => {
      for (const { refuse } of this.waiting.values()) refuse(new Error(event.message || "the worker broke off"));
      this.waiting.clear();
    };
  }

  hear({ id, done, failed, ...progress }) {
    const job = this.waiting.get(id);
    if (!job) return;
    if (!done && !failed) return job.told(progress);
    this.waiting.delete(id);
    if (failed) job.refuse(new Error(failed));
    else job.give({ ...done, files: new Map(done.files) });
  }

  // Runs a program: its status, and what it wrote.
  async run(program, words, { files = new Map(), input = new Uint8Array(), most = 1 << 20, told = () => {} } = {}) {
    const module = await moduleOf(program);
    if (!this.worker) this.start();
    const id = ++this.count;
    return new Promise((give, refuse) => {
      this.waiting.set(id, { give, refuse, told });
      this.worker.postMessage({ id, module, words: [program, ...words], files: [...files], input, most });
    });
  }

  stop() {
    if (this.worker) this.worker.terminate();
    this.worker = null;
    for (const { refuse } of this.waiting.values()) refuse(new Stopped("stopped"));
    this.waiting.clear();
  }
}

const quick = new Lane();
const [long, comparing, talking] = [new Lane(), new Lane(), new Lane()];

function stopAll() {
  for (const lane of [long, comparing, talking]) lane.stop();
}

// What a run of a program wrote on standard output, as text; what it said in its refusal is thrown.
async function textOf(lane, program, words, how) {
  const done = await lane.run(program, words, how);
  if (failed(done)) throw new Error(said(done));
  return decoder.decode(done.out);
}

// Whether a program had a fault of its own; 1 and 3 say how its processes ended.
const failed = done => done.status === 2 || done.status > 3;

const said = done => decoder.decode(done.err).trim() || "status " + done.status;
