// What a program asks of WASI (preview 1), over files in memory. A file is named by its path in the one folder that there is.

const DONE = 0, BAD_FILE = 8, EXISTS = 20, NO_ENTRY = 44, NOT_SUPPORTED = 58, NO_SYSTEM_CALL = 52;
const FOLDER = 3;    // the descriptor of the folder; 0 to 2 are the streams
const CREATE = 1, EXCLUSIVE = 4, TRUNCATE = 8;
const FOLDER_TYPE = 3, FILE_TYPE = 4;

class Exit {
  constructor(status) {
    this.status = status;
  }
}

// What is written to a stream, of which a number of bytes is kept.
class Kept {
  constructor(most, told = () => {}) {
    this.parts = [];
    this.length = 0;
    this.cut = 0;
    this.most = most;
    this.told = told;
  }

  write(bytes) {
    const room = Math.min(bytes.length, this.most - this.length);
    if (room > 0) this.parts.push(bytes.slice(0, room));
    this.length += room;
    this.cut += bytes.length - room;
    this.told(this, bytes);
  }

  bytes() {
    const all = new Uint8Array(this.length);
    let at = 0;
    for (const part of this.parts) {
      all.set(part, at);
      at += part.length;
    }
    return all;
  }
}

// The functions that a module imports. `files` maps names to bytes and gets what the program writes.
function wasiImports(words, variables, files, input, out, err, memory) {
  const opened = new Map();
  const texts = new TextEncoder();
  const view = () => new DataView(memory().buffer);
  const bytes = (at, count) => new Uint8Array(memory().buffer, at, count);
  const name = (at, count) => new TextDecoder().decode(bytes(at, count)).replace(/^(\.\/)+/, "");
  let inputAt = 0;

  function* parts(at, count) {
    for (let k = 0; k < count; k++) yield bytes(view().getUint32(at + 8 * k, true), view().getUint32(at + 8 * k + 4, true));
  }

  function putTexts(list, at, buffer) {
    for (const text of list) {
      view().setUint32(at, buffer, true);
      at += 4;
      const coded = texts.encode(text + "\0");
      bytes(buffer, coded.length).set(coded);
      buffer += coded.length;
    }
    return DONE;
  }

  function putSizes(list, count, size) {
    view().setUint32(count, list.length, true);
    view().setUint32(size, list.reduce((sum, text) => sum + texts.encode(text).length + 1, 0), true);
    return DONE;
  }

  function putStat(at, type, size) {
    bytes(at, 64).fill(0);
    view().setUint8(at + 16, type);
    view().setBigUint64(at + 24, 1n, true);
    view().setBigUint64(at + 32, BigInt(size), true);
    return DONE;
  }

  function writeFile(file, part) {
    let data = files.get(file.name);
    if (file.at + part.length > data.length) {
      const longer = new Uint8Array(file.at + part.length);
      longer.set(data);
      data = longer;
      files.set(file.name, data);
    }
    data.set(part, file.at);
    file.at += part.length;
  }

  function readFile(file, part) {
    const data = files.get(file.name).subarray(file.at, file.at + part.length);
    part.set(data);
    file.at += data.length;
    return data.length;
  }

  function readInput(part) {
    const data = input.subarray(inputAt, inputAt + part.length);
    part.set(data);
    inputAt += data.length;
    return data.length;
  }

  return {
    args_get: (at, buffer) => putTexts(words, at, buffer),
    args_sizes_get: (count, size) => putSizes(words, count, size),
    environ_get: (at, buffer) => putTexts(variables, at, buffer),
    environ_sizes_get: (count, size) => putSizes(variables, count, size),
    proc_exit(status) {
      throw new Exit(status);
    },
    random_get(at, count) {
      bytes(at, count).fill(7);    // a run is the same each time
      return DONE;
    },
    clock_time_get(_clock, _precision, at) {
      view().setBigUint64(at, BigInt(Date.now()) * 1000000n, true);
      return DONE;
    },
    fd_close: number => number <= FOLDER || opened.delete(number) ? DONE : BAD_FILE,
    fd_fdstat_get(number, at) {
      if (number > FOLDER && !opened.has(number)) return BAD_FILE;
      bytes(at, 24).fill(0);
      view().setUint8(at, number === FOLDER ? FOLDER_TYPE : number > FOLDER ? FILE_TYPE : 0);
      view().setBigUint64(at + 8, ~0n, true);
      view().setBigUint64(at + 16, ~0n, true);
      return DONE;
    },
    fd_fdstat_set_flags: () => DONE,
    fd_filestat_get(number, at) {
      if (number <= FOLDER) return putStat(at, number === FOLDER ? FOLDER_TYPE : 0, 0);
      return opened.has(number) ? putStat(at, FILE_TYPE, files.get(opened.get(number).name).length) : BAD_FILE;
    },
    fd_prestat_get(number, at) {
      if (number !== FOLDER) return BAD_FILE;
      view().setUint32(at, 0, true);
      view().setUint32(at + 4, 1, true);
      return DONE;
    },
    fd_prestat_dir_name(number, at) {
      if (number !== FOLDER) return BAD_FILE;
      bytes(at, 1)[0] = 0x2E;
      return DONE;
    },
    fd_read(number, at, count, read) {
      const file = opened.get(number);
      if (number && !file) return BAD_FILE;
      let sum = 0;
      for (const part of parts(at, count)) sum += file ? readFile(file, part) : readInput(part);
      view().setUint32(read, sum, true);
      return DONE;
    },
    fd_write(number, at, count, written) {
      const file = opened.get(number);
      if (number !== 1 && number !== 2 && !file) return BAD_FILE;
      let sum = 0;
      for (const part of parts(at, count)) {
        if (file) writeFile(file, part);
        else (number === 1 ? out : err).write(part);
        sum += part.length;
      }
      view().setUint32(written, sum, true);
      return DONE;
    },
    fd_seek(number, offset, from, at) {
      const file = opened.get(number);
      if (!file) return NOT_SUPPORTED;
      file.at = Number(offset) + [0, file.at, files.get(file.name).length][from];
      view().setBigUint64(at, BigInt(file.at), true);
      return DONE;
    },
    path_filestat_get(_folder, _flags, path, length, at) {
      const named = name(path, length);
      if (named === ".") return putStat(at, FOLDER_TYPE, 0);
      return files.has(named) ? putStat(at, FILE_TYPE, files.get(named).length) : NO_ENTRY;
    },
    path_open(_folder, _follow, path, length, how, _rights, _inheriting, _flags, at) {
      const named = name(path, length);
      if (files.has(named) && how & CREATE && how & EXCLUSIVE) return EXISTS;
      if (!files.has(named) && !(how & CREATE)) return NO_ENTRY;
      if (!files.has(named) || how & TRUNCATE) files.set(named, new Uint8Array());
      let number = FOLDER + 1;
      while (opened.has(number)) number++;
      opened.set(number, { name: named, at: 0 });
      view().setUint32(at, number, true);
      return DONE;
    },
    path_unlink_file(_folder, path, length) {
      return files.delete(name(path, length)) ? DONE : NO_ENTRY;
    },
    path_rename(_folder, path, length, _other, newPath, newLength) {
      const named = name(path, length);
      if (!files.has(named)) return NO_ENTRY;
      files.set(name(newPath, newLength), files.get(named));
      files.delete(named);
      return DONE;
    },
  };
}

// Runs a module once: what it wrote, and its status; 134 where it broke off, as by a signal.
async function runWasi(module, words, { files = new Map(), input = new Uint8Array(), most = 1 << 20, told } = {}) {
  const out = new Kept(most, told), err = new Kept(1 << 16, told);
  let instance = null, status = 0;
  const known = wasiImports(words, ["PAGED_UNPROVED=told"], files, input, out, err, () => instance.exports.memory);
  const imports = {};
  for (const { module: from, name } of WebAssembly.Module.imports(module)) {
    imports[from] = imports[from] || {};
    imports[from][name] = known[name] || (() => NO_SYSTEM_CALL);
  }
  instance = await WebAssembly.instantiate(module, imports);
  try {
    instance.exports._start();
  } catch (why) {
    if (!(why instanceof Exit)) err.write(new TextEncoder().encode("the program broke off: " + why + "\n"));
    status = why instanceof Exit ? why.status : 134;
  }
  return { status, out: out.bytes(), err: err.bytes(), cut: out.cut, files };
}
