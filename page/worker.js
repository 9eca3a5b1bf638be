// A worker's messages: a run that is wanted, and what came of it; between them how far it is, by what the program writes.

const EVERY = 100;    // milliseconds between two messages of how far a run is

onmessage = async ({ data: { id, module, words, files, input, most } }) => {
  let said = performance.now(), lines = 0, last = "";
  const told = (stream, bytes) => {
    if (stream.most > 1 << 16) for (const byte of bytes) lines += byte === 10;
    else last = new TextDecoder().decode(bytes).trim().split("\n").pop() || last;
    const now = performance.now();
    if (now - said < EVERY) return;
    said = now;
    postMessage({ id, lines, last });
  };
  try {
    const done = await runWasi(module, words, { files: new Map(files), input, most, told });
    postMessage({ id, done: { ...done, files: [...done.files] } });
  } catch (why) {
    postMessage({ id, failed: String(why) });
  }
};
