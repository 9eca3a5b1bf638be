// A run on flat memory and one on frames, side by side, and whether both are equal.

const MOST_KEPT = 1 << 25;    // of what a run writes, in bytes; the two runs are compared that far
const MOST_SHOWN = 1 << 20;
const FILM_EVENTS = 10000;
let runs = 0;
let runFilmed = null;    // the film of the last run, and what goes with it

const isLimited = end => / killed limit /.test(end);
const trapMeaning = { 0: "a jump to an address that is no multiple of 4", 2: "a word that is no instruction of this machine", 3: "the program ran an ebreak",
  4: "a load from an address that is no multiple of its width", 6: "a store to an address that is no multiple of its width", 12: "a jump to where no page may be executed",
  13: "a load from where no page may be read", 15: "a store to where no page may be written" };

function shown(bytes, cut) {
  const text = decoder.decode(bytes.subarray(0, MOST_SHOWN));
  const left = Math.max(0, bytes.length - MOST_SHOWN) + cut;
  return text + (left ? "\n[" + left + " bytes more are left out]" : "");
}

// The processes of a report: their output, and how they ended.
function processesOf(bytes) {
  const found = [];
  const line = at => {
    const end = bytes.indexOf(10, at);
    return end < 0 ? null : { text: decoder.decode(bytes.subarray(at, end)), next: end + 1 };
  };
  for (let at = 0; ;) {
    const head = line(at);
    const told = head && /^process \d+ output (\d+)$/.exec(head.text);
    if (!told) return found;
    const from = head.next, to = from + Number(told[1]);
    const end = line(to + 1);
    if (!end) return found;
    found.push({ output: bytes.subarray(from, to), end: end.text.replace(/^process \d+ /, "process ") });
    at = end.next;
  }
}

const areEqual = (a, b) => a.length === b.length && a.every((byte, k) => byte === b[k]);
const begins = (a, b) => areEqual(a.subarray(0, Math.min(a.length, b.length)), b.subarray(0, Math.min(a.length, b.length)));

// What a comparison of the processes of both runs comes to.
function verdict(flat, frames) {
  if (!flat.length || flat.length !== frames.length) return ["", ""];
  const many = flat.length > 1;
  const words = [];
  for (const [k, one] of flat.entries()) {
    const other = frames[k], name = many ? "Process " + k + ": " : "";
    if (isLimited(one.end) || isLimited(other.end)) {
      words.push([begins(one.output, other.output), name + (begins(one.output, other.output) ? "a limit ended it; as far as both ran, the output is equal" : "a limit ended it, and the outputs differ")]);
    } else if (areEqual(one.output, other.output) && one.end === other.end) words.push([true, ""]);
    else words.push([false, name + "the runs differ: its harts took their turns in another order, and what it computes depends on that order"]);
  }
  const told = words.map(it => it[1]).filter(Boolean);
  if (!told.length) return ["good", "Both are equal: " + (many ? "each process has " : "") + "the same output, byte for byte, the same ending and the same number of steps."];
  return [words.every(it => it[0]) ? "" : "bad", told.join(". ") + "."];
}

// What the endings of a report mean, where there is more to say.
function endsInWords(processes) {
  return processes.flatMap((it, k) => {
    const trap = / trap (\d+) /.exec(it.end) || / trapped (\d+) /.exec(it.end);
    return trap && trapMeaning[trap[1]] ? [(processes.length > 1 ? "process " + k + ": " : "") + trapMeaning[trap[1]]] : [];
  }).join("; ");
}

const memoryWords = () => [...option("frames", state.frames), ...option("slots", state.slots)];
const runWords = limit => ["run", "--serial", ...memoryWords(), ...option("slice", state.slice), ...option("limit", limit)];

function busy(is) {
  by("run").disabled = is;
  by("stop").disabled = !is;
}

function seconds(begun) {
  return ((performance.now() - begun) / 1000).toFixed(1) + " s";
}

// What a run showed goes.
function forgetRun() {
  runFilmed = null;
  hideFilm();
  for (const id of ["flat", "paged", "equal", "progress"]) by(id).textContent = "";
  by("equal").className = "";
}

async function runBoth() {
  const turn = ++runs;
  if (!by("stop").disabled) long.stop();
  forgetRun();
  busy(true);
  const begun = performance.now();
  const clock = setInterval(() => tell(doing), 500);
  let doing = "";
  const tell = text => {
    doing = text;
    if (turn === runs) by("progress").textContent = text && text + ", " + seconds(begun);
  };
  try {
    const flat = await runFlat(turn, tell);
    const frames = await runFrames(turn, tell);
    if (turn !== runs) return;
    const [style, words] = verdict(flat, frames);
    by("equal").className = style;
    by("equal").textContent = [words, endsInWords(frames)].filter(Boolean).join(" On frames: ");
    if (frames.length) await runFilm(turn, tell);
    tell("");
    if (turn === runs) by("progress").textContent = frames.length ? "done in " + seconds(begun) : "it did not run";
  } catch (why) {
    if (turn === runs) by("progress").textContent = why instanceof Stopped ? "stopped after " + seconds(begun) : why.message;
  } finally {
    clearInterval(clock);
    if (turn === runs) busy(false);
  }
}

async function runFlat(turn, tell) {
  const { files, names } = imageFiles();
  const all = [], processes = [];
  for (const [k, name] of names.entries()) {
    tell("on flat memory" + (k ? ", process " + k : ""));
    const words = ["flat", ...option("limit", state.limit), ...(k ? [] : inputWords(files)), name];
    const done = await long.run("paged", words, { files, most: MOST_KEPT });
    if (turn !== runs) return [];
    all.push(failed(done) ? said(done) + "\n" : shown(done.out, done.cut));
    by("flat").textContent = all.join("");
    processes.push(...processesOf(done.out).slice(0, 1));
  }
  return processes;
}

async function runFrames(turn, tell) {
  const { files, names } = imageFiles();
  tell("on frames");
  const done = await long.run("paged", [...runWords(state.limit), ...inputWords(files), ...names], { files, most: MOST_KEPT });
  if (turn !== runs) return [];
  by("paged").textContent = failed(done) ? said(done) + "\n" : shown(done.out, done.cut);
  return processesOf(done.out);
}

async function runFilm(turn, tell) {
  const { files, names } = imageFiles();
  const most = Number(state.filmLimit) || FILM_EVENTS;
  const limit = state.limit === "" ? most : Math.min(Number(state.limit), most);
  tell("the film");
  const told = ({ lines }) => tell("the film, event " + lines);
  const text = await textOf(long, "show_run", [...runWords(limit), ...inputWords(files), ...names], { files, most: 1 << 29, told });
  const sources = await Promise.all(state.images.map(filmSource));
  if (turn !== runs) return;
  const note = text.split("\n").length - 4 < most ? "" : "The film has the first " + most + " events. The field \u201cfilm, events\u201d asks for more.";
  runFilmed = [text, { sources, note }];
  if (state.tab === "run") showFilmOf(...runFilmed, state.event);
}

function startRun() {
  by("run").onclick = () => runBoth();
  by("stop").onclick = () => long.stop();
  const put = (id, key, of = value => value) => by(id).addEventListener("input", () => {
    state[key] = of(by(id).value);
    changed();
    showFields();
  });
  for (const [id, key] of [["frames", "frames"], ["frames-slide", "frames"], ["slots", "slots"], ["slice", "slice"], ["limit", "limit"], ["film-limit", "filmLimit"]]) put(id, key);
  for (const id of ["frames", "frames-slide", "slots"]) by(id).addEventListener("change", () => state.tab === "hand" && playScript());
}

function showFields() {
  const put = (id, value) => { if (by(id).value !== String(value)) by(id).value = value; };
  put("frames", state.frames);
  put("frames-slide", Math.min(64, state.frames));
  put("slots", state.slots);
  put("slice", state.slice);
  put("limit", state.limit);
  put("film-limit", state.filmLimit);
}
