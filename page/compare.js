// Policies by numbers of frames: misses as a table and as a curve, and a string of pages over time.

const policyNames = ["fifo", "clock", "lru", "clock-pro-used", "clock-pro", "2q", "lirs", "arc", "sieve", "s3-fifo", "w-tinylfu", "car", "lru-k", "gclock", "lfu", "mru",
  "second-chance", "nru", "aging", "wsclock", "random", "optimum"];
let compares = 0;

const stringOf = text => text.split(/[\s,]+/).filter(Boolean);

// A write is 5w, or any word with :w after it, as scripts/by-hand has it.
const isWrite = word => /^(\d+w|.+:w)$/.test(word);
const pageOf = word => isWrite(word) ? word.replace(/:?w$/, "") : word;

// A trace of a string: its pages are numbered as they come.
function traceOf(string) {
  const numbers = new Map();
  for (const page of string.map(pageOf)) if (!numbers.has(page)) numbers.set(page, numbers.size);
  return string.map(word => numbers.get(pageOf(word)) + (isWrite(word) ? " w" : "")).join("\n") + "\n";
}

// The words of the program that counts, and its files.
function counting() {
  const policies = policyNames.filter(name => state.policies.includes(name)).join(",");
  const words = [...option("frames", state.framesList.trim()), "--policies", policies, "--csv", "--progress"];
  if (state.of === "string") return { words: ["replay", ...words, "string.trace"], files: new Map([["string.trace", coder.encode(traceOf(stringOf(state.string)))]]) };
  const { files, names } = imageFiles();
  const kind = state.of === "program" ? [] : ["--" + state.of];
  return { words: ["misses", ...kind, ...words, ...option("slice", state.slice), ...option("limit", state.limit), ...inputWords(files), ...names], files };
}

const lastSaid = text => text.replace(/\x1b\[K/g, "").split(/[\r\n]/).filter(Boolean).pop() || "";

async function compare() {
  const turn = ++compares;
  showGrid();
  by("compare-fault").textContent = "";
  if (!state.policies.length) return tellCompare("Choose at least one policy.");
  if (state.of === "string" && !stringOf(state.string).length) return tellCompare("Type a string of pages, as 7 0 1 2 0 3.");
  if (state.of === "string" && !state.framesList.trim()) state.framesList = "1-8";
  by("frames-list").value = state.framesList;
  by("compare").disabled = true;
  by("stop-compare").disabled = false;
  const { words, files } = counting();
  const told = ({ last }) => { by("compare-progress").textContent = lastSaid(last); };
  try {
    const done = await comparing.run("policies", words, { files, most: MOST_KEPT, told });
    if (turn !== compares) return;
    by("compare-progress").textContent = "";
    if (done.status) return tellCompare(lastSaid(said(done)));
    showMisses(decoder.decode(done.out));
  } catch (why) {
    by("compare-progress").textContent = why instanceof Stopped ? "stopped" : why.message;
  } finally {
    by("compare").disabled = false;
    by("stop-compare").disabled = true;
  }
}

function tellCompare(text) {
  by("compare-fault").textContent = text;
  by("misses").replaceChildren();
  by("curve").replaceChildren();
}

function showMisses(csv) {
  const [names, ...rows] = csv.trimEnd().split("\n").map(line => line.split(","));
  const head = make("thead", {}, make("tr", {}, ...names.map(name => make("th", { scope: "col" }, name))));
  const body = make("tbody", {}, ...rows.map(row => {
    const counts = names.map((name, k) => k && name !== "optimum" && row[k] !== "" ? Number(row[k]) : Infinity);
    const least = Math.min(...counts);
    return make("tr", {}, ...row.map((cell, k) => k ? make("td", counts[k] === least ? { class: "least" } : {}, cell) : make("th", { scope: "row" }, cell)));
  }));
  by("misses").replaceChildren(head, body);
  by("curve").replaceChildren(curveOf(names, rows));
}

function svg(name, attributes = {}, ...children) {
  const made = document.createElementNS("http://www.w3.org/2000/svg", name);
  for (const [key, value] of Object.entries(attributes)) made.setAttribute(key, value);
  made.append(...children);
  return made;
}

// A curve for each policy, with its name at the right: misses over frames.
function curveOf(names, rows) {
  const wide = Math.max(340, Math.min(760, by("curve").clientWidth || 760));    // so that its letters stay as large
  const [high, left, right, top, bottom] = [320, 60, 118, 14, 40];
  const frames = rows.map(row => Number(row[0]));
  const most = Math.max(1, ...rows.flatMap(row => row.slice(1).map(Number)));
  const first = Math.min(...frames), last = Math.max(...frames);
  const x = count => left + (last === first ? 0 : (count - first) / (last - first)) * (wide - left - right);
  const y = misses => high - bottom - misses / most * (high - top - bottom);
  const made = svg("svg", { viewBox: `0 0 ${wide} ${high}`, role: "img", "aria-label": "Misses of each policy by frames; the table has the same numbers" });
  for (const part of [0, .25, .5, .75, 1]) {
    const at = y(most * part);
    made.append(svg("line", { class: part ? "across" : "axis", x1: left, x2: wide - right, y1: at, y2: at }), svg("text", { x: left - 6, y: at + 4, "text-anchor": "end" }, String(Math.round(most * part))));
  }
  const marked = frames.filter((_, k) => frames.length <= 12 || k % Math.ceil(frames.length / 12) === 0);
  for (const count of marked) made.append(svg("text", { x: x(count), y: high - bottom + 18, "text-anchor": "middle" }, String(count)));
  made.append(svg("text", { x: (left + wide - right) / 2, y: high - 4, "text-anchor": "middle" }, "frames"));
  const ends = [];
  names.slice(1).forEach((name, k) => {
    const points = rows.filter(row => row[k + 1] !== "").map(row => [x(Number(row[0])), y(Number(row[k + 1]))]);
    if (!points.length) return;
    const place = policyNames.indexOf(name), colour = "var(--c" + (place < 0 ? k : place) + ")";
    made.append(svg("path", { d: "M" + points.map(it => it.join(" ")).join("L"), style: "stroke:" + colour, "stroke-dasharray": ["", "6 3", "2 3", "9 3 2 3"][k % 4] }));
    for (const [cx, cy] of points) made.append(svg("circle", { cx, cy, r: 2.5, style: "fill:" + colour }));
    ends.push({ name, colour, y: points[points.length - 1][1], x: points[points.length - 1][0] });
  });
  ends.sort((a, b) => a.y - b.y);
  let below = -Infinity;
  for (const end of ends) {
    below = Math.max(end.y + 4, below + 15);
    made.append(svg("text", { x: wide - right + 12, y: below }, end.name), svg("line", { x1: end.x + 3, y1: end.y, x2: wide - right + 9, y2: below - 4, style: "stroke:" + end.colour }));
  }
  return made;
}

// The four policies of scripts/by-hand on a string: what happens at each reference.
function nextUse(string, at, page) {
  const next = string.indexOf(page, at + 1);
  return next < 0 ? null : next - at;
}

const firstOf = (numbers, isBetter) => numbers.reduce((best, number, k) => isBetter(number, numbers[best]) ? k : best, 0);

const victims = {
  fifo(frames) {
    return [firstOf(frames.came, (a, b) => a < b), "it came in first"];
  },
  lru(frames, string, at) {
    const place = firstOf(frames.last, (a, b) => a < b);
    return [place, "its last use was " + (at - frames.last[place]) + " references ago"];
  },
  clock(frames) {
    const passed = [], count = frames.pages.length;
    while (frames.used[frames.hand]) {
      frames.used[frames.hand] = false;
      passed.push(frames.pages[frames.hand]);
      frames.hand = (frames.hand + 1) % count;
    }
    const place = frames.hand;
    frames.hand = (frames.hand + 1) % count;
    return [place, "the hand " + (passed.length ? "passed " + passed.join(", ") + " and " : "") + "found it not used"];
  },
  optimum(frames, string, at) {
    const ahead = frames.pages.map(page => nextUse(string, at, page));
    const place = firstOf(ahead.map(it => it === null ? string.length + 1 : it), (a, b) => a > b);
    return [place, ahead[place] === null ? "it is never used again" : "its next use is farthest, " + ahead[place] + " references on"];
  },
};

function playString(name, count, string) {
  const frames = { pages: Array(count).fill(null), used: Array(count).fill(false), came: Array(count).fill(0), last: Array(count).fill(0), hand: 0 };
  return string.map((page, at) => {
    let place = frames.pages.indexOf(page), out = null, why = "";
    const hit = place >= 0;
    if (!hit) {
      place = frames.pages.indexOf(null);
      if (place < 0) {
        [place, why] = victims[name](frames, string, at);
        out = frames.pages[place];
      } else if (name === "clock") frames.hand = (place + 1) % count;
      frames.pages[place] = page;
      frames.came[place] = at;
    }
    frames.used[place] = true;
    frames.last[place] = at;
    return { page, hit, frames: frames.pages.slice(), used: frames.used.slice(), hand: frames.hand, out, why };
  });
}

// The frames behind a reference, for CLOCK with the bits and the hand.
const cellsOf = (name, step) => step.frames.map((page, k) => name !== "clock" ? page || "-" : (step.hand === k ? ">" : " ") + (page || "-") + (step.used[k] ? "*" : " "));

function centred(text, width) {
  const left = width - text.length;
  const before = Math.floor(left / 2);    // as Python does
  return " ".repeat(before) + text + " ".repeat(left - before);
}

// A column for each reference: its page, the frames after it, and a star where it missed.
function gridOf(name, count, film) {
  const cell = Math.max(1, ...film.flatMap(step => [step.page, ...cellsOf(name, step)].map(text => text.length)));
  const row = texts => ("  " + texts.map(text => centred(text, cell)).join(" ")).trimEnd();
  const missed = film.filter(step => !step.hit).length;
  return [name + ", " + count + (count === 1 ? " frame" : " frames") + (name === "clock" ? "; * used, > the hand" : ""), row(film.map(step => step.page)), "  " + "-".repeat((cell + 1) * film.length - 1),
    ...Array.from({ length: count }, (_, place) => row(film.map(step => cellsOf(name, step)[place]))), row(film.map(step => step.hit ? "" : "*")), "  misses " + missed + " of " + film.length].join("\n");
}

function showGrid() {
  const string = stringOf(state.string).slice(0, 400).map(pageOf);
  by("grid-part").hidden = state.of !== "string" || !string.length;
  if (by("grid-part").hidden) return;
  const count = Math.min(4096, Math.max(1, Number(state.gridFrames) || 1));
  const film = playString(state.gridPolicy, count, string);
  by("grid").textContent = gridOf(state.gridPolicy, count, film);
  by("grid-notes").textContent = film.flatMap((step, k) => step.out === null ? [] : [k + 1 + ": " + step.out + " leaves, " + step.why]).join("; ");
}

function showCompare() {
  for (const it of document.getElementsByName("of")) it.checked = it.value === state.of;
  for (const it of by("policies").querySelectorAll("input")) it.checked = state.policies.includes(it.value);
  by("policies-chosen").textContent = state.policies.length === policyNames.length ? "all" : policyNames.filter(name => state.policies.includes(name)).join(", ");
  const put = (id, value) => { if (by(id).value !== String(value)) by(id).value = value; };
  put("string", state.string);
  put("frames-list", state.framesList);
  put("grid-policy", state.gridPolicy);
  put("grid-frames", state.gridFrames);
  showGrid();
}

function startCompare() {
  by("policies").replaceChildren(...policyNames.map(name => {
    const box = make("input", { type: "checkbox", value: name });
    box.onchange = () => {
      state.policies = policyNames.filter(it => it === name ? box.checked : state.policies.includes(it));
      changed();
      showCompare();
    };
    return make("label", { class: "beside" }, box, name);
  }));
  for (const it of document.getElementsByName("of")) it.onchange = () => { state.of = it.value; changed(); showCompare(); };
  by("string").oninput = () => { state.string = by("string").value; state.of = "string"; changed(); showCompare(); };
  by("string").onkeydown = event => { if (event.key === "Enter") compare(); };
  by("frames-list").oninput = () => { state.framesList = by("frames-list").value; changed(); };
  by("frames-list").onkeydown = event => { if (event.key === "Enter") compare(); };
  by("grid-policy").onchange = () => { state.gridPolicy = by("grid-policy").value; changed(); showGrid(); };
  by("grid-frames").oninput = () => { state.gridFrames = by("grid-frames").value; changed(); showGrid(); };
  by("compare").onclick = compare;
  by("stop-compare").onclick = () => comparing.stop();
}
