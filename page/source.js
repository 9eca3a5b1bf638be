// The source: an editor with the lines' numbers, addresses and words, and with the fault of the assembler at its line.

const image = () => state.images[state.chosen];
const isWords = text => text.startsWith(".words");
const TEXT_START = 0x10000;
const isNarrow = matchMedia("(max-width: 40rem)");
let listed = [];    // of each line its address and words, as far as they are known
let faultLine = 0;
let hereLine = 0;    // where the debugger stands
let checks = 0;    // how often it was changed, and how much of that was looked at
let checked = 0;

// Whether the assembler takes a source: its fault, with the line that it names; and the file that it makes.
async function assembled(name, bytes) {
  const files = new Map([[name, bytes]]);
  const done = await quick.run("paged", ["asm", name, "made.elf"], { files });
  if (done.status === 0) return { elf: done.files.get("made.elf"), counts: decoder.decode(done.out).trim() };
  const why = said(done);
  const at = /: line (\d+): fault (\d+)$/.exec(why);
  return { why, line: at ? Number(at[1]) : 0, fault: at ? Number(at[2]) : 0 };
}

// Whether a list of words is one.
async function wordsRead(name, bytes) {
  const done = await quick.run("paged", ["flat", "--limit", "1", name], { files: new Map([[name, bytes]]) });
  const why = said(done).endsWith("bad words") ? "Each line below .words is one word of eight hexadecimal digits, and nothing else." : "There is no word below .words.";
  return failed(done) ? { why } : { elf: bytes };
}

// What a fault means, as the commands at a terminal say it.
function meaning(fault, line) {
  const name = (/^\s*(?:[\w.]+:\s*)*([\w.]+)/.exec(line) || [])[1];
  const statement = texts.statements[name] || {};
  const instead = (texts.instead[fault + " " + name] || []).map(it => "; " + it).join("");
  if (fault === 1 && line.includes("\r")) return "a carriage return, which is no line end here: save the file with lines that end with LF alone; what is typed here has them";
  return texts.faults[fault] + (fault === 3 ? statement.form || "" : fault === 4 ? statement.range || "" : "") + instead;
}

// Where each line of a source lies: a label before each line is assembled with it, and the labels' addresses stand behind the data.
async function listing(text) {
  const lines = text.replace(/\n$/, "").split("\n");
  const label = number => ".listed.line." + number;
  const marked = [...lines.map((line, k) => label(k + 1) + ": " + line), ".data", ...lines.map((_, k) => ".word " + label(k + 1)),
    ".text", label(lines.length + 1) + ":", ".data", ".word " + label(lines.length + 1), ""].join("\n");
  const [plain, other] = await Promise.all([assembled("plain.s", coder.encode(text)), assembled("marked.s", coder.encode(marked))]);
  if (!plain.elf || !other.elf) return null;
  const counts = it => /^words (\d+) data (\d+)/.exec(it.counts).slice(1).map(Number);
  const [words, data] = counts(plain);
  const at = 4096 + 4096 * Math.ceil(words / 1024) + data;    // the data stands in whole pages behind the text
  const numbers = (elf, from, count) => Array.from({ length: count }, (_, k) => new DataView(elf.buffer, elf.byteOffset).getUint32(from + 4 * k, true));
  const text_ = numbers(plain.elf, 4096, words), end = TEXT_START + 4 * words;
  const places = numbers(other.elf, at, lines.length + 1);
  const isText = place => place >= TEXT_START && place <= end;
  return lines.map((_, k) => {
    if (!isText(places[k])) return { words: [] };
    const next = places.slice(k + 1).find(isText);
    const upTo = next === undefined ? end : next;
    return { address: places[k], words: text_.slice((places[k] - TEXT_START) / 4, (upTo - TEXT_START) / 4) };
  });
}

// The lines of a source that put words into the text, as a film shows them.
async function filmSource(image) {
  if (image.data !== undefined || isWords(image.text)) return null;
  const found = await listing(image.text);
  const lines = image.text.split("\n");
  return found && found.flatMap((it, k) => it.words.length ? [[it.address, it.words.length, k + 1, lines[k].trim().replace(/\s+/g, " ")]] : []);
}

function showGutter() {
  if (image().data !== undefined) return;
  const count = image().text.split("\n").length;
  const hexes = words => words.slice(0, 2).map(word => (word >>> 0).toString(16).toUpperCase().padStart(8, "0")).join(" ") + (words.length > 2 ? " \u2026" : "");
  const rows = [], wide = Math.max(8, ...listed.map(it => hexes(it.words).length));
  for (let k = 0; k < count; k++) {
    const it = listed[k];
    const has = it && it.words.length > 0;
    const words = !state.words ? "" : isNarrow.matches ? "  " + (has ? hex(it.address) : "").padEnd(10) : has ? "  " + hex(it.address) + " " + hexes(it.words).padEnd(wide) : " ".repeat(13 + wide);
    const styles = [k + 1 === faultLine ? "bad" : "", k + 1 === hereLine ? "here" : "", has && state.breaks.includes(it.address) ? "break" : ""].filter(Boolean).join(" ");
    rows.push(make("div", { ...(styles ? { class: styles } : {}), ...(has ? { title: hex(it.address) + " " + it.words.map(hex).join(" ") } : {}) }, String(k + 1).padStart(3) + words));
  }
  by("gutter").replaceChildren(...rows);
  by("text").style.height = "calc(" + count * 1.4 + "em + 2rem)";
}

// Where the line lies in which one types.
function showPlace() {
  const number = by("text").value.slice(0, by("text").selectionStart).split("\n").length;
  const it = listed[number - 1];
  by("place").textContent = "line " + number + (it && it.words.length ? ": " + hex(it.address) + " " + it.words.map(word => hex(word).slice(2)).join(" ") : "");
  return number;
}

function toggleBreak(row) {
  const it = listed[row];
  if (!it || !it.words.length) return;
  state.breaks = state.breaks.includes(it.address) ? state.breaks.filter(other => other !== it.address) : [...state.breaks, it.address];
  changed();
  showGutter();
  talkAnew();
}

function tellFault(text) {
  by("fault").textContent = text;
}

// Looks at the source as it stands: a fault at its line, or addresses and words beside the lines.
async function check() {
  const turn = ++checks;
  const it = image();
  if (it.data !== undefined) {
    tellFault("");
    checked = turn;
    return;
  }
  const done = await (isWords(it.text) ? wordsRead : assembled)(it.name, coder.encode(it.text));
  const found = done.elf && !isWords(it.text) ? await listing(it.text) : null;
  if (turn !== checks) return;    // it was changed meanwhile
  faultLine = done.line || 0;
  if (done.elf) listed = found || [];
  const line = it.text.split("\n")[faultLine - 1] || "";
  tellFault(!done.why ? "" : done.fault ? (faultLine ? "Line " + faultLine + ": " : "") + meaning(done.fault, line) : done.why);
  by("text").setAttribute("aria-invalid", String(Boolean(done.why)));
  showGutter();
  showPlace();
  checked = turn;
}

const checkLater = later(check, 150);

function showImages() {
  by("images").replaceChildren(...state.images.flatMap((it, k) => {
    const button = make("button", { type: "button", "aria-pressed": String(k === state.chosen) }, (state.images.length > 1 ? k + ": " : "") + it.name);
    button.onclick = () => choose(k);
    const shut = make("button", { type: "button", class: "shut", "aria-label": "Take " + it.name + " away" }, "\u00d7");
    shut.onclick = () => takeAway(k);
    return state.images.length > 1 ? [button, shut] : [button];
  }));
}

function showSource() {
  const it = image();
  const isText = it.data === undefined;
  showImages();
  by("editor").hidden = !isText;
  by("binary").hidden = isText;
  by("binary").textContent = isText ? "" : it.name + ": a file of " + bytesOf(it).length + " bytes, which is run as it is.";
  const example = examples.find(other => other.name === it.name && other.text === it.text && other.data === it.data);
  by("example").value = example ? example.name : "";
  by("about-example").textContent = example ? example.about : "";
  if (isText && by("text").value !== it.text) {
    by("text").value = it.text;
    by("text").setSelectionRange(0, 0);
  }
  by("input").value = state.input;
  by("input-part").open = by("input-part").open || Boolean(state.input);
  by("show-words").checked = state.words;
  [listed, faultLine, hereLine] = [[], 0, 0];
  if (isText) showGutter();
  check();
}

function choose(number) {
  state.chosen = number;
  changed();
  showSource();
}

function takeAway(number) {
  state.images.splice(number, 1);
  choose(Math.min(state.chosen, state.images.length - 1));
}

// Another program takes the place of the chosen one; what it was tried with goes too.
function put(it) {
  state.images[state.chosen] = it;
  begin();
}

// What belonged to the program before goes.
function begin() {
  runs++;
  if (!by("stop").disabled) long.stop();
  busy(false);
  forgetRun();
  [state.breaks, state.lines, state.event] = [[], "", 0];
  changed();
  showSource();
  showTab(state.tab);
}

async function readFiles(files) {
  for (const [k, file] of [...files].entries()) {
    const bytes = new Uint8Array(await file.arrayBuffer());
    if (bytes.length > 32 * 1024 * 1024) { notice(file.name + " has more than 32 MB."); continue; }
    const isElf = bytes[0] === 0x7F;
    const it = isElf ? { name: file.name, data: base64(bytes) } : { name: file.name, text: decoder.decode(bytes) };
    if (k) { state.images.push(it); state.chosen = state.images.length - 1; } else state.images[state.chosen] = it;
  }
  begin();
}

function startSource() {
  const groups = new Map();
  for (const it of examples) {
    if (!groups.has(it.group)) groups.set(it.group, make("optgroup", { label: it.group }));
    groups.get(it.group).append(make("option", { value: it.name }, it.name.replace(/\.(s|words|elf)$/, "") + ": " + it.about));
  }
  by("example").append(make("option", { value: "" }, "\u2013"), ...groups.values());
  by("example").onchange = () => {
    const it = examples.find(other => other.name === by("example").value);
    if (!it) return;
    if (it.input !== undefined) state.input = it.input;
    put(imageOf(it));
  };
  by("text").addEventListener("input", () => {
    image().text = by("text").value;
    by("example").value = "";
    by("about-example").textContent = "";
    changed();
    checks++;
    showGutter();
    checkLater();
  });
  by("gutter").addEventListener("click", event => {
    toggleBreak([...by("gutter").children].indexOf(event.target.closest("div:not(#gutter)")));
  });
  for (const kind of ["keyup", "click", "focus"]) by("text").addEventListener(kind, showPlace);
  isNarrow.addEventListener("change", showGutter);
  by("file").onchange = () => { readFiles(by("file").files); by("file").value = ""; };
  by("add").onclick = () => {
    if (state.images.length >= 64) return notice("A machine has at most 64 processes.");
    state.images.push({ name: "new.s", text: "        li   a7, 93\n        li   a0, 0\n        ecall\n" });
    choose(state.images.length - 1);
  };
  by("save-source").onclick = () => handOut(image().name, bytesOf(image()));
  by("input").oninput = () => { state.input = by("input").value; changed(); };
  by("show-words").onchange = () => { state.words = by("show-words").checked; changed(); showGutter(); };
  const part = by("source-part");
  part.addEventListener("dragover", event => { event.preventDefault(); by("editor").classList.add("dropped"); });
  part.addEventListener("dragleave", () => by("editor").classList.remove("dropped"));
  part.addEventListener("drop", event => {
    event.preventDefault();
    by("editor").classList.remove("dropped");
    readFiles(event.dataTransfer.files);
  });
}
