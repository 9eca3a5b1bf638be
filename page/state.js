// What the reader has typed and chosen. It is kept by the browser, so that a reload loses nothing, and goes into a link.

const by = id => document.getElementById(id);
const examples = JSON.parse(by("examples").textContent);
const texts = JSON.parse(by("texts").textContent);
const STORE = "paged-lab";
const LINK = "#lab=";

const newState = () => ({
  images: [imageOf(examples[0])], chosen: 0, input: "", tab: "run", event: 0,
  frames: 4, slots: "", slice: "", limit: "", filmLimit: "", words: false,
  script: "", lines: "", debugFrames: false, debugHart: 0, memoryAt: "0x00011000", memoryCount: 64, breaks: [],
  of: "program", string: "", policies: ["fifo", "clock", "lru", "clock-pro-used", "optimum"], framesList: "", gridPolicy: "fifo", gridFrames: 3,
});

let state = newState();

function imageOf(example) {
  return { name: example.name, text: example.text, data: example.data };
}

function base64(bytes) {
  let text = "";
  for (let at = 0; at < bytes.length; at += 0x8000) text += String.fromCharCode(...bytes.subarray(at, at + 0x8000));
  return btoa(text);
}

const bytesOf64 = text => Uint8Array.from(atob(text), letter => letter.charCodeAt(0));

// The bytes of an image: its text, or a file that is no text.
const bytesOf = image => image.data === undefined ? coder.encode(image.text) : bytesOf64(image.data);

// The files of a run, by names that are told apart, and the words that name them.
const INPUT = "input of process 0", SCRIPT = "script of events";

function imageFiles() {
  const files = new Map();
  for (const image of state.images) {
    let name = image.name.replace(/^-+/, "") || "image";
    while (files.has(name) || name === INPUT || name === SCRIPT) name = "other-" + name;
    files.set(name, bytesOf(image));
  }
  return { files, names: [...files.keys()] };
}

function inputWords(files) {
  if (!state.input) return [];
  files.set(INPUT, coder.encode(state.input));
  return ["--input", INPUT];
}

// An option with its value, if there is one.
const option = (name, value) => value === "" || value === null || value === undefined ? [] : ["--" + name, String(value)];

// Both of the browser's stores are asked. A browser may refuse them: then the tab keeps it, in its history.
function kept(name) {
  for (const store of ["sessionStorage", "localStorage"]) {
    try {
      const text = window[store].getItem(name);
      if (text) return JSON.parse(text);
    } catch (_) { /* it keeps nothing, or what it kept is no state */ }
  }
  return history.state && history.state[name] || null;
}

// Whether one of them kept it.
function keep(name, value) {
  let isKept = false;
  for (const store of ["sessionStorage", "localStorage"]) {
    try {
      window[store].setItem(name, JSON.stringify(value));
      isKept = true;
    } catch (_) { /* it is full, or keeps nothing */ }
  }
  return isKept || keepInHistory({ ...history.state, [name]: value });
}

function keepInHistory(value, address) {
  try {
    history.replaceState(value, "", address);
    return true;
  } catch (_) {
    return false;    // a page that may not name its place goes on without
  }
}

const save = later(() => keep(STORE, state) || notice("This browser does not keep so much: a reload would lose what was typed. A link keeps it."), 200);

// Calls a function once, so many milliseconds after it was last wanted; `now` calls it at once, if it is wanted.
function later(call, millis) {
  let timer = 0;
  const wanted = (...words) => {
    clearTimeout(timer);
    timer = setTimeout(() => { timer = 0; call(...words); }, millis);
  };
  wanted.now = () => {
    if (timer) clearTimeout(timer);
    if (timer) call();
    timer = 0;
  };
  return wanted;
}

// A function whose calls wait for one another.
function oneByOne(call) {
  let last = Promise.resolve();
  return (...words) => {
    last = last.then(() => call(...words)).catch(why => notice(String(why)));
    return last;
  };
}

// Hands on the lines that are typed into a form's field. The field has a line again that was not taken, so that it can be mended.
function takeLines(form, field, take) {
  by(form).onsubmit = async event => {
    event.preventDefault();
    const line = by(field).value.trim();
    by(field).value = "";
    if (!await take(line) && !by(field).value) by(field).value = line;
  };
}

// Whether a value has the kinds that a state's fields have.
function isState(value) {
  const usual = newState();
  const isText = it => typeof it === "string";
  const fits = (it, like) => Array.isArray(like) ? Array.isArray(it) : typeof it === typeof like || isText(it) && typeof like === "number" || typeof it === "number" && isText(like);
  return Boolean(value) && typeof value === "object" && Object.keys(usual).every(key => value[key] === undefined || fits(value[key], usual[key]))
    && Array.isArray(value.images) && value.images.length > 0 && value.images.length <= 64
    && value.images.every(it => it && isText(it.name) && (isText(it.data) || isText(it.text)));
}

const stateWith = value => {
  const made = { ...newState(), ...value };
  made.chosen = Math.min(Math.max(0, Number(made.chosen) || 0), made.images.length - 1);
  return made;
};

async function linkOf(value) {
  const packed = base64(await deflated(coder.encode(JSON.stringify(value))));
  return LINK + packed.replace(/\+/g, "-").replace(/\//g, "_").replace(/=+$/, "");
}

// The state that a link carries; it throws where the link carries none.
async function stateOfLink(fragment) {
  const text = fragment.slice(LINK.length).replace(/-/g, "+").replace(/_/g, "/");
  const value = JSON.parse(decoder.decode(await inflated(bytesOf64(text))));
  if (!isState(value)) throw new Error("it carries no work");
  return value;
}

function make(name, attributes = {}, ...children) {
  const made = document.createElement(name);
  for (const [key, value] of Object.entries(attributes)) made.setAttribute(key, value);
  made.append(...children);
  return made;
}

function notice(text) {
  by("notice").textContent = text;
}

// Hands a file to the reader.
function handOut(name, bytes) {
  const url = URL.createObjectURL(new Blob([bytes]));
  const link = make("a", { href: url, download: name });
  link.click();
  setTimeout(() => URL.revokeObjectURL(url), 10000);
}

const hex = number => "0x" + (number >>> 0).toString(16).toUpperCase().padStart(8, "0");
