// A conversation with `guest debug`. A run is the same each time, so each new line plays the conversation anew from its beginning.

const MOST_STEPS = 100000000;
let talks = 0;
let talk = [];    // the lines with their replies
let registersBefore = null;

const isLine = line => /^[ \t]*[^# \t\r]/.test(line);
const debugLines = () => state.lines.split("\n").filter(isLine).map(line => line.trim());

// The conversation with its replies: a reply is a line, but that of the registers.
function withReplies(lines, told) {
  const rest = told.split("\n").slice(0, -1);
  return lines.map(line => {
    const isRegisters = /^regs /.test(line) && /^pc /.test(rest[0] || "");
    return { line, reply: rest.splice(0, isRegisters ? 32 : 1).join("\n") };
  });
}

const startLines = () => state.breaks.map(address => "break " + hex(address));
const hasWays = () => !state.debugFrames;

// What is asked besides, so that registers, memory and the place are shown.
function askedBesides() {
  const address = /^(0x[0-9a-f]+|\d+)$/i.test(state.memoryAt.trim()) ? state.memoryAt.trim() : "0";
  return ["regs " + (Number(state.debugHart) || 0), "mem " + address + " " + (Number(state.memoryCount) || 1), "end", ...(hasWays() ? ["at"] : [])];
}

async function converse(lines) {
  const { files, names } = imageFiles();
  const words = ["debug", ...(hasWays() ? [] : option("frames", state.frames)), ...inputWords(files), names[0]];
  const all = [...startLines(), ...lines, ...askedBesides()];
  const done = await talking.run("guest", words, { files, input: coder.encode(all.join("\n") + "\n"), most: MOST_KEPT });
  const at = /: line (\d+): bad line$/.exec(said(done));
  if (failed(done) && !at) return { fault: said(done) };
  if (at) return { fault: "`" + all[at[1] - 1] + "` is no line of guest debug: break A, watch A N, remove I, step H, run N, go-hart H N, regs H, mem A N, live H, end" + (hasWays() ? ", back N, back-go, at" : "") + "." };
  const told = withReplies(all, decoder.decode(done.out));
  return { talk: told.slice(0, startLines().length + lines.length), besides: told.slice(startLines().length + lines.length) };
}

// Plays the conversation, and shows it; whether each line was one.
async function talkAnew(lines = debugLines()) {
  if (state.tab !== "debug") return false;
  const turn = ++talks;
  by("debug-reply").textContent = "";
  by("debug-stop").disabled = false;
  try {
    const { fault, talk: told, besides } = await converse(lines);
    if (turn !== talks) return false;
    if (fault) {
      by("debug-reply").textContent = fault;
      return false;
    }
    state.lines = lines.map(line => line + "\n").join("");
    changed();
    talk = told;
    showTalk(besides);
    return true;
  } catch (why) {
    if (turn === talks) by("debug-reply").textContent = why instanceof Stopped ? "stopped" : why.message;
    return false;
  } finally {
    if (turn === talks) by("debug-stop").disabled = true;
  }
}

function showTalk(besides) {
  by("talk").textContent = talk.map(({ line, reply }) => "> " + line + "\n" + reply + "\n").join("");
  by("talk").scrollTop = by("talk").scrollHeight;
  const [registers, memory, end, place] = besides.map(it => it.reply);
  const rows = /^pc /.test(registers) ? registers.split("\n").map(row => row.split(" ")) : [];
  by("registers").replaceChildren(...rows.map(([name, value]) => {
    const changed = registersBefore && registersBefore.get(name) !== value;
    return make("li", changed ? { class: "changed" } : {}, name.padEnd(3) + " " + (texts.registers[name] || "").padEnd(4) + " " + value);
  }));
  if (!rows.length) by("registers").replaceChildren(make("li", {}, "hart " + state.debugHart + ": none was started"));
  registersBefore = new Map(rows);
  by("memory").textContent = memoryRows(memory);
  const last = talk[talk.length - 1];
  const at = place && /^at (\d+) of (\d+)/.exec(place);
  by("debug-reply").textContent = [last ? last.reply.split("\n")[0] : "", at ? "step " + at[1] + " of " + at[2] + " that ran" : "", end === "goes on" ? "" : end].filter(Boolean).join("; ");
  by("debug-back").disabled = by("debug-back-go").disabled = !hasWays() || !at || at[1] === "0";
  standAt(rows.length ? Number(rows[0][1]) : -1);
}

function memoryRows(reply) {
  if (!/^[0-9A-F]{2}( |$)/i.test(reply)) return /^refused/.test(reply) ? reply + ": no page is mapped there" : reply;
  const bytes = reply.split(" "), from = Number(state.memoryAt) || 0;
  const rows = [];
  for (let k = 0; k < bytes.length; k += 16) {
    const part = bytes.slice(k, k + 16);
    const letters = part.map(it => { const code = parseInt(it, 16); return code > 31 && code < 127 ? String.fromCharCode(code) : "."; }).join("");
    rows.push(hex(from + k) + "  " + part.join(" ").padEnd(47) + "  " + letters);
  }
  return rows.join("\n");
}

// Marks the line of the source at which the program stands.
function standAt(pc) {
  const place = listed.findIndex(it => it && it.words.length && pc >= it.address && pc < it.address + 4 * it.words.length);
  hereLine = state.chosen === 0 ? place + 1 : 0;
  showGutter();
  const row = by("gutter").children[hereLine - 1];
  if (hereLine && row) {
    const editor = by("editor"), top = row.offsetTop - editor.offsetTop;
    if (top < editor.scrollTop || top > editor.scrollTop + editor.clientHeight - 30) editor.scrollTop = top - editor.clientHeight / 2;
  }
}

const sayLine = oneByOne(line => {
  return line && talkAnew([...debugLines(), line]);
});

function startDebug() {
  const hart = () => Number(state.debugHart) || 0;
  takeLines("say-line", "debug-line", sayLine);
  by("debug-step").onclick = () => sayLine("step " + hart());
  by("debug-back").onclick = () => sayLine("back 1");
  by("debug-run").onclick = () => sayLine("run " + MOST_STEPS);
  by("debug-back-go").onclick = () => sayLine("back-go");
  by("debug-undo").onclick = () => {
    state.lines = debugLines().slice(0, -1).map(line => line + "\n").join("");
    changed();
    talkAnew();
  };
  by("debug-restart").onclick = () => { state.lines = ""; changed(); talkAnew(); };
  by("debug-stop").onclick = () => talking.stop();
  by("debug-frames").onchange = () => { state.debugFrames = by("debug-frames").checked; state.lines = ""; changed(); talkAnew(); };
  by("debug-hart").oninput = () => { state.debugHart = by("debug-hart").value; changed(); talkAnew(); };
  by("memory-at").oninput = () => { state.memoryAt = by("memory-at").value; changed(); talkAnew(); };
  by("memory-count").oninput = () => { state.memoryCount = by("memory-count").value; changed(); talkAnew(); };
}

function showDebug() {
  by("debug-frames").checked = state.debugFrames;
  by("debug-hart").value = state.debugHart;
  by("memory-at").value = state.memoryAt;
  by("memory-count").value = state.memoryCount;
}
