// The machine by hand: events, typed or by buttons for what can come next, with the replies in words.

let plays = 0;
let played = [];    // the events with their replies

const isEvent = line => /^[ \t]*[^# \t\r]/.test(line);
const eventsOf = script => script.split("\n").filter(isEvent).map(line => line.trim());

// What an event did, by the words of scripts/drive-run.
const inWords = number => viewer && number <= viewer.most ? viewer.sentence(number) : "";

// The comments in front of each event, but for those that only say replies.
function commentsOf(script, count) {
  const isReply = /^# ?(ran|yield|hart done|ended|absent \d+|schedule full|noticed|asked \d+\/\d+ (one|zero)|victim \d+\/\d+|not yet|freed|dirty|no slot|device|mapped|damaged|killed|purged|cleaning|stored|copied|clean|refused \d+)$/;
  const comments = [""];
  let pending = [];
  for (const line of script.split("\n")) {
    if (line.startsWith("#")) {
      if (!isReply.test(line)) pending.push(line.slice(1).trim());
    } else if (isEvent(line)) {
      comments.push(pending.join(" "));
      pending = [];
    }
  }
  return comments.length === count ? comments : [];
}

// What may come next, by where the pages and harts are.
function offersOf(scene, last) {
  const found = [];
  const add = (event, why) => found.some(it => it[0] === event) || found.push([event, why]);
  for (const [number, process] of scene.processes.entries()) {
    if (process.end) {
      add("purge " + number, "give its pages back");
      continue;
    }
    const absent = last && /^step (\d+) /.exec(last.event) && Number(/^step (\d+) /.exec(last.event)[1]) === number && /^absent (\d+)$/.exec(last.reply);
    if (absent) add("pagein " + number + " " + absent[1], "bring the page in");
    for (const [h, hart] of process.harts.entries()) {
      if (!hart.live) continue;
      add("step " + number + " " + h, "run an instruction");
      if ((hart.cached || []).some(entry => entry[4])) add("notice " + number + " " + h, "drop the doomed translations");
    }
  }
  for (const [key, where, , , dirty, , cleaning] of scene.pages) {
    const page = key.replace("/", " ");
    if (where === "leaving") add("collect " + page, "look at the leaving page");
    if (where === "saving") add("saved " + page, "write it to its slot");
    if (where === "away" || where === "fresh") add("pagein " + page, "bring the page in");
    if (where === "resident" && /copy/.test(cleaning)) add("cleaned " + page, "the copy is written");
    else if (where === "resident" && cleaning) add("copy " + page, "copy the page");
    else if (where === "resident" && dirty) add("clean " + page, "begin to clean it");
  }
  if (scene.pages.some(row => row[1] === "resident")) add("sweep", "the list asks for a page");
  return found;
}

function showOffers() {
  const scene = viewer && viewer.sceneAt(viewer.most);
  const offers = scene && scene.processes ? offersOf(scene, played[played.length - 1]).slice(0, 24) : [];
  by("offers").replaceChildren(...offers.map(([event, why]) => {
    const button = make("button", { type: "button", title: why, class: "code" }, event);
    button.onclick = () => sayEvent(event);
    return button;
  }));
}

function showEventRow(number) {
  if (state.tab !== "hand") return;
  for (const [k, row] of [...by("events").tBodies[0].rows].entries()) row.className = k + 1 === number ? "here" : "";
}

function showEvents() {
  by("events").tBodies[0].replaceChildren(...played.map(({ event, reply }, k) => {
    const row = make("tr", {}, ...[k + 1, event, reply].map(text => make("td", {}, String(text))), make("td", {}, inWords(k + 1)));
    row.onclick = () => viewer && viewer.go(k + 1);
    return row;
  }));
  const last = played[played.length - 1];
  by("reply").textContent = last ? last.event + ": " + last.reply + ". " + inWords(played.length) : "No event yet. The buttons above show what can come first.";
  const scroll = by("events").parentElement;
  scroll.scrollTop = scroll.scrollHeight;
}

// Plays a script: what the machine replied, and the film of it. Of a line that makes no sense it says so.
async function played_(script) {
  const { files, names } = imageFiles();
  const words = ["drive", ...memoryWords(), SCRIPT, ...names];
  const with_ = () => new Map([...files, [SCRIPT, coder.encode(script)]]);
  const [told, film] = await Promise.all([quick.run("paged", words, { files: with_(), most: MOST_KEPT }), quick.run("show_run", words, { files: with_(), most: 1 << 29 })]);
  return { told, film };
}

async function playScript(script = state.script) {
  const turn = ++plays;
  const { told, film } = await played_(script);
  if (turn !== plays) return false;
  if (failed(told)) {
    const why = said(told);
    const at = /: line (\d+): bad line$/.exec(why);
    by("reply").textContent = at ? "Line " + at[1] + " is no event: " + script.split("\n")[at[1] - 1] + ". Events are step P H, notice P H, sweep, collect P V, saved P V, pagein P V, kill P C, purge P, clean P V, copy P V, cleaned P V." : why;
    return false;
  }
  if (script !== state.script) putScript(script);
  const lines = decoder.decode(told.out).split("\n").slice(0, -1);
  played = eventsOf(script).map((event, k) => ({ event, reply: lines[k] }));
  const sources = await Promise.all(state.images.map(filmSource));
  if (turn !== plays || state.tab !== "hand") return true;
  if (!failed(film)) showFilmOf(decoder.decode(film.out), { sources, comments: commentsOf(script, played.length + 1) }, played.length);
  showEvents();
  showEventRow(played.length);
  showOffers();
  return true;
}

// Puts an event behind the script, if it is one.
const sayEvent = oneByOne(event => {
  const script = state.script + (state.script && !state.script.endsWith("\n") ? "\n" : "") + event + "\n";
  return playScript(script);
});

function putScript(script) {
  state.script = script;
  by("script").value = script;
  changed();
}

function undo() {
  const lines = state.script.split("\n");
  const at = lines.findLastIndex(isEvent);
  if (at < 0) return;
  lines.splice(at, 1);
  putScript(lines.join("\n"));
  playScript();
}

function startHand() {
  takeLines("say-event", "event-line", sayEvent);
  by("undo").onclick = undo;
  by("again").onclick = () => { putScript(""); playScript(); };
  by("keep-script").onclick = () => handOut("script.txt", coder.encode(state.script));
  by("script").oninput = () => { state.script = by("script").value; changed(); playLater(); };
  by("script-file").onchange = async () => {
    const file = by("script-file").files[0];
    by("script-file").value = "";
    if (!file) return;
    putScript(await file.text());
    playScript();
  };
  by("example-script").onclick = () => {
    put(imageOf(examples.find(it => it.name === "p15.s")));
    state.frames = 4;
    showFields();
    putScript(texts.drive);
    playScript();
  };
}

const playLater = later(() => playScript(), 300);
