// The page: its tabs, its links, and what it begins with.

const tabs = ["run", "hand", "compare", "debug", "help"];

function changed() {
  save();
}

function showTab(name) {
  state.tab = name;
  for (const it of tabs) {
    by("tab-" + it).setAttribute("aria-selected", String(it === name));
    by("tab-" + it).tabIndex = it === name ? 0 : -1;
    by("panel-" + it).hidden = it !== name;
  }
  by("memory-fields").hidden = name === "help" || name === "compare";
  for (const it of document.querySelectorAll(".of-run")) it.hidden = name !== "run";
  for (const it of document.querySelectorAll(".of-machine")) it.hidden = name === "debug";
  if (name !== "debug") { hereLine = 0; showGutter(); }
  hideFilm();
  if (name === "run" && runFilmed) showFilmOf(...runFilmed, state.event);
  if (name === "hand") playScript();
  if (name === "debug") talkAnew();
}

function openTab(name) {
  showTab(name);
  changed();
}

function startTabs() {
  for (const [k, name] of tabs.entries()) {
    const button = by("tab-" + name);
    button.onclick = () => openTab(name);
    button.onkeydown = event => {
      const to = { ArrowRight: k + 1, ArrowLeft: k - 1, Home: 0, End: tabs.length - 1 }[event.key];
      if (to === undefined) return;
      event.preventDefault();
      const next = tabs[(to + tabs.length) % tabs.length];
      openTab(next);
      by("tab-" + next).focus();
    };
  }
}

function showAll() {
  showFields();
  showSource();
  by("script").value = state.script;
  showCompare();
  showDebug();
  showTab(tabs.includes(state.tab) ? state.tab : "run");
}

async function makeLink() {
  const link = await linkOf(state);
  keepInHistory(history.state, link);
  const address = location.href.split("#")[0] + link;
  let how = "It is in the address line.";
  try {
    await navigator.clipboard.writeText(address);
    how = "It is in the clipboard and in the address line.";
  } catch (_) { /* the reader copies it from the address line */ }
  notice("A link with all of this: " + address.length + " letters. " + how + " Who has the page elsewhere puts what begins with " + LINK + " after its address there.");
}

// Opens what a link carries. What the reader had is kept apart; a reload then has what is typed from here on.
async function openLink() {
  if (!location.hash.startsWith(LINK)) return false;
  const fragment = location.hash;
  try {
    const value = await stateOfLink(fragment);
    keep(STORE + "-before", state);
    state = stateWith(value);
    keep(STORE, state);
    by("before-link").hidden = false;
    notice("This is the work of a link. Your own is kept.");
  } catch (why) {
    notice("The link is broken: it carries no work that can be read. " + (fragment.length > 60 ? "A part of it may be missing." : ""));
    return false;
  } finally {
    keepInHistory(history.state, location.href.split("#")[0]);
  }
  showAll();
  if (state.tab === "run") runBoth();
  return true;
}

function startTheme() {
  const put = theme => {
    if (theme) document.documentElement.dataset.theme = theme; else delete document.documentElement.dataset.theme;
    by("theme").value = theme;
    paintFilm();
  };
  put(kept(STORE + "-theme") || "");
  by("theme").onchange = () => { put(by("theme").value); keep(STORE + "-theme", by("theme").value); };
}

function startKeys() {
  document.addEventListener("keydown", event => {
    const is = event.ctrlKey && event.key === "Enter" ? "Enter" : event.altKey && !event.ctrlKey ? event.code.replace(/^(Key|Digit)/, "") : /^F(9|10)$/.test(event.key) && state.tab === "debug" ? event.key : "";
    const moves = {
      Enter: () => state.tab === "compare" ? compare() : state.tab === "run" ? runBoth() : null,
      S: stopAll, L: makeLink, X: () => by("example").focus(), B: () => toggleBreak(showPlace() - 1), Z: () => state.tab === "hand" && undo(),
      E: () => by(state.tab === "debug" ? "debug-line" : "event-line").select(),
      F10: () => by(event.shiftKey ? "debug-back" : "debug-step").click(), F9: () => by(event.shiftKey ? "debug-back-go" : "debug-run").click(),
      1: () => openTab("run"), 2: () => openTab("hand"), 3: () => openTab("compare"), 4: () => openTab("debug"), 5: () => openTab("help"),
    };
    if (!moves[is]) return;
    event.preventDefault();
    moves[is]();
  });
}

// Why the page can't work here, or nothing.
function lack() {
  if (typeof WebAssembly === "undefined") return "This browser runs no WebAssembly, or has it switched off: the page can't work in it.";
  try {
    new DecompressionStream("deflate-raw");
    return "";
  } catch (_) {
    return "This browser is too old for the page: it has to be of 2023 or later.";
  }
}

async function start() {
  if (lack()) {
    notice(lack());
    document.documentElement.dataset.ready = "yes";
    return;
  }
  addEventListener("unhandledrejection", event => notice("Something went wrong: " + event.reason));
  startTheme();
  const value = kept(STORE);
  if (isState(value)) state = stateWith(value);
  startTabs();
  startSource();
  startRun();
  startHand();
  startCompare();
  startDebug();
  startFilm();
  startKeys();
  by("make-link").onclick = makeLink;
  by("before-link").onclick = () => {
    const before = kept(STORE + "-before");
    if (isState(before)) state = stateWith(before);
    by("before-link").hidden = true;
    notice("");
    changed();
    showAll();
  };
  addEventListener("hashchange", openLink);
  addEventListener("pagehide", () => save.now());
  document.addEventListener("visibilitychange", () => save.now());
  if (!await openLink()) showAll();
  document.documentElement.dataset.ready = "yes";
  setTimeout(() => ["paged", "show_run"].forEach(moduleOf), 100);    // so that the first run need not wait for them
}

start();
