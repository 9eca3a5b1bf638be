// The viewer of films, in a shadow root of its own, so that its styles and names stay in it.

let viewer = null;
let keysOfFilm = null;
let filmText = null;    // what the program `show_run` wrote

function hideFilm() {
  by("film-part").hidden = true;
  by("film-host").replaceWith(make("div", { id: "film-host" }));
  [viewer, keysOfFilm, filmText] = [null, null, null];
}

// Shows what the program `show_run` wrote.
function showFilmOf(told, { sources, comments = [], note = "" }, start = 0) {
  hideFilm();
  filmText = told;
  by("film-note").textContent = note;
  const root = by("film-host").attachShadow({ mode: "open" });
  root.append(make("style", {}, by("film-style").textContent), by("film-view").content.cloneNode(true));
  keysOfFilm = new EventTarget();
  by("film-part").hidden = false;
  paintFilm();
  const film = filmOf(told, { words: texts.events, sources, comments });
  viewer = showFilm(film, root, { start: Math.min(Number(start) || 0, film.run.count - 1), keys: keysOfFilm, moved });
}

// The film has the page's colours, by the reader's choice.
function paintFilm() {
  const film = by("film-host").shadowRoot && by("film-host").shadowRoot.querySelector(".film");
  if (!film) return;
  const theme = document.documentElement.dataset.theme;
  if (theme) film.dataset.scheme = theme; else delete film.dataset.scheme;
}

function moved(number) {
  state.event = number;
  changed();
  showEventRow(number);
}

// Keys that are not typed into a field of the page go to the film, if there is one.
function startFilm() {
  document.addEventListener("keydown", event => {
    const at = event.composedPath()[0];
    const isTyped = at.closest && at.closest("input, select, textarea, summary, button, pre, .scroll") && !event.composedPath().includes(by("film-host"));
    if (!viewer || event.defaultPrevented || isTyped) return;
    const told = new KeyboardEvent("keydown", { key: event.key, shiftKey: event.shiftKey, altKey: event.altKey, ctrlKey: event.ctrlKey, metaKey: event.metaKey, cancelable: true });
    told.composedPath = () => event.composedPath();
    if (!keysOfFilm.dispatchEvent(told)) event.preventDefault();
  });
}
