"use strict";
// A film of a machine, event by event. `root` is the element, or the shadow root, that has the parts of show-run-view.html; the film is what
// the program `show_run` wrote: `film.run` is its head, its outputs and what filmOf puts with them, `film.piece(k)` its scenes from
// k * 500 on, `film.words` what stands in event-words.json. Keys are heard on `keys`; `moved` is called with the number of each event that
// the reader goes to. With `choosesColours` the reader chooses light or dark; else the element with the class `film` may have it as
// data-scheme. Two films may be shown in one document, each in a shadow root of its own.
//
// It shows what stands in the run: what the machine's readers told after each event. What it works out by itself is the walk of an address
// over the words of the page tables, and which accesses of the instructions that ran were served by a cached translation.
function showFilm(film, root, { start = 0, keys = root.ownerDocument, moved = () => {}, choosesColours = false } = {}) {
  const run = film.run;
  const words = film.words || {};
  const owner = root.ownerDocument;
  const pieceLength = 500;    // one scene in so many is whole; a piece is read when one of its scenes is wanted
  const most = run.count - 1;
  const stops = run.stops;    // page faults and failures, by their numbers
  const pieces = new Map();    // those that were read last
  const first = sceneAt(0);
  const hasHarts = Boolean(first.processes);    // whether the film tells of harts
  const translates = hasHarts && first.processes.some(process => process.harts.some(hart => hart.cached));    // and what they have cached
  let ringWidth = 0;    // measured again when the window changes: to measure it is to lay out the whole page
  let longest = 0;    // the list keeps the room that its longest state so far needed
  const by = id => root.querySelector("#" + id);
  const signs = { fresh: "\u25cb", resident: "\u25cf", leaving: "\u25d0", saving: "\u25d2", away: "\u25c7", purged: "\u00d7" };
  const letters = { hot: "H", test: "T", cold: "C", shadow: "S" };
  const names = ["zero", "ra", "sp", "gp", "tp", "t0", "t1", "t2", "s0", "s1", "a0", "a1", "a2", "a3", "a4", "a5", "a6", "a7",
    "s2", "s3", "s4", "s5", "s6", "s7", "s8", "s9", "s10", "s11", "t3", "t4", "t5", "t6"];
  const none = "\u2013";
  const firstTable = 0x200000;    // the physical page of the first page table; table k stands k pages behind it
  const ran = new Set(["ran", "yield", "hart done", "ended"]);
  const asked = { hits: 0, misses: 0 };
  let at = 0;

  // A scene whole, by its number.
  function sceneAt(number) {
    return pieceOf(Math.floor(number / pieceLength)).scenes[number % pieceLength];
  }

  function pieceOf(number) {
    let piece = pieces.get(number);
    if (piece) return piece;
    piece = { scenes: unfold(film.piece(number)), uses: null };
    if (pieces.size >= 12) pieces.delete(pieces.keys().next().value);
    pieces.set(number, piece);
    return piece;
  }

  // Each scene of a piece: what a scene leaves out is as in the scene before it. The first is whole, and so is that of a machine to which nothing happens.
  function unfold(folded) {
    const whole = [];
    for (const scene of folded) {
      const before = whole[whole.length - 1];
      if (!before || !scene.event) {
        whole.push(scene);
        continue;
      }
      let pages = before.pages;
      if (scene.pages) {
        const rows = new Map(pages.map(row => [row[0], row]));
        for (const row of scene.pages) rows.set(row[0], row);
        pages = [...rows.values()];
      }
      const made = { ...before, ...scene, pages };
      if (scene.processes) made.processes = before.processes.map((process, k) => scene.processes[k] ? unfoldProcess(scene.processes[k], process) : process);
      whole.push(made);
    }
    return whole;
  }

  function unfoldProcess(process, before) {
    const harts = process.harts.map((hart, k) => {
      const old = before.harts[k];
      if (!hart) return old;
      if (!old) return hart;
      const x = old.x.slice();
      for (const [number, value] of hart.x || []) x[number] = value;
      return { ...old, ...hart, x };
    });
    return { end: process.end, harts, tables: (process.tables || []).map((table, k) => table || before.tables[k]) };
  }

  function text(bytes) {
    return new TextDecoder().decode(Uint8Array.from(bytes, c => c.charCodeAt(0)));
  }

  function make(name, options = {}, ...children) {
    const { svg, ...attributes } = options;
    const made = svg ? owner.createElementNS("http://www.w3.org/2000/svg", name) : owner.createElement(name);
    for (const [key, value] of Object.entries(attributes)) made.setAttribute(key, value);
    made.append(...children);
    return made;
  }

  function hex(number, digits = 1) {
    return "0x" + (number >>> 0).toString(16).toUpperCase().padStart(digits, "0");
  }

  // A page by its process and its number in hexadecimal.
  function pageName(key) {
    const [process, vpn] = key.split("/");
    return process + "/" + hex(Number(vpn));
  }

  function yes(bit) {
    return bit ? "yes" : "no";
  }

  // Which harts have cached a page, with the marks of their translations.
  function holders(scene, key) {
    const [process, vpn] = key.split("/").map(Number);
    const of = translates && scene.processes[process];
    if (!of) return [];
    return of.harts.flatMap((hart, number) => hart.cached.filter(entry => entry[0] === vpn)
      .map(entry => "hart " + number + (entry[4] ? " (doomed)" : "")));
  }

  // What the table says of a page: where it is, its frame, its two bits, and who has cached it.
  function cells(scene, row) {
    const [key, state, frame, accessed, dirty, changed] = row;
    if (!state) return ["not mapped", none, none, none, ...(translates ? [none, none] : [])];
    const known = accessed !== null;
    const leaves = state === "leaving" || state === "saving";
    return [stateOf(row), frame === null ? none : String(frame), known ? yes(accessed) : none,
      known ? yes(dirty) + (changed && !dirty ? ", but changed" : "") : !leaves ? none : changed ? "to be saved" : "unchanged",
      ...(translates ? [holders(scene, key).join(", ") || none, leafBits(scene, key)] : [])];
  }

  // The bits of the entry that maps a page.
  function leafBits(scene, key) {
    const [process, vpn] = key.split("/").map(Number);
    const tables = scene.processes[process] ? scene.processes[process].tables : [];
    const word = leafOf(tables, vpn);
    return word & 1 ? bits(word) : "V clear";
  }

  // The word that maps a page, and 0 where none does.
  function leafOf(tables, vpn) {
    const pointer = wordAt(tables, 0, vpn >>> 10);
    return pointer & 1 ? wordAt(tables, ppn(pointer) - firstTable, vpn & 1023) : 0;
  }

  // The mark of a process: its number, which has a colour, and beyond eight processes a kind of bar.
  function ofProcess(number) {
    return { "data-process": number, class: "p" + number % 8 + " bar" + Math.floor(number / 8) % 4 };
  }

  // Where a page is, and how far its cleaning is, if one has begun.
  function stateOf([, state, , , , , cleaning]) {
    return signs[state] + " " + state + (cleaning ? ", " + cleaning : "");
  }

  function showFrames(scene) {
    const isMany = run.frames > 16;    // then a frame has two lines: the sign of the state is next to its number
    const holder = new Map();
    for (const row of scene.pages) if (row[1] && row[2] !== null) holder.set(row[2], row);
    const items = [];
    for (let number = 0; number < run.frames; number++) {
      const row = holder.get(number);
      const label = make("span", { class: "number" }, make("span", isMany ? { class: "read" } : {}, "frame "), String(number));
      if (!row) {
        items.push(make("li", { class: "free" }, label, "free"));
        continue;
      }
      const [key, state, , accessed, dirty, changed] = row;
      const bits = accessed === null ? (changed ? " (D)" : "") : " " + (accessed ? "A" : "") + (dirty ? "D" : "");
      const of = ofProcess(key.split("/")[0]);
      const name = make("span", { class: "page code" }, pageName(key));
      if (isMany) label.append(" " + signs[state] + bits, make("span", { class: "read" }, " " + stateOf(row).slice(2)));
      items.push(make("li", { ...of, class: state + " " + of.class }, label, name, ...(isMany ? [] : [bits, make("br"), stateOf(row)])));
    }
    by("frames").className = isMany ? "many" : "";
    by("frames").replaceChildren(...items);
  }

  function showPages(scene, before) {
    const old = new Map((before ? before.pages : []).map(row => [row[0], cells(before, row)]));
    by("pages").replaceChildren(...scene.pages.map(page => {
      const was = old.get(page[0]);
      const of = ofProcess(page[0].split("/")[0]);
      const row = make("tr", {}, make("th", { ...of, scope: "row", class: "code " + of.class }, pageName(page[0]), " ",
        make("span", { class: "soft small" }, page[0].split("/")[1])));
      cells(scene, page).forEach((cell, k) => row.append(make("td", was && was[k] === cell ? {} : { class: "changed" }, cell)));
      return row;
    }));
  }

  function point(turn, radius) {
    const angle = (turn - 0.25) * 2 * Math.PI;
    return [210 + radius * Math.cos(angle), 210 + radius * Math.sin(angle)];
  }

  function svgMake(name, options, ...children) {
    return make(name, { svg: true, ...options }, ...children);
  }

  // The name of an entry: beside it, or where there are many along a line from the middle, so that none covers another.
  function entryLabel(key, turn, size, isMany, scale) {
    if (!isMany) {
      const [x, y] = point(turn, 150);
      const hasRoom = scale >= 0.8 || Math.abs(x - 210) <= 100;    // else its name stands below it
      if (!hasRoom) return svgMake("text", { class: "label", x, y: y + size + 12 / scale }, pageName(key));
      const [lx, ly] = point(turn, 150 + size + 16 + Math.abs(x - 210) / 6);    // names are wider than high
      return svgMake("text", { class: "label", x: lx, y: ly }, pageName(key));
    }
    const [lx, ly] = point(turn, 150 + size + 5);
    const degrees = (turn - 0.25) * 360;
    const isLeft = turn > 0.5;
    return svgMake("text", { class: "label " + (isLeft ? "end" : "start"), x: lx, y: ly,
      transform: "rotate(" + (isLeft ? degrees + 180 : degrees) + " " + lx + " " + ly + ")" }, pageName(key));
  }

  function node([key, kind], turn, size, isMany, scale) {
    const [x, y] = point(turn, 150);
    const group = svgMake("g", { class: kind });
    if (kind === "hot") group.append(svgMake("rect", { class: "shape", x: x - size, y: y - size, width: 2 * size, height: 2 * size }));
    else group.append(svgMake("circle", { class: "shape", cx: x, cy: y, r: size }));
    if (kind === "test") group.append(svgMake("circle", { class: "inner", cx: x, cy: y, r: size - 3 }));
    group.append(svgMake("text", { class: "kind", x, y }, letters[kind]), entryLabel(key, turn, size, isMany, scale));
    return group;
  }

  function hand(place, count, name, style) {
    if (place < 0) return [];
    const turn = place / count;
    const side = style ? -6 : 6;    // the two hands may stand on one entry
    const [x, y] = point(turn, 128);
    const [sx, sy] = [side * (210 - y) / 128, side * (x - 210) / 128];
    const [lx, ly] = [210 + (x - 210) * 0.6 + 4 * sx, 210 + (y - 210) * 0.6 + 3 * sy];
    return [svgMake("line", { class: style, x1: 210 + sx, y1: 210 + sy, x2: x + sx, y2: y + sy, "marker-end": "url(#tip)" }),
      svgMake("text", { class: "hand", x: lx, y: ly }, name)];
  }

  function tip() {
    return svgMake("defs", {}, svgMake("marker", { id: "tip", viewBox: "0 0 8 8", refX: 7, refY: 4, markerWidth: 7, markerHeight: 7, orient: "auto" },
      svgMake("path", { d: "M0 0 L8 4 L0 8 z" })));
  }

  function showList(scene) {
    const entries = scene.entries;
    const ring = by("ring");
    const nameOf = key => key ? pageName(key) : none;
    by("share").textContent = "share " + scene.share + " of " + run.frames + ", asked " + scene.asked
      + ", cold hand " + nameOf(scene.cold) + ", test hand " + nameOf(scene.test);
    const place = key => entries.findIndex(entry => entry[0] === key);
    longest = Math.max(longest, entries.length);
    const room = Array.from({ length: longest - entries.length }, () => make("li", { class: "room", "aria-hidden": "true" }, "\u00a0"));
    by("entries").replaceChildren(...entries.map(([key, kind]) => {
      const both = scene.cold === key && scene.test === key;
      const hands = both ? "both hands" : scene.cold === key ? "cold hand" : scene.test === key ? "test hand" : "";
      return make("li", {}, make("span", { class: "code" }, pageName(key) + " " + kind), hands ? " \u2190 " + hands : "");
    }), ...room);
    ring.style.display = longest > 64 ? "none" : "";
    if (longest > 64) return ring.replaceChildren();
    const isMany = entries.length > 14;
    ringWidth = ringWidth || ring.clientWidth;
    const scale = (ringWidth || 464) / 520;
    ring.style.setProperty("--ring", Math.round(10 * 13.5 / scale) / 10 + "px");    // letters of 13 pixels at any width
    const size = entries.length <= 20 ? 17 : entries.length <= 40 ? 9 : 7;
    const isBare = isMany || scale < 0.8 && entries.length > 8;
    const above = isBare ? 60 - size - 12 / scale : 44 - size - 18 / scale;    // above the first entry, and its name
    ring.setAttribute("class", (isMany ? "many" : "") + (isBare ? " bare" : ""));
    ring.replaceChildren(tip(), svgMake("circle", { class: "circle", cx: 210, cy: 210, r: 150 }),
      ...hand(place(scene.cold), entries.length, "cold", ""), ...hand(place(scene.test), entries.length, "test", "testing"),
      ...(entries.length ? [svgMake("text", { class: "hand", x: 210, y: above }, "hot hand \u25be")] : []),
      ...entries.map((entry, k) => node(entry, k / entries.length, size, isMany, scale)));
  }

  function showOutputs(scene) {
    by("outputs").replaceChildren(...run.outputs.flatMap((output, k) => {
      const shown = text(output.slice(0, scene.written[k]));
      return [make("p", { class: "soft" }, "process " + k + ": " + scene.written[k] + " bytes"), ...(shown ? [make("pre", {}, shown)] : [])];
    }));
  }

  // The line of the source from which an instruction at an address comes, where the image is a source.
  function sourceLine(process, address) {
    const lines = (run.sources || [])[process];
    if (!lines) return "";
    const found = lines.filter(([from, words]) => from <= address && address < from + 4 * words)[0];
    return found ? "line " + found[2] + ": " + found[3] : "";
  }

  function instruction(process, hart) {
    const what = !translates ? "" : hart.word === null ? "its page is in no frame" : hart.text || "the word " + hex(hart.word, 8) + ", which is no instruction";
    const line = sourceLine(process, hart.pc);
    return make("span", {}, make("span", { class: "code" }, hex(hart.pc, 8) + (what ? "  " + what : "")), line ? make("span", { class: "soft" }, "  " + line) : "");
  }

  function register(number, value, was) {
    const changed = was !== undefined && was !== value;
    return make("li", { class: "code" + (changed ? " changed" : "") }, "x" + number + " " + names[number] + " " + hex(value, 8));
  }

  function showHarts(scene, before) {
    if (!hasHarts) return;
    const shown = [];
    scene.processes.forEach((process, p) => {
      if (process.end) return shown.push(make("h3", ofProcess(p), "process " + p), make("p", {}, process.end));
      process.harts.forEach((hart, h) => {
        const old = before && before.processes[p] && before.processes[p].harts[h];
        const changed = old ? hart.x.map((value, k) => [k + 1, value, old.x[k]]).filter(([, value, was]) => value !== was) : [];
        const open = by("registers-" + p + "-" + h);
        const all = make("details", { id: "registers-" + p + "-" + h }, make("summary", {}, "all registers"),
          make("ul", { class: "registers" }, ...hart.x.map((value, k) => register(k + 1, value, old && old.x[k]))));
        if (open && open.open) all.open = true;
        shown.push(make("h3", ofProcess(p), "process " + p + ", hart " + h + (hart.live === false ? ", done" : "")),
          make("p", {}, ...(hart.live === false ? ["has ended"] : ["next: ", instruction(p, hart)])),
          make("p", {}, changed.length ? "changed: " : "no register changed", ...changed.flatMap(([number, value, was], k) => [
            k ? ", " : "", make("span", { class: "code" }, "x" + number + " " + names[number] + " " + hex(was, 8) + " \u2192 " + hex(value, 8))])), all);
      });
    });
    by("harts").replaceChildren(...shown);
  }

  // What an event did, and of a step where in the program it was.
  function showAbout(scene, before) {
    const [process, number] = stepOf(scene) || [];
    const hart = hasHarts && before && hartOf(before, process, number);
    const absent = hart && pageOfReply(scene) !== null;
    const line = hart ? sourceLine(process, hart.pc) : "";
    by("about-event").replaceChildren(...(hart ? ["At ", make("span", { class: "code" }, hex(hart.pc, 8) + (absent && hart.text ? "  " + hart.text : "")),
      line ? make("span", { class: "soft" }, "  " + line) : ""] : []));
    by("what").textContent = sentence(scene, before);
    by("what").className = /^(absent|refused|no slot|device|damaged|schedule full)/.test(scene.reply || "") ? "fault" : "";
    const comments = run.comments || [];
    by("comment").textContent = comments.slice(0, at + 1).filter(Boolean).pop() || comments.find(Boolean) || "";
    by("comment-section").hidden = !comments.some(Boolean);
  }

  // The words of event-words.json, filled in from two scenes.

  function sentence(scene, before) {
    const said = clause(scene, before);
    return said ? said[0].toUpperCase() + said.slice(1) + "." : "";
  }

  function clause(scene, before) {
    if (!scene.event) return words[before ? "end" : "start"] || "";
    if (!hasHarts || !film.words) return "";
    const [key, facts] = happened(scene, before);
    return (words[key] || "").replace(/\{(\w+)\}/g, (_, name) => facts[name]);
  }

  // A list, as in: 0, 1 and 2.
  function listed(some) {
    return [some.slice(0, -1).join(", "), ...some.slice(-1)].filter(Boolean).join(" and ");
  }

  function stepOf(scene) {
    const found = /^step (\d+) (\d+)$/.exec(scene.event || "");
    return found && [Number(found[1]), Number(found[2])];
  }

  function pageOfReply(scene) {
    const found = /^absent (\d+)$/.exec(scene.reply || "");
    return found && Number(found[1]);
  }

  function hartOf(scene, process, number) {
    const of = scene.processes && scene.processes[process];
    return of && of.harts[number];
  }

  function rowOf(scene, key) {
    return scene.pages.find(row => row[0] === key) || [];
  }

  // The page that an event or its reply names, by its key.
  function pageOfEvent(scene) {
    const [name, process, second] = (scene.event || "").split(" ");
    const named = /\d+\/\d+/.exec(scene.reply || "");
    if (named) return named[0];
    if (pageOfReply(scene) !== null) return process + "/" + pageOfReply(scene);
    return ["collect", "saved", "pagein", "clean", "copy", "cleaned"].includes(name) ? process + "/" + second : null;
  }

  // Which words say what happened, and what is filled in.
  function happened(scene, before) {
    const [name, process, second] = scene.event.split(" ");
    const key = pageOfEvent(scene);
    const facts = { process, hart: second, page: key && pageName(key) };
    const kind = scene.reply.replace(/ \d+(\/\d+)?/, "");
    const how = scene.reply.startsWith("refused ") ? refused : { step: stepped, notice: noticed, sweep: swept, kill: killed }[name] || paged;
    return [how(kind, facts, scene, before, key, name), facts];
  }

  function refused(_, facts, scene, __, key) {
    const row = rowOf(scene, key);
    facts.where = words["where " + row[1]] || "";
    const isCopied = ["refused 15", "refused 16"].includes(scene.reply) && row[6] === "a copy is out";
    const isHeld = ["refused 4", "refused 7", "refused 8", "refused 13"].includes(scene.reply) && ["resident", "leaving", "saving"].includes(row[1]);
    return scene.reply + (isCopied ? " copy" : isHeld ? " held" : "");
  }

  function stepped(kind, facts, scene, before, key) {
    const hart = hartOf(before, facts.process, facts.hart);
    facts.instruction = hart.text || "the word " + hex(hart.word, 8);
    facts.end = scene.processes[facts.process].end || "";
    if (kind === "absent") {
      const access = accessOf(scene, before);
      Object.assign(facts, { where: words["where " + rowOf(scene, key)[1]] || "", access: access.access, address: hex(access.address, 8) });
    }
    return "step " + kind + (kind === "ended" && facts.end.startsWith("trap") ? " trap" : "");
  }

  function noticed(_, facts, __, before) {
    const dropped = hartOf(before, facts.process, facts.hart).cached.filter(entry => entry[4]).map(([page]) => pageName(facts.process + "/" + page));
    facts.pages = listed(dropped);
    return "notice noticed" + ["", " page", " pages"][Math.min(2, dropped.length)];
  }

  function swept(kind, facts, scene, before, key) {
    const row = rowOf(scene, key);
    if (kind === "victim") {
      facts.frame = row[2];
      return "sweep victim" + (row[5] ? " changed" : "");
    }
    const [old, now] = [before, scene].map(one => (one.entries.find(entry => entry[0] === key) || [])[1]);
    facts.kind = old === now ? "" : words["sweep kind"].replace("{old}", old).replace("{new}", now);
    return "sweep " + kind;
  }

  function killed(_, facts) {
    facts.cause = words["cause " + facts.hart];
    return "kill killed";
  }

  // What is said of a page that comes, goes or is cleaned.
  function paged(kind, facts, scene, before, key, name) {
    facts.frame = rowOf(kind === "mapped" || kind === "dirty" ? scene : before, key)[2];
    if (kind === "mapped") return "pagein mapped" + (rowOf(before, key)[1] === "away" ? " slot" : "");
    if (kind !== "not yet") return name + " " + kind;
    const vpn = Number(key.split("/")[1]);
    // all translations of a page that leaves are waited for, and of one that is copied those by which a store sets no bit
    const holders = before.processes[facts.process].harts.flatMap((hart, number) =>
      hart.cached.some(entry => entry[0] === vpn && (entry[3] || name === "collect")) ? [String(number)] : []);
    if (name === "collect" && !holders.length) return "collect not yet copy";
    Object.assign(facts, { hart: holders[0], harts: listed(holders) });
    return name + " not yet" + (holders.length > 1 ? " harts" : "");
  }

  // The access of a step: of an instruction that ran its load or store if it has one, else its fetch; of a page fault the one that needs the page.
  function accessOf(scene, before) {
    const [process, number] = stepOf(scene) || [];
    const hart = before && hartOf(before, process, number);
    const absent = pageOfReply(scene);
    if (!hart || absent === null && !ran.has(scene.reply)) return null;
    const data = dataAccess(hart);
    const isData = data && (absent === null || data[0] >>> 12 === absent && hart.pc >>> 12 !== absent);
    return { process, hart: number, address: isData ? data[0] : hart.pc, access: isData ? data[1] : "fetch" };
  }

  // The last event up to one that made an access, and 0 where none did.
  function lastAccess(number) {
    for (let piece = Math.floor(number / pieceLength); piece >= 0; piece--) {
      const stop = stopFrom(piece * pieceLength, 1);
      if (!run.steps.some(counts => counts[piece]) && (stop < 0 || stop >= (piece + 1) * pieceLength)) continue;
      const { scenes } = pieceOf(piece);
      for (let k = Math.min(pieceLength - 1, number - piece * pieceLength); k >= 0; k--) {
        if (stepOf(scenes[k]) && (ran.has(scenes[k].reply) || pageOfReply(scenes[k]) !== null)) return piece * pieceLength + k;
      }
    }
    return 0;
  }

  // What is translated of an event, however the reader came to it: its own access by the machine before it; else an address of the page that it
  // names, which is that of the last access if that was to this page; else the last access; else the first instruction.
  function followed(number) {
    const own = number ? accessOf(sceneAt(number), sceneAt(number - 1)) : null;
    if (own) return { ...own, scene: number - 1, why: "The access of this event, by the machine before it." };
    const last = lastAccess(number);
    const access = last ? accessOf(sceneAt(last), sceneAt(last - 1)) : { process: 0, hart: 0, address: first.processes[0].harts[0].pc, access: "fetch" };
    const scene = sceneAt(number);
    const key = pageOfEvent(scene);
    const isThere = key && scene.processes[key.split("/")[0]];
    if (isThere && key !== access.process + "/" + (access.address >>> 12)) return { ...accessTo(scene, key, access), scene: number, why: "The page of this event, by the machine after it." };
    return { ...access, scene: number, why: last ? "The access of event " + last + ", by the machine after this event." : "The first instruction." };
  }

  // An access to the first word of a page, by a hart that has its translation if one has.
  function accessTo(scene, key, last) {
    const [process, vpn] = key.split("/").map(Number);
    const { harts, tables } = scene.processes[process];
    const holder = harts.findIndex(hart => hart.cached.some(([page]) => page === vpn));
    const hart = holder >= 0 ? holder : last.process === process && last.hart < harts.length ? last.hart : 0;
    const rights = holder >= 0 ? harts[holder].cached.find(([page]) => page === vpn)[2] : bits(leafOf(tables, vpn));
    const isText = rights.includes("X") || !/[RW]/.test(rights) && harts[hart] && harts[hart].pc >>> 12 === vpn;
    return { process, hart, address: vpn * 4096 >>> 0, access: isText ? "fetch" : "load" };
  }

  // Translation: the manual's steps over the words of the tables.

  function wordAt(tables, table, index) {
    const found = (tables[table] || []).find(([place]) => place === index);
    return found ? found[1] : 0;
  }

  const bitNames = [[128, "D"], [64, "A"], [32, "G"], [16, "U"], [8, "X"], [4, "W"], [2, "R"], [1, "V"]];

  function bits(word) {
    return bitNames.map(([bit, letter]) => word & bit ? letter : "-").join("");
  }

  function ppn(word) {
    return word >>> 10;
  }

  // An address through page tables: the words that were read, with what follows from each, and what it comes to: a physical address, or a fault.
  function walk(tables, address, access) {
    const parts = [address >>> 22, (address >>> 12) & 1023, address & 4095];
    const steps = [];
    let table = 0;
    for (let level = 1; level >= 0; level--) {
      const index = parts[1 - level];
      const word = wordAt(tables, table, index);
      const step = { level, table, index, word, tests: [] };
      steps.push(step);
      const fault = wrongWord(word, level, access, step.tests);
      if (fault) return { steps, fault };
      if (!(word & 10)) {
        table = ppn(word) - firstTable;
        if (!(table in tables)) {
          step.tests.push("there is no table in that page");
          return { steps, fault: "access fault" };
        }
        continue;
      }
      const sets = [word & 64 ? "" : "A", access === "store" && !(word & 128) ? "D" : ""].filter(Boolean).join(" and ");
      step.tests.push(sets ? "the hardware sets " + sets : "A" + (access === "store" ? " and D are" : " is") + " set already");
      const frame = level === 1 ? (ppn(word) & ~1023) + parts[1] : ppn(word);
      return { steps, frame, physical: frame * 4096 + parts[2] };
    }
    return { steps, fault: "page fault" };
  }

  // The tests of a word in the manual's order, up to the one that fails; the fault, if one does.
  function wrongWord(word, level, access, tests) {
    const needed = { fetch: "X", load: "R", store: "W" }[access];
    const isLeaf = Boolean(word & 10);
    const all = [
      [!(word & 1), "V is set", "V is clear: nothing is mapped here"],
      [(word & 6) === 4, "", "W is set without R, which is reserved"],
      [!isLeaf && Boolean(word & 0xd0), "", "R and X are clear, a pointer, but U, A or D is set, which is reserved"],
      [!isLeaf && level === 0, isLeaf ? "R or X is set: a leaf" : "R, W and X are clear: a pointer to the next table", "R and X are clear: a pointer where a leaf has to be"],
      ...(isLeaf ? [
        [!(word & 16), "U is set: a process may use it", "U is clear: no process may use it"],
        [!(word & { X: 8, R: 2, W: 4 }[needed]), "a " + access + " needs " + needed + ": set", "a " + access + " needs " + needed + ": clear"],
        [level === 1 && Boolean(ppn(word) & 1023), "", "a leaf of level 1 whose PPN[0] is not 0"],
      ] : []),
    ];
    const failed = all.findIndex(([fails]) => fails);
    tests.push(...all.slice(0, failed < 0 ? all.length : failed).map(([, passes]) => passes).filter(Boolean), ...(failed < 0 ? [] : [all[failed][2]]));
    return failed < 0 ? null : "page fault";
  }

  // What a hart's cache says of an access: served, or why there is a walk.
  function look(hart, address, access) {
    const entry = hart.cached.find(([page]) => page === address >>> 12);
    if (!entry) return { entry, hit: false, why: "has no translation of this page" };
    const letter = { fetch: "X", load: "R", store: "W" }[access];
    if (!entry[2].includes(letter)) return { entry, hit: false, why: "has a translation of this page without " + letter };
    if (access === "store" && !entry[3]) return { entry, hit: false, why: "has a translation of this page that is not marked dirty, so that a store walks" };
    return { entry, hit: true, why: "" };
  }

  function typedAddress() {
    const typed = by("address").value.trim();
    const number = /^0[xX][0-9a-fA-F]{1,8}$/.test(typed) ? parseInt(typed, 16) : /^\d{1,10}$/.test(typed) ? Number(typed) : NaN;
    return number <= 0xffffffff ? number : NaN;
  }

  function chosenProcess() {
    return Number(by("process").value) || 0;
  }

  // What is translated now: what goes along with the event, or what was typed, by the machine after the event.
  function translatedNow() {
    if (by("follow").checked) return followed(at);
    return { process: chosenProcess(), hart: Number(by("hart").value) || 0, address: typedAddress(), access: by("access").value, scene: at,
      why: "What was typed, by the machine after this event." };
  }

  // Goes along with the access of an event.
  function follow() {
    if (!by("follow").checked) return;
    const access = followed(at);
    by("process").value = access.process;
    fill(by("hart"), Math.max(1, sceneAt(access.scene).processes[access.process].harts.length));
    by("hart").value = access.hart;
    by("address").value = hex(access.address, 8);
    by("access").value = access.access;
  }

  const binary = (number, digits) => number.toString(2).padStart(digits, "0");
  const wide = number => "0x" + number.toString(16).toUpperCase();

  // A number bit by bit: its parts, each with its name, its digits and, where it is said, its value.
  function bitTable(...parts) {
    return make("div", { class: "scroll" }, make("table", { class: "bits" },
      make("thead", {}, make("tr", {}, ...parts.map(([name]) => make("th", { scope: "col" }, name)))),
      make("tbody", { class: "code" }, make("tr", {}, ...parts.map(([, digits]) => make("td", {}, digits))),
        make("tr", {}, ...parts.map(([, , value]) => make("td", {}, value || "\u00a0"))))));
  }

  function bitsOfAddress(address) {
    const parts = [[address >>> 22, 10], [(address >>> 12) & 1023, 10], [address & 4095, 12]];
    return parts.map(([number, digits]) => binary(number, digits) + " = " + number + " = " + hex(number));
  }

  // A word that a walk reads: where it is, its bits, and its tests.
  function showWord({ level, table, index, word, tests }, isHit) {
    const from = (firstTable + table) * 4096;
    const leads = !(word & 1) || word & 10 ? "" : ": table " + (ppn(word) - firstTable);
    return make("li", {}, make("span", {}, (isHit ? "A walk would read" : "Level " + level + " reads") + " word VPN[" + level + "] = " + index + " of table " + table
      + ", at " + wide(from) + " + 4 \u00d7 " + index + " = ", make("span", { class: "code" }, wide(from + 4 * index)), ": it is ",
      make("span", { class: "code" }, hex(word, 8)), "."),
    bitTable(["PPN[1]", binary(word >>> 20, 12), hex(word >>> 20)], ["PPN[0]", binary((word >>> 10) & 1023, 10), hex((word >>> 10) & 1023)],
      ["RSW", binary((word >>> 8) & 3, 2)], ["DAGUXWRV", binary(word & 255, 8), bits(word)]),
    make("span", {}, (word & 1 ? "PPN = " + hex(word >>> 20) + " \u00d7 2^10 + " + hex((word >>> 10) & 1023) + " = " + hex(ppn(word)) + leads + ". " : "")
      + tests.map((test, k) => k ? test : test[0].toUpperCase() + test.slice(1)).join("; ") + "."));
  }

  // How a frame and an offset make the physical address.
  function showPhysical(frame, offset) {
    return [bitTable(["PPN[1]", binary(frame >>> 10, 12), hex(frame >>> 10)], ["PPN[0]", binary(frame & 1023, 10), hex(frame & 1023)],
      ["offset", binary(offset, 12), hex(offset, 3)]),
    make("p", { class: "soft" }, "The frame's number takes the place of VPN[1] and VPN[0], and the offset stays: " + frame + " \u00d7 4096 + " + offset + " = "
      + (frame * 4096 + offset) + " = " + hex(frame * 4096 + offset, 8) + ".")];
  }

  function showTranslated(isAsked) {
    const wanted = translatedNow();
    const scene = sceneAt(wanted.scene);
    const process = scene.processes[wanted.process];
    const hart = process && process.harts[wanted.hart];
    by("when").textContent = wanted.why;
    by("physical").replaceChildren();
    if (!hart || Number.isNaN(wanted.address)) {
      for (const id of ["vpn1", "vpn0", "offset"]) by(id).textContent = none;
      by("steps").replaceChildren();
      by("answer").textContent = hart ? "An address is a number below 2^32, as 65536 or 0x00010000." : "There is no process.";
      return null;
    }
    const { address, access } = wanted;
    bitsOfAddress(address).forEach((told, k) => { by(["vpn1", "vpn0", "offset"][k]).textContent = told; });
    const cached = look(hart, address, access);
    const walked = walk(process.tables, address, access);
    const told = cached.hit ? "Its TLB has the page's translation, to frame " + cached.entry[1] + (cached.entry[4] ? ", doomed" : "") + ": a hit, and no walk."
      : "Its TLB " + cached.why + ": a miss, and a walk.";
    by("steps").replaceChildren(make("li", {}, told), ...walked.steps.map(step => showWord(step, cached.hit)));
    const frame = cached.hit ? cached.entry[1] : walked.frame;
    by("answer").textContent = cached.hit ? "Physical address " + hex(frame * 4096 + (address & 4095), 8) + ", by the cached translation"
        + (walked.fault ? "; the tables no longer lead there" : "") + "."
      : walked.fault ? answerOfFault(wanted, walked.fault) : "Physical address " + hex(frame * 4096 + (address & 4095), 8) + ", in frame " + frame + ".";
    if (frame !== undefined) by("physical").replaceChildren(...showPhysical(frame, address & 4095));
    if (isAsked) asked[cached.hit ? "hits" : "misses"]++;
    by("asked-counts").textContent = asked.hits + asked.misses ? "Asked here so far: hits " + asked.hits + ", misses " + asked.misses + "." : "";
    return { cached, walked };
  }

  // A page fault: of a page that is in no frame, of one that the process does not have, or of a right that it lacks.
  function answerOfFault({ process, address, scene }, fault) {
    const key = process + "/" + (address >>> 12);
    const state = rowOf(sceneAt(scene), key)[1] || rowOf(sceneAt(at), key)[1];    // a first fault names its page
    return (fault === "page fault" ? "Page fault. " : "Access fault. ") + whereItIs(state);
  }

  function whereItIs(state) {
    if (!state) return "No event so far has named this page: it was not brought in yet, or the process has none here and the access would trap.";
    if (state === "purged") return "The process has ended; its pages were given back.";
    if (state === "leaving" || state === "saving") return "The page is " + state + ": it has to go first, and then to come in again.";
    return "The page is " + state + (state === "resident" ? ", and this access is not allowed: a trap." : ": it has to come in first.");
  }

  function showTree() {
    const number = chosenProcess();
    const process = sceneAt(at).processes[number];
    by("tree-process").textContent = number;
    if (!process) return by("tree").replaceChildren();
    const address = typedAddress();
    const states = new Map(sceneAt(at).pages.map(([key, state]) => [key, state]));
    const line = (word, index, rest, isHere) => make("li", isHere ? { class: "here" } : {}, "[" + index + "] " + hex(word, 8) + " " + bits(word) + " " + rest);
    const items = process.tables.length ? process.tables[0].map(([index, word]) => {
      const table = ppn(word) - firstTable;
      const below = process.tables[table] || [];
      const item = line(word, index, "\u2192 table " + table + ", " + below.length + (below.length === 1 ? " page" : " pages"), index === address >>> 22);
      item.append(make("ul", {}, ...below.map(([place, leaf]) => {
        const vpn = index * 1024 + place;
        return line(leaf, place, "page " + hex(vpn) + " \u2192 frame " + ppn(leaf) + " " + (states.get(number + "/" + vpn) || ""), vpn === address >>> 12);
      })));
      return item;
    }) : [];
    by("tree").replaceChildren(make("li", {}, "root, table 0, in physical page " + hex(firstTable) + (items.length ? "" : ": no word but 0"), make("ul", {}, ...items)));
  }

  function showCaches(scene) {
    const shown = [];
    const counted = countedNow();
    scene.processes.forEach((process, p) => process.harts.forEach((hart, h) => {
      const rows = hart.cached.map(([page, frame, rights, dirty, doomed]) => make("tr", doomed ? { class: "doomed" } : {},
        make("th", { scope: "row", class: "code" }, hex(page), " ", make("span", { class: "soft small" }, String(page))), make("td", {}, String(frame)),
        make("td", { class: "code" }, rights), make("td", {}, dirty ? "dirty" : none), make("td", { class: "why" }, doomed ? "doomed" : none)));
      const head = ["page", "frame", "rights", "marked", "dropped at a notice"].map(name => make("th", { scope: "col" }, name));
      const table = make("table", { id: "cache-" + p + "-" + h }, make("thead", {}, make("tr", {}, ...head)), make("tbody", {}, ...rows));
      const name = "process " + p + ", hart " + h + ": " + hart.cached.length + " of 16 translations";
      shown.push(make("div", ofProcess(p), make("p", {}, name), hart.cached.length ? table : "", make("p", { class: "soft" }, uses(p, h, counted))));
    }));
    by("caches").replaceChildren(...shown);
    showTlbCounts(counted);
  }

  // Which pages the instruction of each event of a piece used, and whether its translation was cached: of events that ran no instruction nothing.
  // An instruction is an access to its own page, and one to that which it loads from or stores to.
  function usesOfPiece(number) {
    const piece = pieceOf(number);
    if (piece.uses) return piece.uses;
    piece.uses = piece.scenes.map((scene, k) => {
      const place = number * pieceLength + k;
      const step = /^step (\d+) (\d+)$/.exec(scene.event || "");
      if (!step || !ran.has(scene.reply) || !place) return null;
      const hart = (k ? piece.scenes[k - 1] : sceneAt(place - 1)).processes[step[1]].harts[step[2]];
      const trapped = /^trap/.test(scene.processes[step[1]].end || "");
      const data = trapped ? null : dataAccess(hart);
      return { process: Number(step[1]), hart: step[1] + "/" + step[2], hits: usesOf(hart, trapped), pages: [hart.pc >>> 12, ...(data ? [data[0] >>> 12] : [])] };
    });
    return piece.uses;
  }

  // How many accesses there were and how many of them walked, for each hart: up to the start of each piece, as far as that was counted.
  const countedTo = [new Map()];
  let counting = null;

  function addUses(sums, uses) {
    for (const use of uses) if (use) {
      const [accesses, walks] = sums.get(use.hart) || [0, 0];
      sums.set(use.hart, [accesses + use.hits.length, walks + use.hits.filter(hit => !hit).length]);
    }
    return sums;
  }

  function countPiece() {
    const number = countedTo.length - 1;
    countedTo.push(addUses(new Map(countedTo[number]), usesOfPiece(number)));
  }

  // The counts up to the event that is shown; a few pieces are counted at once, and many one after another while the page is looked at.
  function countedNow() {
    const piece = Math.floor(at / pieceLength);
    for (let k = 0; k < 3 && countedTo.length <= piece; k++) countPiece();
    if (countedTo.length <= piece) {
      clearTimeout(counting);
      counting = setTimeout(() => showCaches(sceneAt(at)), 0);
      return null;
    }
    return addUses(new Map(countedTo[piece]), usesOfPiece(piece).slice(0, at % pieceLength + 1));
  }

  // The pages that a process used in its last instructions. They may be long ago: pieces in which it ran none are passed over.
  function workingSet(window, process) {
    const pages = new Set();
    let steps = 0;
    for (let piece = Math.floor(at / pieceLength); piece >= 0 && steps < window; piece--) {
      if (!run.steps[process][piece]) continue;
      const uses = usesOfPiece(piece);
      for (let k = Math.min(pieceLength - 1, at - piece * pieceLength); k >= 0 && steps < window; k--) {
        if (!uses[k] || uses[k].process !== process) continue;
        steps++;
        for (const page of uses[k].pages) pages.add(page);
      }
    }
    return pages;
  }

  function showSets(scene) {
    if (!translates) return;
    const window = Math.min(5000, Math.max(1, Math.floor(Number(by("window").value)) || 100));
    const pagesText = pages => pages.length + (pages.length ? ": " + pages.slice(0, 24).map(page => hex(page)).join(" ") + (pages.length > 24 ? " .." : "") : "");
    const rising = pages => [...pages].sort((a, b) => a - b);
    by("sets").replaceChildren(...scene.processes.map((_, number) => {
      const pages = workingSet(window, number);
      const resident = rising(scene.pages.filter(([key, state]) => state === "resident" && Number(key.split("/")[0]) === number).map(([key]) => Number(key.split("/")[1])));
      const away = rising(pages).filter(page => !resident.includes(page));
      const of = ofProcess(number);
      return make("tr", {}, make("th", { ...of, scope: "row" }, String(number)), ...[rising(pages), resident, away].map(some => make("td", { class: "code wraps" }, pagesText(some))));
    }));
  }

  // Whether each access of the instruction that a hart stands at is served by what it has cached.
  function usesOf(hart, trapped) {
    const fetched = look(hart, hart.pc, "fetch").hit;
    const data = trapped ? null : dataAccess(hart);
    if (!data) return [fetched];
    if (data[0] >>> 12 === hart.pc >>> 12 && data[1] !== "store") return [fetched, true];    // the page that was just fetched from
    const cached = !fetched && hart.cached.length === 16 ? hart.cached.slice(1) : hart.cached;    // the oldest of 16 makes room
    return [fetched, look({ cached }, data[0], data[1]).hit];
  }

  function dataAccess(hart) {
    const found = /^(l[bhw]u?|s[bhw]|amo\w+\.w|lr\.w|sc\.w)\S* (?:.*,)?(-?\d*)\(x(\d+)\)$/.exec(hart.text || "");
    if (!found) return null;
    const base = found[3] === "0" ? 0 : hart.x[Number(found[3]) - 1];
    return [(base + Number(found[2] || 0)) >>> 0, /^(l[bhw]u?|lr\.w)$/.test(found[1]) ? "load" : "store"];
  }

  // The hits and misses of all TLBs, next to the page-ins.
  function showTlbCounts(counted) {
    const sums = counted ? [...counted.values()] : [];
    const [accesses, walks] = [0, 1].map(k => sums.reduce((sum, one) => sum + one[k], 0));
    by("tlb-counts").textContent = counted ? "TLB hits " + (accesses - walks) + " TLB misses " + walks + " page-ins " + sceneAt(at).page_ins : "accesses are being counted";
  }

  function uses(process, hart, counted) {
    if (!counted) return "accesses are being counted";
    const [accesses, walks] = counted.get(process + "/" + hart) || [0, 0];
    const share = accesses ? " (" + Math.round(100 * (accesses - walks) / accesses) + " %)" : "";
    return "accesses of the instructions that ran: " + accesses + ", hits " + (accesses - walks) + share + ", misses " + walks;
  }

  function fill(select, count) {
    if (select.options.length === count) return;
    const chosen = select.value;
    select.replaceChildren(...Array.from({ length: count }, (_, k) => make("option", { value: String(k) }, String(k))));
    if (Number(chosen) < count) select.value = chosen || "0";
  }

  function showTranslation(scene) {
    if (!translates) return;
    fill(by("process"), scene.processes.length);
    follow();
    fill(by("hart"), Math.max(1, (scene.processes[chosenProcess()] || { harts: [] }).harts.length));
    showTranslated(false);
    showCaches(scene);
    showTree();
  }

  function show(number) {
    at = Math.max(0, Math.min(most, number));
    const scene = sceneAt(at);
    const before = at ? sceneAt(at - 1) : undefined;
    const event = scene.event || (at ? "end" : "start");
    const reply = scene.reply || (at ? "the run is over" : "new machine");
    by("slider").value = at;
    by("slider").setAttribute("aria-valuetext", event + ": " + reply);
    by("place").textContent = at + " of " + most;
    by("event").textContent = event;
    by("reply").textContent = reply;
    for (const id of ["first", "back"]) enable(id, at !== 0);
    for (const id of ["last", "forward"]) enable(id, at !== most);
    enable("fault-back", stopFrom(at - 1, -1) >= 0);
    enable("fault-forward", stopFrom(at + 1, 1) >= 0);
    showAbout(scene, before);
    showFrames(scene);
    showPages(scene, before);
    showHarts(scene, before);
    showList(scene);
    showOutputs(scene);
    showTranslation(scene);
    showSets(scene);
    by("counts").textContent = "frames " + run.frames + " page-ins " + scene.page_ins + " victims " + scene.victims
      + " saves " + scene.saves + " drops " + scene.drops + " questions " + scene.questions;
  }

  // The next event from one on in a direction that a reader stops at: a page fault or a failure; -1 where there is none.
  function stopFrom(from, direction) {
    let low = 0;
    for (let high = stops.length; low < high;) {
      const middle = (low + high) >> 1;
      if (stops[middle] < from) low = middle + 1;
      else high = middle;
    }
    const found = direction > 0 || stops[low] === from ? stops[low] : stops[low - 1];
    return found === undefined ? -1 : found;
  }

  function go(number) {
    show(number);
    moved(at);
  }

  function goToStop(direction) {
    const found = stopFrom(at + direction, direction);
    if (found >= 0) go(found);
  }

  // Plays on, so many events a second, until the last one or until it is paused.
  let playing = null;

  function play(starts) {
    clearInterval(playing);
    playing = starts && at < most ? setInterval(() => { go(at + 1); if (at === most) play(false); }, 1000 / Number(by("speed").value)) : null;
    by("play").textContent = playing ? "Pause" : "Play";
  }

  // A button that has nothing to do stays where keys are heard.
  function enable(id, isUseful) {
    by(id).setAttribute("aria-disabled", String(!isUseful));
  }

  by("slider").max = most;
  by("about").textContent = run.names.map(text).map((name, k) => "process " + k + " runs " + name).join("; ") + ". " + run.frames + " frames, "
    + most + " pictures, one after each event.";
  by("first").onclick = () => go(0);
  by("back").onclick = () => go(at - 1);
  by("forward").onclick = () => go(at + 1);
  by("last").onclick = () => go(most);
  by("fault-back").onclick = () => goToStop(-1);
  by("fault-forward").onclick = () => goToStop(1);
  by("play").onclick = () => play(!playing);
  by("speed").oninput = () => play(Boolean(playing));
  by("window").oninput = () => showSets(sceneAt(at));
  by("follow").oninput = () => showTranslation(sceneAt(at));
  by("slider").oninput = event => go(Number(event.target.value));
  by("ask").onsubmit = event => { event.preventDefault(); showTranslated(true); showTree(); };
  for (const id of ["address", "access", "hart"]) by(id).oninput = () => { by("follow").checked = false; showTranslated(false); showTree(); };
  by("process").oninput = () => { by("follow").checked = false; showTranslation(sceneAt(at)); };
  by("scheme-label").hidden = !choosesColours;
  by("scheme").oninput = () => { root.querySelector(".film").dataset.scheme = by("scheme").value; };
  by("colours-again").hidden = run.names.length <= 8;
  by("process-label").hidden = !translates || first.processes.length < 2;
  for (const part of root.querySelectorAll(".translates")) part.hidden = !translates;
  for (const part of root.querySelectorAll(".harts")) part.hidden = !hasHarts;
  owner.defaultView.addEventListener("resize", () => {
    ringWidth = 0;
    showList(sceneAt(at));
  });
  owner.defaultView.addEventListener("beforeprint", () => { for (const part of root.querySelectorAll("details")) part.open = true; });

  const moves = {
    ArrowLeft: () => go(at - 1), ArrowRight: () => go(at + 1), PageUp: () => go(at - 1), PageDown: () => go(at + 1), Home: () => go(0), End: () => go(most),
    n: () => goToStop(1), N: () => goToStop(1), p: () => goToStop(-1), P: () => goToStop(-1), k: () => play(!playing), K: () => play(!playing),
    ...(translates ? { f: () => by("follow").click(), F: () => by("follow").click() } : {}), ...(translates ? { "/": () => by("address").select() } : {}),
  };

  // A key means itself where it is typed or where it works a control; none is heard while the film is not shown.
  const own = { range: /^(Arrow|Page|Home$|End$)/, checkbox: /^ $/, "select-one": /^(Arrow|Page|Home$|End$|[0-9a-z ]$)/i };

  function isTaken(event) {
    const target = event.composedPath()[0];
    if (!by("event").getClientRects().length) return true;
    if (!target.closest) return false;
    const field = target.closest("input, select, textarea");
    if (field && field.type in own) return field !== pointed && own[field.type].test(event.key);
    if (field) return event.key !== "Escape";
    return event.key === " " && target.closest("button, summary") !== null;
  }

  // What was set by the mouse or a finger leaves the keys to the film; what is reached by keys has them.
  let isPointing = false;
  let pointed = null;
  root.addEventListener("pointerdown", () => { isPointing = true; });
  keys.addEventListener("keydown", () => { isPointing = false; }, true);
  root.addEventListener("focusin", event => { pointed = isPointing ? event.target : null; });
  root.addEventListener("click", event => {
    const button = isPointing && event.target.closest("button, summary");
    if (button) button.blur();
  });

  keys.addEventListener("keydown", event => {
    if (event.altKey || event.ctrlKey || event.metaKey || isTaken(event)) return;
    if (event.key === "Escape") return event.composedPath()[0].blur && event.composedPath()[0].blur();
    const move = event.key === " " ? () => go(event.shiftKey ? at - 1 : at + 1) : moves[event.key];
    if (!move) return;
    event.preventDefault();
    move();
  });
  show(start);
  return { show, go, sceneAt, walk, most, stops, get at() { return at; }, sentence: number => sentence(sceneAt(number), number ? sceneAt(number - 1) : null) };
}

// The film of the lines that the program `show_run` printed: a head, a line for each scene, and the outputs.
function filmOf(told, { words = {}, sources = [], comments = [] } = {}) {
  const lines = told.trimEnd().split("\n");
  const [head, scenes, outputs] = [JSON.parse(lines[0]), lines.slice(1, -1), JSON.parse(lines[lines.length - 1])];
  const length = 500;    // one scene in so many is whole, as the program writes them
  const happened = scenes.map(line => /^\{"event":(?:null|"([^"]*)"),"reply":(?:null|"([^"]*)")/.exec(line));
  const stops = [...happened.keys()].filter(k => happened[k][1] && /^(absent|no slot|device|damaged|schedule full|refused)/.test(happened[k][2]));
  const steps = head.names.map(() => Array(Math.ceil(scenes.length / length)).fill(0));
  happened.forEach(([, event, reply], k) => {
    const step = ["ran", "yield", "hart done", "ended"].includes(reply) && /^step (\d+) /.exec(event || "");
    if (step) steps[step[1]][Math.floor(k / length)]++;
  });
  return {
    run: { ...head, ...outputs, count: scenes.length, stops, steps, sources, comments },
    words,
    piece: number => JSON.parse("[" + scenes.slice(number * length, (number + 1) * length).join(",") + "]"),
  };
}
