"use strict";
// Draws what the program told. Each state is the one before with what the line changed; no rule of the steps is here.
const { sizes, lines } = JSON.parse(document.getElementById("data").textContent);
const states = [];
for (const line of lines) states.push({ ...states.at(-1), ...line.changes });

const at = (id) => document.getElementById(id);
const OFFSETS = ["tail", "read_only", "safe_read_only", "flushed", "head", "closed"];
const REGIONS = [
  ["read_only", "tail", "open", "from the read-only offset to the tail: slots read and write"],
  ["safe_read_only", "read_only", "fuzzy", "the fuzzy region, from the safe read-only to the read-only offset: only " +
    "a slot that saw an older read-only offset may still write"],
  ["flushed", "safe_read_only", "sealed", "from the flushed to the safe read-only offset: slots read, nobody writes; " +
    "whole pages may be flushed"],
  ["head", "flushed", "flushed", "from the head to the flushed offset: on the device, and still read in memory"],
  ["closed", "head", "leaving", "from the closed offset to the head: only a slot that saw an older head may " +
    "still read"],
  [null, "closed", "closed", "below the closed offset: nobody reads; frames are cleaned and used again"],
];

// An element of this kind and class, with text or elements in it.
function make(kind, name, ...inside) {
  const it = document.createElement(kind);
  if (name) it.className = name;
  it.append(...inside.map((part) => (part instanceof Node ? part : String(part))));
  return it;
}

const plain = (label) => label.replace("_only", "-only").replace("_", " ");
const count = (number, what) => `${number} ${what}${number === 1 ? "" : "s"}`;
const KINDS = { user: "job of tag", settle: "settle to", close: "close to" };
const spelled = ([ticket, kind, number]) => `${ticket}: ${KINDS[kind]} ${number}`;

function slotsOf(state) {
  return Array.from({ length: sizes ? sizes.slots : 0 }, (_, slot) => [slot, state[`slot ${slot}`]]);
}

function framesOf(state) {
  return Array.from({ length: sizes ? sizes.frames : 0 }, (_, frame) => state[`frame ${frame}`]);
}

// The pages that the address line shows: all of a short run, else those around what is in memory.
const allPages = Math.max(2, ...states.map((state) => Math.ceil((state.tail ?? 0) / (sizes?.page ?? 1))));
function pagesShown(state) {
  if (allPages <= 48) return [0, allPages];
  const first = Math.max(0, Math.floor(state.closed / sizes.page) - 1);
  return [first, Math.max(first + 8, Math.ceil(state.tail / sizes.page) + 1)];
}

// A part of a track, from an address up to another.
function part(state, name, from, to) {
  const [first, last] = pagesShown(state);
  const share = (address) => Math.min(1, Math.max(0, (address / sizes.page - first) / (last - first))) * 100;
  const it = make("span", name);
  it.style.left = `${share(from)}%`;
  if (to !== undefined) it.style.width = `${share(to) - share(from)}%`;
  return it;
}

function lane(name, kind, number, ...parts) {
  const label = make("div", "name", make("span", "", name));
  if (number !== "") label.append(make("span", "number", number));
  const it = make("div", `lane ${kind}`, label, make("div", "track", ...parts));
  return it;
}

function drawOffsets(state) {
  const [first, last] = pagesShown(state);
  const step = Math.ceil((last - first) / 24);
  const held = new Map(framesOf(state).map(([kind, page]) => [page, kind]));
  const pages = [], begins = [];
  for (let page = first; page < last; page++) {
    const address = page * sizes.page;
    const kind = held.get(page) ?? (address < state.tail ? "gone" : "free");
    const out = state["in flight"].includes(page) || state.cleaning.includes(page) ? " out" : "";
    const it = part(state, kind + out, address, address + sizes.page);
    it.title = `page ${page}: ${kind === "free" ? "not entered" : kind}`;
    pages.push(it);
    if ((page - first) % step === 0) {
      it.append(page);
      begins.push(part(state, "number", address));
      begins.at(-1).append(address);
    }
  }
  const regions = REGIONS.map(([from, to, kind]) => part(state, kind, from ? state[from] : 0, state[to]));
  at("offsets").replaceChildren(
    lane("pages", last - first > 64 ? "strip narrow" : "strip", "", ...pages),
    lane("first address", "scale", "", ...begins),
    lane("regions", "regions", "", ...regions),
    ...OFFSETS.map((label) => {
      const address = state[label];
      const it = lane(plain(label), "", address, part(state, "fill", 0, address), part(state, "end", address));
      it.dataset.offset = label;
      return it;
    }),
  );
}

function drawViews(state, line) {
  const held = slotsOf(state).filter(([, view]) => view);
  // Those that stand in the way come first, so that they are seen among many.
  held.sort(([one], [other]) => line.way.includes(other) - line.way.includes(one) || one - other);
  const seen = held.map(([slot, [, readOnly, head, tail]]) => {
    const reads = part(state, "reads", Math.min(head, tail), tail);
    const writes = part(state, "writes", Math.min(readOnly, tail), tail);
    return lane(`slot ${slot}`, line.way.includes(slot) ? "way" : "", `${head} / ${readOnly} / ${tail}`, reads, writes);
  });
  at("views").replaceChildren(...(seen.length ? seen : [make("p", "hint", "no slot is protected")]));
}

function drawEpochs(state, line) {
  const slots = slotsOf(state).filter(([, slot]) => slot);
  const wanted = [...slots.map(([, [epoch]]) => epoch), ...state.pending.map(([ticket]) => ticket)];
  const columns = [...new Set([state.safe, state.epoch, ...wanted])].sort((one, other) => one - other);
  const head = make("tr", "", make("td", "", "epoch")), users = make("tr", "", make("th", "", "slots"));
  const waits = make("tr", "", make("th", "", "tickets"));
  columns.forEach((epoch, place) => {
    const gap = place && epoch > columns[place - 1] + 1 ? [head, users, waits] : [];
    for (const row of gap) row.append(make("td", "gap", "…"));
    const kind = epoch <= state.safe ? "safe" : "";
    const said = { [state.safe]: "the safe epoch", [state.epoch]: "current" }[epoch] ?? (kind || "not safe");
    head.append(make("th", kind, epoch, make("small", "", said)));
    users.append(make("td", kind, ...slots.filter(([, [own]]) => own === epoch).map(([slot]) =>
      make("span", line.way.includes(slot) ? "chip way" : "chip", `slot ${slot}`))));
    waits.append(make("td", kind, ...state.pending.filter(([ticket]) => ticket === epoch).map((action) =>
      make("span", "chip", spelled(action)))));
  });
  at("epochs").replaceChildren(make("thead", "", head), make("tbody", "", users, waits));
}

function drawFrames(state, line) {
  at("frames").replaceChildren(...framesOf(state).map(([kind, page], frame) => {
    const cleaned = state.cleaning.includes(page) ? ", being cleaned" : "";
    const out = state["in flight"].includes(page) ? ", in flight" : cleaned;
    const it = make("li", kind + (out ? " out" : "") + (line.frame === frame ? " way" : ""));
    it.append(make("b", "", `frame ${frame}`), page === undefined ? "free" : `page ${page}: ${kind}${out}`);
    return it;
  }));
}

function drawActions(state) {
  for (const [id, actions] of [["pending", state.pending], ["taken", state.taken]]) {
    const chips = actions.map((action) => make("span", "chip", spelled(action)));
    at(id).replaceChildren(...(chips.length ? chips : ["none"]));
  }
  at("places").textContent = `${state.pending.length + state.taken.length} of ${sizes.places}`;
}

function drawSlots(state) {
  const rows = slotsOf(state).filter(([, slot]) => slot || sizes.slots <= 8).map(([number, slot]) => {
    const row = make("tr", "", make("th", "", number));
    if (slot) row.append(...slot.map((value) => make("td", "number", value)));
    else {
      const cell = make("td", "hint", "not protected");
      cell.colSpan = 4;
      row.append(cell);
    }
    row.dataset.slot = number;
    return row;
  });
  const head = ["slot", "epoch", "read-only", "head", "tail"].map((label) => make("th", "", label));
  at("slots").replaceChildren(make("thead", "", make("tr", "", ...head)), make("tbody", "", ...rows));
}

// Tells the style how high the bar is that stays at the top.
function keepBelow() {
  document.documentElement.style.setProperty("--bar", `${at("now").parentElement.offsetHeight}px`);
}

// Shows the line of this number, or the nearest that there is.
function show(wanted) {
  const number = Math.min(lines.length, Math.max(1, wanted || 1)), line = lines[number - 1], state = states[number - 1];
  at("slider").value = number;
  at("slider").setAttribute("aria-valuetext", `line ${number}: ${line.text}`);
  at("place").textContent = `${number} of ${lines.length}`;
  at("back").disabled = number === 1;
  at("on").disabled = number === lines.length;
  at("next").disabled = !lines.slice(number).some((later) => later.why);
  at("line").textContent = line.text;
  at("answer").textContent = line.answer;
  at("why").textContent = line.why ?? "";
  at("why").hidden = !line.why;
  at("now").className = line.why ? "refused" : "";
  keepBelow();
  at("lines").querySelector("[aria-current]")?.removeAttribute("aria-current");
  const row = at("lines").children[number - 1];
  row.setAttribute("aria-current", "step");
  at("lines").scrollTop = row.offsetTop - at("lines").clientHeight / 2;
  at("panels").hidden = state.epoch === undefined;
  if (state.epoch !== undefined) {
    drawOffsets(state);
    drawViews(state, line);
    drawEpochs(state, line);
    drawFrames(state, line);
    drawActions(state);
    drawSlots(state);
  }
  history.replaceState(null, "", `#${number}`);
}

const shown = () => Number(at("slider").value);
at("slider").max = lines.length;
at("sizes").textContent = sizes ? `${count(sizes.page, "word")} a page, ${count(sizes.frames, "frame")}, ` +
  `${count(sizes.slots, "slot")}, ${count(sizes.places, "place")} for actions` : "";
at("legend").append(...REGIONS.map(([, , kind, text]) => make("li", "", make("i", kind), make("span", "", text))));
lines.forEach((line, place) => {
  const row = make("li", line.bad ? "refused bad" : line.why ? "refused" : "", make("span", "place number", place + 1),
    make("code", "", line.text), make("code", "answer", line.answer));
  row.addEventListener("click", () => show(place + 1));
  at("lines").append(row);
});
at("slider").addEventListener("input", () => show(shown()));
at("back").addEventListener("click", () => show(shown() - 1));
at("on").addEventListener("click", () => show(shown() + 1));
at("next").addEventListener("click", () => show(lines.findIndex((line, place) => place >= shown() && line.why) + 1));
addEventListener("resize", keepBelow);
addEventListener("hashchange", () => show(Number(location.hash.slice(1))));
addEventListener("keydown", (event) => {
  if (event.target === at("slider") || event.altKey || event.ctrlKey || event.metaKey) return;
  const step = { ArrowLeft: shown() - 1, ArrowRight: shown() + 1, Home: 1, End: lines.length }[event.key];
  if (step === undefined) return;
  event.preventDefault();
  show(step);
});
show(Number(location.hash.slice(1)));
