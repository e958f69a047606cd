"use strict";

/*
 * The page of tools/watch. Its data, which nockmango.watching.page makes, stand in the element `data`:
 *
 *   modules      of each module its picture, with the ids of its places, transitions and arcs in it
 *   instances    of each instance its module, the numbers of its compound places and of its transitions,
 *                and the instances of its substitution transitions
 *   places       the compound places: name, whether timed, and all values that were there, in order
 *   transitions  the names of the transitions
 *   times, occurred, bound, changes
 *                of each state its time, the number of the transition whose occurrence led to it, -1 where a
 *                run starts, the number of its binding, and what changed: place, value, stamp, number of
 *                tokens, again and again
 *   why, reasons of each transition from which state on which reason counts, and the reasons
 *   runs         of each run its number, its first and its last state, its last clock, how it ended, and
 *                what its monitors have measured
 *   charted      the places whose sizes the chart has at first
 *
 * A state is the marking at the start of a run or after an occurrence.
 */

const data = JSON.parse(document.getElementById("data").textContent);
const LAST = data.times.length - 1;
const SHOWN_TOKENS = 200; // of a place in the list of places
const SHOWN_ROWS = 300; // of the chart of occurrences
const ROOM = 20; // characters for the tokens of a place in the picture
const COLOURS = ["#0b6fb8", "#c2570c", "#1c8a4a", "#8a4bc0", "#b3245e", "#7a6a00"];
const DASHES = ["", "7 3", "2 3", "9 3 2 3"];

// ---- elements

function find(id) {
  return document.getElementById(id);
}

function filled(made, attributes, children) {
  for (const [name, value] of Object.entries(attributes)) {
    made.setAttribute(name, value);
  }
  made.append(...children);
  return made;
}

function element(name, attributes = {}, ...children) {
  return filled(document.createElement(name), attributes, children);
}

function shape(name, attributes = {}, ...children) {
  return filled(document.createElementNS("http://www.w3.org/2000/svg", name), attributes, children);
}

function button(text, act, attributes = {}) {
  const made = element("button", { type: "button", ...attributes }, text);
  made.addEventListener("click", act);
  return made;
}

/* Gives an element other children, and leaves the focus on the one of the same key. */
function renew(parent, children) {
  const focused = document.activeElement;
  const key = parent.contains(focused) ? focused.dataset.key : undefined;
  parent.replaceChildren(...children);
  const again = key && parent.querySelector(`[data-key="${key}"]`);
  if (again) {
    again.focus();
  }
}

function shortened(text, length) {
  return text.length > length ? `${text.slice(0, length - 1)}…` : text;
}

// ---- markings

/* The tokens on all places in one state. It goes from state to state by what changed between them. */
class Marking {
  constructor() {
    this.state = -1;
    this.tokens = data.places.map(() => new Map());
    this.sizes = data.places.map(() => 0);
  }

  go(state) {
    while (this.state < state) {
      this.change(data.changes[++this.state], 1);
    }
    while (this.state > state) {
      this.change(data.changes[this.state--], -1);
    }
  }

  change(changes, way) {
    for (let at = 0; at < changes.length; at += 4) {
      const [place, value, stamp, count] = changes.slice(at, at + 4);
      this.add(place, `${value} ${stamp}`, way * count);
    }
  }

  add(place, token, count) {
    const left = (this.tokens[place].get(token) || 0) + count;
    if (left === 0) {
      this.tokens[place].delete(token);
    } else {
      this.tokens[place].set(token, left);
    }
    this.sizes[place] += count;
  }

  /* Returns the tokens of a place in the order of a report, as texts. */
  texts(place) {
    const found = [...this.tokens[place]].map(([token, count]) => {
      const [value, stamp] = token.split(" ");
      return { value: Number(value), stamp, count };
    });
    found.sort((one, other) => one.value - other.value || Number(one.stamp) - Number(other.stamp));
    return found.map((it) => tokenText(place, it.value, it.stamp, it.count));
  }

  text(place) {
    return this.texts(place).join(" ++ ") || "empty";
  }
}

function tokenText(place, value, stamp, count) {
  const { timed, values } = data.places[place];
  return `${count}\`${values[value]}${timed ? `@${stamp}` : ""}`;
}

/* Returns what an occurrence has taken and given: for each place that changed, the texts of both. */
function changesOf(state) {
  const found = new Map();
  const changes = data.occurred[state] < 0 ? [] : data.changes[state];
  for (let at = 0; at < changes.length; at += 4) {
    const [place, value, stamp, count] = changes.slice(at, at + 4);
    if (!found.has(place)) {
      found.set(place, { gone: [], added: [] });
    }
    const texts = count < 0 ? found.get(place).gone : found.get(place).added;
    texts.push(tokenText(place, value, stamp, Math.abs(count)));
  }
  return found;
}

// ---- occurrences

function runOf(state) {
  return data.runs.find((run) => state <= run.last);
}

function variablesOf(binding) {
  const [names, ...values] = data.bindings[binding];
  return data.variables[names].map((name, at) => [name, data.values[values[at]]]);
}

function bindingText(binding) {
  return `{${variablesOf(binding).map(([name, value]) => `${name}=${value}`).join(", ")}}`;
}

function valueIn(binding, variable) {
  const found = variablesOf(binding).find(([name]) => name === variable);
  return found && found[1];
}

function positionText(state) {
  const run = runOf(state);
  const many = data.runs.length > 1 ? `run ${run.number}, ` : "";
  const count = run.last - run.first;
  const here = state === run.first ? "none yet" : state - run.first - 1;
  return `${many}${here} (${state - run.first} of ${count})`;
}

/* Returns the next state, from one on in one direction, to which an occurrence of a transition leads. */
function nextOf(transition, state, way) {
  for (let at = state + way; at >= 0 && at <= LAST; at += way) {
    if (data.occurred[at] === transition) {
      return at;
    }
  }
  return state;
}

// ---- what is enabled

/* Returns the reason that counts for a transition in a state. */
function reasonOf(transition, state) {
  const steps = data.why[transition];
  let [least, greatest] = [0, steps.length / 2 - 1];
  while (least < greatest) {
    const middle = Math.ceil((least + greatest) / 2);
    if (steps[2 * middle] <= state) {
      least = middle;
    } else {
      greatest = middle - 1;
    }
  }
  const [number, whole, elements, causes] = data.reasons[steps[2 * least + 1]];
  return { number, whole, elements, causes };
}

/* Returns whether a transition is enabled in a state, and from when on it is. */
function verdictOf(transition, state) {
  const reason = reasonOf(transition, state);
  if (reason.elements.length === 0) {
    return { kind: reason.whole ? "never" : "unknown", reason };
  }
  const time = reason.elements[0][0];
  return { kind: Number(time) <= Number(data.times[state]) ? "enabled" : "later", time, reason };
}

function verdictText(verdict) {
  return {
    enabled: "Enabled now.",
    later: `Not enabled now: it would be at ${verdict.time}.`,
    never: "Not enabled, at no time.",
    unknown: "None of the bindings that were tried is enabled.",
  }[verdict.kind];
}

// ---- the picture of an instance

class Picture {
  constructor(page) {
    this.page = page;
    this.svg = null;
    this.scale = 0;
    find("smaller").addEventListener("click", () => this.resize(1 / 1.25));
    find("larger").addEventListener("click", () => this.resize(1.25));
  }

  /* Shows the picture of the module of an instance. */
  show(number) {
    this.instance = data.instances[number];
    this.module = data.modules[this.instance.module];
    this.svg = null;
    find("picture").replaceChildren();
    find("picture").setAttribute("aria-label", `Picture of the instance ${this.instance.path}`);
    if (!this.module.picture) {
      find("picture").textContent = "There is no picture, as Graphviz was not there.";
      return;
    }
    const parsed = new DOMParser().parseFromString(this.module.picture, "image/svg+xml");
    this.svg = document.importNode(parsed.documentElement, true);
    this.svg.querySelectorAll("title").forEach((it) => it.remove());
    find("picture").append(this.svg);
    this.scale = 0;
    this.resize(1);
    this.module.places.forEach((id) => this.makeRoom(id));
    this.module.transitions.forEach((id, at) => {
      this.makeButton(id, () => this.page.choose(this.instance.transitions[at]));
    });
    this.module.subs.forEach((id, at) => {
      const inner = this.instance.subs[at];
      const label = `Substitution transition ${data.instances[inner].path}`;
      this.makeButton(id, () => this.page.enter(inner)).setAttribute("aria-label", label);
    });
  }

  /* Makes the picture larger or smaller; at first it has the width that there is. */
  resize(by) {
    if (!this.svg) {
      return;
    }
    const { width, height } = this.svg.viewBox.baseVal;
    const room = find("picture").clientWidth || width;
    this.scale = this.scale ? this.scale * by : Math.min(1.4, room / width);
    this.svg.setAttribute("width", this.scale * width);
    this.svg.setAttribute("height", this.scale * height);
  }

  node(id) {
    return this.svg.querySelector(`#${id}`);
  }

  /* Makes room for the tokens of a place and for their number. */
  makeRoom(id) {
    const node = this.node(id);
    const round = node.querySelector("ellipse");
    const [x, y, rx, ry] = ["cx", "cy", "rx", "ry"].map((it) => Number(round.getAttribute(it)));
    const tokens = node.querySelector('text[fill="darkgreen"]');
    tokens.setAttribute("class", "tokens");
    tokens.setAttribute("x", x);
    tokens.setAttribute("text-anchor", "middle");
    const at = { cx: x + 0.72 * rx, cy: y - 0.72 * ry };
    node.append(
      shape("g", { class: "number" },
        shape("circle", { ...at, r: 8 }),
        shape("text", { x: at.cx, y: at.cy + 3, "font-size": 9, "font-family": "Helvetica" })),
    );
    node.setAttribute("role", "img");
  }

  makeButton(id, act) {
    const node = this.node(id);
    node.setAttribute("role", "button");
    node.setAttribute("tabindex", "0");
    node.addEventListener("click", act);
    node.addEventListener("keydown", (event) => {
      if (event.key === "Enter" || event.key === " ") {
        event.preventDefault();
        act();
      }
    });
    return node;
  }

  /* Shows a state: tokens, what is enabled, what occurred and what changed. */
  update(state, marking) {
    if (!this.svg) {
      return;
    }
    const changes = changesOf(state);
    this.module.places.forEach((id, at) => {
      const place = this.instance.places[at];
      this.updatePlace(this.node(id), place, marking, changes.has(place));
    });
    this.module.transitions.forEach((id, at) => {
      const transition = this.instance.transitions[at];
      this.updateTransition(this.node(id), transition, state);
    });
    this.module.arcs.forEach(([id, node]) => {
      const at = this.module.transitions.indexOf(node);
      const occurs = at >= 0 && this.instance.transitions[at] === data.occurred[state];
      this.node(id).classList.toggle("used", occurs);
    });
  }

  updatePlace(node, place, marking, changed) {
    const { name } = data.places[place];
    const text = marking.text(place);
    const size = marking.sizes[place];
    node.querySelector(".tokens").textContent = size ? shortened(text, ROOM) : "";
    node.querySelector(".number").setAttribute("visibility", size ? "visible" : "hidden");
    node.querySelector(".number text").textContent = size > 999 ? "…" : size;
    node.classList.toggle("changed", changed);
    const label = `Place ${name}: ${shortened(text, 200)}${changed ? ", changed" : ""}`;
    node.setAttribute("aria-label", label);
  }

  updateTransition(node, transition, state) {
    const { kind } = verdictOf(transition, state);
    const occurs = data.occurred[state] === transition;
    node.classList.toggle("enabled", kind === "enabled");
    node.classList.toggle("later", kind === "later");
    node.classList.toggle("occurs", occurs);
    node.classList.toggle("chosen", this.page.chosen === transition);
    const words = { enabled: ", enabled", later: ", enabled later" }[kind] || "";
    const label = `Transition ${data.transitions[transition]}${words}${occurs ? ", occurs" : ""}`;
    node.setAttribute("aria-label", label);
  }
}

// ---- charts

const WIDTH = 900;
const LEFT = 46;
const RIGHT = 12;

/* The horizontal axis of a run: the time, or the occurrences where the clock does not move. */
class Axis {
  constructor(run) {
    this.run = run;
    this.timed = Number(run.clock) > Number(data.times[run.first]);
    this.least = this.timed ? Number(data.times[run.first]) : 0;
    this.greatest = this.timed ? Number(run.clock) : Math.max(1, run.last - run.first);
  }

  of(state) {
    return this.timed ? Number(data.times[state]) : state - this.run.first;
  }

  x(value) {
    const share = (value - this.least) / (this.greatest - this.least);
    return LEFT + share * (WIDTH - LEFT - RIGHT);
  }

  /* Returns the last state of the run that is not right of a horizontal position. */
  stateAt(x) {
    let found = this.run.first;
    for (let state = this.run.first; state <= this.run.last; state += 1) {
      if (this.x(this.of(state)) <= x + 0.5) {
        found = state;
      }
    }
    return found;
  }

  /* Returns the lines and the numbers of the axis, for a chart of this height. */
  marks(height) {
    const made = [];
    for (const value of niceNumbers(this.least, this.greatest, 8)) {
      const x = this.x(value);
      made.push(shape("line", { class: "grid", x1: x, x2: x, y1: 4, y2: height - 18 }));
      made.push(shape("text", { x, y: height - 4, "text-anchor": "middle" }, String(value)));
    }
    return made;
  }

  get name() {
    return this.timed ? "time" : "occurrences";
  }
}

/* Returns round numbers between two, about so many. */
function niceNumbers(least, greatest, count) {
  const raw = Math.max(1, (greatest - least) / count);
  const power = 10 ** Math.floor(Math.log10(raw));
  const step = [1, 2, 5, 10].map((it) => it * power).find((it) => it >= raw);
  const found = [];
  for (let it = Math.ceil(least / step) * step; it <= greatest; it += step) {
    found.push(it);
  }
  return found;
}

/* Returns where a click on a chart was, in its own units. */
function positionIn(svg, event) {
  const box = svg.getBoundingClientRect();
  return ((event.clientX - box.left) / box.width) * WIDTH;
}

function cursorOf(height) {
  return shape("line", { class: "cursor", y1: 2, y2: height - 16 });
}

/* Returns the size of each of some places in each state of a run. */
function sizesOf(run, places) {
  const marking = new Marking();
  const found = new Map(places.map((place) => [place, []]));
  for (let state = run.first; state <= run.last; state += 1) {
    marking.go(state);
    for (const place of places) {
      found.get(place).push(marking.sizes[place]);
    }
  }
  return found;
}

/* The chart of the sizes of the chosen places over the time of a run. */
class Course {
  constructor(page) {
    this.page = page;
    this.chosen = [...data.charted];
    this.run = null;
  }

  toggle(place, chosen) {
    this.chosen = this.chosen.filter((it) => it !== place);
    if (chosen) {
      this.chosen.push(place);
    }
    this.run = null;
    this.update(this.page.state);
  }

  look(at) {
    return { colour: COLOURS[at % COLOURS.length], dash: DASHES[at % DASHES.length] };
  }

  update(state) {
    const run = runOf(state);
    if (run !== this.run) {
      this.draw(run);
    }
    const x = this.axis.x(this.axis.of(state));
    this.cursor.setAttribute("x1", x);
    this.cursor.setAttribute("x2", x);
    find("sizes").tBodies[0].querySelectorAll("tr").forEach((row, at) => {
      row.cells[1].textContent = this.sizes.get(this.chosen[at])[state - run.first];
    });
  }

  draw(run) {
    const height = 220;
    this.run = run;
    this.axis = new Axis(run);
    this.sizes = sizesOf(run, this.chosen);
    this.cursor = cursorOf(height);
    const greatest = Math.max(1, ...this.chosen.map((it) => greatestOf(this.sizes.get(it))));
    const y = (size) => height - 18 - (size / greatest) * (height - 30);
    const names = this.chosen.map((place) => data.places[place].name).join(", ") || "no place";
    const svg = shape("svg", {
      viewBox: `0 0 ${WIDTH} ${height}`,
      role: "img",
      "aria-label": `Tokens of ${names} over the ${this.axis.name}; the table below has the numbers`,
    }, ...this.axis.marks(height));
    for (const size of niceNumbers(0, greatest, 4)) {
      svg.append(shape("line", { class: "grid", x1: LEFT, x2: WIDTH - RIGHT, y1: y(size), y2: y(size) }));
      svg.append(shape("text", { x: LEFT - 6, y: y(size) + 4, "text-anchor": "end" }, String(size)));
    }
    this.chosen.forEach((place, at) => {
      const { colour, dash } = this.look(at);
      const path = this.path(this.sizes.get(place), y);
      svg.append(shape("path", { class: "course", d: path, stroke: colour, "stroke-dasharray": dash }));
    });
    svg.append(this.cursor);
    svg.addEventListener("click", (event) => {
      this.page.go(this.axis.stateAt(positionIn(svg, event)));
    });
    find("chart").replaceChildren(svg);
    this.drawTable(run);
  }

  /* Returns the steps of a place as a path, with a corner where its size changes. */
  path(sizes, y) {
    let made = `M${this.axis.x(this.axis.least).toFixed(1)},${y(sizes[0]).toFixed(1)}`;
    sizes.forEach((size, at) => {
      if (at > 0 && size !== sizes[at - 1]) {
        made += `H${this.axis.x(this.axis.of(this.run.first + at)).toFixed(1)}V${y(size).toFixed(1)}`;
      }
    });
    return `${made}H${this.axis.x(this.axis.greatest).toFixed(1)}`;
  }

  drawTable(run) {
    const rows = this.chosen.map((place, at) => {
      const sizes = this.sizes.get(place);
      const { colour, dash } = this.look(at);
      const swatch = element("span", {
        class: "swatch",
        style: `border-color: ${colour}; border-top-style: ${dash ? "dashed" : "solid"}`,
      });
      const numbers = ["", leastOf(sizes), greatestOf(sizes), meanOf(run, sizes)];
      return element("tr", {},
        element("th", { scope: "row" }, swatch, data.places[place].name),
        ...numbers.map((it) => element("td", {}, String(it))));
    });
    find("sizes").tBodies[0].replaceChildren(...rows);
  }
}

function greatestOf(numbers) {
  return numbers.reduce((one, other) => Math.max(one, other));
}

function leastOf(numbers) {
  return numbers.reduce((one, other) => Math.min(one, other));
}

/* Returns the mean size over the time of a run: each size counts as long as it stood. */
function meanOf(run, sizes) {
  const times = sizes.map((_, at) => Number(data.times[run.first + at]));
  times.push(Number(run.clock));
  const area = sizes.reduce((sum, size, at) => sum + size * (times[at + 1] - times[at]), 0);
  const time = times[times.length - 1] - times[0];
  return time > 0 ? Number((area / time).toPrecision(6)) : "–";
}

/* The chart of the occurrences of a transition: a row for each value of a variable, a bar for each
   occurrence. A bar lasts until the largest stamp that the occurrence gave, or until another transition
   occurs with the same value. */
class Gantt {
  constructor(page) {
    this.page = page;
    this.names = new Map(); // of each transition that occurs the variables of its bindings
    data.occurred.forEach((transition, state) => this.note(transition, data.bound[state]));
    const occurred = [...this.names.keys()].sort((one, other) => one - other);
    find("bars-of").append(...occurred.map((at) => option(at, data.transitions[at])));
    find("bars-of").addEventListener("change", () => this.chooseTransition());
    find("bars-by").addEventListener("change", () => this.chooseVariable());
    find("bars-until").addEventListener("change", () => this.redraw());
    this.chooseTransition();
  }

  note(transition, binding) {
    if (transition >= 0) {
      const names = this.names.get(transition) || new Set();
      data.variables[data.bindings[binding][0]].forEach((name) => names.add(name));
      this.names.set(transition, names);
    }
  }

  /* Returns the transition that is chosen, or -1 where none occurs. */
  get transition() {
    return this.names.size > 0 ? Number(find("bars-of").value) : -1;
  }

  chooseTransition() {
    const names = [...(this.names.get(this.transition) || [])];
    find("bars-by").replaceChildren(...names.map((name) => option(name, name)), option("", "one row"));
    this.chooseVariable();
  }

  chooseVariable() {
    const variable = find("bars-by").value;
    const others = [...this.names.keys()].filter((it) => (
      it !== this.transition && (variable === "" || this.names.get(it).has(variable))
    ));
    find("bars-until").replaceChildren(
      option("", "its last time stamp"),
      ...others.map((it) => option(it, `${data.transitions[it]} occurs`)),
    );
    this.redraw();
  }

  redraw() {
    this.run = null;
    this.update(this.page.state);
  }

  /* Returns the rows of a run: of each value the bars, each with its state, its start and its end. */
  rows(run) {
    const variable = find("bars-by").value;
    const until = find("bars-until").value;
    const rows = new Map();
    const open = new Map(); // of each value the bars that have no end yet, the first one first
    for (let state = run.first + 1; state <= run.last; state += 1) {
      const transition = data.occurred[state];
      const value = variable === "" ? "" : valueIn(data.bound[state], variable);
      if (until !== "" && transition === Number(until) && (open.get(value) || []).length > 0) {
        open.get(value).shift().end = this.axis.of(state);
      }
      if (transition === this.transition && value !== undefined) {
        const end = until === "" ? this.lastStamp(state) : null;
        const bar = { state, start: this.axis.of(state), end };
        append(rows, value, bar);
        append(open, value, bar);
      }
    }
    return rows;
  }

  /* Returns the largest time stamp of the tokens that an occurrence gave. */
  lastStamp(state) {
    let found = this.axis.of(state);
    const changes = data.changes[state];
    for (let at = 0; this.axis.timed && at < changes.length; at += 4) {
      if (changes[at + 3] > 0 && data.places[changes[at]].timed) {
        found = Math.max(found, Number(changes[at + 2]));
      }
    }
    return found;
  }

  update(state) {
    const run = runOf(state);
    const moved = this.shown && !this.shown.all && this.shown.near !== this.rowAt(state);
    if (run !== this.run || moved) {
      this.draw(run, state);
    }
    if (!this.cursor) {
      return;
    }
    const x = this.axis.x(this.axis.of(state));
    this.cursor.setAttribute("x1", x);
    this.cursor.setAttribute("x2", x);
    find("bars").querySelectorAll(".now").forEach((bar) => bar.classList.remove("now"));
    if (this.bars.has(state)) {
      this.bars.get(state).classList.add("now");
    }
  }

  /* Returns the number of the last row that has begun in a state. */
  rowAt(state) {
    const begun = this.all.filter(([, bars]) => bars[0].state <= state).length;
    return Math.max(0, begun - 1);
  }

  draw(run, state) {
    this.run = run;
    this.axis = new Axis(run);
    this.all = this.transition < 0 ? [] : [...this.rows(run)];
    const near = this.rowAt(state);
    const first = Math.max(0, Math.min(near - SHOWN_ROWS / 2, this.all.length - SHOWN_ROWS));
    const rows = this.all.slice(first, first + SHOWN_ROWS);
    this.shown = { all: rows.length === this.all.length, near };
    this.bars = new Map();
    if (rows.length === 0) {
      this.cursor = null;
      find("bars").replaceChildren(element("p", { class: "hint" }, "It does not occur in this run."));
      return;
    }
    const height = 20 * rows.length + 26;
    this.cursor = cursorOf(height);
    const name = data.transitions[this.transition];
    const svg = shape("svg", {
      viewBox: `0 0 ${WIDTH} ${height}`,
      role: "group",
      "aria-label": `Occurrences of ${name} over the ${this.axis.name}`,
    }, ...this.axis.marks(height));
    rows.forEach(([value, bars], at) => this.drawRow(svg, value, bars, 20 * at + 6));
    svg.append(this.cursor);
    svg.addEventListener("click", (event) => {
      const bar = event.target.closest(".bar");
      this.page.go(bar ? Number(bar.dataset.state) : this.axis.stateAt(positionIn(svg, event)));
    });
    const further = this.shown.all ? "" : `${rows.length} of ${this.all.length} rows, near the occurrence.`;
    find("bars").replaceChildren(element("p", { class: "hint" }, further), svg);
  }

  drawRow(svg, value, bars, y) {
    svg.append(shape("text", { x: LEFT - 6, y: y + 11, "text-anchor": "end" }, shortened(value, 8)));
    for (const { state, start, end } of bars) {
      const x = this.axis.x(start);
      const last = this.axis.x(Math.min(end === null ? this.axis.greatest : end, this.axis.greatest));
      const width = Math.max(3, last - x);
      const bar = shape("rect", { class: "bar", "data-state": state, x, y, width, height: 14, rx: 2 });
      const until = end === null ? "until the end" : end > start ? `until ${end}` : "";
      const words = `${bindingText(data.bound[state])} at ${data.times[state]} ${until}`;
      bar.append(shape("title", {}, words));
      this.bars.set(state, bar);
      svg.append(bar);
    }
  }
}

function append(lists, key, item) {
  if (!lists.has(key)) {
    lists.set(key, []);
  }
  lists.get(key).push(item);
}

function option(value, text) {
  return element("option", { value }, text);
}

// ---- the page

class Page {
  constructor() {
    this.state = 0;
    this.chosen = -1;
    this.timer = null;
    this.marking = new Marking();
    this.picture = new Picture(this);
    this.course = new Course(this);
    this.gantt = new Gantt(this);
  }

  start() {
    find("slider").max = LAST;
    find("instance").append(...data.instances.map((it, at) => option(at, it.path)));
    find("choice").hidden = data.instances.length === 1;
    this.connect();
    this.enter(0);
  }

  connect() {
    const goes = { first: () => 0, back: () => this.state - 1, next: () => this.state + 1, last: () => LAST };
    for (const [id, to] of Object.entries(goes)) {
      find(id).addEventListener("click", () => this.go(to()));
    }
    find("slider").addEventListener("input", () => this.go(Number(find("slider").value)));
    find("play").addEventListener("click", () => this.play());
    find("speed").addEventListener("change", () => this.timer && this.play() && this.play());
    find("instance").addEventListener("change", () => this.enter(Number(find("instance").value)));
    find("help").addEventListener("click", () => find("keys").showModal());
    find("theme").addEventListener("click", () => showTheme(!isDark(), true));
    document.addEventListener("keydown", (event) => this.press(event));
    window.addEventListener("resize", () => {
      this.picture.scale = 0;
      this.picture.resize(1);
    });
  }

  press(event) {
    const { target } = event;
    const types = target.closest("select, dialog, input:not([type=checkbox])");
    if (event.ctrlKey || event.metaKey || event.altKey || types) {
      return;
    }
    const goes = {
      ArrowLeft: () => this.go(this.state - 1),
      ArrowRight: () => this.go(this.state + 1),
      PageUp: () => this.go(this.state - 10),
      PageDown: () => this.go(this.state + 10),
      Home: () => this.go(0),
      End: () => this.go(LAST),
      p: () => this.go(nextOf(this.chosen, this.state, -1)),
      n: () => this.go(nextOf(this.chosen, this.state, 1)),
      d: () => showTheme(!isDark(), true),
      "?": () => find("keys").showModal(),
    };
    if (event.key === " " && !target.closest("button, [role=button], input")) {
      goes[" "] = () => this.play();
    }
    if (goes[event.key]) {
      event.preventDefault();
      goes[event.key]();
    }
  }

  /* Plays the run, or stops it. */
  play() {
    if (this.timer) {
      clearInterval(this.timer);
      this.timer = null;
    } else {
      const from = this.state === LAST ? 0 : this.state;
      this.go(from);
      this.timer = setInterval(() => this.goOn(), 1000 / Number(find("speed").value));
    }
    const plays = this.timer !== null;
    find("play").setAttribute("aria-pressed", plays);
    find("play").textContent = plays ? "⏸" : "▶";
    find("now").setAttribute("aria-live", plays ? "off" : "polite");
    find("verdict").setAttribute("aria-live", plays ? "off" : "polite");
    return true;
  }

  goOn() {
    this.go(this.state + 1);
    if (this.state === LAST) {
      this.play();
    }
  }

  /* Shows a state. */
  go(state) {
    this.state = Math.max(0, Math.min(LAST, state));
    this.marking.go(this.state);
    this.showPosition();
    this.picture.update(this.state, this.marking);
    this.showTransitions();
    this.showVerdict();
    this.showPlaces();
    this.course.update(this.state);
    this.gantt.update(this.state);
    this.showMonitors();
  }

  /* Shows an instance. */
  enter(instance) {
    find("instance").value = instance;
    this.instance = data.instances[instance];
    this.picture.show(instance);
    this.go(this.state);
  }

  /* Chooses a transition, and shows the instance that it is of. */
  choose(transition) {
    this.chosen = transition;
    if (this.instance.transitions.includes(transition)) {
      this.go(this.state);
    } else {
      this.enter(data.instances.findIndex((it) => it.transitions.includes(transition)));
    }
  }

  showPosition() {
    const run = runOf(this.state);
    const transition = data.occurred[this.state];
    const ended = this.state === run.last ? `; the run ended: ${run.end}` : "";
    find("slider").value = this.state;
    find("position").textContent = positionText(this.state) + ended;
    find("slider").setAttribute("aria-valuetext", positionText(this.state));
    find("clock").textContent = data.times[this.state];
    if (transition < 0) {
      find("occurs").textContent = "nothing yet";
      return;
    }
    const attributes = { class: "link", "data-key": "occurs" };
    const choose = button(data.transitions[transition], () => this.choose(transition), attributes);
    const binding = element("code", {}, bindingText(data.bound[this.state]));
    renew(find("occurs"), [choose, " ", binding]);
  }

  showTransitions() {
    const chips = this.instance.transitions.map((transition) => {
      const verdict = verdictOf(transition, this.state);
      const occurs = data.occurred[this.state] === transition;
      const name = data.transitions[transition].split("/").pop();
      const words = { enabled: " ●", later: ` from ${verdict.time}`, unknown: " ?" }[verdict.kind] || "";
      return button(name + words, () => this.choose(transition), {
        class: `${verdict.kind} ${occurs ? "occurs" : ""}`,
        "aria-pressed": this.chosen === transition,
        "aria-label": `${name}, ${verdictText(verdict)}`,
        "data-key": transition,
      });
    });
    renew(find("transitions"), chips);
  }

  showVerdict() {
    if (this.chosen < 0) {
      const hint = "Choose a transition, here or in the picture: is it enabled, and if not, why?";
      find("verdict").replaceChildren(element("p", { class: "hint" }, hint));
      return;
    }
    const verdict = verdictOf(this.chosen, this.state);
    const lines = [
      ...verdict.reason.elements.map((it) => this.elementLine(it)),
      ...verdict.reason.causes.map((it) => element("li", {}, data.texts[it])),
    ];
    const hidden = verdict.reason.number - verdict.reason.elements.length;
    if (hidden > 0) {
      lines.push(element("li", {}, `and ${hidden} further bindings`));
    }
    if (!verdict.reason.whole) {
      lines.push(element("li", {}, "There are more bindings than were tried."));
    }
    const goes = element("p", {},
      button("Before", () => this.go(nextOf(this.chosen, this.state, -1)), {
        "data-key": "before", "aria-label": "Its occurrence before",
      }), " ",
      button("Next", () => this.go(nextOf(this.chosen, this.state, 1)), {
        "data-key": "next", "aria-label": "Its next occurrence",
      }));
    renew(find("verdict"), [
      element("h3", {}, data.transitions[this.chosen]),
      element("p", { class: "answer" }, verdictText(verdict)),
      element("ul", {}, ...lines),
      goes,
    ]);
  }

  /* Returns what is said of a binding element. */
  elementLine([time, binding, last]) {
    const when = Number(time) <= Number(data.times[this.state]) ? " now" : ` from ${time} on`;
    const why = when === " now" || last < 0 ? "" : `: ${data.texts[last]} until then`;
    return element("li", {}, element("code", {}, bindingText(binding)), when + why);
  }

  showPlaces() {
    const changes = changesOf(this.state);
    const places = [...new Set([...this.instance.places, ...this.course.chosen])];
    renew(find("tokens"), places.map((place) => this.placeLine(place, changes.get(place))));
  }

  placeLine(place, change) {
    const { name } = data.places[place];
    const size = this.marking.sizes[place];
    const attributes = { type: "checkbox", "aria-label": `${name} in the chart`, "data-key": place };
    const tick = element("input", attributes);
    tick.checked = this.course.chosen.includes(place);
    tick.addEventListener("change", () => this.course.toggle(place, tick.checked));
    const texts = this.marking.texts(place);
    const further = texts.length > SHOWN_TOKENS ? " ++ …" : "";
    const marking = texts.slice(0, SHOWN_TOKENS).join(" ++ ") || "empty";
    const line = element("li", { "data-place": place, class: change ? "changed" : "" },
      tick, element("span", {}, name), element("span", { class: "size" }, String(size)),
      element("code", { class: "marking" }, marking + further));
    if (change) {
      const words = element("code", { class: "marking" });
      change.gone.forEach((it) => words.append(element("span", { class: "gone" }, `− ${it} `)));
      change.added.forEach((it) => words.append(element("span", { class: "added" }, `+ ${it} `)));
      line.append(words);
    }
    return line;
  }

  showMonitors() {
    const { monitors } = runOf(this.state);
    find("measured").hidden = monitors.length === 0;
    find("monitors").replaceChildren(...monitors.map(([name, text]) => (
      element("tr", {}, element("th", { scope: "row" }, name), element("td", {}, text))
    )));
  }
}

// ---- light and dark

function isDark() {
  return document.documentElement.dataset.theme === "dark";
}

/* Shows light or dark colours, and keeps a choice where the browser lets the page. */
function showTheme(dark, keeps) {
  document.documentElement.dataset.theme = dark ? "dark" : "light";
  find("theme").setAttribute("aria-pressed", dark);
  try {
    if (keeps) {
      localStorage.setItem("nockmango-theme", dark ? "dark" : "light");
    }
  } catch (problem) {
    console.info("The choice of colours is not kept:", problem.message);
  }
}

function keptTheme() {
  try {
    return localStorage.getItem("nockmango-theme");
  } catch (problem) {
    return null;
  }
}

function followTheme() {
  const prefers = window.matchMedia("(prefers-color-scheme: dark)");
  const kept = keptTheme();
  showTheme(kept ? kept === "dark" : prefers.matches, false);
  prefers.addEventListener("change", () => keptTheme() || showTheme(prefers.matches, false));
}

followTheme();
find("about").textContent = data.about;
new Page().start();
