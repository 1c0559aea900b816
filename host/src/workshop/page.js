// A page of figures: the table sorts and filters, a figure opens large and turns. Nothing
// is fetched; all that is drawn stands in the page.
"use strict";

const SIZE = 560; // pixels of the large picture, each way
const STEP = 0.12; // radians that a key or button turns
const COLOURS = [
  [0, 114, 178], [230, 159, 0], [0, 158, 115], [204, 121, 167],
  [86, 180, 233], [213, 94, 0], [184, 168, 0], [119, 119, 119],
];
const NEARER = 2.5; // pixels that an edge is drawn before its faces
const STRAIGHT = [1, 0, 0, 0, 1, 0, 0, 0, 1];

const KEYS = {
  ArrowLeft: "left", ArrowRight: "right", ArrowUp: "up", ArrowDown: "down",
  "+": "near", "-": "far", Home: "back", PageUp: "before", PageDown: "next",
};

const table = document.querySelector("table.sorts");
const rows = table ? [...table.tBodies[0].rows] : [];

// Sorting: the heads of columns are buttons; a second press turns the order around.
function sortBy(head) {
  const down = head.getAttribute("aria-sort") === "ascending";
  for (const other of head.parentNode.children) other.removeAttribute("aria-sort");
  head.setAttribute("aria-sort", down ? "descending" : "ascending");
  const value = (row) => row.dataset[head.dataset.by];
  const order = (a, b) => value(a).localeCompare(value(b), "en", { numeric: true });
  const sorted = [...rows].sort((a, b) => (down ? order(b, a) : order(a, b)));
  table.tBodies[0].append(...sorted);
}

// Filtering: a row is shown where each number lies within its bounds.
function filter(form) {
  const bounds = [...form.querySelectorAll("[name]")].filter((field) => field.value !== "");
  const fits = (row) => bounds.every((field) => {
    const [name, side] = field.name.split(".");
    const number = Number(row.dataset[name]);
    if (side === "from") return number >= Number(field.value);
    if (side === "to") return number <= Number(field.value);
    return number === Number(field.value);
  });
  for (const row of rows) row.hidden = !fits(row);
  const shown = rows.filter((row) => !row.hidden).length;
  document.getElementById("shown").textContent = `${shown} of ${rows.length} are shown`;
}

function startTable() {
  for (const button of table.querySelectorAll("thead button")) {
    button.addEventListener("click", () => sortBy(button.parentNode));
  }
  const form = document.querySelector("form");
  form.addEventListener("input", () => filter(form));
  form.addEventListener("reset", () => setTimeout(() => filter(form)));
  form.addEventListener("submit", (event) => event.preventDefault());
}

// Vectors and turns.
const minus = (a, b) => [a[0] - b[0], a[1] - b[1], a[2] - b[2]];
const cross = (a, b) => [a[1] * b[2] - a[2] * b[1], a[2] * b[0] - a[0] * b[2], a[0] * b[1] - a[1] * b[0]];
const length = (a) => Math.hypot(a[0], a[1], a[2]);
const apply = (m, p) => [0, 3, 6].map((i) => m[i] * p[0] + m[i + 1] * p[1] + m[i + 2] * p[2]);

function product(a, b) {
  const entry = (i, j) => a[i] * b[j] + a[i + 1] * b[j + 3] + a[i + 2] * b[j + 6];
  return [0, 3, 6].flatMap((i) => [0, 1, 2].map((j) => entry(i, j)));
}

// To the right by one angle, and then towards the eye by another.
function turn(right, down) {
  const [c, s, d, t] = [Math.cos(right), Math.sin(right), Math.cos(down), Math.sin(down)];
  return product([1, 0, 0, 0, d, -t, 0, t, d], [c, 0, s, 0, 1, 0, -s, 0, c]);
}

// The large picture: every pixel keeps how near it is, so that faces may cut each other.
class Stage {
  constructor(canvas, data) {
    this.canvas = canvas;
    this.data = data;
    canvas.width = canvas.height = SIZE;
    this.context = canvas.getContext("2d");
    this.image = this.context.createImageData(SIZE, SIZE);
    this.pixels = new Uint32Array(this.image.data.buffer);
    this.depth = new Float32Array(SIZE * SIZE);
    this.reset();
  }

  reset() {
    this.turned = STRAIGHT;
    this.zoom = 1;
  }

  turnBy(right, down) {
    this.turned = product(turn(right, down), this.turned);
  }

  draw(entry) {
    const scale = 0.44 * SIZE * this.zoom;
    const place = (p) => {
      const [x, y, z] = apply(this.turned, p);
      return [SIZE / 2 + scale * x, SIZE / 2 - scale * y, scale * z];
    };
    this.places = this.data.points.map(place);
    this.depth.fill(-Infinity);
    this.pixels.fill(0);
    for (const [shape, ways] of entry.faces) this.face(shape, ways);
    const ink = getComputedStyle(this.canvas).color.match(/\d+/g).map(Number);
    for (const [a, b] of entry.edges) this.edge(this.places[a], this.places[b], ink);
    this.context.putImageData(this.image, 0, 0);
  }

  // Square to the face: of all corners the two that span most from the first.
  normal(points) {
    const away = points.slice(1).map((p) => minus(p, points[0]));
    const all = away.flatMap((a, i) => away.slice(i + 1).map((b) => cross(a, b)));
    return all.reduce((best, n) => (length(n) > length(best) ? n : best), [0, 0, 0]);
  }

  face(shape, ways) {
    const cycles = ways.map((way) => way.map((v) => this.places[v]));
    const normal = this.normal(cycles.flat());
    const facing = Math.abs(normal[2]) / length(normal);
    if (!(facing > 0.001)) return;
    const light = 0.55 + 0.45 * facing;
    const colour = COLOURS[shape % COLOURS.length].map((c) => c * light);
    const heights = cycles.flat().map((p) => p[1]);
    const last = Math.min(SIZE - 1, Math.floor(Math.max(...heights)));
    for (let y = Math.max(0, Math.floor(Math.min(...heights))); y <= last; y++) {
      for (const [from, to] of this.spans(cycles, y + 0.5)) this.span(y, from, to, cycles[0][0], normal, colour);
    }
  }

  // Where a row lies inside: where the ways wind around it at all.
  spans(cycles, y) {
    const crossings = [];
    for (const cycle of cycles) {
      cycle.forEach((a, i) => {
        const b = cycle[(i + 1) % cycle.length];
        if (a[1] <= y === b[1] <= y) return;
        const x = a[0] + ((y - a[1]) * (b[0] - a[0])) / (b[1] - a[1]);
        crossings.push([x, b[1] > a[1] ? 1 : -1]);
      });
    }
    crossings.sort((a, b) => a[0] - b[0]);
    let around = 0;
    return crossings.flatMap(([x, way], i) => {
      around += way;
      return around !== 0 && crossings[i + 1] ? [[x, crossings[i + 1][0]]] : [];
    });
  }

  span(y, from, to, at, normal, colour) {
    const first = Math.max(0, Math.ceil(from - 0.5));
    const last = Math.min(SIZE - 1, Math.floor(to - 0.5));
    for (let x = first; x <= last; x++) {
      const z = at[2] - (normal[0] * (x + 0.5 - at[0]) + normal[1] * (y + 0.5 - at[1])) / normal[2];
      this.dot(x, y, z, colour);
    }
  }

  edge(a, b, ink) {
    const steps = Math.ceil(Math.max(Math.abs(b[0] - a[0]), Math.abs(b[1] - a[1]), 1));
    for (let i = 0; i <= steps; i++) {
      const [x, y, z] = [0, 1, 2].map((k) => a[k] + ((b[k] - a[k]) * i) / steps);
      for (const [dx, dy] of [[-1, -1], [-1, 0], [0, -1], [0, 0]]) {
        this.dot(Math.round(x + dx), Math.round(y + dy), z + NEARER, ink);
      }
    }
  }

  dot(x, y, z, colour) {
    const at = y * SIZE + x;
    if (x < 0 || y < 0 || x >= SIZE || y >= SIZE || z < this.depth[at]) return;
    this.depth[at] = z;
    this.pixels[at] = 0xff000000 | (colour[2] << 16) | (colour[1] << 8) | colour[0];
  }
}

// The dialog around it.
class Large {
  constructor(dialog, data) {
    this.dialog = dialog;
    this.data = data;
    this.stage = new Stage(dialog.querySelector("canvas"), data);
    this.listen();
  }

  show(number) {
    this.number = (number + this.data.entries.length) % this.data.entries.length;
    const entry = this.data.entries[this.number];
    this.dialog.querySelector("h2").textContent = `Entry ${this.number}`;
    this.dialog.querySelector(".words").textContent = entry.words;
    this.stage.canvas.setAttribute("aria-label", `Entry ${this.number}: ${entry.words}`);
    if (!this.dialog.open) this.dialog.showModal();
    history.replaceState(null, "", `#entry-${this.number}`);
    this.draw();
  }

  draw() {
    this.stage.draw(this.data.entries[this.number]);
  }

  listen() {
    const actions = {
      left: () => this.stage.turnBy(-STEP, 0),
      right: () => this.stage.turnBy(STEP, 0),
      up: () => this.stage.turnBy(0, -STEP),
      down: () => this.stage.turnBy(0, STEP),
      near: () => (this.stage.zoom = Math.min(6, this.stage.zoom * 1.15)),
      far: () => (this.stage.zoom = Math.max(0.3, this.stage.zoom / 1.15)),
      back: () => this.stage.reset(),
      before: () => this.show(this.number - 1),
      next: () => this.show(this.number + 1),
      close: () => this.dialog.close(),
    };
    const act = (name) => {
      actions[name]();
      if (this.dialog.open) this.draw();
    };
    for (const button of this.dialog.querySelectorAll("[data-do]")) {
      button.addEventListener("click", () => act(button.dataset.do));
    }
    this.dialog.addEventListener("keydown", (event) => {
      if (!KEYS[event.key]) return;
      event.preventDefault();
      act(KEYS[event.key]);
    });
    this.dialog.addEventListener("close", () => history.replaceState(null, "", location.pathname));
    this.listenToPointer();
    const dark = matchMedia("(prefers-color-scheme: dark)");
    dark.addEventListener("change", () => this.dialog.open && this.draw());
  }

  listenToPointer() {
    const canvas = this.stage.canvas;
    let held = null;
    canvas.addEventListener("pointerdown", (event) => {
      held = event;
      if (event.isTrusted) canvas.setPointerCapture(event.pointerId);
    });
    canvas.addEventListener("pointermove", (event) => {
      if (!held) return;
      const scale = 4 / canvas.clientWidth;
      this.stage.turnBy((event.clientX - held.clientX) * scale, (event.clientY - held.clientY) * scale);
      held = event;
      this.draw();
    });
    for (const end of ["pointerup", "pointercancel"]) canvas.addEventListener(end, () => (held = null));
    canvas.addEventListener("wheel", (event) => {
      event.preventDefault();
      this.stage.zoom = Math.min(6, Math.max(0.3, this.stage.zoom * Math.exp(-event.deltaY / 500)));
      this.draw();
    });
  }
}

if (table) startTable();
const data = document.getElementById("data");
if (data) {
  const large = new Large(document.querySelector("dialog"), JSON.parse(data.textContent));
  for (const button of document.querySelectorAll("button.open")) {
    button.addEventListener("click", () => large.show(Number(button.dataset.entry)));
  }
  const asked = location.hash.match(/^#entry-(\d+)$/);
  if (asked) large.show(Number(asked[1]));
}
