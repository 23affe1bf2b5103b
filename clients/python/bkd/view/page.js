/* The page of `python -m bkd.view`: shows what the server tells of the index, and asks what is drawn. */
"use strict";
const byId = name => document.getElementById(name);
const state = {
  about: null, view: null, answer: null, query: null, drawing: false, ring: [], corner: null, cross: null,
  pointers: new Map(), drag: null, coasts: null, cells: null, pinch: null, past: [], wait: 0, slow: true, asked: 0, viewed: 0,
};
// milliseconds between two looks at the commit, before a view is asked for, and that make one slow, so that the next
// is first asked for by larger squares; steps that may be taken back
const EVERY = 500, LATER = 60, SLOW = 400, MOST_PAST = 100;

const mode = () => document.querySelector("input[name=mode]:checked").value;
const axes = () => ({ x: +byId("x").value, y: +byId("y").value });
const isFlat = () => state.about && state.about.dims === 1;
const many = (n, word) => `${n.toLocaleString("en")} ${word}${n === 1 ? "" : "s"}`;

/* ---- the server */

async function fetched(path, options) {
  let reply;
  try {
    reply = await fetch(path, options);
  } catch {
    throw new Error("the server doesn't answer");
  }
  const told = await reply.json();
  if (!reply.ok) throw Object.assign(new Error(told.error), { status: reply.status });
  return told;
}

/* Runs some work and shows what goes wrong; answers whether it went well. */
async function tried(work) {
  try {
    await work();
    byId("error").textContent = "";
    return true;
  } catch (error) {
    byId("error").textContent = error.message;
    return false;
  }
}

function refresh() {
  draw();
  clearTimeout(state.wait);
  state.wait = setTimeout(() => tried(loadView), LATER);
}

async function loadView() {
  const room = inside(), number = ++state.viewed, asked = frame;
  for (const dots of state.slow ? [24, 4] : [4]) {
    const columns = Math.ceil(room.width / dots), rows = Math.ceil(room.height / dots), begun = performance.now();
    const told = await fetched("view?" + new URLSearchParams({ ...axes(), frame: asked.join(","), columns, rows }));
    if (number !== state.viewed) return;
    state.view = told;
    draw();
    tellShown();
    document.body.dataset.ready = "yes";
    if (isOne(told)) return;
    if (dots === 4) state.slow = performance.now() > begun + SLOW;
  }
}

/* Looks whether another commit was stored; then all is asked anew. */
async function watch() {
  if (!document.hidden && state.about) {
    try {
      const { mark } = await fetched("mark");
      if (mark !== state.about.mark) {
        await loadAbout();
        await loadView();
        if (state.query && state.answer) await loadAnswer();
      }
      if (byId("error").dataset.from === "watch") byId("error").textContent = "";
      delete byId("error").dataset.from;
    } catch (error) {
      byId("error").textContent = error.message;
      byId("error").dataset.from = "watch";
    }
  }
  setTimeout(watch, EVERY);
}

/* ---- drawing */

function draw() {
  if (!frame) return;
  clear();
  drawAxes(isFlat());
  clipped(() => {
    if (hasCoasts()) drawCoasts(state.coasts.lines);
    if (state.view) drawSquares(state.view, state.view.squares, colours.many, .18, isFlat());
    const found = state.answer && state.answer.drawn;
    if (found) {
      drawSquares(found, found.partly, colours.partly, .35, isFlat());
      drawSquares(found, found.squares, colours.found, .3, isFlat());
    }
    state.cells = state.view && !isOne(state.view) && byId("counts").checked ? cellsOf(state.view, isFlat()) : null;
    if (state.cells) drawCells(state.cells, isFlat());
    drawQuery(state.query, isFlat());
    if (state.cross && mode() !== "move") drawCross(state.cross);
  });
}

/* Whether squares are single coordinates. */
const isOne = view => view.across === 1 && view.up === 1;

function size(view) {
  if (isOne(view)) return "one by one";
  const told = [view.across, view.up].slice(0, isFlat() ? 1 : 2).map(n => scale.unit > 1 ? `${(n / scale.unit).toPrecision(2)}${scale.sign}` : n.toLocaleString("en"));
  return `by ${many(view.squares.length, isFlat() ? "piece" : "square")} of ${told.join(" \u00d7 ")}, ${many(view.most, "point")} in the fullest`;
}

function tellShown() {
  byId("shown").textContent = `${many(state.view.points, "point")} in view, drawn ${size(state.view)}`;
}

/* ---- steps that may be taken back */

function keep() {
  state.past.push({ frame, query: state.answer && state.query, answer: state.answer });
  if (state.past.length > MOST_PAST) state.past.shift();
}

/* Begins to draw a question; what was answered before comes again where it isn't asked. */
function startDrawing() {
  if (state.drawing) return;
  keep();
  ++state.asked;
  Object.assign(state, { drawing: true, answer: null });
}

/* Lets what is being drawn go. */
function cancel() {
  const { query, answer } = state.past.pop();
  Object.assign(state, { drawing: false, ring: [], corner: null, drag: null, query, answer });
  byId("done").hidden = true;
  showAnswer();
  draw();
}

function undo() {
  if (state.ring.length > 1) {
    state.ring.pop();
    state.query = { kind: "polygon", ring: [...state.ring] };
    byId("done").hidden = state.ring.length < 3;
    draw();
  } else if (state.drawing) {
    cancel();
  } else if (state.past.length) {
    const last = state.past.pop();
    Object.assign(state, { query: last.query, answer: last.answer });
    frame = last.frame;
    ++state.asked;
    showAnswer();
    refresh();
  }
}

/* Lets go what is being drawn, or else the answer. */
function letGo() {
  if (state.drawing) return cancel();
  if (!state.query) return;
  keep();
  ++state.asked;
  Object.assign(state, { query: null, answer: null });
  showAnswer();
  draw();
}

function show(next) {
  keep();
  frame = next;
  refresh();
}

function showAll() {
  const { dims, bounds } = state.about, { x, y } = axes();
  const [low, high] = bounds || [Array(dims).fill(0), Array(dims).fill(100)];
  show(fitted(low[x], isFlat() ? 0 : low[y], high[x], isFlat() ? 0 : high[y]));
}

/* ---- questions */

function ask(query) {
  if (!state.drawing) keep();
  Object.assign(state, { query, answer: null, drawing: false, ring: [], corner: null });
  byId("done").hidden = true;
  draw();
  delete document.body.dataset.answered;
  return tried(loadAnswer).finally(() => { document.body.dataset.answered = "yes"; });
}

async function loadAnswer() {
  const number = ++state.asked;
  byId("answer").textContent = "asks \u2026";
  const body = JSON.stringify({ ...state.query, ...axes(), k: +byId("k").value });
  try {
    const told = await fetched("ask", { method: "POST", headers: { "Content-Type": "application/json" }, body });
    if (number !== state.asked) return;
    state.answer = told;
    if (told.near && told.near.length) state.query = { ...state.query, reach: Math.sqrt(told.near.at(-1)[1]) };
  } finally {
    showAnswer();
    draw();
  }
}
