/* Mouse, touch and keys over the plane. */
"use strict";

function at(event) {
  const box = plane.getBoundingClientRect();
  return [event.clientX - box.left, event.clientY - box.top];
}

function sides([x, y], [x2, y2]) {
  return [Math.min(x, x2), Math.min(y, y2), Math.max(x, x2), Math.max(y, y2)];
}

/* Says where the pointer or the cross is, and how many points its square has. */
function tellWhere(x, y) {
  let text = (isFlat() ? [x] : [x, y]).map(c => label(c, Math.max(1, (frame[2] - frame[0]) / 1000))).join("  ");
  const view = state.view;
  if (view) {
    const near = view.across === 1 ? 4 / inside().width * (frame[2] - frame[0]) : 0;
    const found = view.squares.find(([left, bottom]) => x >= left - near && x < left + view.across + near
      && (isFlat() || y >= bottom - near && y < bottom + view.up + near));
    if (found) text += `: ${many(found[2], "point")}`;
  }
  byId("where").textContent = text;
}

/* ---- pointers */

plane.addEventListener("pointerdown", event => {
  if (event.button !== 0 || !frame) return;
  plane.setPointerCapture(event.pointerId);
  state.pointers.set(event.pointerId, at(event));
  state.cross = null;
  if (state.pointers.size === 2) {
    state.drag = null;
    if (state.drawing && mode() === "box") cancel();
    keep();
    state.pinch = { frame, from: [...state.pointers.values()] };
  } else if (state.pointers.size === 1) {
    state.drag = { from: at(event), frame, begin: toPlane(...at(event)), moved: false };
  }
});

plane.addEventListener("pointermove", event => {
  if (!frame) return;
  const here = at(event);
  if (state.pointers.has(event.pointerId)) state.pointers.set(event.pointerId, here);
  if (state.pinch && state.pointers.size === 2) return pinch();
  tellWhere(...toPlane(...here));
  const drag = state.drag;
  if (!drag) return;
  if (!drag.moved && Math.hypot(here[0] - drag.from[0], here[1] - drag.from[1]) < 4) return;
  if (!drag.moved && mode() === "move") keep();
  drag.moved = true;
  if (mode() === "move") {
    frame = moved(drag.frame, here[0] - drag.from[0], here[1] - drag.from[1]);
    refresh();
  } else if (mode() === "box") {
    startDrawing();
    state.query = { kind: "box", frame: sides(drag.begin, toPlane(...here)) };
    draw();
  }
});

/* A frame, moved by so many dots. */
function moved([left, bottom, right, top], dx, dy) {
  const room = inside(), across = dx / room.width * (right - left), up = dy / room.height * (top - bottom);
  return [left - across, bottom + up, right - across, top + up];
}

/* Two fingers move and zoom. */
function pinch() {
  const [a, b] = state.pinch.from, [c, d] = [...state.pointers.values()];
  const by = Math.max(Math.hypot(a[0] - b[0], a[1] - b[1]), 8) / Math.max(Math.hypot(c[0] - d[0], c[1] - d[1]), 8);
  frame = moved(state.pinch.frame, (c[0] + d[0] - a[0] - b[0]) / 2, (c[1] + d[1] - a[1] - b[1]) / 2);
  frame = zoomed(by, ...toPlane((c[0] + d[0]) / 2, (c[1] + d[1]) / 2));
  refresh();
}

function lifted(event) {
  const drag = state.drag, here = at(event), wasPinch = state.pinch;
  state.pointers.delete(event.pointerId);
  state.drag = null;
  if (!state.pointers.size) state.pinch = null;
  if (event.type === "pointercancel" && state.drawing && mode() === "box" && !state.corner) return cancel();
  if (wasPinch || !drag || event.type === "pointercancel") return draw();
  if (mode() === "box" && drag.moved) ask({ kind: "box", frame: sides(drag.begin, toPlane(...here)) });
  else if (!drag.moved || mode() !== "move") set(toPlane(...here), drag.moved);
}

plane.addEventListener("pointerup", lifted);
plane.addEventListener("pointercancel", lifted);
plane.addEventListener("dblclick", () => mode() === "polygon" && closeRing());
plane.addEventListener("wheel", event => {
  event.preventDefault();
  if (!frame) return;
  if (!state.wheel || event.timeStamp > state.wheel + 800) keep();
  state.wheel = event.timeStamp;
  frame = zoomed(Math.exp(Math.sign(event.deltaY) * Math.min(Math.abs(event.deltaY), 200) * .0018), ...toPlane(...at(event)));
  refresh();
}, { passive: false });

/* Sets a place in the way of the mode. */
function set(place) {
  if (mode() === "nearest") {
    ask({ kind: "nearest", at: place });
  } else if (mode() === "box") {
    if (state.corner) return ask({ kind: "box", frame: sides(state.corner, place) });
    startDrawing();
    Object.assign(state, { corner: place, query: { kind: "box", frame: sides(place, place) } });
    draw();
  } else if (mode() === "polygon") {
    const last = state.ring.at(-1), [x, y] = toScreen(...place), [x2, y2] = last ? toScreen(...last) : [NaN, NaN];
    startDrawing();
    if (!(Math.hypot(x - x2, y - y2) < 3)) state.ring.push(place);
    state.query = { kind: "polygon", ring: [...state.ring] };
    byId("done").hidden = state.ring.length < 3;
    draw();
  }
}

function closeRing() {
  if (state.ring.length >= 3) ask({ kind: "polygon", ring: [...state.ring], closed: true });
}

/* ---- keys */

const MODES = { m: "move", b: "box", p: "polygon", n: "nearest" };
const ARROWS = { ArrowLeft: [-1, 0], ArrowRight: [1, 0], ArrowUp: [0, -1], ArrowDown: [0, 1] };

function middle() {
  const room = inside();
  return [room.left + room.width / 2, room.top + room.height / 2];
}

function arrow([dx, dy], isFine) {
  if (mode() === "move") {
    const room = inside();
    return show(moved(frame, -dx * room.width / 8, -dy * room.height / 8));
  }
  const room = inside(), by = isFine ? 1 : 12, [x, y] = state.cross || middle();
  state.cross = [Math.min(Math.max(x + dx * by, room.left), room.left + room.width), Math.min(Math.max(y + dy * by, room.top), room.top + room.height)];
  if (state.corner) state.query = { kind: "box", frame: sides(state.corner, toPlane(...state.cross)) };
  tellWhere(...toPlane(...state.cross));
  draw();
}

function choose(name) {
  const choice = document.querySelector(`input[value=${name}]`);
  choice.checked = true;
  choice.dispatchEvent(new Event("change"));
}

/* Does what a key says; answers whether it says something. */
function pressed(event) {
  const key = event.key.length === 1 ? event.key.toLowerCase() : event.key, [x, y] = toPlane(...(state.cross || middle()));
  if (key in ARROWS) arrow(ARROWS[key], event.shiftKey);
  else if (key === "+" || key === "=") show(zoomed(.5, x, y));
  else if (key === "-") show(zoomed(2, x, y));
  else if (key === "0") showAll();
  else if (key === "u" || key === "Backspace" || key === "z") undo();
  else if (key === "c") closeRing();
  else if (key === "t") byId("counts").click();
  else if (key in MODES) choose(MODES[key]);
  else if ((key === "Enter" || key === " ") && mode() !== "move") {
    state.cross = state.cross || middle();
    set(toPlane(...state.cross));
  } else return false;
  return true;
}

plane.addEventListener("keydown", event => {
  const isUndo = (event.ctrlKey || event.metaKey) && event.key.toLowerCase() === "z";
  if (!frame || !isUndo && (event.ctrlKey || event.metaKey || event.altKey)) return;
  if (pressed(event)) event.preventDefault();
});
document.addEventListener("keydown", event => { if (event.key === "Escape" && frame) letGo(); });

/* ---- what is beside the plane */

for (const choice of document.querySelectorAll("input[name=mode]")) {
  choice.addEventListener("change", () => {
    if (state.drawing) cancel();
    plane.classList.toggle("move", mode() === "move");
    byId("howmany").hidden = mode() !== "nearest";
    byId("done").hidden = true;
    draw();
  });
}
for (const name of ["x", "y"]) {
  byId(name).addEventListener("change", () => {
    const other = name === "x" ? "y" : "x";
    if (byId("x").value === byId("y").value) byId(other).value = [...byId(other).options].find(o => o.value !== byId(name).value).value;
    if (state.drawing) cancel();
    Object.assign(state, { query: null, answer: null, view: null });
    showAnswer();
    showAll();
    state.past = [];
  });
}
byId("in").addEventListener("click", () => frame && show(zoomed(.5, ...toPlane(...middle()))));
byId("out").addEventListener("click", () => frame && show(zoomed(2, ...toPlane(...middle()))));
byId("all").addEventListener("click", () => state.about && showAll());
byId("undo").addEventListener("click", () => frame && undo());
byId("clear").addEventListener("click", () => frame && letGo());
byId("done").addEventListener("click", closeRing);
byId("degrees").addEventListener("change", () => {
  if (!state.about) return;
  chooseScale();
  draw();
  if (state.view) tellShown();
  showAnswer();
});
byId("counts").addEventListener("change", draw);
byId("check").addEventListener("click", () => tried(check));
matchMedia("(prefers-color-scheme: dark)").addEventListener("change", draw);
new ResizeObserver(() => {
  if (!frame) return;
  const [left, bottom, right, top] = frame, room = inside(), high = (right - left) / room.width * room.height / 2;
  frame = [left, (bottom + top) / 2 - high, right, (bottom + top) / 2 + high];
  refresh();
}).observe(plane);

async function begin() {
  if (await tried(loadAbout)) {
    showAll();
    state.past = [];
    watch();
  } else {
    setTimeout(begin, EVERY);
  }
}

plane.classList.add("move");
begin();
