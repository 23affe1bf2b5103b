/* Draws a part of the plane on a canvas: axes, squares of points, what was found, and what is being drawn. */
"use strict";
const plane = document.getElementById("plane"), ink = plane.getContext("2d");
let frame = null, colours = {}, scale = { unit: 1, sign: "" };

/* The part of the canvas inside the axes, in dots. */
function inside() {
  const narrow = plane.clientWidth < 520;
  const left = narrow ? 54 : 84, bottom = 26, top = 10, right = 10;
  return { left, top, width: Math.max(plane.clientWidth - left - right, 10), height: Math.max(plane.clientHeight - top - bottom, 10) };
}

function toScreen(x, y) {
  const room = inside(), [left, bottom, right, top] = frame;
  return [room.left + (x - left) / (right - left) * room.width, room.top + (top - y) / (top - bottom) * room.height];
}

function toPlane(px, py) {
  const room = inside(), [left, bottom, right, top] = frame;
  return [left + (px - room.left) / room.width * (right - left), top - (py - room.top) / room.height * (top - bottom)];
}

/* A frame round these sides, of the form of the canvas and with some room. */
function fitted(left, bottom, right, top) {
  const room = inside(), form = room.width / room.height;
  const height = Math.max(top - bottom, (right - left) / form, 4) * 1.06, width = height * form;
  const x = (left + right) / 2, y = (bottom + top) / 2;
  return [x - width / 2, y - height / 2, x + width / 2, y + height / 2];
}

/* The frame about a place, so many times as wide; between a few coordinates and twice all. */
function zoomed(by, x, y) {
  const [left, bottom, right, top] = frame, width = (right - left) * by;
  if (width < 4 || width > 2 ** 33) return frame;
  return [x - (x - left) * by, y - (y - bottom) * by, x + (right - x) * by, y + (top - y) * by];
}

function clear() {
  const dots = window.devicePixelRatio || 1;
  plane.width = Math.round(plane.clientWidth * dots);
  plane.height = Math.round(plane.clientHeight * dots);
  ink.setTransform(dots, 0, 0, dots, 0, 0);
  const style = getComputedStyle(document.documentElement);
  for (const name of ["ground", "line", "text", "soft", "many", "found", "partly", "grid"]) colours[name] = style.getPropertyValue("--" + name).trim();
  ink.fillStyle = colours.ground;
  ink.fillRect(0, 0, plane.clientWidth, plane.clientHeight);
}

/* Draws inside the axes only. */
function clipped(work) {
  const room = inside();
  ink.save();
  ink.beginPath();
  ink.rect(room.left, room.top, room.width, room.height);
  ink.clip();
  work();
  ink.restore();
}

/* ---- axes */

/* A round step of 1, 2 or 5 times a power of ten, in coordinates. */
function roundStep(width, count) {
  const least = width / Math.max(count, 1), power = 10 ** Math.floor(Math.log10(least));
  const step = [1, 2, 5, 10].find(by => by * power >= least) * power;
  return Math.max(1, step);
}

/* A coordinate in the index's scale, to as many places as a step needs. */
function label(value, step) {
  const places = Math.max(0, -Math.floor(Math.log10(step / scale.unit) + 1e-9));
  const text = (Math.round(value) / scale.unit).toLocaleString("en", { minimumFractionDigits: places, maximumFractionDigits: places });
  return text.replace(/^-(?=[0.]+$)/, "") + scale.sign;  // (no zero has a sign)
}

function drawAxes(isFlat) {
  const room = inside(), [left, bottom, right, top] = frame;
  ink.font = "12px system-ui, 'DejaVu Sans', sans-serif";
  ink.lineWidth = 1;
  const across = roundStep(right - left, room.width / 110), up = roundStep(top - bottom, room.height / 60);
  const line = (x, y, x2, y2) => { ink.beginPath(); ink.moveTo(x, y); ink.lineTo(x2, y2); ink.stroke(); };
  ink.strokeStyle = colours.grid;
  ink.fillStyle = colours.soft;
  ink.textAlign = "center";
  ink.textBaseline = "top";
  for (let x = Math.ceil(left / across) * across; x <= right; x += across) {
    const [px] = toScreen(x, bottom);
    line(px, room.top, px, room.top + room.height);
    const text = label(x, across), half = ink.measureText(text).width / 2;
    ink.fillText(text, Math.min(Math.max(px, half), plane.clientWidth - half - 1), room.top + room.height + 7);
  }
  ink.textAlign = "right";
  ink.textBaseline = "middle";
  for (let y = Math.ceil(bottom / up) * up; y <= top && !isFlat; y += up) {
    const [, py] = toScreen(left, y);
    line(room.left, py, room.left + room.width, py);
    upText(label(y, up), room.left - 6, py);
  }
  ink.strokeStyle = colours.line;
  ink.strokeRect(room.left - .5, room.top - .5, room.width + 1, room.height + 1);
}

/* Lines of coasts, in degrees; those that lie beside the frame aren't drawn. */
function drawCoasts(lines) {
  const [left, bottom, right, top] = frame.map(c => c / scale.unit);
  ink.strokeStyle = colours.soft;
  ink.lineWidth = 1;
  ink.globalAlpha = .7;
  ink.beginPath();
  for (const line of lines) {
    for (let i = 0; i + 3 < line.length; i += 2) {
      const [x, y, x2, y2] = line.slice(i, i + 4);
      if (Math.max(x, x2) < left || Math.min(x, x2) > right || Math.max(y, y2) < bottom || Math.min(y, y2) > top) continue;
      ink.moveTo(...toScreen(x * scale.unit, y * scale.unit));
      ink.lineTo(...toScreen(x2 * scale.unit, y2 * scale.unit));
    }
  }
  ink.stroke();
  ink.globalAlpha = 1;
}

/* A number beside the axis, shortened where it has no room. */
function upText(text, x, y) {
  let size = 12;
  while (size > 7 && ink.measureText(text).width > x - 1) ink.font = `${--size}px system-ui, 'DejaVu Sans', sans-serif`;
  ink.fillText(text, x, y);
  ink.font = "12px system-ui, 'DejaVu Sans', sans-serif";
}

/* ---- points */

/* Squares darker the more points they have; single coordinates as dots, with their number where they are many. */
function drawSquares(view, squares, colour, least, isFlat) {
  const most = Math.log1p(view.most || 1), isDot = view.across === 1 && view.up === 1;
  const [x0, y0] = toScreen(0, 0), [x1, y1] = toScreen(view.across, view.up);
  const wide = Math.max(x1 - x0, 1), high = isFlat ? 26 : Math.max(y0 - y1, 1);
  ink.fillStyle = colour;
  for (const [x, y, n] of squares) {
    ink.globalAlpha = isDot ? 1 : least + (1 - least) * Math.log1p(n) / most;
    if (isDot) {
      const [px, py] = toScreen(x, y), far = Math.min(2.4 + Math.log2(n), 9);
      ink.beginPath();
      ink.arc(px, py, far, 0, 7);
      ink.fill();
    } else {
      const [px, py] = toScreen(x, y);
      ink.fillRect(px, isFlat ? py - 13 : py - high, wide + .3, high + .3);
    }
  }
  ink.globalAlpha = 1;
  if (isDot && wide > 26) drawCounts(squares);
}

/* ---- how many there are: squares joined to cells that have room for their number */

/* The fewest dots of a cell's sides. */
const CELL_WIDE = 84, CELL_HIGH = 52;
const short = n => n < 100000 ? n.toLocaleString("en") : n.toLocaleString("en", { notation: "compact", maximumFractionDigits: 1 });

/* A cell's side: a square's, doubled until it has so many dots. */
function cellSide(side, dots, least) {
  let by = 1;
  while (dots > 0 && dots * by < least) by *= 2;
  return side * by;
}

/* The cells of a view, with their counts. */
function cellsOf(view, isFlat) {
  const [x0, y0] = toScreen(0, 0), [x1, y1] = toScreen(view.across, view.up);
  const across = cellSide(view.across, x1 - x0, CELL_WIDE), up = isFlat ? 1 : cellSide(view.up, y0 - y1, CELL_HIGH);
  const counts = new Map();
  for (const [x, y, n] of view.squares) {
    const at = [Math.floor(x / across) * across, isFlat ? 0 : Math.floor(y / up) * up], key = at.join();
    counts.set(key, { at, n: n + (counts.has(key) ? counts.get(key).n : 0) });
  }
  return { across, up, cells: [...counts.values()] };
}

/* Cells by thin lines, with their number in the middle. */
function drawCells({ across, up, cells }, isFlat) {
  ink.font = "12px system-ui, 'DejaVu Sans', sans-serif";
  ink.textAlign = "center";
  ink.textBaseline = "middle";
  ink.lineJoin = "round";
  for (const { at: [x, y], n } of cells) {
    const [left, below] = toScreen(x, y), [right, above] = toScreen(x + across, isFlat ? y : y + up);
    ink.strokeStyle = colours.line;
    ink.lineWidth = 1;
    ink.globalAlpha = .7;
    if (!isFlat) ink.strokeRect(left, above, right - left, below - above);
    ink.globalAlpha = 1;
    ink.strokeStyle = colours.ground;
    ink.lineWidth = 4;
    const px = (left + right) / 2, py = isFlat ? above - 24 : (above + below) / 2;
    ink.strokeText(short(n), px, py);
    ink.fillStyle = colours.text;
    ink.fillText(short(n), px, py);
  }
}

function drawCounts(squares) {
  ink.fillStyle = colours.text;
  ink.font = "11px system-ui, 'DejaVu Sans', sans-serif";
  ink.textAlign = "left";
  ink.textBaseline = "bottom";
  for (const [x, y, n] of squares) {
    if (n > 1) {
      const [px, py] = toScreen(x, y);
      ink.fillText("\u00d7" + n.toLocaleString("en"), px + 7, py - 4);
    }
  }
}

/* ---- what is asked */

function drawQuery(query, isFlat) {
  if (!query) return;
  ink.strokeStyle = colours.found;
  ink.lineWidth = 2;
  ink.beginPath();
  if (query.kind === "box") {
    const [left, bottom, right, top] = query.frame, [x, y] = toScreen(left, top), [x2, y2] = toScreen(right, bottom);
    ink.rect(x, y, x2 - x, y2 - y);
  } else if (query.kind === "polygon") {
    query.ring.forEach((corner, i) => ink[i ? "lineTo" : "moveTo"](...toScreen(...corner)));
    if (query.closed) ink.closePath();
    for (const corner of query.ring) {
      const [x, y] = toScreen(...corner);
      ink.rect(x - 3, y - 3, 6, 6);
    }
  } else {
    const [x, y] = toScreen(...query.at);
    ink.moveTo(x - 8, y);
    ink.lineTo(x + 8, y);
    ink.moveTo(x, y - 8);
    ink.lineTo(x, y + 8);
    if (query.reach && !isFlat) {
      const [x2] = toScreen(query.at[0] + query.reach, 0);
      ink.moveTo(x2, y);
      ink.arc(x, y, Math.max(x2 - x, 0), 0, 7);
    }
  }
  ink.stroke();
}

/* The cross that keys move. */
function drawCross([x, y]) {
  const room = inside();
  ink.strokeStyle = colours.text;
  ink.lineWidth = 1;
  ink.setLineDash([4, 3]);
  ink.beginPath();
  ink.moveTo(room.left, y);
  ink.lineTo(room.left + room.width, y);
  ink.moveTo(x, room.top);
  ink.lineTo(x, room.top + room.height);
  ink.stroke();
  ink.setLineDash([]);
}
