/* What stands beside the plane of the page: the answer, the index, the check. */
"use strict";

/* ---- the answer */

const shown = value => typeof value === "number" ? value.toLocaleString("en") : value;
const firstOf = (some, all) => `The first ${some.length} of ${all.toLocaleString("en")}`;

function made(tag, content, name) {
  const it = document.createElement(tag);
  it.textContent = content;
  if (name) it.id = name;
  return it;
}

function listed(pairs) {
  const list = document.createElement("dl");
  for (const [name, value] of pairs) list.append(made("dt", name), made("dd", shown(value)));
  return list;
}

function showAnswer() {
  const told = state.answer;
  if (!told) {
    byId("answer").textContent = "Nothing was asked. Draw a box, a polygon, or a place whose nearest are wanted.";
    return;
  }
  const { tested, touched } = told.explained, parts = [made("code", told.line)];
  const rows = [["documents found", told.count]];
  if (told.drawn) {
    rows.push([told.kind === "nearest" ? "points that are as near" : "points found", told.drawn.points]);
    const partly = told.drawn.partly.reduce((sum, square) => sum + square[2], 0);
    if (partly) rows.push(["points in squares that an edge meets", partly]);
  }
  if (tested !== null) rows.push(["points tested, in leaves that its edge crosses", tested]);
  rows.push(["leaves read at most", touched]);
  if (told.milliseconds !== null) rows.push(["run of the program", told.milliseconds.toFixed(1) + " ms"]);
  parts.push(listed(rows));
  parts.push(made("p", drawnOf(told), "drawn"));
  parts.push(numbersOf(told));
  byId("answer").replaceChildren(...parts);
}

/* How many were found, and how many points of them are drawn and how. */
function drawnOf(told) {
  const found = `${many(told.count, "document")} found`, { drawn } = told;
  if (!drawn) return `${found}, 0 points drawn: not in these dimensions.`;
  const partly = drawn.partly.reduce((sum, square) => sum + square[2], 0);
  const some = partly ? ` ${many(partly, "point")} more, of which some are found, in ${many(drawn.partly.length, "square")} that an edge meets.` : "";
  const which = told.kind === "nearest" ? "as near" : "of them";
  return `${found}, ${many(drawn.points, "point")} ${which} drawn ${size(drawn)}.${some}`;
}

function numbersOf(told) {
  const part = made("div", "", "numbers");
  if (told.near) {
    if (told.count > told.near.length) part.append(made("p", `${firstOf(told.near, told.count)}:`));
    const table = document.createElement("table"), head = table.createTHead().insertRow();
    for (const name of ["number", "squared distance"]) head.append(Object.assign(made("th", name), { scope: "col" }));
    const body = table.createTBody();
    for (const [number, distance] of told.near) {
      const line = body.insertRow();
      line.insertCell().textContent = number;
      line.insertCell().textContent = distance.toLocaleString("en");
    }
    part.append(table);
  } else if (!told.numbers) {
    part.append(made("p", `0 of ${many(told.count, "number")} listed: they are too many.`));
  } else {
    if (told.count > told.numbers.length) part.append(made("p", `${firstOf(told.numbers, told.count)} numbers:`));
    part.append(made("p", told.numbers.join(" ")));
  }
  return part;
}

/* ---- the index */

async function loadAbout() {
  const first = !state.about;
  state.about = await fetched("about");
  const { folder, dims, leaf, next, given, live, bytes, segments, files } = state.about;
  byId("folder").textContent = folder.split("/").pop();
  byId("path").textContent = folder;
  document.title = `${folder.split("/").pop()} \u2013 bkd`;
  byId("fresh").textContent = `${many(live, "live document")}, as stored at ${new Date().toLocaleTimeString("en-GB")}`;
  const [stored, dead] = ["entries", "dead"].map(name => segments.reduce((sum, one) => sum + one[name], 0));
  byId("about").replaceChildren(...listed([
    ["dimensions", dims], ["live documents", live], ["points stored, deleted ones among them", stored],
    ["of deleted documents", deadShare(stored, dead)],
    ["next number", next], ["points ever given", given], ["points a leaf at most", leaf], ["bytes needed", bytes],
  ]).children);
  byId("segments").replaceChildren(...segments.map(one => row([one.id, one.entries, one.live, deadShare(one.entries, one.dead), one.leaves])));
  byId("snapshots").textContent = snapshotsOf(files);
  const need = one => one.kind === "needed" ? "yes" : one.kind;
  byId("files").replaceChildren(...files.map(one => row([one.name, one.size, need(one)])));
  if (first) chooseAxes();
}

/* Which share of points is of deleted documents; at most, where documents have several points. */
function deadShare(entries, dead) {
  const share = entries ? 100 * dead / entries : 0;
  return `${dead && !state.about.single ? "\u2264 " : ""}${share.toFixed(share > 0 && share < 1 ? 2 : 0)} %`;
}

/* Of snapshots there is nothing in a folder; files that no commit needs are what a run left that was ended. */
function snapshotsOf(files) {
  const left = files.filter(one => one.kind === "left over"), size = left.reduce((sum, one) => sum + one.size, 0);
  const none = "Snapshots: none is stored. Each is its session's own, and ends with it.";
  return left.length ? `${none} ${many(left.length, "file")} of ${many(size, "byte")} can go, by the program's clean.` : none;
}

function row(values) {
  const line = document.createElement("tr");
  for (const value of values) line.insertCell().textContent = shown(value);
  return line;
}

function chooseAxes() {
  const { dims, bounds, degrees } = state.about;
  for (const [name, chosen] of [["x", 0], ["y", Math.min(1, dims - 1)]]) {
    const options = Array.from({ length: dims }, (_, d) => new Option(d, d, false, d === chosen));
    byId(name).replaceChildren(...options);
  }
  byId("axes").hidden = dims < 3;
  byId("degrees").checked = degrees === null ? lookLikeDegrees() : degrees;
  chooseScale();
}

/* Whether coordinates may be longitude and latitude: where the index tells no other scale, and they go far enough. */
function lookLikeDegrees() {
  const { dims, bounds, decimals } = state.about, unit = 10 ** (decimals ?? 7);
  if (dims !== 2 || !bounds || decimals === 0) return false;
  const [[west, south], [east, north]] = bounds.map(corner => corner.map(c => c / unit));
  return west >= -180 && east <= 180 && south >= -90 && north <= 90 && east - west > 5;
}

/* Numbers are told in the index's own scale, or as degrees at 10^-7. */
function chooseScale() {
  const { decimals } = state.about, isDegrees = byId("degrees").checked;
  scale = { unit: 10 ** (decimals ?? (isDegrees ? 7 : 0)), sign: isDegrees ? "\u00b0" : "" };
  tellCoasts();
}

/* ---- coast lines, where longitude goes across and latitude up */

const hasCoasts = () => state.coasts !== null && byId("degrees").checked && axes().x === 0 && axes().y === 1;

/* Says whose lines are drawn, or why none are; they are asked for once. */
async function tellCoasts() {
  byId("coasts").hidden = !byId("degrees").checked || isFlat();
  if (byId("coasts").hidden) return;
  try {
    state.coasts = state.coasts || await fetched("coasts");
    const { source, lacks } = state.coasts;
    byId("coasts").textContent = lacks ? `No coast lines: ${lacks}.` : `Coast lines: ${source}.`;
  } catch (error) {
    byId("coasts").textContent = `No coast lines: ${error.message}.`;
  }
  draw();
}

/* ---- the check */

/* What is damaged, each of its parts by name, and what can be done about it. */
function showDamage({ damage, remedy }) {
  byId("damage").hidden = !damage && !remedy;
  byId("damage").replaceChildren();
  if (damage) byId("damage").append(listed(Object.entries(damage)));
  for (const line of remedy || []) byId("damage").append(made("p", line));
}

async function check() {
  showDamage({});
  let told = await fetched("check", { method: "POST" });
  byId("check").disabled = true;
  try {
    while (told.state === "runs") {
      byId("progress").hidden = false;
      byId("progress").value = told.size ? Math.min(told.read / told.size, 1) : 0;
      byId("checked").textContent = `reads: ${many(told.read, "byte")} of ${told.size.toLocaleString("en")}`;
      await new Promise(done => setTimeout(done, EVERY / 2));
      told = await fetched("check");
    }
    const found = { whole: "All is whole", damaged: "It is damaged" }[told.state] || "It can't be read";
    byId("checked").textContent = `${found}, after ${told.seconds.toFixed(1)} s: ${told.said}`;
    showDamage(told);
  } finally {
    byId("progress").hidden = true;
    byId("check").disabled = false;
  }
}
