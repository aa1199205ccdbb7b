"use strict";
// The page's script: shows what stands in the element `data`, with the figures of figures.json.

const data = JSON.parse(document.getElementById("data").textContent);
const table = data.table;
const count = table.epoch.length;
const config = { responsive: true, displaylogo: false, modeBarButtonsToRemove: ["select2d", "lasso2d"] };
const ROWS_SHOWN = 100;
const MOST_MARKERS = 2000; // of one kind on the time line and on the map sheet
const MOST_WIRED = 3000; // boxes whose sides are drawn as lines too
const EXTENTS = ["east", "north", "up", "clock"];
const ANSWERS = ["inside", "open", "outside"]; // of a zone; of several the first one counts that one of them has
const MOST_NAMES = 6; // of zones in what is shown beside the pointer
// The corners of a box as bits x, y, z, where 1 is the high end; the twelve triangles and the twelve sides between them.
const TRIANGLES = [[0, 2, 3], [0, 3, 1], [4, 5, 7], [4, 7, 6], [0, 1, 5], [0, 5, 4], [2, 6, 7], [2, 7, 3], [0, 4, 6], [0, 6, 2],
  [1, 3, 7], [1, 7, 5]];
const SIDES = [[0, 1], [2, 3], [4, 5], [6, 7], [0, 2], [1, 3], [4, 6], [5, 7], [0, 4], [1, 5], [2, 6], [3, 7]];

const chosen = { position: -1, rows: [], first: 0, by: "epoch", down: false };
const element = (id) => document.getElementById(id);
const copy = (value) => JSON.parse(JSON.stringify(value));
const counted = (number, word) => `${number.toLocaleString("en")} ${word}${number === 1 ? "" : "es"}`;

function make(name, text, className) {
  const made = document.createElement(name);
  if (text !== undefined) made.textContent = text;
  if (className) made.className = className;
  return made;
}

function fillList(id, texts, className) {
  element(id).replaceChildren(...texts.map((text) => make("li", text, className && className(text))));
}

// Every k-th of the positions, where there are more than may be drawn.
function thinned(positions) {
  const every = Math.ceil(positions.length / MOST_MARKERS);
  return positions.filter((_, k) => k % every === 0);
}

const allPositions = () => Array.from({ length: count }, (_, k) => k);
const marked = (mark) => allPositions().filter((k) => table.mark[k] === mark);
const numberAt = (name, position) => (table[name][position] === "" ? null : Number(table[name][position]));

// ---- what an epoch says of zones

const zonesSaid = (position, answer) => data.zones.filter((zone) => table[zone.column][position] === answer);

function namesOf(zones) {
  const names = zones.slice(0, MOST_NAMES).map((zone) => zone.name).join(", ");
  return zones.length > MOST_NAMES ? `${names} and ${zones.length - MOST_NAMES} more` : names;
}

// The zones that an epoch is inside of, or is open to; where there are none, that it is outside of all.
function answersText(position) {
  const said = ANSWERS.slice(0, 2).map((answer) => [answer, zonesSaid(position, answer)]).filter(([, zones]) => zones.length > 0);
  if (said.length > 0) return said.map(([answer, zones]) => `${answer}: ${namesOf(zones)}`).join("<br>");
  return zonesSaid(position, "outside").length > 0 ? "outside of all zones" : "";
}

// A trace that shows beside the pointer what the epochs of its points say of zones.
function withAnswers(trace) {
  if (data.zones.length === 0) return trace;
  const hovertext = trace.customdata.map((position) => (position === null ? "" : answersText(position)));
  const [shown, rest] = trace.hovertemplate.split("<extra>");
  return { ...trace, hovertext, hovertemplate: `${shown}<br>%{hovertext}${rest === undefined ? "" : `<extra>${rest}`}` };
}

// ---- the time line

// All positions, with null where the number of an epoch isn't that behind the one before.
function positionsWithGaps() {
  const positions = [];
  for (let k = 0; k < count; k++) {
    if (k > 0 && Number(table.epoch[k]) !== Number(table.epoch[k - 1]) + 1) positions.push(null);
    positions.push(k);
  }
  return positions;
}

// A trace of a column over time; a position that is null makes a gap.
function overTime(style, name, panel, positions) {
  const trace = copy(style);
  const before = (k) => positions[k] ?? positions[k - 1];
  trace.x = positions.map((_, k) => table.time[before(k)]);
  trace.y = positions.map((position) => (position === null ? null : numberAt(name, position)));
  trace.customdata = positions;
  trace.text = positions.map((position) => (position === null ? "" : table.epoch[position]));
  trace.xaxis = "x";
  trace.yaxis = panel === 0 ? "y" : `y${panel + 1}`;
  return withAnswers(trace);
}

// The positions with a value whose neighbours have none, which a line alone wouldn't show.
function alone(name, positions) {
  const has = (k) => positions[k] !== undefined && positions[k] !== null && table[name][positions[k]] !== "";
  return positions.filter((position, k) => has(k) && !has(k - 1) && !has(k + 1));
}

function timeTraces() {
  const { line, marks } = data.figures.time;
  const positions = positionsWithGaps();
  const withMarkers = count <= MOST_MARKERS ? "lines+markers" : "lines";
  const traces = [...EXTENTS, "satellites"].map((name, panel) =>
    overTime({ ...line, mode: withMarkers }, name, panel, positions));
  if (count > MOST_MARKERS) {
    EXTENTS.forEach((name, panel) =>
      traces.push(overTime({ ...line, mode: "markers" }, name, panel, thinned(alone(name, positions)))));
  }
  for (const [mark, style] of Object.entries(marks)) {
    const places = thinned(marked(mark));
    if (places.length === 0) continue;
    traces.push(overTime(style, "satellites", 4, places));
    if (mark !== "reaches") continue;
    EXTENTS.slice(0, 3).forEach((name, panel) =>
      traces.push(overTime({ ...style, showlegend: false, marker: { ...style.marker, size: 6 } }, name, panel, places)));
  }
  return traces;
}

const chosenLine = (position) => [{
  type: "line", xref: "x", yref: "paper", x0: table.time[position], x1: table.time[position], y0: 0, y1: 1,
  line: { color: "#c00000", width: 1, dash: "dot" },
}];

function drawTime() {
  const layout = copy(data.figures.time.layout);
  Plotly.newPlot("time", timeTraces(), layout, config);
  element("time").on("plotly_click", (event) => choose(event.points[0].customdata));
  element("logarithmic").addEventListener("change", (event) => {
    const type = event.target.checked ? "log" : "linear";
    const changes = {};
    ["yaxis", "yaxis2", "yaxis3", "yaxis4"].forEach((axis) => {
      changes[`${axis}.type`] = type;
      changes[`${axis}.autorange`] = true;
    });
    Plotly.relayout("time", changes);
  });
}

// ---- the table of epochs

const isZone = (name) => name.startsWith("zone ");
const isWord = (name) => isZone(name) || ["time", "mark", "faces", "held"].includes(name);

// The rows in the order of a column: those without a value come last, whatever the direction.
function inOrder(positions) {
  const { by, down } = chosen;
  const value = (k) => (isWord(by) ? table[by][k] : numberAt(by, k));
  const none = (it) => it === null || it === "";
  return [...positions].sort((a, b) => {
    const [x, y] = [value(a), value(b)];
    if (none(x) || none(y)) return none(x) - none(y) || a - b;
    return (x < y ? -1 : x > y ? 1 : 0) * (down ? -1 : 1) || a - b;
  });
}

// Sorts by a column: the greatest first, but epochs and answers (inside, open, outside) in their order, and the other way
// round when it is chosen again.
function sortBy(name) {
  chosen.down = chosen.by === name ? !chosen.down : name !== "epoch" && name !== "time" && !isZone(name);
  chosen.by = name;
  drawSortedHead();
  filterRows();
  turnTo(0);
  document.querySelector(`#table th[data-column="${name}"] button`).focus();
}

function drawSortedHead() {
  element("table").tHead.rows[0].replaceChildren(...data.columns.map(([name, title]) => {
    const cell = make("th", undefined, isWord(name) ? "word" : "");
    const button = make("button", title);
    button.type = "button";
    button.addEventListener("click", () => sortBy(name));
    cell.scope = "col";
    cell.dataset.column = name;
    if (name === chosen.by) cell.setAttribute("aria-sort", chosen.down ? "descending" : "ascending");
    cell.append(button);
    return cell;
  }));
}

function drawHead(id, columns) {
  element(id).tHead.rows[0].replaceChildren(...columns.map(([name, title]) => {
    const cell = make("th", title, isWord(name) ? "word" : "");
    cell.scope = "col";
    return cell;
  }));
}

function rowOf(position) {
  const row = make("tr", undefined, position === chosen.position ? "chosen" : "");
  row.dataset.position = position;
  for (const [name] of data.columns) {
    const text = table[name][position];
    const cell = make("td", name === "epoch" ? undefined : text, isWord(name) ? "word" : "");
    if ((name === "mark" || isZone(name)) && text) cell.classList.add(text);
    if (name === "epoch") {
      const button = make("button", text);
      button.type = "button";
      button.setAttribute("aria-label", `Show epoch ${text}`);
      if (position === chosen.position) button.setAttribute("aria-current", "true");
      cell.append(button);
    }
    row.append(cell);
  }
  return row;
}

function drawRows() {
  const shown = chosen.rows.slice(chosen.first, chosen.first + ROWS_SHOWN);
  element("table").tBodies[0].replaceChildren(...shown.map(rowOf));
  const total = chosen.rows.length;
  element("rows-shown").textContent = total === 0 ? "no rows"
    : `rows ${chosen.first + 1} to ${chosen.first + shown.length} of ${total}`;
  element("rows-before").disabled = chosen.first === 0;
  element("rows-behind").disabled = chosen.first + ROWS_SHOWN >= total;
}

function turnTo(first) {
  chosen.first = Math.max(0, Math.min(first, chosen.rows.length - 1));
  chosen.first -= chosen.first % ROWS_SHOWN;
  drawRows();
}

// Brings the chosen epoch's row into the table, where the filter has it.
function showRow() {
  const at = chosen.rows.indexOf(chosen.position);
  if (at < 0) return drawRows();
  turnTo(at);
  const row = document.querySelector("#table tr.chosen");
  const frame = element("table").parentElement;
  const above = row.offsetTop - element("table").tHead.offsetHeight;
  if (above < frame.scrollTop || row.offsetTop + row.offsetHeight > frame.scrollTop + frame.clientHeight) {
    frame.scrollTop = above - frame.clientHeight / 3;
  }
  return undefined;
}

// What the table may be narrowed to: a name, a text, and which positions it keeps.
function filters() {
  const marks = [...new Set(table.mark)].filter((mark) => mark !== "").sort();
  const found = [["all", "all epochs", () => true], ["region", "those with a region", (k) => table.edge[k] !== ""]];
  marks.forEach((mark) => found.push([mark, `those marked ${mark}`, (k) => table.mark[k] === mark]));
  if (table.held) found.push(["lost place", "those that don't hold the known place", (k) => table.held[k] === "no"]);
  for (const { column, name } of data.zones) {
    for (const answer of ANSWERS) {
      const { words } = data.figures.map.answers[answer];
      found.push([`${column} ${answer}`, `those ${words} ${name}`, (k) => table[column][k] === answer]);
    }
  }
  return found.filter(([name, , keeps]) => name === "all" || name === "region" || allPositions().some(keeps));
}

// Fills a choice with values and their texts.
function fillChoice(id, choices) {
  element(id).replaceChildren(...choices.map(([value, text]) => {
    const option = make("option", text);
    option.value = value;
    return option;
  }));
}

function filterRows() {
  const wanted = element("filter").value;
  const [, , keeps] = filters().find(([name]) => name === wanted);
  chosen.rows = inOrder(allPositions().filter(keeps));
  turnTo(Math.max(0, chosen.rows.indexOf(chosen.position)));
}

function moveByKey(event) {
  const step = { ArrowDown: 1, ArrowUp: -1 }[event.key];
  const row = event.target.closest("tr[data-position]");
  if (!step || !row) return;
  event.preventDefault();
  const next = chosen.rows[chosen.rows.indexOf(Number(row.dataset.position)) + step];
  if (next === undefined) return;
  choose(next);
  document.querySelector(`#table tr[data-position="${next}"] button`).focus();
}

function listenToTable() {
  element("table").tBodies[0].addEventListener("click", (event) => {
    const row = event.target.closest("tr[data-position]");
    if (!row) return;
    const byButton = event.target.closest("button") !== null;
    choose(Number(row.dataset.position));
    if (byButton) document.querySelector("#table tr.chosen button").focus();
  });
  element("table").addEventListener("keydown", moveByKey);
  element("filter").addEventListener("change", filterRows);
  element("rows-before").addEventListener("click", () => turnTo(chosen.first - ROWS_SHOWN));
  element("rows-behind").addEventListener("click", () => turnTo(chosen.first + ROWS_SHOWN));
}

// ---- one epoch

function valuesOf(position, detail) {
  const values = data.columns.slice(2).map(([name, title]) => [title, table[name][position]]);
  if (detail && detail.out !== undefined) values.push(["out", detail.out], ["splits", detail.splits]);
  if (detail && detail.clock) values.push(["clock offset m", `${detail.clock[0]} to ${detail.clock[1]}`]);
  if (detail && detail.middle) values.push(["middle x, y, z m", detail.middle.join(", ")]);
  return values.filter(([, value]) => value !== "");
}

function drawValues(position, detail) {
  element("values").replaceChildren(...valuesOf(position, detail).map(([title, value]) => {
    const pair = make("div");
    pair.append(make("dt", title), make("dd", String(value)));
    return pair;
  }));
}

// The command for a page with all of one epoch.
const commandFor = (position) => {
  const number = table.epoch[position];
  return `./gpslog page ${data.logs.join(" ")} epoch${number}.html --from ${number} --to ${number}`;
};

function whyNone(position) {
  if (table.edge[position] === "") return "This epoch has no boxes.";
  return `This page has the boxes of one epoch in ${data.every.boxes} alone. All of this one: ${commandFor(position)}`;
}

// The ends of the boxes in steps: six of each.
function stepsOf(packed) {
  const bytes = Uint8Array.from(atob(packed.ends), (letter) => letter.charCodeAt(0));
  const view = new DataView(bytes.buffer);
  return Array.from({ length: bytes.length / 2 }, (_, k) => view.getUint16(2 * k, true));
}

// The eight corners of each box along east, north and up, in metres from the middle.
function cornersOf(packed, ends, first, last) {
  const corners = { x: [], y: [], z: [] };
  for (let box = first; box < last; box++) {
    for (let corner = 0; corner < 8; corner++) {
      const [x, y, z] = [0, 1, 2].map((k) =>
        packed.low[k] + packed.steps[k] * ends[6 * box + k + ((corner >> k) & 1 ? 3 : 0)]);
      ["x", "y", "z"].forEach((name, j) => {
        const [a, b, c] = packed.axes[j];
        corners[name].push(a * x + b * y + c * z);
      });
    }
  }
  return corners;
}

function meshOf(style, corners) {
  const mesh = { ...style, ...corners, i: [], j: [], k: [] };
  for (let start = 0; start < corners.x.length; start += 8) {
    for (const [a, b, c] of TRIANGLES) {
      mesh.i.push(start + a);
      mesh.j.push(start + b);
      mesh.k.push(start + c);
    }
  }
  return mesh;
}

function wireOf(style, corners) {
  const wire = { ...style, x: [], y: [], z: [] };
  for (let start = 0; start < corners.x.length; start += 8) {
    for (const side of SIDES) {
      for (const name of ["x", "y", "z"]) wire[name].push(...side.map((corner) => corners[name][start + corner]), null);
    }
  }
  return wire;
}

// How little each of n boxes hides, so that all together hide 60 % of what is behind: some 2 n^(1/3) faces are in the way.
const opacityOf = (number) => 1 - 0.4 ** (1 / (2 * Math.cbrt(number)));

function solidTraces(packed) {
  const { meshes, wire } = data.figures.solid;
  const ends = stepsOf(packed);
  const traces = [];
  let first = 0;
  packed.counts.forEach((number, kind) => {
    if (number === 0) return;
    const mesh = meshOf(meshes[kind], cornersOf(packed, ends, first, first + number));
    const opacity = meshes[kind].opacity ?? opacityOf(number);
    traces.push({ ...mesh, opacity, name: `${number.toLocaleString("en")} ${meshes[kind].name}` });
    first += number;
  });
  if (first <= MOST_WIRED) traces.push(wireOf(wire, cornersOf(packed, ends, 0, first)));
  return traces;
}

const hasWebGL = (() => {
  try {
    const canvas = document.createElement("canvas");
    return Boolean(canvas.getContext("webgl") || canvas.getContext("experimental-webgl"));
  } catch {
    return false;
  }
})();

function sayBoxes(position, packed) {
  if (!packed) return whyNone(position);
  const [edge, inner, groups] = packed.counts;
  const all = Number(table.in[position]) + Number(table.edge[position]);
  const drawn = groups > 0 ? `${counted(groups, "box")} round groups that hold all ${counted(all, "box")}`
    : `${counted(edge, "edge box")}, of which points may fit, and ${counted(inner, "in box")}, of which each point fits`;
  const what = `${drawn}. East, north and up are from the middle of their hull.`;
  return hasWebGL ? `${what} Drag to turn, scroll to zoom.`
    : `${what} This browser has no WebGL, so there is no view in three dimensions; the outlines are those of all boxes.`;
}

function drawSolid(position, packed) {
  element("boxes-say").textContent = sayBoxes(position, packed);
  const shows = Boolean(packed) && hasWebGL;
  element("solid").hidden = !shows;
  if (shows) Plotly.react("solid", solidTraces(packed), copy(data.figures.solid.layout), config);
}

function drawFlat(detail) {
  ["above", "front", "side"].forEach((name, k) => {
    const figure = data.figures[name];
    const ring = detail && detail.outlines ? detail.outlines[k] : null;
    element(name).hidden = ring === null;
    if (ring === null) return;
    const closed = [...ring, ring[0]];
    const trace = { ...figure.outline, x: closed.map((point) => point[0]), y: closed.map((point) => point[1]) };
    Plotly.react(name, [trace], copy(figure.layout), config);
  });
}

const SATELLITE_COLUMNS = [["name", "satellite"], ["elevation", "elevation °"], ["azimuth", "azimuth °"],
  ["low", "error from m"], ["high", "to m"], ["sureLow", "at every point from m"], ["sureHigh", "to m"]];

function drawSky(detail) {
  const { layout, satellites } = data.figures.sky;
  const seen = detail.satellites.filter((it) => it[1] !== null);
  const trace = {
    ...satellites, r: seen.map((it) => 90 - it[1]), theta: seen.map((it) => it[2]), text: seen.map((it) => it[0]),
    customdata: seen.map((it) => it[1]),
  };
  const shown = copy(layout);
  shown.title.text = `sky, as seen from ${detail.place}`;
  const lowest = Math.max(90, ...trace.r);
  shown.polar.radialaxis.range = [0, lowest];
  Plotly.react("sky", [trace], shown, config);
}

// A bar from the least to the greatest of what is declared.
function errorBar(style, satellites, low, high) {
  const order = satellites.map((it) => [it[low], it[high]]);
  return {
    ...style, y: satellites.map((it) => it[0]), base: order.map(([a]) => a), x: order.map(([a, b]) => b - a), customdata: order,
  };
}

// Whether less is declared at some points of the search box than at others.
const isMapped = (detail) => detail.satellites.some((it) => it[3] !== it[5] || it[4] !== it[6]);

function drawErrors(detail) {
  const { layout, bars } = data.figures.errors;
  const traces = [errorBar({ ...bars[0], showlegend: isMapped(detail) }, detail.satellites, 3, 4)];
  const sure = detail.satellites.filter((it) => it[5] <= it[6]);
  if (isMapped(detail)) traces.push(errorBar(bars[1], sure, 5, 6));
  Plotly.react("errors", traces, copy(layout), config);
}

function drawSatelliteRows(detail) {
  const columns = SATELLITE_COLUMNS.slice(0, isMapped(detail) ? 7 : 5);
  drawHead("satellites", columns);
  element("satellites").tBodies[0].replaceChildren(...detail.satellites.map((satellite) => {
    const row = make("tr");
    row.append(...columns.map((_, k) => make("td", satellite[k] === null ? "" : String(satellite[k]))));
    return row;
  }));
}

function drawSatellites(detail) {
  const shows = Boolean(detail) && detail.satellites.length > 0;
  for (const id of ["sky", "errors", "satellites"]) element(id).hidden = !shows;
  element("satellites").parentElement.hidden = !shows;
  if (shows) {
    drawSky(detail);
    drawErrors(detail);
    drawSatelliteRows(detail);
  }
  const skips = detail ? detail.skips.map(([name, reason]) => `${name}: ${reason}`) : [];
  fillList("skips", detail && skips.length === 0 ? ["none"] : skips);
}

function sayEpoch(position, detail) {
  const words = data.marks[table.mark[position]] ?? "";
  if (detail) return words;
  return `${words} This page has sky, outlines, errors and skipped satellites of one epoch in ${data.every.details} alone. `
    + `All of this one: ${commandFor(position)}`;
}

function drawEpoch(position) {
  const detail = data.details[position];
  const packed = data.boxes[position];
  element("epoch-title").textContent = `Epoch ${table.epoch[position]}, ${table.time[position]} GPS time`;
  element("says").textContent = sayEpoch(position, detail);
  drawValues(position, detail);
  drawSolid(position, packed);
  drawFlat(detail);
  drawSatellites(detail);
  element("before").disabled = position === 0;
  element("behind").disabled = position === count - 1;
}

// ---- the map sheet

const withRing = () => allPositions().filter((k) => data.details[k] && data.details[k].ring);

function ringOf(style, positions) {
  const points = positions.flatMap((k) => [...data.details[k].ring, [null, null]]);
  return { ...style, y: points.map((point) => point[0]), x: points.map((point) => point[1]) };
}

function middlesOf(style, positions) {
  return withAnswers({
    ...style, y: positions.map((k) => numberAt("latitude", k)), x: positions.map((k) => numberAt("longitude", k)),
    text: positions.map((k) => table.epoch[k]), customdata: positions,
  });
}

// The zones by whose answers the regions on the map sheet are coloured: one, or all of them.
function colouringZones() {
  const wanted = element("zone").value;
  return wanted === "all" ? data.zones : data.zones.filter((zone) => zone.column === wanted);
}

// The outlines and the middles of regions: all of one colour, or of that of their answers where there are zones.
function regionTraces(positions) {
  const { outlines, middles, answers } = data.figures.map;
  if (data.zones.length === 0) return [ringOf(outlines, positions), middlesOf(middles, positions)];
  const zones = colouringZones();
  const answerOf = (k) => ANSWERS.find((answer) => zones.some((zone) => table[zone.column][k] === answer));
  return ANSWERS.flatMap((answer) => {
    const said = positions.filter((k) => answerOf(k) === answer);
    const { color, words } = answers[answer];
    const name = `${words} ${zones.length === 1 ? zones[0].name : answer === "outside" ? "all zones" : "a zone"}`;
    const line = ringOf({ ...outlines, line: { ...outlines.line, color }, legendgroup: answer }, said);
    const dots = { ...middles, marker: { ...middles.marker, color }, name, legendgroup: answer, showlegend: true };
    return said.length === 0 ? [] : [line, middlesOf(dots, said)];
  });
}

function zoneTraces() {
  return data.zones.filter((zone) => zone.rings.length > 0).map((zone) => {
    const points = zone.rings.flatMap((ring, k) => [...k > 0 ? [[null, null]] : [], ...ring, ring[0]]);
    const [y, x] = [0, 1].map((part) => points.map((point) => point[part]));
    return { ...data.figures.map.zone, x, y, text: [zone.name], name: zone.name };
  });
}

// The least and the greatest latitude, or longitude, of some regions.
function endsOf(part, positions) {
  const values = positions.flatMap((k) => data.details[k].ring.map((point) => point[part]));
  return [values.reduce((a, b) => Math.min(a, b)), values.reduce((a, b) => Math.max(a, b))];
}

// What an axis of the map sheet shows: the regions, and of the zones what is within a length of these.
function sheetEnds([low, high], part, length) {
  const within = (value) => Math.min(Math.max(value, low - length), high + length);
  const zones = data.zones.flatMap((zone) => zone.rings.flat().map((point) => within(point[part])));
  const [first, last] = [Math.min(low, ...zones), Math.max(high, ...zones)];
  const margin = 0.05 * (last - first);
  return [first - margin, last + margin];
}

// The ends of both axes of the map sheet, where there are zones: as far beside the regions as these reach.
function showZones(sheet, shown, stretch) {
  const [north, east] = [0, 1].map((part) => endsOf(part, shown));
  const length = Math.max(north[1] - north[0], (east[1] - east[0]) / stretch);
  sheet.showlegend = true;
  sheet.yaxis.range = sheetEnds(north, 0, length);
  sheet.xaxis.range = sheetEnds(east, 1, length * stretch);
}

function saySheet(shown) {
  const regions = table.edge.filter((text) => text !== "").length;
  const which = shown.length === regions ? "each region" : `${shown.length} of ${regions} regions`;
  const zones = data.zones.length === 0 ? "" : " Zones are dashed, as seen from above; what an epoch says of them goes by all"
    + " of its boxes, heights too. Double-click to see the whole of them.";
  return `The outline of all boxes of ${which} on the ground, WGS 84, and the middle of its extents.`
    + ` Click a middle to see its epoch.${zones}`;
}

function drawZoneChoice() {
  element("by-zone").hidden = data.zones.length === 0;
  fillChoice("zone", [["all", "all zones"], ...data.zones.map(({ column, name }) => [column, name])]);
}

function drawMap() {
  const all = withRing();
  if (all.length === 0) {
    element("map-says").textContent = "No epoch has a region.";
    element("map").hidden = true;
    return;
  }
  const shown = thinned(all);
  element("map-says").textContent = saySheet(shown);
  const sheet = copy(data.figures.map.layout);
  const stretch = 1 / Math.cos((Math.PI / 180) * Number(table.latitude[shown[0]]));
  sheet.yaxis.scaleratio = stretch;
  if (data.zones.length > 0) showZones(sheet, shown, stretch);
  const traces = () => [...regionTraces(shown), ...zoneTraces(), ringOf(data.figures.map.chosen, [])];
  drawZoneChoice();
  Plotly.newPlot("map", traces(), sheet, config);
  element("map").on("plotly_click", (event) => choose(event.points[0].customdata));
  element("zone").addEventListener("change", () => {
    Plotly.react("map", traces(), sheet, config);
    drawChosenRing(chosen.position);
  });
}

function drawChosenRing(position) {
  if (element("map").hidden) return;
  const has = data.details[position] && data.details[position].ring;
  const ring = ringOf({}, has ? [position] : []);
  Plotly.restyle("map", { x: [ring.x], y: [ring.y] }, [element("map").data.length - 1]);
}

// ---- all together

function choose(position) {
  if (position === null || position === undefined) return;
  chosen.position = position;
  element("gone").textContent = "";
  element("number").value = table.epoch[position];
  showRow();
  drawEpoch(position);
  Plotly.relayout("time", { shapes: chosenLine(position) });
  drawChosenRing(position);
  history.replaceState(null, "", `#epoch=${table.epoch[position]}`);
}

// Chooses an epoch by its number, or says that there is none.
function chooseNumber(text) {
  const position = table.epoch.indexOf(text.trim());
  if (position >= 0) {
    choose(position);
    // The arrow keys go on from here.
    document.querySelector("#table tr.chosen button")?.focus({ preventScroll: true });
  } else element("gone").textContent = `The page has no epoch ${text.trim()}.`;
}

function listenToEpoch() {
  element("before").addEventListener("click", () => choose(chosen.position - 1));
  element("behind").addEventListener("click", () => choose(chosen.position + 1));
  element("go").addEventListener("submit", (event) => {
    event.preventDefault();
    chooseNumber(element("number").value);
  });
  window.addEventListener("hashchange", () => {
    if (location.hash.startsWith("#epoch=")) chooseNumber(location.hash.slice(7));
  });
}

function drawTexts() {
  const { q, splits, width } = data.rules;
  const kept = q === 0 ? "all" : `all but ${q}`;
  element("rules").textContent = `q = ${q}: a region holds each position at which ${kept} of an epoch's satellites `
    + "can keep their declared bounds. "
    + `At most ${splits.toLocaleString("en")} splits an epoch; a side of ${width} m or less isn't split.`;
  fillList("lines", [...data.warnings.map((line) => `warning: ${line}`), ...data.lines],
    (line) => (line.startsWith("warning") ? "warning" : ""));
  element("settings-say").textContent = data.settings === null ? "No settings were given: --settings FILE shows them here."
    : `${data.settingsName}, as it was given:`;
  element("settings-text").hidden = data.settings === null;
  element("settings-text").textContent = data.settings ?? "";
  const markers = [...new Set(table.mark)].filter((mark) => mark && marked(mark).length > MOST_MARKERS);
  fillList("notes-list", [
    "The log is shown as it stands: gpscover check says whether it is right.",
    "An in box fits at every point, and an edge box may. Neither is more probable than the other.",
    "The middle of a region isn't a position estimate.",
    ...(data.zones.length > 0 ? ["What epochs say of zones is proved by gpscover guard alone."] : []),
    "A small region that isn't empty shows nothing about the bounds.",
    "Drawn ends of boxes are rounded outward by at most a 65,535th of the region's hull; outlines are rounded to 1 mm.",
    ...data.notes,
    ...markers.map((mark) =>
      `Of the marks ${mark} on the time line one in ${Math.ceil(marked(mark).length / MOST_MARKERS)} is drawn.`),
  ]);
}

function start() {
  drawTexts();
  drawSortedHead();
  fillChoice("filter", filters());
  listenToTable();
  listenToEpoch();
  chosen.rows = allPositions();
  if (count === 0) {
    for (const id of ["over-time", "epoch", "map-sheet"]) element(id).hidden = true;
    drawRows();
    return;
  }
  drawTime();
  drawMap();
  const asked = location.hash.startsWith("#epoch=") ? table.epoch.indexOf(location.hash.slice(7)) : -1;
  const withBoxes = allPositions().find((k) => data.boxes[k] !== undefined);
  choose(asked >= 0 ? asked : withBoxes ?? 0);
}

start();
