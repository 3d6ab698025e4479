// The page of qss-live: it asks the server for curves, and draws them by plotly.
"use strict";

const COLOURS = ["#1f5fa8", "#c2471d", "#3b7d2a", "#7b4aa3", "#a67c00", "#1a8a8a", "#a33a63", "#555555"];
const BASE_COLOUR = "#a9b2bc"; // of the values of the file
const GRID = "#e6eaee", EDGE = "#98a1ab";
const BAND_NOTE = "dark: the solution is here (proved); light: every quantized run is here (proved)";
const STEPS = 1000; // of a slider
const MARGIN = {l: 74, r: 18, t: 26, b: 44};
const GAP = 26, MARK_ROW = 17; // pixels between panels, and of a branch's row
const MOST_MARKS = 0.4; // of the height
const SETTLED = 250, RESIZED = 60; // milliseconds after a change, before measures are computed or a size is taken
const KINDS = ["min", "mean", "max", "ripple", "final"]; // of the table

const by = (id) => document.getElementById(id);
const state = {
  file: "", text: null, sheet: null, order: 1, problems: [], warnings: [], // of the source
  values: {}, ranges: {}, panels: [], window: null, // what is asked for: values that differ, sliders, panels, time
  drawn: null, drawnTurn: 0, bands: [], fault: "", notices: [], hint: "", // the answer, and what is said of it
  wrong: {}, // names that cannot be drawn
  base: null, baseKey: "", // the panels of the values of the file, and the request for them
  asking: false, again: 0, turn: 0, settle: 0, resize: 0, width: 0,
};
// What a test reads: the milliseconds from each change to its curve, and how often the picture was drawn.
window.qssLive = {latencies: [], drawings: 0};

// An element with attributes, listeners ("onclick") and children.
function element(kind, attributes, ...children) {
  const made = document.createElement(kind);
  for (const [name, value] of Object.entries(attributes || {})) {
    if (name === "class") made.className = value;
    else if (name === "colour") made.style.background = value;
    else if (name.startsWith("on")) made.addEventListener(name.slice(2), value);
    else if (value !== null && value !== false) made.setAttribute(name, value === true ? "" : value);
  }
  made.append(...children.filter((one) => one !== null && one !== ""));
  return made;
}

const colour = (place) => COLOURS[place % COLOURS.length];
const line = (place) => element("i", {colour: colour(place)});
const plain = (value) => String(Number(value.toPrecision(6)));
const shown = (value) => (value === null || value === undefined ? "–" : plain(value).replace("-", "−"));
const rounded = (value, isWhole) => (isWhole ? Math.round(value) : Number(value.toPrecision(4)));
const isMoved = () => Object.keys(state.values).length > 0;

// requests

async function ask(name, body) {
  const options = body === undefined ? {} : {method: "POST", body: JSON.stringify(body)};
  const answer = await fetch(name, options);
  if (!answer.ok) throw new Error(await answer.text());
  return answer.json();
}

function request(values) {
  const panels = state.panels.filter((panel) => panel.length);
  const columns = Math.round(by("plot").clientWidth - MARGIN.l - MARGIN.r);
  return {text: state.text, values, panels, window: state.window, columns};
}

// The curves of the newest values: one request at a time, and those in between are left out.
async function draw(begun = performance.now()) {
  if (!state.sheet) return;
  if (state.asking) {
    state.again = begun;
    return;
  }
  state.asking = true;
  light("busy");
  try {
    await drawOnce(begun);
  } catch (error) {
    state.fault = "the server does not answer: " + error.message;
  } finally {
    state.asking = false;
  }
  tellAll();
  if (state.again) {
    const later = state.again;
    state.again = 0;
    draw(later);
    return;
  }
  clearTimeout(state.settle);
  state.settle = setTimeout(measure, SETTLED);
}

async function drawOnce(begun) {
  const turn = ++state.turn, wanted = request(state.values);
  const answer = wanted.panels.length ? await ask("draw", {...wanted, events: by("events").checked}) : null;
  if (answer && answer.stale) return; // (the server has another source: it says so by itself)
  state.fault = (answer && answer.fault) || "";
  if (state.fault) return;
  takeWrong(answer ? answer.wrong : {});
  takeBase(wanted, answer);
  Object.assign(state, {drawn: answer, drawnTurn: turn, bands: [], notices: answer ? answer.notices : []});
  await picture();
  window.qssLive.latencies.push(performance.now() - begun);
}

// Marks the names that cannot be drawn. The curves of the others have their colours.
function takeWrong(wrong) {
  if (JSON.stringify(wrong) === JSON.stringify(state.wrong)) return;
  state.wrong = wrong;
  panels();
}

// The curves of the values of the file are drawn below those of other values.

const baseKey = (wanted) => JSON.stringify({...wanted, values: {}});
const isBaseKnown = () => state.baseKey === baseKey(request({}));
const baseShown = () => (isMoved() && by("base").checked && isBaseKnown() ? state.base : null);

function takeBase(wanted, answer) {
  if (!answer || Object.keys(wanted.values).length) return;
  state.base = answer.panels;
  state.baseKey = baseKey(wanted);
}

async function fetchBase() {
  const wanted = request({});
  if (!isMoved() || !by("base").checked || !wanted.panels.length || isBaseKnown()) return;
  const answer = await ask("draw", wanted);
  if (!answer.panels) return;
  takeBase(wanted, answer);
  await picture();
}

// What takes longer than a curve: measures and the band.
async function measure() {
  if (!state.sheet || !state.drawn || state.fault) return;
  const turn = state.drawnTurn, band = by("band").checked, measures = by("wanted").value;
  const names = state.drawn.panels.flatMap((panel) => panel.curves.map((curve) => curve.name));
  try {
    await fetchBase();
    const answer = await ask("measure", {...request(state.values), names, measures, band});
    if (turn !== state.drawnTurn || answer.stale) return;
    state.notices = [...state.drawn.notices, ...(answer.fault ? [answer.fault] : answer.notices)];
    if (!answer.fault) await takeMeasures(answer);
    tellAll();
  } catch (error) {
    by("said").textContent = error.message;
  }
}

async function takeMeasures(answer) {
  tables(answer);
  if (!answer.bands.length && !state.bands.length) return;
  state.bands = answer.bands;
  await picture();
}

// the source

async function load() {
  const answer = await ask("state");
  Object.assign(state, {file: answer.file, problems: answer.problems, warnings: answer.warnings});
  by("file").textContent = answer.file;
  const isNew = answer.sheet && answer.text !== state.text;
  if (isNew) take(answer);
  tellAll();
  if (isNew) draw();
}

// Takes a source that runs.
function take(answer) {
  const isFirst = state.sheet === null, sheet = answer.sheet;
  if (!isFirst) keepMoved(state.sheet, sheet);
  Object.assign(state, {text: answer.text, sheet, order: answer.order});
  if (isFirst) by("wanted").value = answer.measures;
  state.panels = isFirst ? answer.panels : keptPanels(sheet, answer.panels);
  if (state.window && Number(state.window[0]) >= sheet.stop) state.window = null;
  document.title = sheet.name + " – qss-live";
  by("name").textContent = sheet.name;
  by("about").textContent = sheet.about;
  by("events").disabled = !Object.keys(sheet.branches).length;
  const why = sheet.no_certificate;
  by("band").disabled = Boolean(why);
  by("band-label").classList.toggle("off", Boolean(why));
  by("band-label").title = why ? "no certificate: " + why : BAND_NOTE;
  const option = (one) => element("option", {value: one.name}, one.about || one.role);
  by("known").replaceChildren(...sheet.variables.map(option));
  parameters();
  panels();
}

// Values that were moved stay, unless the source has another value for them than before.
function keepMoved(before, now) {
  const texts = (sheet) => Object.fromEntries(sheet.parameters.map((one) => [one.name, one.text]));
  const old = texts(before), found = texts(now);
  for (const name of Object.keys(state.values)) {
    if (found[name] === undefined || found[name] !== old[name]) delete state.values[name];
  }
}

// The panels without variables that are gone.
function keptPanels(sheet, first) {
  const names = new Set(sheet.variables.map((one) => one.name));
  const isKnown = (name) => !/^\w+$/.test(name) || names.has(name);
  const kept = state.panels.map((panel) => panel.filter(isKnown)).filter((panel) => panel.length);
  return kept.length ? kept : first;
}

// parameters

function parameters() {
  const found = state.sheet.parameters;
  by("parameters").replaceChildren(...found.map(parameter));
  const declared = element("code", {}, "parameter Real R = 10;");
  if (!found.length) by("parameters").append("The model has no parameters. A line as ", declared, " declares one.");
  moved();
}

function parameter(one) {
  const old = state.ranges[one.name], isMovedOne = state.values[one.name] !== undefined;
  const range = (state.ranges[one.name] = old && old.text === one.text ? old : {...one.range, text: one.text});
  const slider = element("input", {type: "range", min: 0, max: STEPS, step: 1, "aria-label": one.name});
  const field = element("input", {class: "value", type: "text", spellcheck: "false", "aria-label": one.name});
  slider.value = place(range, isMovedOne ? Number(state.values[one.name]) : one.value);
  field.value = isMovedOne ? state.values[one.name] : plain(one.value);
  const text = () => String(rounded(at(range, Number(slider.value)), one.is_whole));
  slider.addEventListener("input", () => set(one, text(), true));
  field.addEventListener("change", () => set(one, field.value.trim() || null));
  const back = element("button", {class: "back", title: "the value of the file: " + one.text}, "↺");
  back.addEventListener("click", () => set(one, null));
  const formula = one.formula ? "= " + one.formula : "";
  return element("div", {class: "parameter", "data-name": one.name},
    element("div", {class: "title", title: [one.about, formula].filter(Boolean).join(" ")},
      element("b", {}, one.name), element("span", {}, formula || one.about)),
    field,
    element("div", {class: "unit"}, one.unit),
    element("div", {class: "track"},
      end(one, range, "least", "left"), slider, end(one, range, "greatest", "right"), back));
}

// The end of a slider, which can be changed.
function end(one, range, name, side) {
  const input = element("input", {class: "end " + side, type: "text", value: plain(range[name]),
    "aria-label": `${name} value of the slider of ${one.name}`});
  input.addEventListener("change", () => {
    const value = Number(input.value), isNumber = input.value.trim() !== "" && Number.isFinite(value);
    const isInOrder = name === "least" ? value < range.greatest : value > range.least;
    const why = !isNumber ? "is not a number" : name === "least" ? "is not below the other end" : "is not above the other end";
    state.hint = isNumber && isInOrder ? "" : `the range of the slider of ${one.name}: '${input.value}' ${why}`;
    if (!state.hint) range[name] = value;
    if (range.least <= 0) range.is_log = false;
    parameters();
    tellAll();
  });
  return input;
}

// The step of a slider for a value, and the value of a step.
function place(range, value) {
  const {least, greatest} = range;
  const even = (value - least) / (greatest - least);
  const share = range.is_log ? Math.log(value / least) / Math.log(greatest / least) : even;
  return Math.round(STEPS * Math.min(1, Math.max(0, share || 0)));
}

function at(range, step) {
  const {least, greatest} = range, share = step / STEPS;
  return range.is_log ? least * (greatest / least) ** share : least + (greatest - least) * share;
}

// Another value of a parameter, or with null that of the file.
function set(one, text, isSlider) {
  const begun = performance.now();
  state.hint = "";
  if (text === null) delete state.values[one.name];
  else state.values[one.name] = text;
  const row = document.querySelector(`.parameter[data-name="${one.name}"]`);
  row.querySelector(".value").value = text === null ? plain(one.value) : text;
  const value = text === null ? one.value : Number(text);
  const slider = row.querySelector("[type=range]");
  if (!isSlider && Number.isFinite(value)) slider.value = place(state.ranges[one.name], value);
  moved();
  draw(begun);
}

// Shows which parameters have other values than in the file.
function moved() {
  for (const row of document.querySelectorAll(".parameter")) {
    row.classList.toggle("moved", state.values[row.dataset.name] !== undefined);
  }
  const quoted = (text) => (/^[\w.+-]+$/.test(text) ? text : `'${text}'`);
  const words = Object.entries(state.values).map(([name, text]) => `--set ${name}=${quoted(text)}`);
  by("reset").hidden = by("command-part").hidden = !words.length;
  by("command").textContent = ["qss-run", state.file, ...words].join(" ");
}

// panels

function panels() {
  by("panels").replaceChildren(...state.panels.map(panelRow));
}

function panelRow(panel, number) {
  const remove = (place) => () => { panel.splice(place, 1); changed(); };
  const drawn = panel.filter((name) => !state.wrong[name]);
  const chips = panel.map((name, place) => element("span",
    {class: state.wrong[name] ? "chip wrong" : "chip", title: state.wrong[name] || aboutOf(name)},
    state.wrong[name] ? "" : line(drawn.indexOf(name)),
    element("span", {}, name), element("button", {title: "remove " + name, onclick: remove(place)}, "×")));
  const input = element("input", {list: "known", spellcheck: "false", "aria-label": "add to panel " + (number + 1),
    placeholder: panel.length ? "add .." : "a variable, or an expression as x - y"});
  input.addEventListener("change", () => {
    if (input.value.trim()) panel.push(input.value.trim());
    changed();
  });
  const close = () => { state.panels.splice(number, 1); changed(); };
  return element("div", {class: "panel"}, ...chips, input,
    element("button", {class: "close", title: "remove this panel", onclick: close}, "✕"));
}

function aboutOf(name) {
  const one = state.sheet.variables.find((it) => it.name === name.split("[")[0]);
  return one ? [one.role, one.unit && "in " + one.unit, one.about].filter(Boolean).join(", ") : "an expression";
}

function changed() {
  panels();
  draw();
}

// the picture: one drawing after the other

let painting = Promise.resolve();
function picture() {
  painting = painting.then(paint, paint);
  return painting;
}

async function paint() {
  const plot = by("plot"), found = state.drawn;
  if (!found) {
    Plotly.purge(plot);
    plot.following = false;
    by("legends").replaceChildren();
    return;
  }
  const labels = Object.keys(found.events), parts = partsOf(found.panels.length, labels.length);
  const layout = layoutOf(found, labels, parts), traces = found.panels.flatMap(tracesOf);
  labels.forEach((label, place) => traces.push(marksOf(found.events[label].times, place, axisOf(found.panels.length))));
  await Plotly.react(plot, traces, layout, {displaylogo: false, displayModeBar: false, scrollZoom: true});
  window.qssLive.drawings += 1;
  if (!plot.following) follow(plot);
  legends();
}

const axisOf = (number) => (number ? "y" + (number + 1) : "y");
const layoutName = (number) => "yaxis" + (number ? number + 1 : "");

// The domain of each panel, and of the rows of branches below them.
function partsOf(count, rows) {
  const height = by("plot").clientHeight - MARGIN.t - MARGIN.b, gap = GAP / height;
  const strip = rows ? Math.min(MOST_MARKS, (rows * MARK_ROW + 8) / height) : 0;
  const share = Math.max(0.02, (1 - strip - (rows ? gap : 0) - gap * (count - 1)) / count);
  const domains = Array.from({length: count}, (_, number) => {
    const top = 1 - number * (share + gap);
    return [Math.max(0, top - share), Math.max(0.01, top)];
  });
  return {domains, strip, lines: Math.max(3, Math.round((share * height) / 34))};
}

function layoutOf(found, labels, parts) {
  const plot = by("plot"), count = found.panels.length, edge = {showline: true, linecolor: EDGE};
  const ticks = {ticks: "outside", ticklen: 4, tickcolor: EDGE};
  const layout = {
    width: plot.clientWidth, height: plot.clientHeight, margin: MARGIN, uirevision: JSON.stringify(state.panels),
    showlegend: false, hovermode: false, dragmode: "zoom", paper_bgcolor: "#fff", plot_bgcolor: "#fff",
    font: {family: "system-ui, Segoe UI, Liberation Sans, DejaVu Sans, sans-serif", size: 12, color: "#20262d"},
    xaxis: {title: {text: state.sheet.axis, standoff: 6}, uirevision: String(state.window), exponentformat: "none",
      range: state.window ? state.window.map(Number) : [0, state.sheet.stop],
      anchor: axisOf(labels.length ? count : count - 1), gridcolor: GRID, zeroline: false, ...ticks, ...edge},
  };
  found.panels.forEach((panel, number) => {
    layout[layoutName(number)] = {domain: parts.domains[number], title: {text: escaped(panel.label), standoff: 8},
      anchor: "x", gridcolor: GRID, zeroline: true, zerolinecolor: "#c9d0d7", nticks: parts.lines, mirror: true,
      ...ticks, ...edge};
  });
  if (labels.length) {
    layout[layoutName(count)] = {domain: [0, parts.strip], range: [labels.length - 0.4, -0.6], fixedrange: true,
      tickvals: labels.map((_, place) => place), ticktext: labels, anchor: "x", showgrid: false, zeroline: false,
      mirror: true, ...edge};
  }
  return layout;
}

// The bands of a panel, then the curves of the values of the file, and on top those of the values of the sliders.
function tracesOf(panel, number) {
  const axis = axisOf(number), base = baseShown();
  const bands = state.bands.filter((one) => one.panel === number).flatMap((one) => bandOf(one, axis));
  const grey = {color: BASE_COLOUR, width: 1.2}, style = (place) => ({color: colour(place), width: 1.6});
  const below = base && base[number] ? base[number].curves.map((curve) => curveOf(curve, axis, grey)) : [];
  return [...bands, ...below, ...panel.curves.map((curve, place) => curveOf(curve, axis, style(place)))];
}

const curveOf = (curve, axis, style) =>
  ({x: curve.x, y: curve.y, yaxis: axis, mode: "lines", line: {...style, shape: curve.held ? "hv" : "linear"}});

const bandOf = (band, axis) => [[band.lower, "none"], [band.upper, "tonexty"]].map(([y, fill]) =>
  ({x: band.x, y, yaxis: axis, mode: "lines", line: {width: 0}, fill, fillcolor: tint(band.curve, band.opacity)}));

const marksOf = (times, place, axis) => ({x: times, y: times.map(() => place), yaxis: axis, mode: "markers",
  marker: {symbol: "line-ns-open", size: 9, color: colour(place), line: {width: 1}}});

const escaped = (text) => text.replace(/&/g, "&amp;").replace(/</g, "&lt;");

function tint(place, opacity) {
  const number = parseInt(colour(place).slice(1), 16);
  return `rgba(${number >> 16},${(number >> 8) & 255},${number & 255},${opacity})`;
}

// Zooming asks for the curves of the window.
function follow(plot) {
  plot.following = true;
  plot.on("plotly_relayout", (change) => {
    const both = change["xaxis.range"] || [change["xaxis.range[0]"], change["xaxis.range[1]"]];
    if (change["xaxis.autorange"]) zoom(null);
    else if (both[0] !== undefined) zoom([Math.max(0, both[0]), Math.min(state.sheet.stop, both[1])]);
    else legends();
  });
}

function zoom(range) {
  const isPart = range && range[1] > range[0] && (range[0] > 0 || range[1] < state.sheet.stop);
  state.window = isPart ? range.map((one) => String(Number(one.toPrecision(9)))) : null;
  by("whole").hidden = !state.window;
  draw();
}

// A page of another size; curves of another width have other points.
function resized() {
  const isSame = state.width === by("plot").clientWidth;
  state.width = by("plot").clientWidth;
  if (!state.drawn) return;
  if (isSame) picture();
  else draw();
}

// legends, and the values at the pointer

function legends() {
  const found = state.drawn, layout = by("plot")._fullLayout, hasBase = baseShown() !== null;
  const boxes = found.panels.map((panel, number) => {
    const names = panel.curves.map((curve, place) => element("span", {},
      line(place), curve.name, element("em", {"data-curve": number + "," + place})));
    if (hasBase) names.push(element("span", {}, element("i", {colour: BASE_COLOUR}), "values of the file"));
    return placed(element("div", {class: "legend"}, ...names), layout[layoutName(number)].domain[1]);
  });
  const labels = Object.keys(found.events);
  if (labels.length) {
    const conditions = state.sheet.branches;
    const names = labels.map((label, place) => element("span", {},
      line(place), `${label}: ${conditions[label]} (${found.events[label].count})`));
    const top = layout[layoutName(found.panels.length)].domain[1];
    boxes.push(placed(element("div", {class: "legend one"}, ...names), top));
  }
  by("legends").replaceChildren(...boxes);
}

// A legend above the part of the picture that ends there.
function placed(box, top) {
  const size = by("plot")._fullLayout._size;
  const above = size.t + size.h * (1 - top) - 21;
  Object.assign(box.style, {left: size.l + "px", maxWidth: size.w + "px", top: above + "px"});
  return box;
}

function point(event) {
  const layout = by("plot")._fullLayout, size = layout && layout._size;
  const x = event ? event.clientX - by("picture").getBoundingClientRect().left : 0;
  const isInside = Boolean(event && size && state.drawn && x >= size.l && x <= size.l + size.w);
  by("cursor").hidden = by("clock").hidden = !isInside;
  const time = isInside ? layout.xaxis.p2d(x - size.l) : 0;
  for (const mark of document.querySelectorAll(".legend em")) {
    const [panel, number] = mark.dataset.curve.split(",").map(Number);
    const curve = state.drawn && state.drawn.panels[panel] && state.drawn.panels[panel].curves[number];
    mark.textContent = isInside && curve ? `${shown(valueAt(curve, time))} ${curve.unit}`.trim() : "";
  }
  if (!isInside) return;
  Object.assign(by("cursor").style, {left: x + "px", top: size.t + "px", height: size.h + "px"});
  Object.assign(by("clock").style, {left: x + "px", top: size.t + size.h + 3 + "px"});
  const unit = /\((.*)\)/.exec(state.sheet.axis);
  by("clock").textContent = shown(time) + (unit ? " " + unit[1] : "");
}

// The value of a curve at a time.
function valueAt(curve, time) {
  const {x, y} = curve;
  let low = 0, high = x.length - 1;
  if (high < 0 || time < x[0]) return null;
  while (low < high) {
    const middle = (low + high + 1) >> 1;
    if (x[middle] <= time) low = middle;
    else high = middle - 1;
  }
  if (curve.held || low + 1 >= x.length || x[low + 1] === x[low]) return y[low];
  return y[low] + ((y[low + 1] - y[low]) * (time - x[low])) / (x[low + 1] - x[low]);
}

// what is said

function tables(answer) {
  const places = {};
  for (const panel of state.drawn.panels) panel.curves.forEach((curve, place) => { places[curve.name] = place; });
  const titles = [state.window ? "in this window" : "whole run", ...KINDS, ""];
  const head = element("tr", {}, ...titles.map((title) => element("th", {}, title)));
  const rows = answer.table.map((row) => element("tr", {}, element("td", {}, line(places[row.name]), row.name),
    ...row.values.map((value) => element("td", {}, shown(value))), element("td", {}, row.unit)));
  by("table").replaceChildren(...(rows.length ? [head, ...rows] : []));
  by("answers").replaceChildren(...answer.measures.map((one) => element("tr", {},
    element("td", {}, one.text === one.reason ? "" : one.text),
    one.value === null ? element("td", {class: "none"}, one.reason) : element("td", {}, shown(one.value)),
    element("td", {}, one.unit))));
}

function problem(one) {
  const where = one.line ? `line ${one.line}, column ${one.column}: ` : "";
  const excerpt = one.excerpt ? element("pre", {}, one.excerpt.replace(/^ {4}/gm, "")) : "";
  const fixes = one.fixes.map((fix) => element("div", {class: "fix"}, fix));
  return element("div", {class: "problem"}, element("b", {}, where + one.sentence), excerpt, ...fixes);
}

function tellAll() {
  const values = Object.entries(state.values).map(([name, text]) => `${name} = ${text}`).join(", ");
  const fault = {sentence: (values ? `with ${values}: ` : "") + state.fault, fixes: []};
  const all = [...state.problems, ...(state.fault ? [fault] : [])], isOld = all.length > 0 && state.drawn !== null;
  const what = state.problems.length ? "shows the last source that runs" : "is the last one that could be drawn";
  const last = `The picture ${what}.`;
  by("problems").replaceChildren(...all.map(problem), isOld ? element("div", {class: "stays"}, last) : "");
  by("problems").hidden = !all.length;
  const notices = [...(state.hint ? [state.hint] : []), ...state.notices, ...state.warnings];
  by("notices").replaceChildren(...notices.map((one) => element("div", {}, one)));
  by("notices").hidden = !notices.length;
  by("picture").classList.toggle("old", isOld);
  light(all.length ? "bad" : state.notices.length ? "warned" : "good");
  by("said").textContent = state.drawn ? figures() : all.length ? "nothing runs yet" : "";
}

function figures() {
  const taken = window.qssLive.latencies.slice(-1)[0] || 0;
  const parts = [`run ${(1000 * state.drawn.seconds).toFixed(0)} ms`, `redrawn after ${taken.toFixed(0)} ms`];
  return (state.order === 2 ? "second order, " : "") + parts.join(", ") + (state.bands.length ? `; ${BAND_NOTE}` : "");
}

function light(kind) {
  by("light").className = kind;
}

// the beginning

function listen() {
  by("reset").addEventListener("click", () => { state.values = {}; parameters(); draw(); });
  by("more-panels").addEventListener("click", () => {
    state.panels.push([]);
    panels();
    by("panels").lastChild.querySelector("input").focus();
  });
  by("copy").addEventListener("click", () => navigator.clipboard.writeText(by("command").textContent));
  by("whole").addEventListener("click", () => zoom(null));
  by("events").addEventListener("change", () => draw());
  by("base").addEventListener("change", () => fetchBase().then(picture));
  by("band").addEventListener("change", () => {
    state.bands = [];
    if (by("band").checked) measure();
    else picture().then(tellAll);
  });
  by("wanted").addEventListener("change", () => measure());
  by("picture").addEventListener("mousemove", (event) => point(event));
  by("picture").addEventListener("mouseleave", () => point(null));
  const observer = new ResizeObserver(() => {
    clearTimeout(state.resize);
    state.resize = setTimeout(resized, RESIZED);
  });
  observer.observe(by("picture"));
}

// The server sends the number of each revision of the file.
function followFile() {
  const changes = new EventSource("changes");
  let revision = null;
  changes.onmessage = (event) => {
    if (event.data === revision) return;
    revision = event.data;
    load().catch((error) => { state.fault = error.message; tellAll(); });
  };
  changes.onerror = () => {
    light("bad");
    by("said").textContent = "qss-live has ended, or is out of reach";
  };
}

listen();
followFile();
