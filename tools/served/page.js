"use strict";

// The page that tools/page serves: what the server says of the text in the editor, of its runs and its listing. All that it says is put
// there as text, never as HTML.

const at = (id) => document.getElementById(id);
// How long somebody may pause while typing before the text is checked, in milliseconds.
const PAUSE = 250;
// Of a longer address some browsers keep a part.
const LONGEST_ADDRESS = 60000;
// Narrower windows show one part at a time.
const NARROW = matchMedia("(max-width: 60rem)");

// What is known of the server, and of the text that stands there: how often it was changed, and what was found in it.
let about = null;
let editor = null;
let changes = 0;
let findings = [];
let checked = -1;
let here = null;
let running = null;
let checking = null;
let timer = 0;
// The texts that the last run and the last listing are of.
let ranText = null;
let listedText = null;
// The language of the text, and the C program that the translation is of.
let language = LANGUAGES[0];
let translatedText = null;
// The earlier texts that may be chosen.
let keptShown = [];
// The names of the library, each with what is told of it.
let library = new Map();

// ---- elements

function make(tag, properties = {}, ...inside) {
  const element = document.createElement(tag);
  for (const [name, value] of Object.entries(properties)) {
    if (name.startsWith("on")) element.addEventListener(name.slice(2), value);
    else if (name === "class") element.className = value;
    else element.setAttribute(name, value);
  }
  element.append(...inside.filter((it) => it !== null));
  return element;
}

// ---- places: the server counts lines from 1, and columns in bytes from 1

function bytesOf(character) {
  const code = character.codePointAt(0);
  return code < 0x80 ? 1 : code < 0x800 ? 2 : code < 0x10000 ? 3 : 4;
}

function startsOf(text) {
  const starts = [0];
  for (let i = text.indexOf("\n"); i >= 0; i = text.indexOf("\n", i + 1)) starts.push(i + 1);
  return starts;
}

function offsetIn(text, starts, line, column) {
  if (line > starts.length) return text.length;
  let offset = starts[Math.max(line, 1) - 1];
  let bytes = 1;
  while (bytes < column && offset < text.length && text[offset] !== "\n") {
    const character = String.fromCodePoint(text.codePointAt(offset));
    bytes += bytesOf(character);
    offset += character.length;
  }
  return offset;
}

function rangeOf(it, text = editor.text(), starts = startsOf(text)) {
  const start = offsetIn(text, starts, it.line, it.column);
  const end = it.endLine ? offsetIn(text, starts, it.endLine, it.endColumn) : start;
  return [start, Math.max(start, end)];
}

// ---- the editor

function mark() {
  const text = editor.text();
  const starts = startsOf(text);
  const marked = checked === changes ? findings : [];
  editor.mark(marked.map((it) => {
    const [start, end] = rangeOf(it, text, starts);
    return { start, end, kind: it.kind, words: seen(it.hint ? `${it.message}\nHint: ${it.hint}` : it.message) };
  }), here);
}

function changed() {
  changes += 1;
  at("example").value = "";
  at("verdict").setAttribute("aria-busy", "true");
  if (here) {
    here = null;
    mark();
  }
  listFindings();
  markStale();
  clearTimeout(timer);
  timer = setTimeout(settled, PAUSE);
}

function settled() {
  store({ draft: present() });
  check();
}

function present() {
  return { source: editor.text(), input: at("input").value, language };
}

// Whether the text that stands there is one of the examples as it is.
function isExample(text) {
  return about.examples.some((it) => isSame(it, text));
}

// Puts a text in the place of the one that stands there, which is kept.
function putText(it) {
  const before = present();
  if (isSame(before, it)) return;
  if (!isExample(before)) keep(before);
  setLanguage(languageOf(it));
  editor.setText(it.source);
  at("input").value = it.input;
  showKept();
  changed();
}

// ---- the language

function setLanguage(name) {
  if (name === "c" && !about.can.includes("c")) return notice("This server translates no C.");
  if (name === language) return;
  language = name;
  at("language").value = name;
  at("tab-translation").hidden = name !== "c";
  // Only a Cyclone program has a layout.
  at("lay").disabled = name === "c";
  editor.setLanguage(name);
  if (name === "c" && !NARROW.matches) show("translation");
  else if (document.body.dataset.part === "translation") show("running");
}

// Turns to another language: an example gives way to one of that language, and any other text stays.
function turnTo(name) {
  const other = about.examples.find((it) => languageOf(it) === name);
  if (isExample(present()) && other) return choose(other.name);
  setLanguage(name);
  changed();
}

// Shows the translation of a C program, line by line beside the lines that it comes from; null where it is refused.
function showTranslation(lines, source) {
  translatedText = lines ? source : null;
  at("take").hidden = at("translated-lines").hidden = !lines;
  at("translation-words").textContent = lines ? "" : "There is no translation: the program is refused.";
  at("lines").tBodies[0].replaceChildren(...rowsOfTranslation(lines || []));
  at("take").onclick = () => putText({ source: lines.map((it) => `${it.text}\n`).join(""), input: at("input").value });
  markStale();
}

// A row for each run of lines that come from one line. The first one of a line leads there.
function rowsOfTranslation(lines) {
  const rows = [];
  const led = new Set();
  for (const { line, text } of lines) {
    const before = rows[rows.length - 1];
    if (before && before.line === line) before.texts.push(text);
    else rows.push({ line, texts: [text] });
  }
  return rows.map(({ line, texts }) => {
    const first = line === null ? "" : led.has(line) ? String(line) : placeButton({ line, column: 1 }, String(line));
    led.add(line);
    return make("tr", {}, make("td", {}, first), make("td", {}, seen(texts.join("\n"))));
  });
}

// Puts a text in the place of all, where the two differ: what stands before and after that stays as it is.
function replaceAll(text) {
  const old = editor.text();
  const most = Math.min(old.length, text.length);
  let start = 0;
  while (start < most && old[start] === text[start]) start += 1;
  let after = 0;
  while (after < most - start && old[old.length - 1 - after] === text[text.length - 1 - after]) after += 1;
  editor.replace(start, old.length - after, text.slice(start, text.length - after));
}

function goTo(start, end = start) {
  if (NARROW.matches) show("program");
  editor.select(start, end);
}

// ---- names of the library

const GIVEN = ["putchar", "getchar"];
// How far the words about the name under the mouse are from it, in pixels.
const AWAY = 14;

// What is told of a name: that of the library, unless the program declares it itself or is a C program.
function meaningOf(name) {
  const it = language === "c" ? undefined : library.get(name);
  return it && !declares(editor.text(), it) ? it : undefined;
}

function declares(text, { name, kind }) {
  // No part of a long text is read again and again.
  const ways = {
    function: `[\\w*@?>]\\s+[*@?]*${name}\\s*\\([^;{]{0,2000}\\)\\s*\\{`,
    struct: `\\bstruct\\s+${name}\\s*(?:<[^>]{0,200}>\\s*)?\\{`,
    exception: `\\bdatatype\\s+exn\\s*\\{[^}]{0,5000}\\b${name}\\b`,
  };
  return new RegExp(ways[kind]).test(text);
}

// Tells of the name at the caret below the editor, and of that under the mouse beside it.
function tellName(name, mouse = null) {
  const it = meaningOf(name);
  const words = it ? [make("code", {}, it.text), `\nIn the library's ${it.file}. ${it.words}`] : [];
  const place = mouse ? tip() : at("name");
  place.hidden = !it;
  place.replaceChildren(...words);
  if (!it || !mouse) return;
  const { width, height } = place.getBoundingClientRect();
  place.style.left = `${Math.max(0, Math.min(mouse[0], innerWidth - width - AWAY))}px`;
  place.style.top = `${mouse[1] + AWAY + height > innerHeight ? mouse[1] - AWAY - height : mouse[1] + AWAY}px`;
}

function tip() {
  if (!at("tip")) document.body.append(make("div", { id: "tip", class: "tip", "aria-hidden": "true" }));
  return at("tip");
}

// What a word may become: names of the program, words of the language, and names of the library, which have their declaration beside them.
function complete(before) {
  const own = [...new Set(editor.text().match(/[A-Za-z_]\w*/g))].sort();
  const of = language === "c" ? [] : [...GIVEN, ...KIND_OF_WORD.keys()].filter((it) => !own.includes(it));
  const fits = (name) => name.startsWith(before) && name !== before;
  const names = [...own, ...of].filter((name) => fits(name) && !meaningOf(name));
  const theirs = language === "c" ? [] : [...library.values()].filter((it) => fits(it.name) && meaningOf(it.name));
  return [...names, ...theirs.map((it) => ({ text: it.name, render: (item) => item.append(...hintOf(it)) }))];
}

function hintOf({ text, file, kind }) {
  return [kind === "struct" ? text.slice(0, text.indexOf("{")).trim() : text, make("span", { class: "file" }, `  ${file}`)];
}

async function readLibrary() {
  const names = await (await fetch("names")).json();
  library = new Map(names.map((it) => [it.name, it]));
  editor.complete = complete;
  editor.onName(tellName);
}

// ---- the parts of the page, of which a narrow window shows one

const PARTS = ["program", "running", "translation", "listing", "reading"];

function show(part) {
  const shown = part === "program" && !NARROW.matches ? "running" : part;
  document.body.dataset.part = shown;
  for (const it of PARTS) {
    at(`tab-${it}`).setAttribute("aria-selected", String(it === shown));
    at(`tab-${it}`).tabIndex = it === shown ? 0 : -1;
  }
  if (shown === "reading" && !at("document").src) at("document").src = "docs/";
  if (shown === "program") editor.refresh();
}

function moveTab(event) {
  const there = PARTS.filter((it) => at(`tab-${it}`).checkVisibility());
  const now = there.indexOf(document.body.dataset.part);
  const next = { ArrowRight: now + 1, ArrowLeft: now - 1 + there.length, Home: 0, End: there.length - 1 }[event.key];
  if (next === undefined) return;
  event.preventDefault();
  show(there[next % there.length]);
  at(`tab-${there[next % there.length]}`).focus();
}

// Marks what was said of another text than the one that stands there.
function markStale() {
  const text = present();
  at("stale-run").hidden = !ranText || isSame(ranText, text);
  at("stale-listing").hidden = listedText === null || listedText === text.source;
  at("stale-translation").hidden = translatedText === null || translatedText === text.source;
  for (const [part, stale] of [["running", "run"], ["listing", "listing"], ["translation", "translation"]]) {
    at(part).classList.toggle("stale", !at(`stale-${stale}`).hidden);
  }
  const of = { places: ranText?.source, instructions: listedText, lines: translatedText };
  for (const [id, source] of Object.entries(of)) {
    for (const it of at(id).querySelectorAll("button")) it.disabled = source !== text.source;
  }
}

// ---- what the server is asked

async function ask(path, body, signal) {
  const words = { method: "POST", headers: { "Content-Type": "application/json" }, body: JSON.stringify(body), signal };
  const answer = await fetch(path, words);
  if (answer.ok) return answer;
  let why = `the server answers ${answer.status}`;
  try {
    why = (await answer.json()).words || why;
  } catch {
    // it said nothing that can be read
  }
  throw new Error(why);
}

function isEnded(error) {
  return error.name === "AbortError";
}

async function check() {
  if (!about) return;
  if (!about.can.includes("json")) {
    at("verdict").setAttribute("aria-busy", "false");
    return;
  }
  const mine = changes;
  checking?.abort();
  checking = new AbortController();
  try {
    const { source } = present();
    const answer = await (await ask("check", { source, language }, checking.signal)).json();
    if (mine !== changes) return;
    findings = answer.findings;
    checked = mine;
    showVerdict(answer);
    if (language === "c") showTranslation(answer.translation, source);
  } catch (error) {
    if (isEnded(error) || mine !== changes) return;
    findings = [];
    showVerdict({ findings: [], end: "failed", words: `This text was not checked: ${error.message}` });
  }
  listFindings();
  mark();
}

// Lays the program out, unless it is changed before the answer is there.
async function lay() {
  const mine = changes;
  try {
    const answer = await (await ask("format", { source: editor.text() })).json();
    if (mine !== changes) return;
    notice(answer.text === null ? answer.words : answer.text === editor.text() ? "The program is laid out already." : "");
    if (answer.text !== null) replaceAll(answer.text);
  } catch (error) {
    notice(`The program was not laid out: ${error.message}`);
  }
}

function count(number, one) {
  return `${number} ${one}${number === 1 ? "" : "s"}`;
}

function showVerdict({ end, words, last }) {
  const refusals = findings.filter((it) => it.kind === "refusal").length;
  const warnings = findings.length - refusals;
  const verdict = at("verdict");
  const behind = warnings ? `, with ${count(warnings, "warning")}` : "";
  verdict.setAttribute("aria-busy", "false");
  verdict.className = `verdict ${end === "done" ? (warnings ? "warn" : "good") : "bad"}`;
  if (end === "done") verdict.textContent = `Accepted${behind}.`;
  else if (end === "fault") verdict.textContent = `Refused: ${count(refusals, "refusal")}${behind}.`;
  else verdict.textContent = words || `Not checked: ${last}`;
}

// ---- refusals and warnings

function listFindings() {
  const isOld = checked !== changes;
  if (isOld && at("findings").children.length) {
    for (const button of at("findings").querySelectorAll("button")) button.disabled = true;
    return;
  }
  at("findings").replaceChildren(...(isOld ? [] : findings.map(itemOf)));
}

function placeButton(it, words = `Line ${it.line}, column ${it.column}`) {
  return make("button", { type: "button", onclick: () => goTo(...rangeOf(it)) }, seen(words));
}

function itemOf(it) {
  const name = it.kind === "warning" ? "Warning" : it.first ? "Refused" : "Refused too";
  const item = make("li", { class: it.kind }, make("p", { class: "message" }, seen(`${name}: ${it.message}`)));
  if (it.detail) item.append(make("p", { class: "detail" }, seen(it.detail)));
  if (it.hint) item.append(make("p", { class: "hint" }, seen(`Hint: ${it.hint}`)));
  const actions = make("div", { class: "actions" }, placeButton(it));
  for (const other of it.related) actions.append(placeButton(other, `Line ${other.line}${elsewhere(other.message, it)}`));
  if (it.edit) actions.append(make("button", { type: "button", class: "edit", onclick: () => edit(it) },
    seen(`Edit: ${editInWords(it.edit)}`)));
  item.append(actions);
  if (it.code !== null) item.append(ruleOf(it.code));
  return item;
}

// What is said of another place, where it was not said already.
function elsewhere(message, it) {
  const lines = message.split("\n").filter((line) => !`${it.message}\n${it.detail}`.includes(line));
  return lines.length ? `: ${lines.join("; ")}` : `, column ${it.related.find((one) => one.message === message).column}, is meant`;
}

function editInWords({ text, line, column, endLine, endColumn }) {
  const isEmpty = line === endLine && column === endColumn;
  return text === "" ? "take it out" : isEmpty ? `put ${text} there` : `write ${text} in its place`;
}

function edit(it) {
  if (checked !== changes) return;
  const [start, end] = rangeOf(it.edit);
  editor.replace(start, end, it.edit.text);
  editor.select(start + it.edit.text.length, start + it.edit.text.length);
}

// The page of a code, which is asked for when it is opened.
function ruleOf(code) {
  const text = make("pre", { class: "rule" });
  const details = make("details", {}, make("summary", {}, `What rule ${code} is`), text);
  details.addEventListener("toggle", async () => {
    if (!details.open || text.textContent) return;
    try {
      const answer = await fetch(`explain/${code}`);
      text.textContent = answer.ok ? await answer.text() : "This program has no page of this rule.";
    } catch (error) {
      text.textContent = error.message;
    }
  });
  return details;
}

// From the place of the caret on, the next refusal or warning.
function nextFinding() {
  if (checked !== changes || !findings.length) return null;
  const ordered = findings.map((it) => ({ it, start: rangeOf(it)[0] })).sort((one, other) => one.start - other.start);
  return (ordered.find(({ start }) => start > editor.caret()) || ordered[0]).it;
}

function findingHere() {
  if (checked !== changes) return null;
  const inside = (it) => rangeOf(it)[0] <= editor.caret() && editor.caret() <= rangeOf(it)[1];
  return findings.find((it) => it.edit && inside(it)) || findings.find((it) => it.edit) || null;
}

// ---- runs

function forget() {
  here = null;
  at("output").replaceChildren();
  for (const id of ["end", "places"]) at(id).replaceChildren();
  at("figures").hidden = true;
}

function tellEnd(words, kind, ...more) {
  at("end").className = kind;
  at("end").replaceChildren(make("p", {}, seen(words)), ...more);
}

// Bytes as they come: text as UTF-8, and what is not seen or steers a terminal by its bytes.
function printer() {
  const decoder = new TextDecoder("utf-8", { ignoreBOM: true });
  return (bytes) => {
    const text = decoder.decode(bytes, { stream: bytes !== undefined });
    let done = 0;
    for (const match of text.matchAll(HIDDEN_CHARACTER)) {
      at("output").append(text.slice(done, match.index), make("span", { class: "byte" }, escaped(match[0])));
      done = match.index + match[0].length;
    }
    at("output").append(text.slice(done));
  };
}

function bytesIn(base64) {
  return Uint8Array.from(atob(base64), (character) => character.charCodeAt(0));
}

async function* objectsIn(answer) {
  const reader = answer.body.pipeThrough(new TextDecoderStream()).getReader();
  let rest = "";
  for (;;) {
    const { done, value } = await reader.read();
    if (done) return;
    const lines = (rest + value).split("\n");
    rest = lines.pop();
    for (const line of lines) yield JSON.parse(line);
  }
}

function limits() {
  const found = { peaks: at("peaks").checked };
  for (const id of ["steps", "pages", "calls"]) {
    const input = at(id);
    if (!input.checkValidity()) throw new Error(`${input.labels[0].textContent}: from ${input.min} to ${input.max}`);
    found[id] = input.value === "" ? null : Number(input.value);
  }
  return found;
}

async function run() {
  running?.abort();
  const mine = (running = new AbortController());
  const text = changes;
  ranText = present();
  forget();
  mark();
  markStale();
  show("running");
  at("stop").disabled = false;
  tellEnd("It is compiled.", "");
  // In a narrow window the output stands below the input.
  if (NARROW.matches) at("printed").scrollIntoView({ block: "start" });
  let last = null;
  try {
    const print = printer();
    const answer = await ask("run", { ...ranText, ...limits() }, mine.signal);
    for await (const it of objectsIn(answer)) {
      if (mine !== running) return;
      last = it;
      if (it.now === "output") print(bytesIn(it.bytes));
      else tell(it, text);
    }
    print();
    if (!last || last.now === "output" || last.now === "waiting") throw new Error("the server ended before the run did");
  } catch (error) {
    if (mine !== running) return;
    tellEnd(isEnded(error) ? "You stopped it." : `It was not run: ${error.message}.`, "bad");
  }
  at("stop").disabled = true;
}

function tell(it, text) {
  if (it.now === "waiting") tellEnd(`It waits: ${it.before === 0 ? "it is the next" : `${count(it.before, "run")} before it`}.`, "");
  else if (it.now === "compiled") tellCompiled(it, text);
  else if (it.now === "ended") tellEnded(it, text);
  else tellEnd(it.words, "bad");
}

function tellCompiled(it, text) {
  if (text === changes && about.can.includes("json")) {
    findings = it.findings;
    checked = text;
    showVerdict(it);
    listFindings();
    mark();
    if (language === "c") showTranslation(it.translation, editor.text());
  }
  if (it.accepted) tellEnd("It runs.", "");
  else tellEnd(it.end === "fault" ? "It was not run: the program is refused." : `It was not run: ${it.last}.`, "bad", make("p",
    { class: "said" }, seen(it.said)));
}

function tellEnded(it, text) {
  const said = it.said.filter(Boolean).map((line) => make("p", { class: "said" }, seen(line)));
  tellEnd(it.words, it.end === "returned" ? "good" : "bad", ...said);
  if (it.places.length) {
    at("places").replaceChildren(...it.places.map((place) => make("li", {}, placeButton(place,
      `Line ${place.line}, column ${place.column}: ${place.text}`))));
    if (text === changes) {
      const [start] = rangeOf(it.places[0]);
      here = [start, start + (/^\w+|^./su.exec(editor.text().slice(start)) || [" "])[0].length];
      mark();
    }
  } else if (it.end !== "returned" && !about.can.includes("places")) {
    at("end").append(make("p", { class: "said" }, "This program cannot tell where in its text a run ended: it has no run --places."));
  }
  showFigures(it.report);
}

const FIGURES = { instructions: "Instructions", most_calls: "Most calls at once", most_pages: "Most pages at once", read: "Bytes read",
  written: "Bytes printed" };

function showFigures(report) {
  const rows = report ? Object.entries(FIGURES).filter(([name]) => report[name] !== null) : [];
  at("figures").hidden = !rows.length;
  at("figures").tBodies[0].replaceChildren(...rows.map(([name, words]) =>
    make("tr", {}, make("th", { scope: "row" }, words), make("td", {}, report[name].toLocaleString("en")))));
}

// ---- the listing

async function list() {
  const text = editor.text();
  show("listing");
  listedText = text;
  at("instructions").tBodies[0].replaceChildren();
  at("listing-words").textContent = "It is compiled.";
  try {
    const answer = await (await ask("listing", { source: text, language })).json();
    at("listing-words").textContent = seen(listingInWords(answer));
    at("instructions").tBodies[0].replaceChildren(...rowsOf(answer, text.split("\n")));
  } catch (error) {
    at("listing-words").textContent = `There is no listing: ${error.message}.`;
  }
  markStale();
}

function listingInWords(answer) {
  if (answer.end !== "done") return `There is no listing: ${answer.end === "fault" ? "the program is refused" : answer.last}.`;
  const cut = answer.all > answer.lines.length ? `, of which the first ${answer.lines.length.toLocaleString("en")} are shown` : "";
  const placed = answer.placed ? "" : " This program cannot tell which lines they are made from: it has no compile --places.";
  return `${count(answer.all, "instruction")}${cut}.${placed}`;
}

// A row for each run of instructions that are made from one line. The first one of a line leads there: no two buttons have one name.
function rowsOf(answer, lines) {
  const rows = [];
  const led = new Set();
  for (const it of answer.lines) {
    const before = rows[rows.length - 1];
    if (before && before.line === it.line && before.function === it.function) before.texts.push(`${it.address}  ${it.text}`);
    else rows.push({ line: it.line, function: it.function, texts: [`${it.address}  ${it.text}`] });
  }
  return rows.map(({ line, function: name, texts }) => {
    const place = { line, column: 1 };
    const words = line === null ? (name ? `(what ${name} raises)` : answer.placed ? "(before main)" : "") : lines[line - 1] || "";
    const first = line === null ? "" : led.has(line) ? String(line) : placeButton(place, String(line));
    led.add(line);
    return make("tr", {}, make("td", {}, first), make("td", {}, seen(words)), make("td", {}, texts.join("\n")));
  });
}

// ---- a link that holds the program

async function through(bytes, stream, most = Infinity) {
  const reader = new Blob([bytes]).stream().pipeThrough(stream).getReader();
  const parts = [];
  let length = 0;
  for (;;) {
    const { done, value } = await reader.read();
    if (done) return new Uint8Array(await new Blob(parts).arrayBuffer());
    length += value.length;
    if (length > most) throw new Error("it holds too much");
    parts.push(value);
  }
}

async function link() {
  const held = JSON.stringify(present());
  const bytes = await through(new TextEncoder().encode(held), new CompressionStream("deflate-raw"));
  const base64 = btoa(Array.from(bytes, (byte) => String.fromCharCode(byte)).join(""));
  const address = `#program=${base64.replaceAll("+", "-").replaceAll("/", "_").replace(/=+$/, "")}`;
  if (address.length > LONGEST_ADDRESS) return notice("This program is too long for an address.");
  history.replaceState(null, "", address);
  try {
    await navigator.clipboard.writeText(location.href);
    notice("The address of this page holds the program now, and was copied.");
  } catch {
    notice("The address of this page holds the program now: copy it from above.");
  }
}

// Whether the address held a program.
async function takeLink() {
  const example = /^#example=([\w.-]+)$/.exec(location.hash);
  if (example) return choose(example[1]);
  const held = /^#program=([\w-]+)$/.exec(location.hash);
  if (!held) return false;
  try {
    const most = 12 * about.caps.text + 1000;
    const bytes = await through(bytesIn(held[1].replaceAll("-", "+").replaceAll("_", "/")), new DecompressionStream("deflate-raw"), most);
    const it = JSON.parse(new TextDecoder("utf-8", { fatal: true }).decode(bytes));
    if (!isText(it)) throw new Error("it holds no program");
    putText(it);
    return true;
  } catch {
    notice("The address of this page holds no program that can be read.");
    return false;
  }
}

// ---- the page

function notice(words) {
  at("notice").textContent = words;
}

const LACKING = {
  json: "show refusals while you type (check --json)",
  places: "tell where in the text a run ended (run --places)",
  report: "tell what a run took (run --report)",
  format: "lay programs out (format)",
};

function showAbout() {
  at("version").textContent = about.version;
  const isWished = editor instanceof RichEditor || stored().plain;
  at("editor-words").textContent = isWished ? "" : "The server has no CodeMirror: this is a plain text area.";
  const lacking = Object.keys(LACKING).filter((name) => !about.can.includes(name)).map((name) => LACKING[name]);
  if (lacking.length) notice(`The program behind this page cannot ${lacking.join(", and cannot ")}.`);
  at("peaks").disabled = !about.can.includes("peaks");
  for (const id of ["steps", "pages", "calls"]) {
    at(id).min = about.least[id];
    at(id).max = about.caps[id];
    at(id).placeholder = about.caps[id];
  }
  const { seconds, output, text } = about.caps;
  at("caps").textContent = `A run takes at most ${count(seconds, "second")} and prints at most ${output.toLocaleString("en")} bytes;` +
    ` a program and an input have at most ${text.toLocaleString("en")} bytes each.`;
  const canC = about.can.includes("c");
  at("language").closest(".field").hidden = !canC;
  const examples = about.examples.filter((it) => canC || languageOf(it) !== "c");
  at("example").append(...examples.map(({ name, title }) => make("option", { value: name }, title ? `${name}: ${title}` : name)));
}

function showKept() {
  const { kept } = stored();
  keptShown = kept;
  at("kept").replaceChildren(make("option", { value: "" }, kept.length ? "choose one" : "none yet"), ...kept.map((it,
    number) => make("option", { value: number }, titleOf(it))));
  at("kept").disabled = !kept.length;
}

function bringBack(number) {
  const found = number === "" ? null : keptShown[number];
  if (found) putText(found);
  at("kept").value = "";
}

function choose(name) {
  const found = about.examples.find((it) => it.name === name);
  if (!found) return false;
  history.replaceState(null, "", location.pathname);
  putText(found);
  at("example").value = name;
  if (NARROW.matches) show("program");
  return true;
}

function setPlain(isPlain) {
  store({ plain: isPlain, draft: present() });
  location.reload();
}

function pressed(event) {
  if (event.key === "Enter" && (event.ctrlKey || event.metaKey)) run();
  else if (event.key === "F8" && event.shiftKey) {
    const found = findingHere();
    if (found) edit(found);
  } else if (event.key === "F8") {
    const found = nextFinding();
    if (found) goTo(...rangeOf(found));
  } else return;
  event.preventDefault();
}

function listen() {
  editor.onChange(changed);
  document.addEventListener("keydown", pressed);
  at("run").addEventListener("click", run);
  at("stop").addEventListener("click", () => running?.abort());
  at("lay").addEventListener("click", lay);
  at("list").addEventListener("click", list);
  at("link").addEventListener("click", link);
  at("example").addEventListener("change", () => choose(at("example").value));
  at("language").addEventListener("change", () => turnTo(at("language").value));
  at("kept").addEventListener("change", () => bringBack(at("kept").value));
  at("input").addEventListener("input", markStale);
  at("plain").addEventListener("change", () => setPlain(at("plain").checked));
  for (const it of PARTS) at(`tab-${it}`).addEventListener("click", () => show(it));
  at("tabs").addEventListener("keydown", moveTab);
  NARROW.addEventListener("change", () => show(document.body.dataset.part));
  window.addEventListener("hashchange", takeLink);
  window.addEventListener("pagehide", () => about && store({ draft: present() }));
}

async function begin() {
  const { plain, draft } = stored();
  editor = editorAt(at("editor"), "Program", "verdict keys", plain);
  at("plain").checked = plain || editor instanceof PlainEditor;
  at("plain").disabled = editor instanceof PlainEditor && !plain;
  listen();
  show("program");
  showKept();
  try {
    const answer = await fetch("about");
    about = await answer.json();
    await readLibrary();
  } catch (error) {
    notice(`The server does not answer: ${error.message}.`);
    return;
  }
  showAbout();
  if (draft) putText(draft);
  if (!(await takeLink()) && !draft && about.examples.length) choose(about.examples[0].name);
  clearTimeout(timer);
  settled();
}

begin();
