"use strict";

// What was typed, kept in the browser's storage: the text that stands there, and the last ten that another took the place of. Where the
// browser keeps nothing, they are kept as long as the page is open.

const STORE = "cyclone";
const MOST_KEPT = 10;
const LANGUAGES = ["cyclone", "c"];
let unstored = {};

function stored() {
  try {
    const found = JSON.parse(localStorage.getItem(STORE)) || {};
    return { draft: isText(found.draft) ? found.draft : null, kept: (Array.isArray(found.kept) ? found.kept : []).filter(isText),
      plain: found.plain === true };
  } catch {
    return { draft: null, kept: [], plain: false, ...unstored };
  }
}

function isText(it) {
  return Boolean(it) && typeof it.source === "string" && typeof it.input === "string" && LANGUAGES.includes(languageOf(it));
}

// The language of a text; one that names none is of the first.
function languageOf(it) {
  return it.language ?? LANGUAGES[0];
}

function isSame(one, other) {
  return one.source === other.source && one.input === other.input && languageOf(one) === languageOf(other);
}

// Stores some of it beside the rest. What does not fit makes the oldest texts go.
function store(part) {
  const all = { ...stored(), ...part };
  unstored = all;
  for (; ;) {
    try {
      return localStorage.setItem(STORE, JSON.stringify(all));
    } catch {
      if (!all.kept.length) return;
      all.kept = all.kept.slice(0, -1);
    }
  }
}

// Keeps a text of which no other copy is there.
function keep(text) {
  if (!text.source.trim()) return;
  store({ kept: [{ ...text, when: Date.now() }, ...stored().kept.filter((it) => !isSame(it, text))].slice(0, MOST_KEPT) });
}

// A name for a kept text: when it was put away, and its first line of code.
function titleOf(it) {
  const line = it.source.split("\n").map((one) => one.trim()).find((one) => one && !/^(\/\/|\/\*|\*)/.test(one)) || "";
  const time = it.when ? new Date(it.when).toLocaleString("en", { month: "short", day: "numeric", hour: "2-digit", minute: "2-digit",
    hour12: false }) : "";
  return seen(`${time}: ${languageOf(it) === "c" ? "C, " : ""}${line.slice(0, 40)}`);
}
