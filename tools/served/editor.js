"use strict";

// Two editors with the same methods: CodeMirror, where the server has it, and a plain text area, which some prefer and which always works.
// Places are numbers of UTF-16 units from the beginning of the text.

const WORDS = {
  type: "int char void struct datatype exn region_t uregion_key_t",
  statement: "if else while for return break continue throw try catch case default",
  memory: "region open let alias NewDynamicRegion new_ukey new rnew numelts ufree free_ukey",
  constant: "NULL unique_region heap_region",
};
const KIND_OF_WORD = new Map(Object.entries(WORDS).flatMap(([kind, words]) => words.split(" ").map((word) => [word, kind])));
const NAME = /^[A-Za-z_]\w*$/;
// A longer name is no name of the library.
const LONGEST_NAME = 100;
// What is not seen, steers a terminal, or turns the direction of writing: as the program's own messages have it, and the soft hyphen.
const HIDDEN = "\\u0000-\\u0008\\u000b-\\u001f\\u007f-\\u009f\\u00ad\\u061c\\u200b-\\u200f\\u2028-\\u202e" +
  "\\u2060-\\u206f\\ufeff\\ufff9-\\ufffb";
const HIDDEN_CHARACTER = new RegExp(`[${HIDDEN}]|[\\u{e0000}-\\u{e007f}]`, "gu");
// The words of C that begin blocks, and those after which a name is declared, for the indentation.
const BLOCKS = "if else while for try catch case default struct datatype";
// More lines than fit are there for a screen reader.
const LINES_BEYOND = 50;

// The bytes of a character in UTF-8, as the program's messages write them.
function escaped(character) {
  return Array.from(new TextEncoder().encode(character), (byte) => `\\x${byte.toString(16).padStart(2, "0")}`).join("");
}

// A text of which a person sees each character.
function seen(text) {
  return text.replace(HIDDEN_CHARACTER, escaped);
}

// The name that a place of a text stands in, or at whose end it stands; empty where there is none.
function nameAt(text, place) {
  const before = /\w*$/.exec(text.slice(Math.max(0, place - LONGEST_NAME), place))[0];
  return before + /^\w*/.exec(text.slice(place, place + LONGEST_NAME))[0];
}

// ---- the language for CodeMirror: the mode for C-like languages with the tokens of this one

function tokens() {
  const bad = () => "other";
  const hooks = {
    "'": (stream) => (stream.match(/^(?:[ -&(-[\]-~]|\\[ntr0\\'])'/) ? "character" : "other"),
    "`": (stream) => (stream.match(/^[A-Za-z_]\w*/) ? "region" : "other"),
    token: (stream, state, style) => kindOf(stream.current(), style),
  };
  for (const character of "\"#$.\\") hooks[character] = bad;
  return {
    name: "clike",
    keywords: setOf(`${WORDS.statement} ${WORDS.memory}`),
    types: setOf(WORDS.type),
    atoms: setOf(WORDS.constant),
    blockKeywords: setOf(BLOCKS),
    numberStart: /\d/,
    number: /^(?:0[xX][0-9a-fA-F]+|0|[1-9][0-9]*)/,
    isPunctuationChar: /[[\]{}(),;:]/,
    isOperatorChar: /[-+*/%&|^~!<>=@?]/,
    isIdentifierChar: /\w/,
    indentSwitch: false,
    hooks,
  };
}

function setOf(words) {
  return Object.fromEntries(words.split(" ").map((word) => [word, true]));
}

function kindOf(text, style) {
  if (NAME.test(text)) return KIND_OF_WORD.get(text) || null;
  if (style === "variable") return "other";
  return style === "operator" || style === null ? "sign" : style;
}

// ---- CodeMirror

class RichEditor {
  constructor(place, label, describedBy) {
    this.marks = [];
    this.cm = CodeMirror(place, {
      mode: tokens(), theme: "page", inputStyle: "contenteditable", lineNumbers: true, indentUnit: 2, tabSize: 4, matchBrackets: true,
      foldGutter: true, gutters: ["CodeMirror-lint-markers", "CodeMirror-linenumbers", "CodeMirror-foldgutter"], screenReaderLabel: label,
      viewportMargin: LINES_BEYOND, spellcheck: false, autocorrect: false, autocapitalize: false, undoDepth: 10000,
      lint: { getAnnotations: () => this.annotations, lintOnChange: false }, styleActiveLine: { nonEmpty: true },
      specialChars: new RegExp(`[${HIDDEN}]`, "u"), specialCharPlaceholder: placeholder,
      extraKeys: { Tab: false, "Shift-Tab": false, "Ctrl-/": "toggleComment", "Cmd-/": "toggleComment",
        "Ctrl-Q": (cm) => cm.foldCode(cm.getCursor()), "Ctrl-Space": "autocomplete" },
      hintOptions: { hint: () => this.hints(), completeSingle: false },
    });
    this.annotations = [];
    this.complete = () => [];
    const field = this.cm.getInputField();
    for (const [name, value] of Object.entries({ id: "source", role: "textbox", "aria-multiline": "true",
      "aria-describedby": describedBy })) field.setAttribute(name, value);
  }

  onChange(call) { this.cm.on("changes", call); }

  // Calls with the name at the caret, and with that under the mouse and the place of the mouse in the window.
  onName(call) {
    this.cm.on("cursorActivity", () => call(this.nameAt(this.cm.getCursor())));
    const lines = this.cm.getScrollerElement();
    lines.addEventListener("mousemove", ({ clientX, clientY }) => {
      const place = this.cm.coordsChar({ left: clientX, top: clientY }, "window");
      call(place.outside ? "" : this.nameAt(place), [clientX, clientY]);
    });
    for (const event of ["mouseleave", "mousedown", "scroll", "keydown"]) lines.addEventListener(event, () => call("", [0, 0]));
  }

  nameAt({ line, ch }) { return nameAt(this.cm.getLine(line), ch); }

  // The words that may stand in place of the one before the caret, by the page.
  hints() {
    const to = this.cm.getCursor();
    const before = /[A-Za-z_]\w*$/.exec(this.cm.getLine(to.line).slice(0, to.ch))?.[0] ?? "";
    return { list: this.complete(before), from: { line: to.line, ch: to.ch - before.length }, to };
  }

  setLanguage(name) { this.cm.setOption("mode", name === "c" ? "text/x-csrc" : tokens()); }
  text() { return this.cm.getValue(); }
  focus() { this.cm.focus(); }
  refresh() { this.cm.refresh(); }
  caret() { return this.cm.indexFromPos(this.cm.getCursor("from")); }
  place(offset) { return this.cm.posFromIndex(offset); }

  // Puts a text in place of all; it can be undone.
  setText(text) {
    this.cm.setValue(text);
    this.cm.setCursor(0, 0);
  }

  replace(start, end, text) {
    this.cm.replaceRange(text, this.place(start), this.place(end));
  }

  select(start, end) {
    this.cm.focus();
    this.cm.setSelection(this.place(start), this.place(end));
    this.cm.scrollIntoView(null, 80);
  }

  // Marks ranges, each with its kind and words; and the place where a run ended.
  mark(findings, here) {
    this.annotations = findings.map(({ start, end, kind, words }) => ({
      from: this.place(start), to: this.place(Math.max(end, start + 1)), severity: kind === "warning" ? "warning" : "error", message: words,
    }));
    this.cm.operation(() => {
      this.marks.forEach((it) => it.clear());
      this.marks = here ? [this.cm.markText(this.place(here[0]), this.place(here[1]), { className: "here" })] : [];
      this.cm.performLint();
    });
  }
}

function placeholder(character) {
  const it = document.createElement("span");
  it.className = "byte";
  it.textContent = escaped(character);
  it.title = it.textContent;
  return it;
}

// ---- a text area

class PlainEditor {
  constructor(place, label, describedBy) {
    const area = (this.area = document.createElement("textarea"));
    const has = { id: "source", "aria-label": label, "aria-describedby": describedBy, wrap: "off", spellcheck: "false",
      autocomplete: "off", autocapitalize: "off", autocorrect: "off" };
    for (const [name, value] of Object.entries(has)) area.setAttribute(name, value);
    place.append(area);
  }

  onChange(call) { this.area.addEventListener("input", call); }

  onName(call) {
    for (const event of ["input", "keyup", "click"]) {
      this.area.addEventListener(event, () => call(nameAt(this.area.value, this.area.selectionStart)));
    }
  }

  setLanguage() {}
  text() { return this.area.value; }
  focus() { this.area.focus(); }
  refresh() {}
  caret() { return this.area.selectionStart; }
  mark() {}

  setText(text) {
    this.replace(0, this.area.value.length, text);
    this.area.setSelectionRange(0, 0);
    this.area.scrollTop = 0;
  }

  // The browser's own way to insert text is the only one that can be undone.
  replace(start, end, text) {
    if (start === end && text === "") return;
    this.area.focus();
    this.area.setSelectionRange(start, end);
    if (!document.execCommand(text === "" ? "delete" : "insertText", false, text)) {
      this.area.setRangeText(text, start, end, "end");
      this.area.dispatchEvent(new Event("input"));
    }
  }

  select(start, end) {
    this.area.focus();
    this.area.setSelectionRange(start, end);
    const top = (this.area.value.slice(0, start).split("\n").length - 1) * parseFloat(getComputedStyle(this.area).lineHeight);
    const { scrollTop, clientHeight } = this.area;
    if (top < scrollTop || top > scrollTop + clientHeight - 40) this.area.scrollTop = top - clientHeight / 2;
  }
}

// The editor at a place of the page: CodeMirror where it is there and nobody asked for the plain one.
function editorAt(place, label, describedBy, isPlain) {
  const isThere = typeof CodeMirror === "function" && CodeMirror.modes.clike;
  return isThere && !isPlain ? new RichEditor(place, label, describedBy) : new PlainEditor(place, label, describedBy);
}
