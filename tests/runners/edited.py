#!/usr/bin/env python3
"""Has editors talk to the language server tools/lsp, and lists the answers that are not as they should be.

    python3 tests/runners/edited.py [--program PATH] [--count N] [--seed N]

Neovim, headless, opens texts with its own client: diagnostics, the edits of hints, hover, the jump to a declaration, the names of a file,
completion, other names, parameters, tokens and regions that are left out are as they should be, also for names of the library. The messages
that Visual Studio Code sends (tests/edited/vscode.jsonl) get the answers that it needs. C programs have diagnostics at their places. A
message that is none of the protocol is answered as the protocol says, or ends the server, and a text that cannot be checked says so. The
tools know each last line of the program. Of each example, and of N random programs, 40 by default, each declared name is given another, in
all places that the server tells of it, and each region that is left out is written: it compiles to the same image, byte for byte. The same
seed gives the same programs. Vim's :make and the problem matcher for Visual Studio Code find each place in what `cyclone check` says, and
each snippet stands in a program that is accepted. The last line is `N passed, M failed`.
"""
import json
import os
import random
import re
import subprocess
import sys
import tempfile

import suite  # first: it makes the references and the generators importable
import asked
import editors
import makers
import names
import with_library

LSP = os.path.join(suite.ROOT, "tools", "lsp")
EXAMPLES = os.path.join(suite.ROOT, "examples")
# A Lua script for the editor: it performs the given actions on texts, and writes a list of
# observations, such as shown messages, for each text.
LUA = """
local function read(path) local file = io.open(path) local text = file:read('*a') file:close() return vim.fn.json_decode(text) end
local told = 0
local show = vim.lsp.handlers['textDocument/publishDiagnostics']
vim.lsp.handlers['textDocument/publishDiagnostics'] = function(error, result, ...)
  show(error, result, ...)
  if result.uri == vim.uri_from_bufnr(0) then told = told + 1 end
end
local client = vim.lsp.start_client({ cmd = { vim.env.LSP, '--program', vim.env.CYCLONE }, name = 'cyclone', root_dir = vim.fn.getcwd() })
local function until_told(before) if not vim.wait(600000, function() return told > before end, 10) then error('nothing was told') end end
local function ask(method, line, column)
  vim.api.nvim_win_set_cursor(0, { line, column - 1 })
  local params = vim.lsp.util.make_position_params(0, 'utf-16')
  if method == 'textDocument/codeAction' then
    params = vim.lsp.util.make_range_params(0, 'utf-16')
    params.context = { diagnostics = {} }
  end
  params.context = params.context or { includeDeclaration = true }
  local found = vim.lsp.buf_request_sync(0, method, params, 60000)
  return found[client] and found[client].result or vim.NIL
end
local does = {}
function does.diagnostics()
  local found = {}
  for _, it in ipairs(vim.diagnostic.get(0)) do
    table.insert(found, { it.lnum + 1, it.col + 1, it.end_lnum + 1, it.end_col + 1, it.severity, it.message })
  end
  table.sort(found, function(one, other) return one[1] < other[1] or one[1] == other[1] and one[2] < other[2] end)
  return found
end
function does.mend(line, column)
  local actions, before = ask('textDocument/codeAction', line, column), told
  vim.lsp.util.apply_workspace_edit(actions[1].edit, 'utf-16')
  until_told(before)
  return actions[1].title
end
function does.lay()
  local params = { textDocument = vim.lsp.util.make_text_document_params(0), options = { tabSize = 2, insertSpaces = true } }
  local before, found = told, vim.lsp.buf_request_sync(0, 'textDocument/formatting', params, 60000)
  local edits = found[client] and found[client].result
  if not edits or edits == vim.NIL then return 'nothing' end
  if #edits > 0 then
    vim.lsp.util.apply_text_edits(edits, 0, 'utf-16')
    until_told(before)
  end
  return #edits
end
function does.actions(line, column) return #ask('textDocument/codeAction', line, column) end
function does.hover(line, column)
  local found = ask('textDocument/hover', line, column)
  return found ~= vim.NIL and found.contents.value or ''
end
function does.jump(line, column)
  vim.api.nvim_win_set_cursor(0, { line, column - 1 })
  vim.lsp.buf.definition()
  vim.wait(600000, function() local at = vim.api.nvim_win_get_cursor(0) return at[1] ~= line or at[2] ~= column - 1 end, 10)
  local at = vim.api.nvim_win_get_cursor(0)
  return { at[1], at[2] + 1 }
end
function does.symbols()
  local function plain(list)
    local found = {}
    for _, it in ipairs(list) do
      local first, last = it.range.start.line + 1, it.range['end'].line + 1
      table.insert(found, { it.name, it.kind, first, last, plain(it.children or {}) })
    end
    return found
  end
  return plain(ask('textDocument/documentSymbol', 1, 1))
end
function does.write(line, column, text)
  local before = told
  vim.api.nvim_buf_set_text(0, line - 1, column - 1, line - 1, column - 1, vim.split(text, '\\n'))
  until_told(before)
  return true
end
function does.complete(line, column)
  local found = {}
  for _, it in ipairs(ask('textDocument/completion', line, column).items) do
    if it.kind ~= 14 and not it.labelDetails then table.insert(found, it.label) end
  end
  return found
end
function does.offered(line, column, label)
  for _, it in ipairs(ask('textDocument/completion', line, column).items) do
    if it.label == label then return { it.kind, it.detail, it.labelDetails.description, it.documentation, it.sortText } end
  end
  return 'nothing'
end
function does.leads(line, column)
  local found = ask('textDocument/definition', line, column)
  return { vim.fn.fnamemodify(vim.uri_to_fname(found.uri), ':t'), found.range.start.line + 1, found.range.start.character + 1 }
end
function does.completed(line, column, label)
  for _, it in ipairs(ask('textDocument/completion', line, column).items) do
    if it.label == label then
      local before = told
      vim.lsp.util.apply_text_edits({ it.textEdit }, 0, 'utf-16')
      until_told(before)
      return true
    end
  end
  return false
end
function does.rename(line, column, name)
  vim.api.nvim_win_set_cursor(0, { line, column - 1 })
  local params, before = vim.lsp.util.make_position_params(0, 'utf-16'), told
  params.newName = name
  local found = vim.lsp.buf_request_sync(0, 'textDocument/rename', params, 60000)[client]
  if not found.result then return (found.error or found.err).message end
  vim.lsp.util.apply_workspace_edit(found.result, 'utf-16')
  until_told(before)
  return 'renamed'
end
function does.parameters(line, column)
  local found = ask('textDocument/signatureHelp', line, column)
  if found == vim.NIL then return 'nothing' end
  local one = found.signatures[1]
  return { one.label, one.parameters[found.activeParameter + 1].label }
end
function does.tokens()
  local params = { textDocument = vim.lsp.util.make_text_document_params(0) }
  local data = vim.lsp.buf_request_sync(0, 'textDocument/semanticTokens/full', params, 60000)[client].result.data
  local legend = vim.lsp.get_client_by_id(client).server_capabilities.semanticTokensProvider.legend.tokenTypes
  local found, line, column = {}, 0, 0
  for at = 1, #data, 5 do
    line, column = line + data[at], (data[at] == 0 and column or 0) + data[at + 1]
    table.insert(found, { line + 1, column + 1, data[at + 2], legend[data[at + 3] + 1], data[at + 4] })
  end
  return found
end
function does.regions()
  local params = vim.lsp.util.make_given_range_params({ 1, 0 }, { vim.fn.line('$'), 0 }, 0, 'utf-16')
  local found = {}
  for _, it in ipairs(vim.lsp.buf_request_sync(0, 'textDocument/inlayHint', params, 60000)[client].result) do
    table.insert(found, { it.position.line + 1, it.position.character + 1, it.label })
  end
  return found
end
function does.text() return table.concat(vim.api.nvim_buf_get_lines(0, 0, -1, false), '\\n') .. '\\n' end
local seen = {}
for _, one in ipairs(read(vim.env.ASKED)) do
  local before, found = told, {}
  vim.cmd('hide edit ' .. one[1])
  vim.lsp.buf_attach_client(0, client)
  until_told(before)
  for _, step in ipairs(one[2]) do
    local name = table.remove(step, 1)
    local value = does[name](unpack(step))
    table.insert(found, value == nil and vim.NIL or value)
  end
  table.insert(seen, found)
end
local file = io.open(vim.env.SEEN, 'w')
file:write(vim.fn.json_encode(seen))
file:close()
vim.cmd('quitall!')
"""
NOT_DECLARED = "undeclared name `{}`\nhint: did you mean `{}`?"
ELSEWHERE = "declare it before its use, in this block or an outer one: int x = 0;"
STRUCTS = """struct Node<`r> { int value; struct Node<`r> *`r next; };
datatype exn { Empty; Odd(int); };
int count;
/* äöü 😀 */ int first(struct Node<`a> *`a node) { return node->value; }
int main() {
  region<`h> here;
  struct Node<`h> @`h one = rnew(here) Node<`h>{1, NULL};
  int i = 2;
  { int i = 3; count = count + i; }
  try throw new Odd(i);
  catch { case &Odd(n): i = n; default: ; }
  return first(one) + one->value + i;
}
"""
SCOPES = """struct Node<`r> { int value; struct Node<`r> *`r next; };
struct Pair { int left; int right; };
datatype exn { Failed(int); };
int total;
int sum(struct Node<`a> *`a node, int more) {
  int found = more;
  { int inner = node->value; found = found + inner; }
  return found;
}
int main() {
  int x = 1;
  int *p = &x;
  Inner: { int y = 2; int *q = &y; { int z = 3; int *w = &z; x = *w + *q; } }
  region<`h> here;
  struct Node<`h> *one = rnew(here) Node<`h>{1, NULL};
  int *v = &one->value;
  int *none = NULL;
  struct Pair *pair = new Pair{x, *p};
  return sum(one, *v) + pair->left + total + (none == NULL);
}
"""
# A program text that declares one function of the library itself, and uses other names of the
# library.
USES = """int is_digit(int c) { return c; }
int main() {
  struct Int_list *list = push_int(heap_region, 3, NULL);
  try print_int(list->value + count_ints(list) + is_digit(3));
  catch { case &Bad_number(n): return n; }
  return 0;
}
"""
PUSHED = "struct Int_list<`r> @`r push_int(region_t<`r> h, int value, struct Int_list<`r> *`r list)"
# In this text, the memory allocated by malloc in the fourth line is never freed.
C_LEAKS = "#include <stdlib.h>\nint main(void)\n{\n  int *p = malloc(4);\n  int n = p[0];\n  return n;\n}\n"
C_LEAK = "the memory of p is never freed\nhint: free(p) where it is no longer used"
RING_FULL = "An int is added to a ring that is full."
GIVEN = ["putchar", "getchar"]
# Test texts, and for each text the actions performed and the observations expected after each
# action.
TRIED = (
    ("a refusal, its edit, and the text that is accepted then", "int main() {\n  int count = 3;\n  return coun;\n}\n", (
        (("diagnostics",), [[3, 10, 3, 14, 1, NOT_DECLARED.format("coun", "count")]]),
        (("actions", 1, 1), 0), (("mend", 3, 11), "did you mean `count`?"), (("diagnostics",), []),
        (("text",), "int main() {\n  int count = 3;\n  return count;\n}\n"),
    )),
    ("two refusals, and one that is left", "int half(int total) { return totla / 2; }\nint main() { int count = 1; return coun + 1; }\n", (
        (("diagnostics",), [[1, 30, 1, 35, 1, NOT_DECLARED.format("totla", "total")],
            [2, 36, 2, 40, 1, NOT_DECLARED.format("coun", "count")]]),
        (("mend", 2, 37), "did you mean `count`?"), (("diagnostics",), [[1, 30, 1, 35, 1, NOT_DECLARED.format("totla", "total")]]),
    )),
    ("a warning", "int main() { int n = 3; return n << 33; }\n", (
        (("diagnostics",), [[1, 34, 1, 36, 2, "this shift count is not in 0 to 31: it is taken modulo 32"]]),
    )),
    ("a mistake after wide letters, and a line that is written there", "int main() { /* äöü \U0001f600 */ int items = 1; return item; }\n", (
        (("diagnostics",), [[1, 54, 1, 58, 1, NOT_DECLARED.format("item", "items")]]),
        (("mend", 1, 55), "did you mean `items`?"), (("diagnostics",), []), (("write", 1, 1, "int f() { return x; }\n"), True),
        (("diagnostics",), [[1, 18, 1, 19, 1, "undeclared name `x`\nhint: " + ELSEWHERE]]),
    )),
    ("a text that is laid out, and once more", "int main(){/* äöü \U0001f600 */int n=1;\n\n\n\treturn n;}\n", (
        (("lay",), 1), (("text",), "int main() { /* äöü \U0001f600 */\n  int n = 1;\n\n  return n;\n}\n"), (("diagnostics",), []),
        (("lay",), 0),
    )),
    ("a text that is refused and laid out", "int main(){return x;}\nint x$;\n", (
        (("lay",), "nothing"), (("text",), "int main(){return x;}\nint x$;\n"),
    )),
    ("a text with a mistake that is laid out", "int main(){\nreturn x;}\n", ((("lay",), 1), (("text",), "int main() {\n  return x;\n}\n"))),
    ("what names mean", STRUCTS, (
        (("diagnostics",), [[9, 9, 9, 10, 2, "`i` hides another local of this name: rename one of them"]]),
        (("hover", 12, 10), "```cyclone\nint first(struct Node<`a> *`a node)\n```\n\na function"),
        (("hover", 12, 29), "```cyclone\nint value\n```\n\na field of `Node`"),
        (("hover", 12, 16),
         "```cyclone\nstruct Node<`h> @`h one\n```\n\na variable of `main`; a pointer that is never NULL, into region `h`, a lexical region,"
         " which lives to the end of its block; it lies in region `main`"),
        (("hover", 6, 11), "```cyclone\n`h\n```\n\na region; a lexical region, which lives to the end of its block"),
        (("hover", 6, 14), "```cyclone\nregion_t<`h> here\n```\n\na handle, to make objects in its region"),
        (("hover", 10, 17), "```cyclone\nOdd(int)\n```\n\nan exception; exception 6"), (("hover", 5, 12), ""),
        (("hover", 8, 7), "```cyclone\nint i\n```\n\na variable of `main`; it lies in region `main`"),
        (("hover", 9, 9), "```cyclone\nint i\n```\n\na variable of `main`; it lies in a block inside region `main`"),
        (("jump", 12, 10), [4, 23]), (("jump", 12, 29), [1, 23]), (("jump", 9, 32), [9, 9]), (("jump", 12, 36), [8, 7]),
            (("jump", 10, 17), [2, 23]),
        (("jump", 11, 29), [11, 21]), (("jump", 7, 22), [6, 10]), (("jump", 9, 16), [3, 5]), (("jump", 4, 64), [4, 49]),
        (("symbols",), [
            ["Node", 23, 1, 1, [["value", 8, 1, 1, []], ["next", 8, 1, 1, []]]], ["Empty", 22, 2, 2, []], ["Odd", 22, 2, 2, []],
            ["count", 13, 3, 3, []], ["first", 12, 4, 4, [["node", 13, 4, 4, []]]],
            ["main", 12, 5, 13, [["here", 13, 6, 6, []], ["one", 13, 7, 7, []], ["i", 13, 8, 8, []], ["i", 13, 9, 9, []],
                ["n", 13, 11, 11, []]]],
        ]),
    )),
    ("names in scope, fields and regions", SCOPES, (
        (("diagnostics",), []),
        (("complete", 7, 45), [*GIVEN, "total", "sum", "main", "node", "more", "found", "inner"]),
        (("complete", 8, 10), [*GIVEN, "total", "sum", "main", "node", "more", "found"]),
        (("complete", 7, 23), ["value", "next"]), (("complete", 19, 33), ["left", "right"]),
        (("complete", 15, 10), ["Node", "Pair"]), (("complete", 15, 44), ["`h", "`main", "`H", "`U"]),
        (("parameters", 19, 14), ["int sum(struct Node<`a> *`a node, int more)", "struct Node<`a> *`a node"]),
        (("parameters", 19, 19), ["int sum(struct Node<`a> *`a node, int more)", "int more"]), (("parameters", 11, 7), "nothing"),
        (("regions",), [
            [12, 8, "`main"], [13, 28, "`Inner"], [15, 20, "`h"], [16, 8, "`h"], [17, 8, "`H"], [18, 16, "`H"]]),
    )),
    ("a text that is written by completion", "int main() { int count = 3; return cou; }\n", (
        (("completed", 1, 39, "count"), True), (("text",), "int main() { int count = 3; return count; }\n"), (("diagnostics",), []),
    )),
    ("fields of a text that is not finished",
        "struct Pair { int left; int right; };\nint f(struct Pair @p) {\n  int a = 1;\n  p->\n  return a;\n}\n", (
        (("complete", 4, 6), ["left", "right"]), (("complete", 4, 3), [*GIVEN, "f", "p", "a"]),
    )),
    ("other names", SCOPES, (
        (("rename", 11, 7, "y"), "y means something else in one of these places"), (("rename", 11, 7, "p"), "p is declared already"),
        (("rename", 11, 7, "while"), "while is no name of the language"),
        (("rename", 10, 5, "other"), "main is a name of the language, and stays"),
        (("rename", 5, 5, "all"), "renamed"), (("rename", 1, 23, "number"), "renamed"), (("rename", 14, 11, "there"), "renamed"),
        (("diagnostics",), []),
        (("text",), SCOPES.replace("sum", "all").replace("value", "number").replace("`h", "`there")),
    )),
    ("names of the library", USES, (
        (("diagnostics",), []),
        (("hover", 4, 35), "```cyclone\nint count_ints(struct Int_list<`r> *`r list)\n```\n\na function of the library, in list.cyc\n\n"
         "Returns how many ints a list has."),
        (("hover", 3, 12), "```cyclone\nstruct Int_list<`r> {\n  int value;\n  struct Int_list<`r> *`r next;\n}\n```\n\n"
         "a struct of the library, in list.cyc\n\nAn int, and those after it. NULL is the empty list."),
        (("hover", 4, 26), "```cyclone\nint value\n```\n\na field of `Int_list` of the library, in list.cyc"),
        (("hover", 5, 20), "```cyclone\nBad_number(int)\n```\n\nan exception of the library, in numbers.cyc\n\n"
         "What was read as a number is none. It has the byte that cannot be in it, -1 for the end of the input; number_of gives the index."),
        (("hover", 4, 52), "```cyclone\nint is_digit(int c)\n```\n\na function"), (("jump", 4, 52), [1, 5]),
        (("leads", 4, 35), ["list.cyc", 16, 5]), (("leads", 4, 24), ["list.cyc", 6, 7]), (("leads", 5, 20), ["numbers.cyc", 6, 3]),
        (("complete", 4, 35), [*GIVEN, "is_digit", "main", "list"]), (("complete", 4, 23), ["value", "next"]),
        (("offered", 4, 35, "push_int"), [3, PUSHED, "list.cyc", "Returns a list with an int before those of another one.", "~push_int"]),
        (("offered", 3, 10, "Int_queue"), [22, "struct Int_queue", "list.cyc",
            "A queue of any length. What was taken serves again: it needs the room of its greatest length.", "~Int_queue"]),
        (("offered", 5, 17, "Ring_full"), [20, "Ring_full", "ring.cyc", RING_FULL, "~Ring_full"]),
        (("offered", 1, 1, "push_int"), "nothing"), (("parameters", 3, 49), [PUSHED, "int value"]),
        (("rename", 4, 35, "count_all"), "count_ints is a name of the library, and stays"),
        (("rename", 1, 5, "push_int"), "push_int is declared already"),
        (("regions",), [[3, 18, "<`H>"], [3, 20, "`H"]]),
    )),
    ("a text that is written with a name of the library", "int main() { print_; return 0; }\n", (
        (("completed", 1, 20, "print_int"), True), (("write", 1, 23, "(3)"), True),
        (("text",), "int main() { print_int(3); return 0; }\n"), (("diagnostics",), []),
    )),
    ("kinds of tokens", "/* ä\n*/ int f(int n) {\n  return n + '0';\n}\n", (
        (("tokens",), [
            [1, 1, 4, "comment", 0], [2, 1, 2, "comment", 0], [2, 4, 3, "type", 0], [2, 8, 1, "function", 1], [2, 9, 1, "operator", 0],
            [2, 10, 3, "type", 0], [2, 14, 1, "parameter", 1], [2, 15, 1, "operator", 0], [2, 17, 1, "operator", 0],
            [3, 3, 6, "keyword", 0], [3, 10, 1, "parameter", 0], [3, 12, 1, "operator", 0], [3, 14, 3, "string", 0],
            [3, 17, 1, "operator", 0], [4, 1, 1, "operator", 0]]),
    )),
    ("a C program with a warning", C_LEAKS, (
        (("diagnostics",), [[4, 12, 4, 18, 2, C_LEAK]]), (("hover", 5, 7), ""), (("lay",), "nothing"),
    )),
    ("a C program that is changed", "#include <stdio.h>\nint main(void)\n{\n  int n = 3;\n  return n;\n}\n", (
        (("diagnostics",), []), (("write", 5, 3, "double d = 1.5; "), True),
        (("diagnostics",), [[5, 14, 5, 17, 1, "a number with a fraction\nhint: only integers are translated"]]),
    )),
    ("names in a text that is refused", "int twice(int n) { return n + n }\nint main() { return twice(2; }\n", (
        (("hover", 2, 22), "```cyclone\nint twice(int n)\n```\n\na function"), (("jump", 2, 22), [1, 5]), (("jump", 1, 31), [1, 15]),
    )),
)


# ---- the editor


def seen_in_neovim(program, folder):
    """The answers that neovim gets on the texts."""
    asked = []
    for number, (_, text, steps) in enumerate(TRIED):
        path = os.path.join(folder, f"text{number}.{'c' if text.startswith('#include') else 'cyc'}")
        with open(path, "w", encoding="utf-8") as file:
            file.write(text)
        asked.append([path, [list(step) for step, _ in steps]])
    paths = {name: os.path.join(folder, name.lower()) for name in ("ASKED", "SEEN")}
    with open(paths["ASKED"], "w", encoding="utf-8") as file:
        json.dump(asked, file)
    script = os.path.join(folder, "script.lua")
    with open(script, "w", encoding="utf-8") as file:
        file.write(LUA)
    environment = {**os.environ, **paths, "LSP": LSP, "CYCLONE": program, "HOME": folder, "XDG_STATE_HOME": folder,
        "XDG_CACHE_HOME": folder}
    words = ["nvim", "--headless", "--clean", "-c", f"luafile {script}", "-c", "cquit 1"]
    done = suite.run(words, env=environment, stdin=subprocess.DEVNULL, seconds=4 * suite.SECONDS)
    try:
        with open(paths["SEEN"], encoding="utf-8") as file:
            return json.load(file)
    except OSError:
        return [[done.stderr.decode("utf-8", "replace")]] * len(TRIED)


def faults_in(steps, seen):
    wanted = [value for _, value in steps]
    # Lua does not distinguish an empty list from an empty table
    got = [[] if value == {} else value for value in seen]
    got = [plain(value) for value in got]
    return [] if got == wanted else [
        suite.difference(" ".join(map(str, step)), value, it)
        for (step, value), it in zip(steps, got + [None] * len(wanted)) if it != value]


def plain(value):
    """A value in which an empty table is an empty list."""
    return [plain(it) for it in value] if isinstance(value, list) else [] if value == {} else value


# ---- the protocol


def framed(message):
    content = message if isinstance(message, bytes) else json.dumps(message).encode("utf-8")
    return b"Content-Length: %d\r\n\r\n" % len(content) + content


def talk(program, *messages):
    """The messages that the server answers with, and its status."""
    done = suite.run([LSP, "--program", program, "--seconds", str(suite.SECONDS)], b"".join(messages))
    rest, found = done.stdout, []
    while rest:
        head, _, rest = rest.partition(b"\r\n\r\n")
        length = int(head.split(b":")[1])
        found.append(json.loads(rest[:length]))
        rest = rest[length:]
    return found, done.returncode, done.stderr.decode("utf-8", "replace")


def request(number, method, **params):
    return framed({"jsonrpc": "2.0", "id": number, "method": method, "params": params})


def note(method, **params):
    return framed({"jsonrpc": "2.0", "method": method, "params": params})


BEGIN, END = request(1, "initialize", capabilities={}), (request(99, "shutdown"), note("exit"))
OPEN = note("textDocument/didOpen", textDocument={"uri": "file:///a", "languageId": "cyclone", "version": 1,
    "text": "int main() { return 0; }"})
AT = {"textDocument": {"uri": "file:///a"}, "position": {"line": 0, "character": 5}}
# Test cases of the language server's protocol: the messages sent to the server, the error numbers in
# its answers, and its exit status.
PROTOCOL = (
    ("a beginning and an end", (BEGIN, *END), [], 0), ("an end without shutdown", (BEGIN, note("exit")), [], 1), ("nothing", (), [], 1),
    ("no end", (BEGIN,), [], 1),
    ("a request before the beginning", (request(2, "textDocument/hover", **AT), BEGIN, *END), [(2, -32002)], 0),
    ("a second beginning", (BEGIN, request(2, "initialize", capabilities={}), *END), [(2, -32600)], 0),
    ("a request after shutdown", (BEGIN, request(3, "shutdown"), request(4, "textDocument/hover", **AT), note("exit")), [(4, -32600)], 0),
    ("what there is not", (BEGIN, request(2, "textDocument/moniker", **AT), note("$/cancelRequest", id=2), note("no/such"), *END),
        [(2, -32601)], 0),
    ("no name to change", (BEGIN, OPEN, request(2, "textDocument/rename", **{**AT, "newName": 7}), request(3, "textDocument/rename", **{
        **AT, "position": {"line": 0, "character": 3}, "newName": "x"}), *END), [(2, -32602), (3, -32603)], 0),
    ("no range", (BEGIN, OPEN, request(2, "textDocument/inlayHint", **{**AT, "range": {"start": 3}}), *END), [(2, -32602)], 0),
    ("a text that is not open", (BEGIN, request(2, "textDocument/hover", **AT), *END), [(2, -32602)], 0),
    ("no position", (BEGIN, OPEN, request(2, "textDocument/hover", textDocument={"uri": "file:///a"}), *END), [(2, -32602)], 0),
    ("a position before the text", (BEGIN, OPEN, request(2, "textDocument/hover", **{**AT, "position": {"line": -1, "character": 0}}),
        *END), [(2, -32602)], 0),
    ("positions after the text", (BEGIN, OPEN, request(2, "textDocument/hover", **{**AT, "position": {"line": 10**9,
        "character": 10**9}}), *END), [], 0),
    ("no JSON", (framed(b"{"), framed(b"\xff"), framed(b"[" * 200_000), BEGIN, *END), [(None, -32700)] * 3, 0),
    ("no requests", (framed(b"[]"), framed(b"3"), framed(b'{"id":7}'), framed(b'{"id":8,"result":null}'), BEGIN, *END),
        [(None, -32600), (None, -32600), (7, -32600)], 0),
    ("a text that is none", (BEGIN, note("textDocument/didOpen", textDocument={"uri": "file:///a", "text": 3}),
        note("textDocument/didClose", textDocument={"uri": "b"}), *END), [], 0),
    ("half a letter", (BEGIN, note("textDocument/didOpen", textDocument={"uri": "file:///a", "text": "\ud800 int main"}),
        request(2, "textDocument/documentSymbol", **AT), *END), [], 0),
    ("brackets without an end", (
        BEGIN, note("textDocument/didOpen", textDocument={"uri": "file:///a", "text": "int main() {" + "({" * 30_000}),
        request(2, "textDocument/documentSymbol", **AT), *END), [], 0),
    ("a head that is none", (BEGIN, b"x" * 20_000), [], 1), ("a length that is none", (BEGIN, b"Content-Length: x\r\n\r\n"), [], 1),
    ("a length that is too great", (BEGIN, b"Content-Length: 99999999999\r\n\r\n"), [], 1),
    ("a message that is cut", (BEGIN, b"Content-Length: 9\r\n\r\n{"), [], 1),
)


# A text with each of the three line endings. The text's mistake is a name in the fourth line, as an editor counts lines; the text's third
# line ends in a carriage return only.
ENDS = "int f() { return 1; }\r\n\nint g() { return 2; }\rint main() { return coun; }\n"


def faults_of_line_ends(program):
    """The places that are not counted as the protocol counts lines."""
    opened = note("textDocument/didOpen", textDocument={"uri": "file:///a", "languageId": "cyclone", "version": 1, "text": ENDS})
    at = {"textDocument": {"uri": "file:///a"}, "position": {"line": 3, "character": 5}}
    found = kept_open(program, [BEGIN, opened], [request(2, "textDocument/hover", **at)])
    places = [it["range"]["start"] for it in found["diagnostics"]]
    wanted = [{"line": 3, "character": 20}], {"start": {"line": 3, "character": 4}, "end": {"line": 3, "character": 8}}
    got = places, (found[2] or {}).get("range")
    return [] if got == wanted else [suite.difference("the places", wanted, got)]


def kept_open(program, first, later, before=()):
    """The answers of a server by their numbers, the diagnostics and the messages to the user, the last ones after its check."""
    words = [*before, LSP, "--program", program]
    process = subprocess.Popen(words, stdin=subprocess.PIPE, stdout=subprocess.PIPE, stderr=subprocess.PIPE)
    found = {"diagnostics": None, "shown": [], "version": None}
    try:
        for message in first:
            process.stdin.write(message)
        process.stdin.flush()
        take(process.stdout, found, lambda: found["diagnostics"] is not None)
        numbers = [json.loads(it.partition(b"\r\n\r\n")[2])["id"] for it in later]
        for message in later:
            process.stdin.write(message)
        process.stdin.flush()
        take(process.stdout, found, lambda: all(number in found for number in numbers))
        process.stdin.write(b"".join(END))
        process.stdin.close()
        found["status"] = process.wait(suite.SECONDS)
    finally:
        process.kill()
        process.wait()
        process.stdout.close()
        found["said"] = process.stderr.read().decode("utf-8", "replace")
        process.stderr.close()
    return found


def take(stream, found, is_enough):
    """Reads messages of the server until there are enough, or no more."""
    while not is_enough():
        head = stream.readline()
        if not head:
            return
        stream.readline()
        message = json.loads(stream.read(int(head.split(b":")[1])))
        if message.get("method") == "textDocument/publishDiagnostics":
            found["diagnostics"], found["version"] = message["params"]["diagnostics"], message["params"].get("version")
        elif message.get("method") == "window/showMessage":
            found["shown"].append(message["params"]["message"])
        else:
            found[message.get("id")] = message.get("result", message.get("error"))


def faults_of_c(program):
    """The answers on a C program that are not as they should be: its diagnostics, its own header, and what is not told of it."""
    with tempfile.TemporaryDirectory(prefix="edited-") as folder:
        with open(os.path.join(folder, "own.h"), "w", encoding="utf-8") as file:
            file.write("#define WANTED 3\n")
        text = '#include "own.h"\nint main(void) {\n  int n;\n  return n + WANTED;\n}\n'
        it = {"uri": f"file://{folder}/a.c", "languageId": "c", "version": 1, "text": text}
        at = {"textDocument": {"uri": it["uri"]}, "position": {"line": 2, "character": 6}}
        later = [request(number, f"textDocument/{name}", **at) for number, name in ((2, "hover"), (3, "completion"), (4, "inlayHint"))]
        found = kept_open(program, [BEGIN, note("textDocument/didOpen", textDocument=it)], later)
    told = [(one["range"]["start"]["line"], one["severity"], "never given a value" in one["message"]) for one in found["diagnostics"]]
    wanted, got = [[(3, 1, True)], None, None, None, 0], [told, *(found[number] for number in (2, 3, 4)), found["status"]]
    return [] if got == wanted else [suite.difference("what is told of C", wanted, got)]


# Starts the language server with a program whose check never ends.
SLOW = """f=$(mktemp) && trap 'rm "$f"' EXIT && chmod +x "$f"
printf '#!/bin/sh\\ncase "$*" in *--json*) exec sleep 60;; esac\\n' > "$f"
"$1" --program "$f" --seconds 1"""
# Systems on which the server can check no text: the program it is told to use, the command that starts it, and words of
# the reported reason.
UNCHECKED = (
    ("without a program", "/nowhere/cyclone", "exec \"$@\"", "/nowhere/cyclone"),
    ("with few descriptors", None, "ulimit -n 9; exec \"$@\"", "Too many open files"),
    ("on a small stack", None, "ulimit -s 1024; exec \"$@\"", "a stack of"), ("by a slow program", None, SLOW, "too long"),
)


def faults_of_unchecked(program, line, words):
    """The messages that a user misses who should learn that a text is not checked, and what its names mean."""
    found = kept_open(program, [BEGIN, OPEN], [request(2, "textDocument/hover", **AT)], ["sh", "-c", line, "sh"])
    messages = [[it["message"] for it in found["diagnostics"] or []], found["shown"]]
    faults = [f"it says {suite.shown(found['said'])}"] if found["said"] else []
    if [len(it) for it in messages] != [1, 1] or not all(words in it for it in sum(messages, [])):
        faults.append(suite.difference("the diagnostics and the messages", f"one each, of {words}", messages))
    if not found.get(2) or "int main()" not in found[2]["contents"]["value"]:
        faults.append(suite.difference("what a name means", "int main()", found.get(2)))
    return faults


# The recorded messages of Visual Studio Code, one on each line. A field `answer` lists values that an answer must contain, and
# `diagnostics` values that the diagnostics published afterwards must contain.
TRACE = os.path.join(suite.TESTS, "edited", "vscode.jsonl")


def faults_of_trace(program):
    """The answers to the messages of Visual Studio Code that are not as they should be."""
    with open(TRACE, encoding="utf-8") as file:
        steps = [json.loads(line) for line in file if not line.startswith("#")]
    process = subprocess.Popen([LSP, "--program", program], stdin=subprocess.PIPE, stdout=subprocess.PIPE, stderr=subprocess.PIPE)
    faults = []
    for step in steps:
        found = {"diagnostics": None, "shown": []}
        process.stdin.write(framed(step["message"]))
        process.stdin.flush()
        name, number = step["message"]["method"], step["message"].get("id")
        if number is not None:
            take(process.stdout, found, lambda: number in found)
            if "answer" in step and not has(step["answer"], found.get(number)):
                faults.append(suite.difference(f"the answer to {name}", step["answer"], found.get(number)))
        if "diagnostics" in step:
            take(process.stdout, found, lambda: found["diagnostics"] is not None)
            if not has(step["diagnostics"], found["diagnostics"]):
                faults.append(suite.difference(f"the diagnostics after {name}", step["diagnostics"], found["diagnostics"]))
    process.stdin.close()
    status, said = process.wait(suite.SECONDS), process.stderr.read().decode("utf-8", "replace")
    process.stdout.close()
    process.stderr.close()
    return faults + ([suite.difference("the end", (0, ""), (status, said))] if (status, said) != (0, "") else [])


def has(wanted, got):
    """Returns true if a value has the wanted members, and a list as many items."""
    if isinstance(wanted, dict):
        return isinstance(got, dict) and all(name in got and has(value, got[name]) for name, value in wanted.items())
    if isinstance(wanted, list):
        return isinstance(got, list) and len(wanted) == len(got) and all(map(has, wanted, got))
    return wanted == got


# The source file that writes the last line of a command's output, and the pattern of the first
# words of each possible last line.
ANSWERS = os.path.join(suite.ROOT, "crates", "cyc_host", "src", "answer.rt")
LAST_WORDS = re.compile(r'Answer::\w+(?:\(\w+(?:, \w+)*\))? => (?:\{\s*let [^;]*;\s*)?(?:f\.write_str\(|write!\(f, )"([a-z]+(?: [a-z]+)*)')


def faults_of_last_lines(program):
    """The last lines of the program that the tools do not know."""
    with open(ANSWERS, encoding="utf-8") as file:
        answers = LAST_WORDS.findall(file.read())
    faults = [f"`{it}` is taken for `{asked.end_of(it)[0]}`" for it in answers if asked.end_of(it)[0] != it]
    said = suite.last_line(suite.run([program, "format", "--check", "/dev/stdin"], b"int main(){return 0;}\n").stderr)
    faults += [] if asked.end_of(said)[0] == "not formatted" else [suite.difference("the end of format --check", "not formatted", said)]
    return faults + ([] if len(answers) == 13 else [f"these are not all of 13: {answers}"])


def faults_of_protocol(program, messages, errors, status):
    found, got, said = talk(program, *messages)
    told = [(it.get("id"), it["error"]["code"]) for it in found if "error" in it]
    faults = [] if (told, got) == (errors, status) else [suite.difference("the errors and the status", (errors, status), (told, got))]
    return faults + ([f"it says {suite.shown(said)}"] if "Traceback" in said else [])


# ---- names


# The predefined names, which a program does not choose itself.
KEPT = {"main", *names.GIVEN, *names.GIVEN_EXCEPTIONS}


def renamed(text):
    """A text in which each declared name is another one, in all places in which it is meant; main stays."""
    known = names.Names(text)
    new = {}
    for it in known.declared:
        if it.name not in ("main", "`main"):
            new[it.start] = f"x{len(new)}"
    parts, after = [], 0
    for start, end, it in known.uses:
        if it.start not in new or start < after:
            continue
        mark = "`" if text[start] == "`" else ""
        parts += [text[after:start], mark, new[it.start]]
        after = end
    return "".join([*parts, text[after:]])


def image_of(program, text, folder):
    """The image of a text, or what is said of it."""
    source, image = os.path.join(folder, "main.cyc"), os.path.join(folder, "main.elf")
    with open(source, "w", encoding="utf-8") as file:
        file.write(text)
    _, last, status = suite.answer([program, "compile", source, "-o", image])
    if status:
        return last
    with open(image, "rb") as file:
        return file.read()


def faults_of_names(program, text):
    with tempfile.TemporaryDirectory(prefix="edited-") as folder:
        other = renamed(text)
        wanted, got = (image_of(program, it, folder) for it in (text, other))
    same = {token.text for token in names.tokens_of(text) if token.kind == "name"} & {token.text for token in names.tokens_of(other)}
    faults = [suite.difference("the image under other names", wanted, got)] if wanted != got else []
    return faults + ([f"these kept their names: {same - KEPT}"] if same - KEPT else [])


def with_regions(text):
    """A text in which each region that is left out is written, as far as it has a name."""
    parts, after = [], 0
    for place, region in names.Names(text).left_out:
        if not re.search(r"`\d", region):
            parts += [text[after:place], region + " " * bool(re.match(r"\w", text[place:place + 1]))]
            after = place
    return "".join([*parts, text[after:]])


def faults_of_regions(program, text):
    with tempfile.TemporaryDirectory(prefix="edited-") as folder:
        wanted, got = (image_of(program, it, folder) for it in (text, with_regions(text)))
    return [suite.difference("the image with all regions", wanted, got)] if wanted != got else []


def texts(options):
    """The examples that are accepted, and random programs, by their names."""
    for name in sorted(os.listdir(EXAMPLES)):
        if name.endswith(".cyc") and name not in ("wrong.cyc", "unset.cyc"):
            yield f"examples/{name}", with_library.whole(os.path.join(EXAMPLES, name))
    numbers, profiles = random.Random(options.seed), list(makers.PROFILES)
    for number in range(options.count):
        profile = profiles[number % len(profiles)]
        yield f"{profile}, program {number} of seed {options.seed}", makers.PROFILES[profile](numbers).text()


# ---- what editors make of what check says


# A text with two errors or two warnings, and the entries of the editor's location list: line, column, kind and
# message.
PLACED = (
    ("int half(int total) { return totla / 2; }\nint main() { int count = 1; return coun + 1; }\n", [
        [1, 30, "", "undeclared name `totla`"], [2, 36, "", "undeclared name `coun`"]]),
    ("int main() { int n = 3;\n  while (n > 5) ;\n  return n << 33; }\n", [
        [2, 17, "warning", "empty body of `while`, which ends at once or never: delete the `;` after the condition"],
        [3, 12, "warning", "this shift count is not in 0 to 31: it is taken modulo 32"]]),
)
MAKE_SCRIPT = """
set nomore encoding=latin1
execute 'set runtimepath^=' . $FILES
filetype plugin indent on
execute 'edit ' . $TEXT
make!
call writefile(map(filter(getqflist(), 'v:val.valid'), 'json_encode([v:val.lnum, v:val.col, v:val.type, v:val.text])'), $GROUPS)
quitall!
"""


# A text, and the text that vim contains after `gq` on its first line. A rejected text stays
# unchanged.
LAID = (
    ("int main(){\n\n\nint x=3;\n\n\n\nreturn x;}\n", "int main() {\n  int x = 3;\n\n  return x;\n}\n"),
    ("int main(){return 7;}\n$\n", "int main(){return 7;}\n$\n"),
)
LAY_SCRIPT = """
set nomore encoding=latin1
execute 'set runtimepath^=' . $FILES
filetype plugin indent on
execute 'edit ' . $TEXT
normal! gqq
call writefile(getline(1, '$'), $GROUPS)
quitall!
"""


def in_vim(script, program, text, folder):
    """The text that a script for vim leaves, which finds the program by its name."""
    os.makedirs(os.path.join(folder, "bin"), exist_ok=True)
    if not os.path.exists(os.path.join(folder, "bin", "cyclone")):
        os.symlink(program, os.path.join(folder, "bin", "cyclone"))
    paths = os.path.join(folder, "bin") + os.pathsep + os.environ.get("PATH", os.defpath)
    return editors.in_vim(script, text, folder, PATH=paths)


def faults_of_gq(program, text, wanted, folder):
    """The lines that vim has after gq."""
    got = in_vim(LAY_SCRIPT, program, text, folder)
    return [] if got == wanted else [suite.difference("the lines", wanted, got)]


def faults_of_make(program, text, wanted, folder):
    """The places that vim has after :make."""
    said = in_vim(MAKE_SCRIPT, program, text, folder)
    got = [json.loads(line) for line in said.splitlines()]
    wanted = [[line, column, kind[:1], words] for line, column, kind, words in wanted]
    return [] if got == wanted else [suite.difference("the places", wanted, got)]


def faults_of_matcher(program, text, wanted, folder):
    """The places that Visual Studio Code has of what is said."""
    with open(os.path.join(editors.EDITORS, "package.json"), encoding="utf-8") as file:
        pattern = json.load(file)["contributes"]["problemMatchers"][0]["pattern"]
    path = os.path.join(folder, "matched.cyc")
    with open(path, "w", encoding="utf-8") as file:
        file.write(text)
    found = [it for line in suite.said([program, "check", path]) if (it := re.match(pattern["regexp"], line))]
    got = [[int(it[pattern["line"]]), int(it[pattern["column"]]), it[pattern["severity"]] or "", it[pattern["message"]]] for it in found]
    faults = [] if got == wanted else [suite.difference("the places", wanted, got)]
    return faults + [f"{it[0]} has not the file" for it in found if it[pattern["file"]] != path]


def snippets():
    with open(os.path.join(editors.EDITORS, "vscode", "snippets.json"), encoding="utf-8") as file:
        return json.load(file)


def expanded(body):
    """The text of a snippet with nothing written in its fields."""
    text = body if isinstance(body, str) else "\n".join(body)
    usual = dict(re.findall(r"\$\{(\d):([^}]*)\}", text))
    text = re.sub(r"\$\{(\d):[^}]*\}|\$(\d)", lambda it: usual.get(it[1] or it[2], ""), text)
    return text


def faults_of_snippet(program, snippet, folder):
    """The fault of a snippet that neither is a program nor stands before one or in one."""
    text = expanded(snippet["body"])
    said = []
    for whole in (text, text + "\nint main() { return 0; }\n", "int main() {\n" + text + "\nreturn 0;\n}\n"):
        path = os.path.join(folder, "snippet.cyc")
        with open(path, "w", encoding="utf-8") as file:
            file.write(whole)
        said.append(suite.answer([program, "check", path])[1])
    return [] if "done" in said else [f"it is refused: {said}: {text}"]


def others(program, folder):
    """The things that are tried of other editors, each with its name."""
    for number, (text, wanted) in enumerate(PLACED, 1):
        yield f"vim's :make, text {number}", lambda text=text, wanted=wanted: faults_of_make(program, text, wanted, folder)
        yield f"the problem matcher, text {number}", lambda text=text, wanted=wanted: faults_of_matcher(program, text, wanted, folder)
    for number, (text, wanted) in enumerate(LAID, 1):
        yield f"vim's gq, text {number}", lambda text=text, wanted=wanted: faults_of_gq(program, text, wanted, folder)
    for name, snippet in snippets().items():
        yield f"the snippet `{name}`", lambda snippet=snippet: faults_of_snippet(program, snippet, folder)


def main():
    parser = suite.command_line(__doc__)
    parser.add_argument("--count", type=int, default=40)
    parser.add_argument("--seed", type=int, default=1)
    options = parser.parse_args()
    sys.setrecursionlimit(10_000)
    named = list(texts(options))
    count = len(TRIED) + len(PROTOCOL) + len(UNCHECKED) + 4 + 2 * len(named) + 2 * len(PLACED) + len(LAID) + len(snippets())
    suite.need(["nvim", "vim", "python3-pycparser"], count)
    program = suite.program_of(options, count)
    with tempfile.TemporaryDirectory(prefix="edited-") as folder:
        try_all(program, named, folder)


def try_all(program, named, folder):
    seen = seen_in_neovim(program, folder)
    things = [(name, lambda steps=steps, it=it: faults_in(steps, it)) for (name, _, steps), it in zip(TRIED, seen)]
    things += [(name, lambda one=tuple(one): faults_of_protocol(program, *one)) for name, *one in PROTOCOL]
    things.append(("last lines", lambda: faults_of_last_lines(program)))
    things.append(("a text with three line ends", lambda: faults_of_line_ends(program)))
    things.append(("Visual Studio Code", lambda: faults_of_trace(program)))
    things.append(("a C program with a header of its own", lambda: faults_of_c(program)))
    for name, other, line, words in UNCHECKED:
        things.append((f"a text {name}", lambda one=(other or program, line, words): faults_of_unchecked(*one)))
    things += [(f"the names of {name}", lambda text=text: faults_of_names(program, text)) for name, text in named]
    things += [(f"the regions of {name}", lambda text=text: faults_of_regions(program, text)) for name, text in named]
    things += others(program, folder)
    suite.try_each(things, lambda thing: thing[0], lambda thing: thing[1]())


if __name__ == "__main__":
    main()
