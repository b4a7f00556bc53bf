"""The documents and the examples, as pages that are read beside a program. Debian's python3-markdown lays the documents out; without it
they are shown as the texts that they are."""
import functools
import html
import os
import re

try:
    import markdown
except ModuleNotFoundError:
    markdown = None

# The documents for users who write programs; the page lists these documents first, and then the
# other documents of the folder docs/.
FIRST = ("LANGUAGE", "FROM_C", "CODES", "PAGE", "PLACES", "GUARANTEES")
# The examples that the page lists first; the others follow in the order of their names.
EXAMPLES = ("hello", "count", "wrong", "unset")
# The titles of examples that have no comment at the beginning.
TITLES = {
    "hello": "Prints a word", "wrong": "Is refused: a semicolon is missing", "unset": "Is refused: a variable may have no value",
}
# The maximum length of an example's title, which is the first sentence of the example's first
# comment.
TITLE = 80
COMMENT = re.compile(r"\s*(?:/\*(?P<block>.*?)\*/|//(?P<line>[^\n]*))", re.S)
FRAME = """<!DOCTYPE html>
<html lang="en"><head><meta charset="utf-8"><meta name="viewport" content="width=device-width, initial-scale=1">
<meta name="color-scheme" content="light dark"><title>{title}</title><link rel="icon" href="data:,">
<link rel="stylesheet" href="{up}page.css"></head>
<body class="document"><nav><a href="{up}docs/">All documents</a> <a href="{up}docs/examples">Examples</a></nav>
{body}
</body></html>
"""


def content(folder, name):
    try:
        with open(os.path.join(folder, name), encoding="utf-8") as file:
            return file.read()
    except (OSError, UnicodeDecodeError):
        return ""


class Reading:
    """What lies in a folder of documents and in one of examples; either may be missing."""

    def __init__(self, documents, examples):
        self.folder, self.examples_folder = documents, examples
        names = {name[:-3] for name in os.listdir(documents) if name.endswith(".md")} if documents else set()
        self.names = [*(it for it in FIRST if it in names), *sorted(names - {*FIRST})]
        pictures = os.path.join(documents, "pictures") if documents else ""
        self.pictures = sorted(it for it in os.listdir(pictures) if it.endswith(".png")) if os.path.isdir(pictures) else []

    @functools.cached_property
    def examples(self):
        """The examples, each with its input and its title."""
        folder = self.examples_folder
        stems = sorted(name[:-4] for name in os.listdir(folder) if name.endswith(".cyc")) if folder else []
        stems.sort(key=lambda stem: EXAMPLES.index(stem) if stem in EXAMPLES else len(EXAMPLES))
        found = [(stem, "cyclone", content(folder, stem + ".cyc"), content(folder, stem + ".in")) for stem in stems]
        in_c = os.path.join(folder or "", "c")
        names = sorted(name for name in os.listdir(in_c) if name.endswith(".c")) if os.path.isdir(in_c) else []
        found += [(name, "c", content(in_c, name), content(in_c, name[:-2] + ".in")) for name in names]
        return [{"name": name, "language": language, "source": source, "input": given, "title": title_of(source) or TITLES.get(name, "")}
            for name, language, source, given in found]

    @functools.cache
    def page(self, name):
        """A document of this folder as a page."""
        text = content(self.folder, name + ".md")
        body = linked(laid_out(text), self.names) if markdown else f"<pre>{html.escape(text)}</pre>"
        return FRAME.format(title=html.escape(heading_of(text) or name), up="../", body=body)

    def index(self):
        headings = {it: heading_of(content(self.folder, it + ".md")) or it for it in self.names}
        rows = "".join(f'<li><a href="{it}">{html.escape(heading)}</a></li>' for it, heading in headings.items())
        return FRAME.format(title="Documents", up="../", body=f"<h1>Documents</h1><ul>{rows}</ul>")

    def examples_page(self):
        rows = "".join(
            f'<tr><th scope="row"><a href="../#example={it["name"]}" target="_top">{it["name"]}</a></th><td>{html.escape(it["title"])}</td>'
            f'<td class="short">{"reads input" if it["input"] else ""}</td></tr>' for it in self.examples)
        words = "<p>A link puts the example into the editor. The text that stands there is kept under “Earlier texts”.</p>"
        return FRAME.format(title="Examples", up="../", body=f"<h1>Examples</h1>{words}<table>{rows}</table>")


def heading_of(text):
    found = re.match(r"# (.*)", text)
    return found and found[1]


def title_of(source):
    """The first sentence of the comment that a program begins with."""
    found = COMMENT.match(source)
    words = " ".join((found["block"] or found["line"]).split()) if found else ""
    sentence = re.split(r"(?<=[.:])\s", words, maxsplit=1)[0].rstrip(".:")
    return sentence if len(sentence) <= TITLE else sentence[:TITLE].rpartition(" ")[0] + " .."


def laid_out(text):
    return markdown.markdown(text, extensions=["tables", "fenced_code", "toc"])


def linked(body, names):
    """Makes links of the documents and the examples that are named in code."""
    def document(found):
        return f'<a href="{found[1]}">{found[0]}</a>' if found[1] in names else found[0]

    body = re.sub(r"<code>docs/(\w+)\.md</code>", document, body)
    return re.sub(r"<code>examples/([\w-]+)\.cyc</code>", r'<a href="../#example=\1" target="_top">\g<0></a>', body)
