"""Plants false claims in copies of documents: `claims.py` must see each of them, and find nothing wrong with the documents as they are.
`self_test.py` runs this."""
import functools
import unittest.mock

import suite  # first: it makes the tools importable
import claimed
import claims
import facts

# Changes to documents: the document, the old text, the false one in its place, and what must be said of it.
FALSE = (
    ("docs/GUARANTEES.md", "laws::cycles_have_no_bound", "laws::circles_have_no_bound", "nothing in the tree is called circles_have_no_bound"),
    ("docs/GUARANTEES.md", "(`words_for` of `cyc_messages`)", "(`words_for` of `cyclone`)", "cyclone has no words_for"),
    ("docs/GUARANTEES.md", "`cyc_elf`: `read_image`, `write_image` | yes", "`cyc_elf`: `read_image`, `contents_of` | yes", "cyc_elf has no contents_of"),
    ("docs/GUARANTEES.md", "`cyc_flow`: `flow`, `cyc_front`", "`cyc_flow`: `find_cause`, `cyc_front`", "has no `ensures`"),
    ("docs/GUARANTEES.md", "the law `word_bytes`", "the law `word_at`", "there is no law word_at"),
    ("docs/GUARANTEES.md", "(the clause `sound`)", "(the clause `sounding`)", "no contract has a clause sounding"),
    ("docs/GUARANTEES.md", "(`IsFormedProgram`)", "(`IsStretch`)", "no crate of this section has IsStretch"),
    ("docs/GUARANTEES.md", "`specs/inside/Answer.antt`", "`specs/Answer.antt`", "no crate has specs/Answer.antt"),
    ("docs/TRUSTED.md", "as n steps (`RunsAs`)", "as n steps (`HasSameTokens`)", "does not mean HasSameTokens"),
    ("docs/TRUSTED.md", "(`IsAcceptedText`)", "(`IsReported`)", "does not mean IsReported"),
    ("docs/ARCHITECTURE.md", "which has eight (`cyc_scope`", "which has six (`cyc_scope`", "the tree has eight"),
    ("README.md", "51 programs with a line each", "50 programs with a line each", "the tree has 51"),
    ("README.md", "| `cyclone bound F`", "| `cyclone bounds F`", "there is no command cyclone bounds"),
    ("README.md", "`--limits auto`", "`--limit auto`", "no command has the option --limit"),
    ("tests/README.md", "**`told.py`**", "**`reported.py`**", "there is no file reported.py"),
    ("tests/README.md", "a hundred mistakes", "a dozen mistakes", "the tree has 100"),
    ("crates/cyc_types/README.md", "own parts of expressions (`cyc_calls`", "own parts of expressions (`cyc_forms`", "nothing in the tree is called cyc_forms"),
    ("crates/cyc_isa/README.md", "41 instructions in 14 formats", "41 instructions in 15 formats", "the tree has 14"),
    ("crates/cyc_lex/README.md", "- Contract: `lex`", "- Contract: `lex`, `Piece`", "cyc_lex has no Piece"),
    ("crates/cyc_warnings/README.md", "- Contract: none", "- Contract: `find_warnings`", "find_warnings of cyc_warnings has no `ensures`"),
    ("crates/cyc_flow/README.md", "- Contract: `flow`", "- Contract: none", "cyc_flow has contracts"),
    ("crates/cyc_asm/README.md", "`assemble`; `sources`, of which", "`sources`; `assemble`, of which", "has no `ensures`"),
    ("crates/cyc_lower/README.md", "(`Lengths` of `cyc_lower_proof`)", "(`Lengths` of `cyc_lower`)", "cyc_lower has no Lengths"),
    ("docs/cyclone.1", ".TP\n.BI \\-\\-places", ".BI \\-\\-places", "no .TP stands before it"),
    ("docs/cyclone.1", "\n.BR \\-\\-report ,\ncounts", "\n.BR \\-\\-reports ,\ncounts", "no command has the option --reports"),
    ("docs/DECISIONS.md", "| stores | `cyc_rawpages`, ", "| stores | ", "cyc_rawpages has decisions"),
    ("examples/README.md", "| `squares.cyc` |", "| `squared.cyc` |", "there is no row for squares.cyc"),
    ("tests/README.md", "- **`told.py`**", "- `told.py`", "no paragraph or no question for told.py"),
    ("crates/cyc_words/README.md", "# cyc_words: ", "# cyc_words: `compile_placed`, ", "stands neither in this crate nor in those below it"),
)


@functools.cache
def faults_of(path, text):
    return [claim.fault for claim in claims.claims_of(path, text) if claim.fault]


def is_seen(path, old, new, said):
    """Returns true if a document has no false claim, and has just this one once the text is changed."""
    text = facts.content(path)
    before = faults_of(path, text)
    after = [fault for fault in faults_of(path, text.replace(old, new)) if said in fault]
    if text.count(old) != 1 or before or not after:
        print(f"{path}: {old!r} stands there {text.count(old)} times; of {new!r} is said {after} and before it {before}")
    return text.count(old) == 1 and not before and bool(after)


def are_lists_tried():
    """Returns true if a word from outside that no document needs is seen, and a count that no document has."""
    further = claimed.Count("README.md", r"(\w+) unicorns", lambda: 1)
    with unittest.mock.patch.object(claimed, "OUTSIDE", claimed.OUTSIDE | {"unicorn"}), \
            unittest.mock.patch.object(claimed, "COUNTS", [*claimed.COUNTS, further]):
        found = claims.faults_of_lists()
    wanted = ["unicorn is no word from outside that a document needs", r"no document says `(\w+) unicorns`"]
    if found != wanted:
        print(suite.difference("the lists of claims.py", wanted, found))
    return found == wanted


def tried():
    return [is_seen(*change) for change in FALSE] + [are_lists_tried()]
