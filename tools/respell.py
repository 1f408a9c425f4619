#!/usr/bin/env python3
"""Brings the repository's own definitions and lemmas to the spelling of today's Rattle, after port.py: words in snake case.

    python3 tools/respell.py          at the top of the repository, once

Turned are names in .antt files, in clauses and imports of .rt files and in must-fail edits; in comments only names in camel case.
Functions of src/, exported names, strings, inputs and outputs keep their names. Where two names would fall together, the one of
LAWS is a law about the other and gets the ending _law. It stops where further names fall together.
"""
import collections
import pathlib
import re
import sys

ROOT = pathlib.Path(sys.argv[1] if len(sys.argv) > 1 else ".").resolve()

# Laws whose names would fall together with a definition's.
LAWS = set("""after-join at-level both-sums child-of class-weighted client-fixed depth-at entries-refusal entry-length in-order
joined-for joined-place kind-share level-at limits-kept limits-of list-after mark-bytes mark-value minute-sum most-waiting number-of
no-children stated-kind not-in-order class-rate fixed-kind weighted-kind count-in entry-in edition-in stated-class stated-fit
of-port of-stated opened-for opened-place out-of-order parent-at plan-table port-entries queue-length rate-at rate-in-order rate-near
read-entry read-plan renewed-below same-answer same-bytes same-list same-node same-outcome same-refusal same-shape same-tree share-fits
share-of share-sums size-at size-within table-after unstated-of with-node with-share with-shares within-at""".split())

# Those that port.py turned already.
TURNED = {w.replace("-", "_") for w in """at-level both-sums entry-length in-order limits-of of-stated out-of-order same-answer
same-bytes same-outcome""".split()}

# A law and a definition that port.py let fall together: the law's files.
NUMBER_OF = ("definitions/proofs/Refusals.antt", "/leave_refusal/Proof.antt", "/request_refusal/Proof.antt", "/change_share_refusal/Proof.antt")

TOKEN = re.compile(r"(?<![\w◌ℤ'·-])[A-Za-z_#◌ℤ℘'\u2080-\u2089\u0370-\u03ff][\w◌ℤ'·-]*")


def snake(word):
    word = word.replace("-", "_")
    word = re.sub(r"(?<=[a-z0-9])(?=[A-Zℤ])|(?<=ℤ)(?=[A-Z])", "_", word)
    return word.lower() if not word[0].isupper() else word


def camel(word):
    return re.match(r"[a-z][a-z0-9]*[A-Zℤ]", word) is not None


def spelled(word):
    """Today's spelling of a name of proofs or definitions."""
    if "·" in word or "◌" in word or not re.match(r"[a-z]", word):
        return word
    if word in LAWS or word in TURNED:
        return word.replace("-", "_") + "_law"
    if "-" in word or camel(word):
        return snake(word)
    return word


def in_code(text, names):
    return TOKEN.sub(lambda m: names(m[0], text[m.start() - 1] if m.start() else ""), text)


IMPORT = re.compile(r"(?m)^\s*use ([\w.·]+)\.\{([^}]*)\}")


def imported(text, own):
    """The names that a file takes from libraries: these keep their spelling."""
    names = set()
    for module, listed in IMPORT.findall(text):
        if module.split(".")[:2] not in own:
            for item in listed.split(","):
                names |= set(item.split())
    return names - {"as"}


def naming(library, fields):
    def name(word, before):
        if before == ".":
            return word if word not in fields else word.replace("-", "_") if word in LAWS or word in TURNED else spelled(word)
        return word if word in library else spelled(word)

    return name


def camel_name(word, before):
    return spelled(word) if camel(word) and "-" not in word else word


def antt(text, name):
    """Names outside comments, and names in camel case within them."""
    lines = []
    for line in text.split("\n"):
        code, mark, comment = line.partition("--")
        if mark and code and not code.endswith(" "):
            code, mark, comment = line, "", ""
        lines.append(in_code(code, name) + mark + in_code(comment, camel_name))
    return "\n".join(lines)


def main():
    files = [p for p in sorted(ROOT.glob("crates/**/*")) if p.suffix in (".antt", ".rt", ".edit") and "/out/" not in str(p)]
    texts = {p: p.read_text() for p in files}
    own = [["Rattle", p.name] for p in ROOT.glob("crates/*")]
    library = {p: imported(text, own) for p, text in texts.items()}
    fields = set()
    for p, text in texts.items():
        if p.suffix == ".antt" and p.name != "Proof.antt":
            fields |= set(re.findall(r"(?<!\.)" + TOKEN.pattern, re.sub(r"--[^\n]*", "", text))) - library[p]
    together = collections.defaultdict(set)
    for p, text in texts.items():
        if p.suffix == ".antt":
            for word in re.findall(r"(?<!\.)" + TOKEN.pattern, re.sub(r"--[^\n]*", "", text)):
                if word not in library[p] and word not in LAWS and ("-" in word or camel(word)):
                    together[spelled(word)].add(word)
    bad = {new: old for new, old in together.items() if len({re.sub(r"[-_]", "", w.lower()) + str(camel(w)) for w in old}) > 1}
    if bad:
        sys.exit("names fall together: " + str(bad))
    for p, text in texts.items():
        if str(p).endswith(NUMBER_OF):
            text = re.sub(r"(?<![.\w])number_of\b", "number_of_law", text)
        new = antt(text, naming(library[p], fields)) if p.suffix == ".antt" else in_code(text, camel_name)
        if new != p.read_text():
            p.write_text(new)
    pages([w for t in texts.values() for w in TOKEN.findall(t)])


def pages(old):
    """Names in backquotes in the pages, and the checks' lists."""
    known = set(old)

    def quoted(m):
        return "`" + TOKEN.sub(lambda w: spelled(w[0]) if w[0] in known or camel(w[0]) and snake(w[0]) in known else w[0], m[1]) + "`"

    for p in [ROOT / "README.md", *sorted(ROOT.glob("docs/**/*.md"))]:
        p.write_text(re.sub(r"`([^`\n]*)`", quoted, p.read_text()))
    for p in sorted(ROOT.glob("checks/*.txt")):
        p.write_text(antt(p.read_text(), naming(set(), set(known))))


main()
