#!/usr/bin/env python3
"""Spells this repository's own names of definitions and lemmas in snake case, after port.py has run.

usage: tools/respell/respell.py LANDED      once, at the top, on what port.py made of the commit LANDED (or of what was committed on top of it)

- A name that a file of crates/ declares and that has a dash or a capital letter inside gets underscores, in .antt files, in the clauses of .rt files and in .edit files.
- Names of the kit, names that Rattle makes for proofs, types, modules, text in quotes and comments (but for names in backticks) are kept.
- Where a definition and a law would fall together (`countX`, `count-x`) in one file, the law gets `_holds` after its name. Some of these fell together when port.py ran:
  they are told apart by the text of the commit.
"""

import collections
import difflib
import os
import re
import subprocess
import sys

STOP = r"\s(){}\[\];,.\"⌜⌝⟨⟩«»`"
TOKEN = re.compile(r"[^%s]+" % STOP)
SPELLED = re.compile(r"^[a-z][^\s]*(-[^\s]|[a-z0-9][A-Z])|^[a-z]+[A-Z]")
USE = re.compile(r"^\s*(?:pub )?(?:ghost )?use ([A-Za-z_.0-9'·]+?)(?:\.\{([^}]*)\})", re.M)
SIGNATURE = re.compile(r"^(\s*)((?:pub |abbrev |unfoldable |opaque |private )*)((?:[^%s:=]+\s+)*?[^%s:=]+)\s+:\s" % (STOP, STOP), re.M)
WORDS = {"pub", "abbrev", "unfoldable", "let", "in", "data", "record", "λ", "=", "→", "where", "module"}
# after these a dotted name is a step that Rattle names
STEP = re.compile(r"\.(ensures|result|requires|given|calls|before|args|false|true|shadow|told)\b")
# the laws that would fall together with a definition in one file
LAWS = set(
    "all-hold all-read all-short answer-printed at-end at-side ball-fits condition-at count-x count-y distance-fits each-next field-fits field-value first-reaching "
    "four-absent has-key is-head is-line is-zero item-back item-read judgment-side kicker-side last-greatest line-answer lower-key no-key none-twice not-before "
    "not-below number-fits number-of numbers-fit one-place past-end past-side player-at poses-fit same-who sentence-after sentence-answer sentences-after "
    "sentences-answer team-fits units-at units-of value-of-line verdict-lines wish-fits words-within".split()
)
# of them, those that port.py spells alike
ALIKE = {n.replace("-", "_"): n for n in "all-hold all-read all-short at-side each-next field-fits has-key is-line is-zero item-back no-key number-fits number-of numbers-fit one-place past-end units-of".split()}


def snake(name):
    name = re.sub(r"-(?=[^\s-])", "_", name)
    name = re.sub(r"(?<=[a-z0-9'])([A-Z])|(?<=[A-Z])([A-Z])(?=[a-z])", lambda m: "_" + (m.group(1) or m.group(2)).lower(), name)
    return name


def files(*endings):
    for folder, dirs, names in os.walk("crates"):
        dirs[:] = sorted(d for d in dirs if d != "out")
        for n in sorted(names):
            if n.endswith(endings):
                yield os.path.join(folder, n)


def code(text, rt):
    """Pieces of a text: (is code, piece)."""
    comment = r"//[^\n]*|b?\"(?:[^\"\\]|\\.)*\"" if rt else r"--[^\n]*|\"(?:[^\"\\]|\\.)*\""
    at = 0
    for m in re.finditer(comment, text):
        yield True, text[at : m.start()]
        yield False, m.group()
        at = m.end()
    yield True, text[at:]


def tokens(text, rt=False):
    return [m.group() for is_code, piece in code(text, rt) if is_code for m in TOKEN.finditer(piece)]


def landed(commit, path):
    r = subprocess.run(["git", "show", f"{commit}:{path}"], capture_output=True, text=True)
    return r.stdout if r.returncode == 0 else None


def laws_in(commit, path, text):
    """The places, among a file's tokens, of the laws that port.py spelled as a definition is spelled."""
    new = tokens(text)
    if not any(n in ALIKE for n in new):
        return set()
    old = landed(commit, path)
    if old is None:
        return set()
    was = tokens(old)
    # the lines of imports are put in another order by port.py
    found = set()
    match = difflib.SequenceMatcher(None, [snake(t) for t in was], [snake(t) for t in new], autojunk=False)
    for a, b, n in match.get_matching_blocks():
        for k in range(n):
            if new[b + k] in ALIKE and was[a + k] == ALIKE[new[b + k]]:
                found.add(b + k)
    return found


def main(argv):
    commit = argv[0]
    own = set(l.split(":")[0].split()[0] for l in open("crates.txt") if l.strip() and not l.startswith("#"))
    declared, kit, fields = set(), set(), set()
    for p in files(".antt"):
        text = open(p).read()
        for m in USE.finditer(text):
            path = m.group(1).split(".")
            if not (path[0] == "Rattle" and path[1] in own):
                kit |= {n.strip().split(" as ")[0] for n in (m.group(2) or "").split(",")}
            declared |= {n.strip().split(" as ")[1] for n in (m.group(2) or "").split(",") if " as " in n}
        body = re.sub(r"--[^\n]*", "", text)
        for m in SIGNATURE.finditer(body):
            names = [n for n in m.group(3).split() if n not in WORDS]
            declared |= set(names)
            if m.group(1):
                fields |= set(names)
    names = {n: snake(n) for n in declared if SPELLED.match(n) and n not in kit}

    def turn(text, rt, laws=()):
        out, at = [], 0
        whole = text
        for is_code, piece in code(text, rt):
            if not is_code:
                at_quote = lambda m: "`" + re.sub(TOKEN, lambda t: (names[t.group()] + ("_holds" if t.group() in LAWS else "")) if t.group() in names else t.group(), m.group(1)) + "`"
                out.append(re.sub(r"`([^`\n]*)`", at_quote, piece) if not piece.startswith(("b\"", "\"")) else piece)
                continue

            def one(m):
                nonlocal at
                t, here = m.group(), at
                at += 1
                before, after = piece[: m.start()], piece[m.end() :]
                if here in laws:
                    return t + "_holds"
                if t not in names:
                    return t
                if before.endswith("."):
                    owner = re.search(r"([^%s]*)\.$" % STOP, before)
                    module = owner and owner.group(1)[:1].isupper()
                    if not module and (t not in fields or STEP.match(after)):
                        return t
                return names[t] + ("_holds" if t in LAWS else "")

            out.append(TOKEN.sub(one, piece))
        return "".join(out)

    for p in files(".antt"):
        text = open(p).read()
        new = turn(text, False, laws_in(commit, p, text))
        if new != text:
            open(p, "w").write(new)
    for p in files(".rt"):
        text = open(p).read()
        new = turn(text, True)
        if new != text:
            open(p, "w").write(new)
    for p in files(".edit"):
        text = open(p).read()
        new = turn(text, ".rt" in text.split("\n")[0])
        if new != text:
            open(p, "w").write(new)
    print(f"{len(names)} names")


if __name__ == "__main__":
    main(sys.argv[1:])
