#!/usr/bin/env python3
"""Brings the definitions and laws of this repository to the spelling of the present Rattle: words in snake case, types and modules in camel case.

usage: python3 tools/spelling.py [--table] FOLDER      FOLDER: the top of a checkout whose names are still to be turned

It serves after the kit's own script (docs/PORT.md). `quorumOf` becomes `quorum_of`, `first-b` `first_b`. A law that would get the name of a definition gets
`_lem` (the kit's rule). What the kit makes of names of the code (`c.if-is_marked.true`, `returns-in-Fits`), what a library declares, and names of the
code stay. Prints how many names and files it turned; --table prints each old and new name and turns nothing.
"""

import collections
import os
import re
import subprocess
import sys

# A word of antt ends at these signs.
WORD = re.compile(r"[^\s(){}.;,@\"«»]+")
COMMENT = re.compile(r"(?:(?<=[\s(){}.;,@\"«»])|^)--[^\n]*", re.M)
CAMEL = re.compile(r"[a-z](\w*?[a-z0-9])?[A-Z]\w*'*")
DASHED = re.compile(r"[a-z]['\w]*(-['\w]+)+")
USE = re.compile(r"\buse ([^\s;{]+)\.\{([^}]*)\}")
BELOW = re.compile(r"([A-Z][^\s(){}.;,@\"«»]*)\.([^\s(){}.;,@\"«»]+)")
SPAN = re.compile(r"`[^`\n]+`")
OF_FUNCTION = re.compile(r"/proofs/.+/(Answers|Invariants|Proof)\.antt$")
MADE = ("invariant-", "decreases-")

# `first_of` is a word of the tactics; `all_hold` is of estimates, and another thing than that all worked cases hold.
OTHERWISE = {"firstOf": "first_refusal", "all-hold": "all_cases_hold"}
# Where a library has the same spelling, the kit's script had turned: these laws, whose definitions it left ..
TURNED = {"in_image", "is_down", "is_up", "kind_ok", "numbers_of"}
# .. and the definitions that these laws speak of, which it left.
BESIDE = {"in-range", "is-empty", "read-log"}


def snake(word):
    return re.sub(r"(?<=[a-z0-9])[A-Z]", lambda m: "_" + m[0].lower(), word).replace("-", "_")


def files(top):
    names = subprocess.run(["git", "ls-files", "-z"], cwd=top, capture_output=True, text=True, check=True).stdout
    for name in names.split("\0"):
        path = os.path.join(top, name)
        if name and name != "tools/spelling.py" and not os.path.islink(path):
            try:
                with open(path, encoding="utf-8") as f:
                    yield name, path, f.read()
            except UnicodeDecodeError:
                pass


def pieces(text, stays):
    """The text in parts, each with whether it stays as it is."""
    at = 0
    for m in stays.finditer(text):
        yield text[at : m.start()], False
        yield m[0], True
        at = m.end()
    yield text[at:], False


def of_library(texts, own):
    """What is imported from elsewhere, or is made by the kit of a function's code."""
    found = set()
    for _, _, text in texts:
        for m in USE.finditer(text):
            steps = m[1].split(".")
            if steps[0] != "Rattle" or steps[1] not in own or steps[-1] in ("Goals", "Given"):
                found.update(item.split(" as ")[0].strip() for item in m[2].split(","))
    # what stands below an imported name, as in Memᴰ.not-nil
    below = {m[2] for _, _, text in texts for m in BELOW.finditer(text) if m[1] in found}
    return found | below


def table_of(texts, own):
    library = of_library(texts, own)
    found, plain, words = set(), set(), set()
    for name, _, text in texts:
        if name.endswith(".antt"):
            code = COMMENT.sub(" ", text)
            of_function = bool(OF_FUNCTION.search(name))
            for m in WORD.finditer(code):
                word = m[0]
                words.add(word)
                if word in library or word in OTHERWISE:
                    continue
                if CAMEL.fullmatch(word) or (DASHED.fullmatch(word) and not of_function):
                    found.add(word)
                elif not of_function:
                    plain.add(word)
    if not found:
        return {}
    camel = {snake(word) for word in found if "-" not in word}
    table = {word: snake(word) + ("_lem" if word in BESIDE or "-" in word and snake(word) in camel else "") for word in found}
    table.update({law: law + "_lem" for law in TURNED & plain})
    for old, new in OTHERWISE.items():
        # as it stands, or as the kit's script left it: then nothing has the old spelling
        table[old if old in words else snake(old)] = new
    return table


def local_names(code):
    """Names with a dash that a function's proof file declares for itself: not the goals that it answers."""
    words = {m[0] for m in WORD.finditer(code) if DASHED.fullmatch(m[0])}
    goals = set(re.findall(r"(?m)^ *(?:abbrev )?(?:pub )?(\S+) : goal\.", code))
    declared = set(re.findall(r"(?m)^ *(?:pub )?(\S+) :", code)) | set(re.findall(r"\b(?:let|λ) (\S+)", code))
    return {w for w in words & declared - goals if not w.startswith(MADE)}


def antt(text, table, of_function):
    local = {w: snake(w) for w in local_names(COMMENT.sub(" ", text))} if of_function else {}

    def part(code, comment):
        if not comment:
            return WORD.sub(lambda m: local.get(m[0]) or table.get(m[0], m[0]), code)
        # in a comment `well-formed` is English, though a field has the name
        return re.sub(r"[A-Za-z][\w']*(?:-[\w']+)*", lambda m: m[0] if m[0] == "well-formed" else table.get(m[0], m[0]), code)

    return "".join(part(p, stays) for p, stays in pieces(text, COMMENT))


def camel_alone(text, table):
    return re.sub(r"[A-Za-z][\w]*'*", lambda m: table.get(m[0], m[0]) if CAMEL.fullmatch(m[0]) else m[0], text)


def rt(text, table):
    """Rust has no names in camel case that begin small: whatever has one is a clause, an import or a comment. What is quoted stays."""
    return "".join(p if stays else camel_alone(p, table) for p, stays in pieces(text, re.compile(r'"(?:[^"\\\n]|\\.)*"')))


def edit(text, table):
    """The kit's script turns no edit: names that it turned elsewhere are turned here."""
    out, of = [], ""

    def turn(m):
        return table.get(m[0]) or (snake(m[0]) if CAMEL.fullmatch(m[0]) else m[0])

    for line in text.splitlines(keepends=True):
        if line.startswith("file:"):
            of = line.strip()
        if line.startswith(("old:", "new:")) and of.endswith(".antt"):
            line = line[:4] + WORD.sub(turn, line[4:])
        else:
            line = camel_alone(line, table)
        out.append(line)
    return "".join(out)


def page(text, table):
    name = re.compile(r"[A-Za-z][\w']*(?:-[\w']+)*")
    return SPAN.sub(lambda m: name.sub(lambda w: table.get(w[0], w[0]), m[0]), text)


def main(argv):
    show = "--table" in argv
    top = [a for a in argv if not a.startswith("--")]
    if len(top) != 1 or not os.path.isdir(os.path.join(top[0], "crates")):
        print(__doc__)
        return 2
    texts = list(files(top[0]))
    own = set(os.listdir(os.path.join(top[0], "crates")))
    table = table_of(texts, own)
    if show:
        for old, new in sorted(table.items()):
            print(f"{old}\t{new}")
        return 0
    falls = collections.Counter(table.values())
    for new in sorted(n for n, k in falls.items() if k > 1):
        print("falls together:", new, sorted(old for old in table if table[old] == new))
    changed = 0
    for name, path, text in texts:
        if name.endswith(".antt"):
            new = antt(text, table, bool(OF_FUNCTION.search("/" + name)))
        elif name.endswith(".rt"):
            new = rt(text, table)
        elif name.endswith(".edit"):
            new = edit(text, table)
        elif name.endswith(".md") and name != "docs/PORT.md":
            new = page(text, table)
        else:
            continue
        if new != text:
            changed += 1
            with open(path, "w", encoding="utf-8") as f:
                f.write(new)
    print(f"{len(table)} names, {changed} files")
    return 0


if __name__ == "__main__":
    raise SystemExit(main(sys.argv[1:]))
