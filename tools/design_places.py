#!/usr/bin/env python3
"""Counts the places in crates/*/src/*.rt that the eight points of docs/DESIGN-PASS.md speak of.

usage: python3 tools/design_places.py [--list] [FOLDER]     FOLDER: the top of a checkout; without it the one that holds this script

For each point the number of places, then a line for each of its kinds; with --list each place too, as `crate/file.rt:line function: what`.
It reads the text alone, without comments, strings, attributes and imports. It finds what has a shape; a reader finds more, and knows which should stay.
"""

import collections
import glob
import os
import re
import sys

NOTHING = ("None", "Nothing", "Empty", "Blank", "Dash", "Unknown", "Malformed")
NOT_IN_A_WORD = r"(?<![a-z])(?:%s)(?![a-z])"
TWINS = {
    "a size": r"\d+|_(?:round|one|two|three|four)(?![a-z])",
    "log and message": NOT_IN_A_WORD % "log|message",
    "FIRST, CHECK and SECOND": NOT_IN_A_WORD % "first|checks?|seconds?",
    "the call": NOT_IN_A_WORD % "start|key_on|propose|deliver",
    "unit and pair": NOT_IN_A_WORD % "unit|pair",
}
LEFT_OUT = re.compile(r'//[^\n]*|"(?:\\.|[^"\\])*"|^[ ]*#!?\[.*\]$|^ *(?:ghost )?use [^;]*;', re.M)


class Item:
    """A function, a struct or an enum: where it stands, its name, and its parts as text."""

    def __init__(self, place, name, **parts):
        self.place, self.name = place, name
        self.__dict__.update(parts)


def closing(text, at):
    """Where the bracket that opens at `at` closes."""
    depth = 0
    for i in range(at, len(text)):
        depth += (text[i] in "([{") - (text[i] in ")]}")
        if depth == 0:
            return i
    return len(text) - 1


def flat(text):
    return re.sub(r"\s+", " ", text).strip().rstrip(",")


def parted(text, sign):
    """The parts of a text between signs that stand in no bracket."""
    parts, depth, begin = [], 0, 0
    for i, c in enumerate(text):
        depth += (c in "([{<") - (c in ")]}>" and text[i - 1] != "-")
        if c == sign and depth == 0:
            parts.append(text[begin:i])
            begin = i + 1
    return [flat(p) for p in parts + [text[begin:]] if p.strip()]


def read(folder):
    functions, structs, enums = [], [], []
    for path in sorted(glob.glob(os.path.join(folder, "crates", "*", "src", "**", "*.rt"), recursive=True)):
        with open(path, encoding="utf-8") as f:
            text = LEFT_OUT.sub(lambda m: re.sub(r"[^\n]", " ", m[0]), f.read())
        crate, file = os.path.relpath(path, os.path.join(folder, "crates")).split(os.sep + "src" + os.sep)
        for m in re.finditer(r"\b(fn|struct|enum) (\w+)", text):
            place = "%s/%s:%d" % (crate, file, text.count("\n", 0, m.start()) + 1)
            opening = re.compile(r"[(;]" if m[1] == "fn" else r"[{(;]").search(text, m.end())
            if not opening or opening[0] == ";":
                continue
            end = closing(text, opening.start())
            inside = text[opening.start() + 1 : end]
            if m[1] != "fn":
                (structs if m[1] == "struct" else enums).append(Item(place, m[2], crate=crate, parts=parted(inside, ",")))
                continue
            clauses, result, body = {"requires": [], "ensures": []}, None, None
            while body is None:  # the clauses, each in braces, and then the body
                brace = text.find("{", end)
                before = text[end + 1 : brace]
                if brace < 0 or ";" in re.sub(r"\[[^\]]*\]", "", before):  # a trait's function without a body
                    break
                if result is None:
                    result = flat(re.split(r"\b(?:requires|ensures|where)\b", before)[0]).replace("-> ", "")
                clause = re.findall(r"\b(requires|ensures)\b", before)
                end = closing(text, brace)
                if clause:
                    clauses[clause[-1]].append(flat(text[brace + 1 : end]))
                else:
                    body = text[brace + 1 : end]
            if body is not None:
                functions.append(Item(place, m[2], crate=crate, parameters=parted(inside, ","), result=result, body=body, **clauses))
    return functions, structs, enums


def arms(body):
    """The arms of the matches of a body, as (pattern, value)."""
    return re.findall(r"([\w:]+(?:\([^()]*\))?|b'.'|_) => ([^\n]*)", body)


def lines(f, pattern):
    """Each match in the body, as a place."""
    return [(f, flat(m[0])) for m in re.finditer(pattern, f.body, re.M)]


def grouped(pairs, least):
    """The keys that at least so many functions have, each with its functions."""
    groups = collections.OrderedDict()
    for key, f in pairs:
        groups.setdefault(key, []).append(f)
    return {k: fs for k, fs in groups.items() if len(fs) >= least}


def point_1(functions, structs, enums):
    # enums of two variants: one with a payload and one without, or a payload and a Refusal
    pairs = [e for e in enums if len(e.parts) == 2 and ("(" in e.parts[0]) + ("(" in e.parts[1]) == 1 + ("(Refusal)" in "".join(e.parts))]
    yield "own Option or Result", [(e, " | ".join(e.parts)) for e in pairs]
    # variants of other enums, without a payload, named as one of NOTHING
    yield "variant for none", [(e, v) for e in enums if e not in pairs for v in e.parts if v in NOTHING]
    # structs with a field `refusal` or `number` and another one
    yield "number beside a value", [(s, "; ".join(s.parts)) for s in structs if len(s.parts) > 1 and re.search(r"\b(refusal|number): ", "; ".join(s.parts))]
    # functions that give a Refusal, or a u32 made by `number` or `number_of`
    made = [f for f in functions if f.result == "Refusal" or f.result == "u32" and re.search(r"\bnumber(_of)?\(", f.body)]
    yield "function that gives a number or a refusal", [(f, "-> " + f.result) for f in made]
    # tests of such a number
    yield "test of a number", [p for f in functions for p in lines(f, r"\bnumber(\(.*\))? == 0")]
    # a failure passed on by hand: `let .. else { return`, and arms for the failure of such an enum, an Option or a Result
    failures = ["%s::%s" % (e.name, v) for e in pairs for v in e.parts if "(" not in v] + [r"\w+::Refused\(\w+\)", "None", r"Err\(\w+\)"]
    passed = r"\blet [^=;]* = [^;{}]* else \{\s*return [^;]*;|(?<![\w:])(?:%s) => [^\n]*" % "|".join(failures)
    yield "failure passed on by hand", [p for f in functions for p in lines(f, passed)]


def point_2(functions, structs, enums):
    # bodies of 15 words and signs or more that are the same but for their names and numbers; a path is one word
    def shape(f):
        return tuple(re.sub(r"^\w.*", "w", w) for w in re.findall(r"[\w.']+(?:::\w+)*|[^\w\s]", re.sub(r"\b(\w+::)+", "", f.body)))
    same = grouped([(shape(f), f) for f in functions if len(shape(f)) >= 15], 2)
    yield "bodies of one shape", [(f, "as " + ", ".join(g.name for g in fs if g is not f)) for fs in same.values() for f in fs]
    # other functions whose names are alike but for words of one row of TWINS
    others = [f for f in functions if not any(f in fs for fs in same.values())]
    for kind, words in TWINS.items():
        stems = [(re.sub(words, "*", f.name), f) for f in others]
        named = [fs for fs in grouped([(k, f) for k, f in stems if "*" in k and k != "*"], 2).values() if len({f.name for f in fs}) > 1]
        yield "names alike but for " + kind, [(f, "beside " + ", ".join(sorted({g.name for g in fs} - {f.name}))) for fs in named for f in fs]


def point_3(functions, structs, enums):
    # `while i < ..`
    yield "while over an index", [p for f in functions for p in lines(f, r"\bwhile \w+ < [^{]*")]
    # `for i in 0..n`, where i is not left out
    yield "for over numbers", [p for f in functions for p in lines(f, r"\bfor [a-z]\w* in [\w:]+\.\.[^{]*")]
    # a position that moves by a width, or that a `put_..` gives
    yield "running position", [p for f in functions for p in lines(f, r"\b\w+ \+= (?!1;)[^;,]*|\b\w+ = [\w:]*\bput_\w+\(")]
    # functions that call themselves
    yield "recursion over numbers", [(f, "calls itself") for f in functions if re.search(r"(?<![\w.:])%s\(" % f.name, f.body)]


def point_4(functions, structs, enums):
    # tests by a match that gives true or false, and `same_..`
    tests = [f for f in functions if f.result == "bool" and (re.search(r"=> (true|false)\b", f.body) or f.name.startswith("same_"))]
    yield "equality or test of a variant", [(f, "-> bool") for f in tests]
    # bodies that are one match of which each arm is a plain value
    value = re.compile(r"(b'.'|[\w:]+(\([\w:, ]*\))?( as \w+)?),$")
    tables = [f for f in functions if f not in tests and re.match(r"\s*match \w+ \{", f.body) and arms(f.body)
              and all(value.match(v) and not re.match(r"[a-z_]\w*(::[a-z]\w*)*\(", v) for _, v in arms(f.body))]
    yield "table of a conversion", [(f, "-> " + f.result) for f in tables]
    # bodies that are one widening
    yield "widening", [(f, flat(f.body)) for f in functions if re.fullmatch(r"\s*\w+ as \w+\s*", f.body)]
    # functions that compare with 256 or 65536, so that a cast is safe
    yield "test before a cast", [(f, "< 256 or < 65536") for f in functions if re.search(r"< (256|65536)\b", f.body)]
    # functions that take bytes of a number, or put them together, by 256
    yield "bytes of a number", [(f, "by 256") for f in functions if re.search(r"[*/%] (256|65536)\b", f.body)]
    # functions that work on decimal digits
    yield "decimal digits", [(f, "b'0'") for f in functions if "b'0'" in f.body]
    # items stored one by one in a loop
    loops = [f for f in functions if re.search(r"\b(while|for)\b", f.body)]
    yield "copy or fill item by item", [p for f in loops for p in lines(f, r"\b\w+\[(?:at \+ )?(?:at|i|k)\] = [^;]*")]


def point_5(functions, structs, enums):
    # a fact that three or more functions require: the values named alike, and what stands between `at` and `≤` left out
    def facts(f):
        for clause in f.requires:
            for part in re.split(r" × ", clause):
                fact = re.sub(r"\b\w+\.(now|old)\b(?!\.)", "_", part.strip(" ()"))  # `s.now` and `out.old` alike
                fact = re.sub(r"\b\w+\.((now|old)\.)?(?=\w)", "", fact)  # and `m.sender`, `self.old.sender`
                yield re.sub(r"\b(at|begin) \+ .* ≤", r"at + .. ≤", fact)
    shared = grouped([(k, f) for f in functions for k in dict.fromkeys(facts(f))], 3)
    yield "fact that functions require", [(f, k) for k, fs in shared.items() for f in fs]
    # two or more parameters, one after the other, of the same names and types in three or more functions: first the row that most functions have, then
    # the next among what is left, so that no parameter counts twice
    def rows(f):
        p = [x for x in f.parameters if not x.endswith("self")]
        return [tuple(p[i:j]) for i in range(len(p)) for j in range(i + 2, len(p) + 1)]
    runs, used = grouped([(r, f) for f in functions for r in dict.fromkeys(rows(f))], 3), collections.defaultdict(set)
    together = []
    for row in sorted(runs, key=lambda r: (-len(runs[r]), -len(r))):
        free = [f for f in runs[row] if not used[f] & set(row)]
        if len(free) >= 3:
            together += [(f, ", ".join(row)) for f in free]
            for f in free:
                used[f] |= set(row)
    yield "parameters that go together", together


def point_6(functions, structs, enums):
    # a slice and a place in it, as parameters
    both = re.compile(r"&(?:mut )?\[[^,]*\]?, \w+: usize")
    yield "slice and a place in it", [(f, both.search(", ".join(f.parameters))[0]) for f in functions if both.search(", ".join(f.parameters))]
    # structs with an array beside a number or another array, and structs with a length or a place
    beside = [s for s in structs if any(re.search(r": \[", p) for p in s.parts) and len(s.parts) > 1 or any(p.endswith(": usize") for p in s.parts)]
    yield "array or length beside a field", [(s, "; ".join(s.parts)) for s in beside]
    # functions that answer with a place or a length
    yield "function that gives a place", [(f, "-> " + f.result) for f in functions if re.search(r"\busize\b", f.result)]


def point_7(functions, structs, enums):
    # functions with a match of which two or more arms call different functions
    def calls(f):
        found = (re.match(r"(?:match )?[!&*]*((?:\w+(?:::|\.))*[a-z_]\w*)\(", v) for _, v in arms(f.body))
        return sorted({m[1] for m in found if m})
    yield "match that picks what to call", [(f, ", ".join(calls(f))) for f in functions if len(calls(f)) > 1]
    # functions as values
    yield "table of functions", [(i, "fn or dyn") for i in structs + enums if re.search(r"\bfn\(|\bdyn\b", "; ".join(i.parts))]


def point_8(folder):
    # the files Answers.antt and Invariants.antt below proofs/, and their lines
    rows = collections.OrderedDict()
    for path in sorted(glob.glob(os.path.join(folder, "crates", "*", "proofs", "**", "*.antt"), recursive=True)):
        name = os.path.basename(path)
        if name in ("Answers.antt", "Invariants.antt"):
            with open(path, encoding="utf-8") as f:
                row = rows.setdefault(os.path.relpath(path, os.path.join(folder, "crates")).split(os.sep)[0], collections.Counter())
                row[name] += 1
                row["lines of " + name] += sum(1 for _ in f)
    return rows


POINTS = [
    (1, "own Option and Result", point_1),
    (2, "twins", point_2),
    (3, "loops by hand", point_3),
    (4, "equality, conversion, copying and printing by hand", point_4),
    (5, "facts and parameters that go together", point_5),
    (6, "buffers with a place beside them", point_6),
    (7, "switches on what to run", point_7),
]


def main(arguments):
    listed = "--list" in arguments
    rest = [a for a in arguments if a != "--list"]
    if len(rest) > 1 or any(a.startswith("-") for a in rest):
        sys.exit(__doc__)
    folder = rest[0] if rest else os.path.dirname(os.path.dirname(os.path.abspath(__file__)))
    items = read(folder)
    if not items[0]:
        sys.exit("no function in %s" % os.path.join(folder, "crates/*/src/*.rt"))
    for number, title, point in POINTS:
        kinds = list(point(*items))
        print("%d. %s: %d places" % (number, title, sum(len(places) for _, places in kinds)))
        for kind, places in kinds:
            print("   %s: %d" % (kind, len(places)))
            for item, what in places if listed else []:
                print("      %s %s: %s" % (item.place, item.name, what))
    rows = point_8(folder)
    total = sum(rows.values(), collections.Counter())
    print("8. proof files: %d Answers.antt of %d lines, %d Invariants.antt of %d lines" % tuple(total[k] for k in (
        "Answers.antt", "lines of Answers.antt", "Invariants.antt", "lines of Invariants.antt")))
    for crate, row in rows.items():
        print("   %s: %d Answers.antt of %d lines, %d Invariants.antt of %d lines" % ((crate,) + tuple(row[k] for k in (
            "Answers.antt", "lines of Answers.antt", "Invariants.antt", "lines of Invariants.antt"))))


main(sys.argv[1:])
