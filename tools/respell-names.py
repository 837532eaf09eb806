#!/usr/bin/env python3
"""Turns the repository's own names to the library's spelling: definitions and lemmas in snake case, types and modules as they are.

usage: tools/respell-names.py [--check] [--list]

A definition `usableRange` becomes `usable_range`. A lemma `by-own` becomes `by_own`; a dash stays where it stands beside a name of several
words or a type's, as in `drop_last-length` and `Sound-all`, since there it joins two names. Functions of src/, names under C, strings,
inputs and outputs keep their names. It reads which names the files below crates/ declare, and turns those alone, whole words, in specs/,
proofs/, the clauses and comments of src/, the must-fail edits and the documents. The names that a check makes for the proof of a function
(behind `tie.`, and steps and facts behind a dot) stay. --check writes nothing; --list prints the table.
"""
import collections
import os
import re
import sys

WORD = re.compile(r"[^\s(){}.;,@\"«»\[\]|`]+")
DECLARED = re.compile(
    r"(?m)^ *(?:(?:unfoldable|abbrev|opaque|pub|record|data|constructor) +)*([^\s(){}.;,@\"«»\[\]◌:]+)(?: +[({][^:\n]*:[^\n]*?[)}])* +:(?= )")
# fields and parameters of a module, bound in brackets
BOUND = re.compile(r"[({]([^\s(){}.;,@\"«»\[\]]+(?: [^\s(){}.;,@\"«»\[\]:]+)*) :")
CAMEL = re.compile(r"[a-z]+[a-z0-9]*(?:[A-Z]|-.*[a-z0-9][A-Z])")
OF_A_FUNCTION = re.compile(r"crates/[^/]+/proofs/.*/(?:Proof|Answers|Invariants)\.antt$")


def files(*ends):
    for root, folders, names in os.walk("crates"):
        folders[:] = sorted(it for it in folders if it not in ("out", "target"))
        for name in sorted(names):
            if name.endswith(ends):
                yield os.path.join(root, name)


def read(path):
    with open(path, encoding="utf-8", newline="") as it:
        return it.read()


def snake(word):
    word = re.sub(r"(?<=[a-z0-9'])(?=[A-Z])", "_", word)
    return word.lower()


def part_of(part):
    return part if part[:1].isupper() else snake(part)


def is_name(part):
    """A part that is a name by itself: of several words, or a type's."""
    return bool(re.search(r"[a-z0-9][A-Z]", part) or part[:1].isupper() or "_" in part)


def turned(name):
    if "-" not in name[1:-1] or re.search(r"[◌⊕⊖⊗⊘+*/<>≤≡∷=×→]", name):
        return snake(name) if CAMEL.match(name) else name
    parts = name.split("-")
    out = part_of(parts[0])
    for a, b in zip(parts, parts[1:]):
        joins = is_name(a) or is_name(b)
        out += ("-" if joins else "_") + part_of(b)
    return out


# names that a lemma would share with a definition, and names that stay
LEMMAS = {"is-finite": "is_finite_lem", "tables-of": "tables_of_lem"}
STAY = {"end-at"}
# a local name that the definition's new name would hide: in files that declare it, another
LOCAL = {"room_of": ("roomOf", "its_room"), "too_short": ("tooShort", "too_short_lem")}


def declared():
    known = collections.defaultdict(set)
    for path in files(".antt"):
        text = re.sub(r"--[^\n]*", "", read(path))
        for m in DECLARED.finditer(text):
            known[m[1]].add(path)
        for m in BOUND.finditer(text):
            for it in m[1].split():
                known[it].add(path)
    return known


def table():
    known, out = declared(), {}
    for name, where in known.items():
        if name in STAY or ("-" in name and all(OF_A_FUNCTION.search(it) for it in where)):
            continue  # an answer: named after its goal
        new = LEMMAS.get(name, turned(name))
        if new != name:
            out[name] = new
    camel = {new for old, new in out.items() if "-" not in old}
    for old, new in out.items():
        if "-" in old and new in camel:
            out[old] = new + "_lem"
    return out


FOREIGN = re.compile(r"(?m)^ *(?:pub )?use ((?!Rattle\.)\S+|Rattle\.std\.\S+)\.\{([^}]*)\}")
TOKENS = re.compile(r"--[^\n]*|\"(?:[^\"\\\n]|\\.)*\"|" + WORD.pattern)


def words(text, names, dashes):
    """The text with its words turned; those with a dash only where that is asked, and not behind a dot."""

    def one(m):
        it = m[0]
        new = names.get(it)
        if new is None and "'" in it:
            bare = it.rstrip("'")
            new = names.get(bare) and names[bare] + it[len(bare):]
        if new is None or ("-" in it and not dashes):
            return it
        return new

    return WORD.sub(one, text)


def spans(text, names):
    """A comment or a page: names of several capitals anywhere, names with a dash in code spans alone."""
    parts = re.split(r"(`[^`\n]*`)", text)
    return "".join(words(it, names, i % 2 == 1) for i, it in enumerate(parts))


def antt(path, text, names):
    names = dict(names)
    for m in FOREIGN.finditer(text):
        for it in m[2].split(","):
            names.pop(it.split(" as ")[0].strip(), None)
    local = {}
    for it, (old, new) in LOCAL.items():
        if re.search(r"(?<![\w-])" + old + r"(?![\w-])", text) and re.search(r"(?m)^ *(?:pub )?" + it + r" ", text):
            local[it] = new
    names.update(local)
    of_function = OF_A_FUNCTION.search(path)
    out, at = [], 0
    for m in TOKENS.finditer(text):
        out.append(text[at:m.start()])
        at = m.end()
        it = m[0]
        behind = text[m.start() - 1:m.start()] == "." and re.match(r"[\w)\]'}]", text[m.start() - 2:m.start() - 1] or " ")
        if it.startswith("--"):
            out.append(spans(it, names))
        elif it.startswith('"'):
            out.append(it)
        elif behind and "-" in it and of_function:
            out.append(it)
        else:
            out.append(words(it, names, True))
    out.append(text[at:])
    return "".join(out)


def rattle(text, names):
    out = []
    for line in text.split("\n"):
        head, comment = line, ""
        m = re.search(r"(?:^|\s)//", line)
        if m:
            head, comment = line[:m.start()], line[m.start():]
        pieces = re.split(r"(\"(?:[^\"\\]|\\.)*\")", head)
        out.append("".join(it if i % 2 else words(it, names, True) for i, it in enumerate(pieces)) + spans(comment, names))
    return "\n".join(out)


def main():
    words = sys.argv[1:]
    if words in (["-h"], ["--help"]):
        print(__doc__)
        return
    if words not in ([], ["--check"], ["--list"]):
        print("usage: tools/respell-names.py [--check] [--list]", file=sys.stderr)
        raise SystemExit(2)
    names = table()
    if "--list" in sys.argv:
        for old in sorted(names):
            print(old, names[old], sep="\t")
        return
    pages = [os.path.join(root, it) for root, _, all in os.walk("docs") for it in all if it.endswith(".md") and it not in ("PORT.md", "SCOPE.md")]
    pages += [it for it in ("README.md", "bench/README.md", "oracle/README.md", "bindings/README.md", "sheets/README.md") if os.path.isfile(it)]
    changed = 0
    for path in [*files(".antt", ".rt", ".edit"), *pages]:
        text = read(path)
        if path.endswith(".antt"):
            new = antt(path, text, names)
        elif path.endswith(".md"):
            new = spans(text, names)
        else:
            new = rattle(text, names)
        if new != text:
            changed += 1
            if "--check" not in sys.argv:
                with open(path, "w", encoding="utf-8", newline="") as it:
                    it.write(new)
    print(changed, "files", "would change" if "--check" in sys.argv else "changed")


if __name__ == "__main__":
    main()
