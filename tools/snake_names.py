#!/usr/bin/env python3
"""Brings the names of this repository's own definitions, lemmas, fields and helpers to snake case, in specs/, proofs/, edits and the ghost parts of src/.

usage: python3 tools/snake_names.py [--dry]      at the top of the repository, once, right after port.py

A name counts as the repository's own where a line of a file in specs/, or of a file right in proofs/, declares it (`name : type`). Names of
types and modules, names that a file imports from the kit, and names from Rust sources stay. Where a lemma would have a definition's name in
a file that has both, it gets `_lem`. The script stops, and writes nothing, where two names would still become one.
"""
import collections
import glob
import re
import sys

WORD = r'[^\s(){}\[\];,.:"λ⟨⟩|]+'
DECLARES = re.compile(r"^\s*((?:" + WORD + r"\s+)*?" + WORD + r")\s*:(?=\s|$)")
KEYWORDS = {"pub", "abbrev", "unfoldable", "record", "data", "module", "postulate", "opaque", "instance", "ruleset", "macro", "syntax", "mutual"}
NOT_DECLARING = {"let", "in", "use", "where", "elim", "rw", "omega", "simp", "cc", "open", "infixl", "infixr", "infix", "case", "with", "--", "import"}
IMPORT = re.compile(r"^(?:pub )?(?:ghost )?use ([^\s{:]+?)\.?(?:\{(.*)\})?;?(?: as .*)?$")
# Names chosen by hand: fields of a record beside definitions that they are about, and lemmas that port.py has respelled already.
CHOSEN = {
    "accounts-ok": "accounts_are_ok",
    "all-offered": "all_are_offered",
    "bytes-long": "bytes_have_length",
    "counts-long": "counts_have_length",
    "sets-long": "sets_have_length",
    "no_record": "no_record_lem",
    "no_step": "no_step_lem",
    "numbers_of": "numbers_of_lem",
    "read_back": "read_back_lem",
}


def files():
    yield from sorted(glob.glob("crates/*/specs/**/*.antt", recursive=True))
    yield from sorted(glob.glob("crates/*/proofs/**/*.antt", recursive=True))
    yield from sorted(glob.glob("crates/*/src/**/*.rt", recursive=True))


def crates():
    return {p.split("/")[1] for p in glob.glob("crates/*/src")}


def snake(name):
    return re.sub(r"(?<=[a-z0-9])([A-Z])", r"_\1", name).replace("-", "_").lower()


def old(name):
    """Whether a name has the older spelling: a hump or a dash, after a small letter at its head."""
    return bool(re.match(r"[a-z]", name)) and bool(re.search(r"[a-z0-9][A-Z]|-", name)) and "·" not in name


def declared(path):
    """The names that a file of specs/ or proofs/ declares."""
    for line in open(path, encoding="utf-8"):
        m = DECLARES.match(line)
        if not m:
            continue
        words = m.group(1).split()
        while words and words[0] in KEYWORDS:
            words = words[1:]
        if not words or words[0] in NOT_DECLARING or any(not re.match(r"[\w'◌-]+$", w) for w in words):
            continue
        yield from words


def imported(path, own):
    """The names that a file imports from the kit."""
    for line in open(path, encoding="utf-8"):
        m = IMPORT.match(line.rstrip())
        if not m or not m.group(2):
            continue
        parts = m.group(1).split(".")
        if parts[0].startswith("Rattle·") or parts[0] == "Rattle" and len(parts) > 1 and parts[1] in own:
            continue
        for it in m.group(2).split(","):
            yield it.split(" as ")[0].strip()


def parameters(path):
    """The parameters of the functions of a file of src/."""
    text = open(path, encoding="utf-8").read()
    for m in re.finditer(r"\bfn \w+(?:<[^>]*>)?\(([^)]*)\)", text):
        yield from re.findall(r"(\w+):", m.group(1))


def chosen_names():
    """Each old name with its new one, and what would be one name."""
    own = crates()
    names, kit, bare, clashes = set(), set(), collections.defaultdict(set), []
    for path in files():
        kit |= set(imported(path, own))
        for m in re.finditer(r"(?<!\.)" + WORD, open(path, encoding="utf-8").read()):
            bare[m.group(0)].add(path)
        parts = path.split("/")
        if path.endswith(".antt") and (parts[2] == "specs" or len(parts) == 4):
            names.update(declared(path))
    turned = {n: s for n, s in CHOSEN.items() if n in names}
    taken = collections.defaultdict(set)
    for n in names - set(turned):
        if not old(n):
            taken[n] |= bare[n]
    for n in sorted((n for n in names if old(n) and n not in kit and n not in turned), key=lambda n: ("-" in n, n)):
        s = snake(n)
        if bare[n] & taken[s] or "-" in n and any(p.endswith(".antt") for p in bare[n] & bare[s]):
            s += "_lem"
        if bare[n] & taken[s] or s in kit:
            clashes.append((n, s))
        taken[s] |= bare[n]
        turned[n] = s
    for path in files():
        if path.endswith(".rt"):
            text = open(path, encoding="utf-8").read()
            cited = {turned[w] for w in re.findall(WORD, text) if w in turned}
            clashes += [(p, path) for p in set(parameters(path)) & cited]
    return turned, clashes


def respelled(path, text, turned):
    def line_of(line):
        ghost = not path.endswith(".rt") or re.match(r"\s*(?:pub )?ghost |\s*(?:requires|ensures|invariant)\b|\s*//", line)
        return re.sub(WORD, lambda m: turned.get(m.group(0), m.group(0)) if ghost or "-" not in m.group(0) else m.group(0), line)

    return "\n".join(line_of(line) for line in text.split("\n"))


def main(argv):
    turned, clashes = chosen_names()
    for n, s in clashes:
        print(f"clash: {n}, {s}")
    print(f"{len(turned)} names, {len(clashes)} clashes")
    if clashes or "--dry" in argv:
        return 1 if clashes else 0
    changed = 0
    for path in [*files(), *sorted(glob.glob("crates/*/must-fail/*.edit"))]:
        text = open(path, encoding="utf-8").read()
        new = respelled(path, text, turned)
        if new != text:
            open(path, "w", encoding="utf-8").write(new)
            changed += 1
    print(f"{changed} files changed")
    return 0


if __name__ == "__main__":
    raise SystemExit(main(sys.argv[1:]))
