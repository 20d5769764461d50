#!/usr/bin/env python3
"""Brings the names of this repository's own definitions and lemmas to one spelling: snake case, no dash.

Run once at the top, after the toolchain's own port script. Names of src/, names that the toolchain makes, and names of
its library keep their spelling. `respell.py --list` only prints what it would rename and what would fall together.
"""
import collections
import glob
import re
import sys

DECLARED = re.compile(
    r"^\s*(?:abbrev |unfoldable |pub |record |data )*([^\s(){}\[\]:,;.]+)(?:\s+\{ℓ[^}]*\})?(?:\s*[({].*[)}])?\s+:\s"
)
# Names that stand first on no line: two constructors, a name given by an import, and parameters.
INSIDE = (
    "counts-fail no-retiming wrong-version near-end far-end near-station far-station "
    "at-v high-v g-low g-high k-low k-high i-low"
).split()

TOKEN = re.compile(r"[^\s(){}\[\],;.`]+")
KEPT = {"K", "N"}

# Names that would fall together with another: a lemma with the name of its function gets `_lem`.
APART = {
    "loop-sum": "loop_sum_lem",
    "fill-from": "fill_from_lem",
    "new-delay": "new_delay_lem",
    "new-delays": "new_delays_lem",
    "none-fired": "none_fired_lem",
    "read-rows": "read_rows_lem",
    "bench-table": "bench_table_lem",
    "number-of": "number_of_lem",
    "start-length": "start_length_lem",
    "plan-of": "plan_of_lem",
    "after-round": "after_round_lem",
    "inOrder": "in_order_list",
    "ifYes": "if_yes_value",
    "oneByOne": "one_by_one_events",
    "oneMore": "one_more_of",
}


def respelled(name):
    parts = []
    for part in name.split("-"):
        words = re.sub(r"(?<=[a-z0-9])([A-Z])", r"_\1", part).split("_")
        parts += [w if w in KEPT else w[:1].lower() + w[1:] if w[:1].isupper() and len(words) > 1 else w for w in words]
    return "_".join(parts)


def files():
    for pattern in ("crates/*/specs/**/*.antt", "crates/*/proofs/**/*.antt"):
        yield from sorted(glob.glob(pattern, recursive=True))


def declared():
    names = collections.defaultdict(set)
    for file in files():
        if re.search(r"/proofs/.*/", file.split("crates/")[1]):
            continue
        for line in open(file):
            found = DECLARED.match(line)
            if found and not line.lstrip().startswith("--"):
                names[found.group(1)].add(file)
    return names


def wanted(names):
    renamed = {}
    for name in names:
        if "-" in name or re.match(r"^[a-z][a-z0-9]*[A-Z]", name):
            renamed[name] = APART.get(name) or respelled(name)
    return renamed


def inside():
    return {name: respelled(name) for name in INSIDE}


def imported(text, own):
    """The names that a file takes from the toolchain's library."""
    found = set()
    for module, names in re.findall(r"use ([^\s{;]+)\.\{([^}]*)\}", text):
        parts = module.split(".")
        if not (parts[0] == "Rattle" and parts[1] in own):
            found |= {n.strip() for n in names.split(",")}
    return found


def respell(line, renamed):
    def one(match):
        token = match.group(0)
        before = line[: match.start()]
        if before.endswith("tie.") or before.endswith("goal."):
            return token
        return renamed.get(token, token)

    return TOKEN.sub(one, line)


def comment(line, renamed):
    """In a comment only names that are no English words: those in camel case."""
    camel = {a: b for a, b in renamed.items() if "-" not in a}
    return respell(line, camel)


def turned(file, text, renamed, own):
    taken = imported(text, own)
    mine = {a: b for a, b in renamed.items() if a not in taken}
    lines = []
    for line in text.split("\n"):
        stripped = line.lstrip()
        if stripped.startswith("--") or stripped.startswith("//"):
            lines.append(comment(line, mine))
        else:
            lines.append(respell(line, mine))
    return "\n".join(lines)


def page(text, renamed):
    """In a page, what stands between backquotes."""
    return re.sub(r"`[^`\n]+`", lambda m: respell(m.group(0), renamed), text)


def together(renamed, names):
    """Names that fall together with another name of the same file."""
    said = []
    for file in files():
        text = open(file).read()
        tokens = set(TOKEN.findall(text))
        seen = collections.defaultdict(set)
        for token in tokens:
            seen[renamed.get(token, token)].add(token)
        said += [f"{file}: {sorted(olds)}" for olds in seen.values() if len(olds) > 1]
    for new, olds in sorted(collections.Counter(renamed.values()).items()):
        if olds > 1 or new in names:
            said.append(f"declared twice: {new}")
    return said


def main():
    own = {f.split("/")[1] for f in glob.glob("crates/*")}
    names = declared()
    renamed = wanted(names)
    if "--list" in sys.argv:
        print("\n".join(together(renamed, names)))
        for file in files():
            both = imported(open(file).read(), own) & set(renamed)
            if both:
                print(f"{file}: of the library: {sorted(both)}")
        return
    sources = list(files()) + sorted(glob.glob("crates/*/src/**/*.rt", recursive=True))
    changed = 0
    for file in sources:
        text = open(file).read()
        new = turned(file, text, renamed | inside(), own)
        changed += new != text
        if new != text:
            open(file, "w").write(new)
    for file in ["README.md"] + sorted(glob.glob("docs/*.md")):
        text = open(file).read()
        new = page(text, renamed)
        changed += new != text
        if new != text:
            open(file, "w").write(new)
    print(f"{len(renamed)} names respelled in {changed} files")


main()
