#!/usr/bin/env python3
"""Spells the repository's own names in specs/, proofs/ and clauses as the library spells its own.

A definition, a lemma, a field and a variable are in snake case: `placeAfter` becomes `place_after`, `work-sum` becomes
`work_sum`. A dash stays where it joins the names of two definitions, as in `length-encoded`. Types, facts and modules
keep their camel case. Names of the code, of the library and of the goals that the checker makes are left as they are.

usage: tools/respell.py            at the top of the repository, once, after the toolchain's script: rewrites crates/, must-fail
                                   edits included, and the names in README.md and docs/
       tools/respell.py --list     what would be turned
"""
import collections
import glob
import re
import sys

# what the rule alone would not give
BY_HAND = {
    "inForce": "settings_in_force",
    "inForce-in-force": "in_force_stands",
    "trimmed-getD": "get_or-trimmed",
    "number-bytes": "number-bytes",
    "bytes-number": "bytes-number",
    "length-encoded": "length-encoded",
    "parsed-encoded": "parsed-encoded",
    "all-printable": "all_printable_lem",
    "encoded-by": "encoded_by_lem",
    "entry-by": "entry_by_lem",
    "kind-byte": "kind_byte_lem",
    "fits?": "is_fit",
    "holds?": "is_held_down",
    "settled?": "is_settled",
    "sound?": "is_sound",
    "certified?": "is_certified",
    "found?": "is_found",
    "held?": "is_held",
}
# what the toolchain's own script turned in the crates, for the pages that name it
IN_PAGES = "entryAt entryOf kindOf labelOf lowEnd readBy readEntry roomFor runOf slotsOf startOf stepOf upTo writtenBy".split()
NAME = r"[^\s(){}\[\];,.λ|:→×≡\"]+"
TOKEN = re.compile(r"(?<![^\s(){}\[\];,.λ|:→×≡\"`])(" + NAME + r")(?![^\s(){}\[\];,.λ|:→×≡\"`])")


def files(*patterns):
    return sorted(f for p in patterns for f in glob.glob(p, recursive=True))


def antt():
    return files("crates/*/specs/**/*.antt", "crates/*/proofs/**/*.antt")


def code(line):
    """The line without its comment."""
    return re.split(r"(?:^|\s)--(?:\s|$)", line)[0]


def names_of(text):
    """The names that a file defines or binds, those that it imports from libraries, and those of goals."""
    own, made = set(), set(re.findall(r"\bgoal\.([^\s.]+)", text))
    body = re.sub(r"^use .*$", "", text, flags=re.M)
    own.update(re.findall(r"^ *(?:(?:pub|abbrev|unfoldable|data|record|let) +)*(" + NAME + r")(?: +" + NAME + r")* *:", body, re.M))
    own.update(re.findall(r"^ *(?:(?:pub|abbrev|unfoldable) +)+(" + NAME + r")", body, re.M))
    own.update(re.findall(r"\blet\s+(" + NAME + r")", body))
    for group in re.findall(r"[({]((?:" + NAME + r"\s+)*" + NAME + r")\s+:\s", body) + re.findall(r"λ\s+((?:" + NAME + r"\s*)+)\.", body):
        own.update(group.split())
    own.update(re.findall(r" as (" + NAME + r")", text))
    return own, made


def imported(text, crates):
    found = set()
    for path, names in re.findall(r"^use ([^\s{]+)\.\{([^}]*)\}", text, re.M):
        root = path.split(".")
        if root[0] != "Rattle" or root[1] not in crates:
            found.update(n.strip().split(" as ")[0] for n in names.split(","))
    return found


def snake(name):
    if name in BY_HAND:
        return BY_HAND[name]
    if name.startswith("inForce-"):
        name = "in_force_" + name[len("inForce-") :]
    test, mark, rest = name.partition("?-")
    if mark:
        name = BY_HAND[test + "?"] + "_" + rest
    name = re.sub(r"(?<=[a-z0-9])([A-Z])(?=[a-z])", lambda m: "_" + m.group(1).lower(), name)
    return name.replace("-", "_")


def odd(name):
    return bool(re.match(r"^[a-z]\w*[A-Z][a-z]", name) or re.search(r"[A-Za-z0-9']-[A-Za-z0-9]", name) or re.match(r"^[a-z][\w-]*\?", name))


def table():
    texts = {f: "\n".join(code(l) for l in open(f).read().split("\n")) for f in antt()}
    crates = {f.split("/")[1] for f in glob.glob("crates/*/src/*")}
    own, made, theirs = set(), set(), set()
    for text in texts.values():
        a, b = names_of(text)
        own, made, theirs = own | a, made | b, theirs | imported(text, crates)
    turned = {n: snake(n) for n in own - made - theirs if odd(n)}
    present = {t for text in texts.values() for t in re.findall(NAME, re.sub(r"^use [^\s{]+( as|\.\{)", "", text, flags=re.M))}
    back = collections.defaultdict(set)
    for old, new in turned.items():
        back[new].add(old)
        if new != old and new in present:
            back[new].add(new)
    clash = {new: olds for new, olds in back.items() if len(olds) > 1}
    return turned, clash


def turn_line(line, turned, comment):
    """The line with its names turned: all in code, those in backticks in a comment."""
    at = re.search(comment, line)
    body, rest = (line[: at.start()], line[at.start():]) if at else (line, "")
    parts = re.split(r'("[^"]*")', body)
    body = "".join(p if p.startswith('"') else TOKEN.sub(lambda m: turned.get(m.group(1), m.group(1)), p) for p in parts)
    rest = re.sub(r"`([^`\n]+)`", lambda m: "`" + TOKEN.sub(lambda n: turned.get(n.group(1), n.group(1)), m.group(1)) + "`", rest)
    return body + rest


def main():
    turned, clash = table()
    if "--list" in sys.argv:
        print("\n".join(f"{o} {n}" for o, n in sorted(turned.items()) if o != n))
    for new, olds in sorted(clash.items()):
        print(f"falls together: {new}: {' '.join(sorted(olds))}")
    if "--list" in sys.argv:
        return
    if clash:
        raise SystemExit(1)
    todo = [(f, r"(?:^|\s)--(?:\s|$)") for f in antt()] + [(f, r"//") for f in files("crates/*/src/**/*.rt")]
    todo += [(f, r"^\Z") for f in files("crates/*/must-fail/*.edit")]
    pages = files("README.md", "docs/*.md")
    n = 0
    for f, comment in todo + [(f, r"^.*$") for f in pages]:
        old = open(f).read()
        names = turned | {w: snake(w) for w in IN_PAGES} if f in pages else turned
        new = "\n".join(turn_line(l, names, comment) for l in old.split("\n"))
        if new != old:
            open(f, "w").write(new)
            n += 1
    print(f"{len(turned)} names, {n} files")


if __name__ == "__main__":
    main()
