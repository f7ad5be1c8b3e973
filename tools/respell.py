#!/usr/bin/env python3
"""Respells the definitions and lemmas of specs/ and proofs/: a word in snake case, a type or a fact in camel case.

usage: tools/respell.py [FOLDER]      the repository, or this one: rewrites crates/ in place, and prints what it renamed
       tools/respell.py --list        prints it alone

Names of src/, goals and what the library declares keep their spelling. It says where two names would fall together.
"""

import os
import re
import sys

# names that would fall together with another; a lemma that would have its function's name gets _lem
CHOSEN = {
    "rampMoves": "RampMoved",
    "rampKeeps": "RampKept",
    "found-body": "found_body_lem",
    "look-after": "look_after_lem",
    "new-value": "new_value_lem",
    "of-run": "of_run_lem",
    "or-next": "or_next_lem",
    "or-retry": "or_retry_lem",
    "second-step": "second_step_lem",
}
TOKEN = re.compile(r"(?<![\w'\-])[A-Za-z][\w'\-]*(?![\w'\-])")
DECLARED = re.compile(r"^(\s*)((?:abbrev |unfoldable |pub |opaque )*)((?:[^\W\d][\w'\-]*)(?: [^\W\d][\w'\-]*)*) : (.*)$")
HEAD = re.compile(r"^\s*(?:pub )?(record|data) ([^\s:{(]+)")


def texts(root, ends):
    for folder, dirs, files in os.walk(os.path.join(root, "crates")):
        dirs[:] = sorted(d for d in dirs if d != "out")
        for f in sorted(files):
            if f.endswith(ends):
                yield os.path.join(folder, f)


def read(path):
    with open(path, encoding="utf-8") as f:
        return f.read()


def snake(name):
    out = re.sub(r"(?<=[a-z0-9])([A-Z])", lambda m: "_" + m.group(1).lower(), name)
    return out.replace("-", "_")


def camel(name):
    return "".join(p[:1].upper() + p[1:] for p in re.split(r"[-_]", name))


def declared(text):
    """The names that a file declares, each with whether it is a type or a fact."""
    lines = text.split("\n")
    for n, line in enumerate(lines):
        head = HEAD.match(line)
        if head:
            yield head.group(2), True
            continue
        it = DECLARED.match(line)
        if not it or line.lstrip().startswith(("--", "use ", "let ", "in ", "module ", "λ")):
            continue
        kind = it.group(4)
        if re.match(r"(goal|given|need)\.", kind):
            continue
        depth = len(it.group(1))
        for more in lines[n + 1:]:
            if not more.strip() or len(more) - len(more.lstrip()) <= depth + 2:
                break
            kind += " " + more.strip()
        fact = bool(re.search(r"(^|→ )Type 0\s*$", kind))
        for name in it.group(3).split():
            if name not in ("abbrev", "pub", "unfoldable"):
                yield name, fact


def renamings(root):
    new, own = {}, set()
    for path in texts(root, ".antt"):
        for name, fact in declared(read(path)):
            own.add(name)
            to = CHOSEN.get(name) or (camel(name) if fact else snake(name))
            if name in new and new[name] != to:
                sys.exit(f"respell: {name} is a fact in one place and none in another ({path})")
            new[name] = to
    return {a: b for a, b in new.items() if a != b}, own


def foreign(text):
    """The names that a file brings in from elsewhere than this repository's crates."""
    out = set()
    for it in re.finditer(r"^(?:ghost )?use ([\w.'\-+]+)\.\{([^}]*)\};?$", text, re.M):
        if not re.match(OWN, it.group(1)):
            for word in it.group(2).split(","):
                out.add(word.split(" as ")[-1].strip())
                out.add(word.split(" as ")[0].strip())
    return out


def turned(path, text, new):
    kept = foreign(text)
    swap = lambda m: new[m.group(0)] if m.group(0) in new and m.group(0) not in kept else m.group(0)
    if path.endswith(".antt"):
        return TOKEN.sub(swap, text)
    out = []
    for line in text.split("\n"):
        ghost = re.match(r"\s*(ghost|requires|ensures)\b", line)
        out.append(TOKEN.sub(swap, line) if ghost else line)
    return "\n".join(out)


def main(argv):
    global OWN
    root = next((a for a in argv if not a.startswith("--")), os.path.join(os.path.dirname(os.path.realpath(__file__)), ".."))
    names = sorted(os.listdir(os.path.join(root, "crates")))
    OWN = r"Rattle\.(" + "|".join(names) + r")\."
    new, own = renamings(root)
    whole = {p: read(p) for p in texts(root, (".antt", ".rt"))}
    seen = set()
    for text in whole.values():
        seen.update(TOKEN.findall(text))
    back = {}
    for a, b in sorted(new.items()):
        back.setdefault(b, []).append(a)
    for b, names in sorted(back.items()):
        if len(names) > 1 or b in own:
            print(f"together: {' '.join(names)} -> {b}{' (is declared)' if b in own else ''}")
        elif b in seen:
            print(f"look: {names[0]} -> {b}, which stands somewhere already")
    for a, b in sorted(new.items()):
        print(f"{a} -> {b}")
    if "--list" in argv:
        return
    for path, text in whole.items():
        after = turned(path, text, new)
        if after != text:
            with open(path, "w", encoding="utf-8") as f:
                f.write(after)


if __name__ == "__main__":
    main(sys.argv[1:])
