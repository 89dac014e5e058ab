#!/usr/bin/env python3
"""Brings the names of definitions and lemmas to one spelling: snake case for functions, constructors, fields and lemmas, upper camel case for types,
a dash only between two names, as in `length-drop`; a plain word hangs on by `_`.

usage: tools/respell.py [ROOT]      respells crates/ (specs, proofs, clauses and must-fail edits) and what README.md and docs/ say in backquotes

Functions, fields and variants of src/ keep their names, and so do strings. A name whose new spelling another name has already is left, and told.
Run once, on files in the spelling that port.py leaves.
"""
import collections
import os
import re
import sys

ROOT = os.path.abspath(sys.argv[1] if len(sys.argv) > 1 else os.path.join(os.path.dirname(__file__), ".."))
NAME = re.compile(r"[^\s(){}\[\].,;\"@⌜⌝`]+")
DECLARED = re.compile(r"(\s*)((?:pub |abbrev |unfoldable )*)(?:(data|record) (?:pub )?)?([^\s(){}\[\].,;:\"@⌜⌝`]+)\s*(:(?=\s)|(?=[({ ].*:\s*Type\b))")
FACT = re.compile(r"[≡≢≤<⊥⊎↔]|×")
STD = set("length drop take map append reverse sum zero suc set replicate get_or eqb ltb leb cond min max fold all any true false refl".split())


def files(root, *ends):
    for folder, dirs, names in os.walk(os.path.join(root, "crates")):
        dirs[:] = sorted(d for d in dirs if d not in ("out", ".git"))
        for name in sorted(names):
            if name.endswith(ends):
                yield os.path.join(folder, name)


def shared(path):
    """Whether a file declares names that other files cite: specs/*.antt and proofs/*.antt, but no proof of a function."""
    return path.endswith(".antt") and os.path.basename(os.path.dirname(path)) in ("specs", "proofs")


def read(path):
    with open(path, encoding="utf-8") as file:
        return file.read()


def declarations(text):
    """Each declared name with what it is: type, part (a constructor or a field), definition or lemma."""
    block = None
    lines = text.split("\n")
    for i, line in enumerate(lines):
        if not line.strip() or line.lstrip().startswith("--"):
            continue
        indent = len(line) - len(line.lstrip())
        if block is not None and indent <= block:
            block = None
        found = DECLARED.match(line)
        if not found or found[4] in ("use", "module", "open", "where", "unfolding", "mod"):
            continue
        name = found[4]
        if found[3]:
            block = indent
            yield name, "type"
        elif block is not None:
            yield name, "part"
        else:
            said = line[found.end():]
            j = i + 1
            while j < len(lines) and len(lines[j]) - len(lines[j].lstrip()) > indent and lines[j].strip() and not re.match(r"\s*(unfolding|--)", lines[j]):
                said += " " + lines[j]
                j += 1
            if re.search(r"Type \d+\s*$|Type\s*$", said):
                yield name, "type"
            elif "abbrev" in found[2] or "unfoldable" in found[2]:
                yield name, "definition"
            elif re.search(FACT, said.rsplit("→", 1)[-1]):
                yield name, "lemma"
            else:
                yield name, "other"


def snake(word):
    return re.sub(r"(?<=[a-z0-9])([A-Z])", lambda m: "_" + m[1].lower(), word)


def camel(name):
    return "".join(part[:1].upper() + part[1:] for part in name.split("-"))


kinds = collections.defaultdict(set)
opened, tokens, beside = set(), collections.Counter(), collections.defaultdict(set)
OURS = {name for name in os.listdir(os.path.join(ROOT, "crates"))}
library = set()
for path in files(ROOT, ".antt", ".rt"):
    text = read(path)
    for line in text.split("\n"):
        if line.lstrip().startswith(("--", "//")):
            continue
        brought = re.match(r"\s*(?:ghost )?(?:pub )?use ([^{]*)\{(.*)\}", line)
        if brought and not re.match(r"Rattle\.(" + "|".join(OURS) + r")\.", brought[1]):
            library.update(NAME.findall(brought[2]))
        if shared(path) or re.match(r"\s*(ghost|requires|ensures)\b", line):
            found = NAME.findall(re.sub(r"^(ghost )?use [^{]*|^\s*(requires|ensures)\b[^{]*", "", line))
            tokens.update(found)
            for name in found:
                beside[name].add(path)
        if line.lstrip().startswith("unfolding "):
            opened.update(line.split()[1:])
    if shared(path):
        for name, kind in declarations(text):
            kinds[name].add(kind)

known = STD | {snake(name) if name[:1].islower() else name for name, of in kinds.items() if "-" not in name and of != {"lemma"}}
turned = {"Goes-p": "GoesPred"}
for name, of in kinds.items():
    if not re.match(r"[A-Za-z]", name) or name in turned or name in library:
        continue
    if name[0].isupper():
        if of == {"type"} and "-" in name:
            turned[name] = camel(name)
        continue
    parts = [snake(part) if part[:1].islower() else part for part in name.split("-")]
    defined = name in opened or of & {"type", "part", "definition"}
    new = parts[0]
    for before, part in zip(parts, parts[1:]):
        named = before in known and part in known or part[:1].isupper()
        new += ("-" if named and not defined else "_") + part
    if new != name:
        turned[name] = new

# names that would fall together: the definition has the plain one, and the lemma about it ends in _lem
taken = (set(tokens) | set(kinds)) - set(turned)
by_new = collections.defaultdict(list)
for name, new in turned.items():
    by_new[new].append(name)
left = []
for new, names in sorted(by_new.items()):
    if new not in taken and len(names) == 1:
        continue
    names.sort(key=lambda name: ("-" in name, name))
    # (one name may stand for two things in files that have nothing of one another)
    if new not in taken or "-" not in names[0] and not beside[names[0]] & beside[new]:
        names = names[1:]
    elif "-" not in names[0]:
        turned[new] = new + "_lem"
        print(f"{new}: {new}_lem, since {names[0]} is {new} now")
        names = names[1:]
    for i, name in enumerate(names):
        if i == 0 and new + "_lem" not in taken and new + "_lem" not in by_new:
            turned[name] = new + "_lem"
            print(f"{name}: {new}_lem, since {new} is another name")
        else:
            del turned[name]
            left.append(name)
            print(f"left: {name}: {new} is another name")


def respell(line, fields):
    """A line with its names respelled; after a dot only where `fields` says so, or behind a module."""
    def one(found):
        name = found[0]
        start = found.start()
        if start and line[start - 1] == "." and not fields:
            before = re.search(r"([^\s(){}\[\],;\"@⌜⌝`]*)\.$", line[:start])
            if not (before and before[1] and before[1].split(".")[-1][:1].isupper()):
                return name
        return turned.get(name, name)
    return NAME.sub(one, line)


def quoted(text):
    """A comment or a page: names in backquotes alone."""
    return re.sub(r"`[^`\n]*`", lambda m: NAME.sub(lambda n: turned.get(n[0], n[0]), m[0]), text)


def turn(path, text):
    out = []
    for line in text.split("\n"):
        bare = line.lstrip()
        if path.endswith(".edit"):
            out.append(respell(line, True) if bare.startswith(("old:", "new:")) and re.search(r"^file: (specs|proofs)/", text, re.M) else quoted(line))
        elif bare.startswith(("--", "//")):
            out.append(quoted(line))
        elif path.endswith(".antt"):
            code, mark, said = line.partition(" -- ")
            out.append(respell(code, shared(path)) + mark + quoted(said))
        elif re.match(r"\s*(ghost use|requires|ensures|#\[tactic)\b", line) or re.match(r"\s*ghost ", line):
            out.append(respell(line, True))
        else:
            out.append(line)
    return "\n".join(out)


changed = 0
for path in files(ROOT, ".antt", ".rt", ".edit"):
    text = read(path)
    new = turn(path, text)
    if new != text:
        changed += 1
        with open(path, "w", encoding="utf-8") as file:
            file.write(new)
for folder in (ROOT, os.path.join(ROOT, "docs")):
    for name in sorted(os.listdir(folder)):
        if name.endswith(".md"):
            path = os.path.join(folder, name)
            text = read(path)
            new = quoted(text)
            if new != text:
                changed += 1
                with open(path, "w", encoding="utf-8") as file:
                    file.write(new)
if os.environ.get("RESPELL_LIST"):
    with open(os.environ["RESPELL_LIST"], "w", encoding="utf-8") as file:
        for name, new in sorted(turned.items()):
            file.write(f"{name}\t{new}\n")
print(f"respelled: {len(turned)} names, {changed} files; left: {len(left)}")
