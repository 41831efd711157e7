#!/usr/bin/env python3
"""Respells the names of this repository's own definitions and lemmas, once, at the top of the repository.

A value or a lemma is written in snake case, a type in upper camel case; a dash stays only behind the name of a
type (`Toks-call`). Names of the kit, of functions in src/ and of C stay. With --show it only prints what it would do.
Names that fall together in one file are printed, and so are those that stand there already as another name.
"""
import collections
import glob
import re
import sys

SHOW = "--show" in sys.argv
OWN = sorted(path.split("/")[1] for path in glob.glob("crates/*/src"))
TOKEN = re.compile(r"[^\s(){}\[\],;.`\"]+")
SIGNATURE = re.compile(r"^\s*(?:(?:unfoldable|abbrev|pub|\(pub) )*([^\s:(){}\[\],;.λ]+(?: [^\s:(){}\[\],;.λ]+)*) : (.*)$")
TYPE = re.compile(r"^\s*(?:(?:pub|abbrev|unfoldable) )*(?:record|data) ([^\s(:]+)")
# a name that another has in the same place, or that says too little in the new spelling
SPECIAL = {
    "block-call": "at_block_call",
    "last-call": "at_last_call",
    "set-length": "length_of_set",
    "set-coding": "coding_of_set",
}
# what only the kit names
KEPT = {"returns", "statement"}


def antt_files():
    return sorted(glob.glob("crates/*/specs/**/*.antt", recursive=True) + glob.glob("crates/*/proofs/**/*.antt", recursive=True))


def rt_files():
    return sorted(glob.glob("crates/*/src/**/*.rt", recursive=True))


def in_function(path):
    return re.search(r"/(?:Proof|Answers|Invariants)\.antt$", path) is not None


def code_of(line):
    """The line without its comment."""
    return re.split(r"(?:^|\s)--(?:\s|$)", line)[0]


def words(part):
    """One part of a name in snake case."""
    part = re.sub(r"^getD$", "get_or", part)
    part = re.sub(r"getD", "get_or", part)
    return re.sub(r"([a-z0-9₀-₉])([A-Z])", lambda m: m.group(1) + "_" + m.group(2).lower(), part)


def spelled(name, is_type):
    if name in SPECIAL:
        return SPECIAL[name]
    parts = [part for part in name.split("-")]
    if not all(parts):
        return name
    if is_type:
        return "".join(part[0].upper() + part[1:] for part in parts) if len(parts) > 1 else name[0].upper() + name[1:]
    if parts[0][0].isupper() and len(parts) > 1:
        return parts[0] + "-" + "_".join(words(part) for part in parts[1:])
    if parts[0][0].isupper():
        return name
    return "_".join(words(part) for part in parts)


def declared(path):
    """The names that a file declares, each with whether it is a type."""
    names = {}
    for line in open(path):
        line = code_of(line.rstrip("\n"))
        found = TYPE.match(line)
        if found:
            names[found.group(1)] = True
            continue
        found = SIGNATURE.match(line)
        if found and not re.match(r"^\s*(use|let|open|module|ghost|pub use)\b", line):
            goal = in_function(path) and re.match(r"(tie|goal)\.|\{M : Type", found.group(2))
            for name in found.group(1).split():
                if goal or name in ("pub", "abbrev", "unfoldable"):
                    continue
                names[name] = re.search(r"(^|→ )Type(?: [0-9]+| \S+)?\s*$", found.group(2)) is not None
        for name in re.findall(r"\blet ([^\s:(){}=]+) [:=]", line):
            names.setdefault(name, False)
        for name in re.findall(r"\(([^\s:(){}λ]+(?: [^\s:(){}λ]+)*) : ", line):
            for each in name.split():
                if "-" in each:
                    names.setdefault(each, False)
    return names


def of_kit(path):
    """The names that a file takes from the kit, and the short names of the kit's modules."""
    names, aliases = set(), set()
    text = open(path).read()
    for module, taken in re.findall(r"\buse ([^\s;{]+?)\.\{([^}]*)\}", text):
        parts = module.split(".")
        if not (parts[0] == "Rattle" and parts[1] in OWN):
            for item in taken.split(","):
                names.update(item.split(" as ")[-1].split())
                names.update(item.split(" as ")[0].split())
    for module, alias in re.findall(r"\buse ([^\s;{]+) as (\S+?);?$", text, re.M):
        parts = module.split(".")
        if not (parts[0] == "Rattle" and parts[1] in OWN and parts[2:3] and parts[2] in ("specs", "proofs")):
            aliases.add(alias)
        if parts[-1] in ("Tie", "Lts", "Goals", "Given", "Statement"):
            aliases.add(alias)
    return names, aliases


def replaced(text, names, aliases, fields=None):
    """The text with names of the map respelled, but for those behind the short name of a kit's module."""

    def one(found):
        token = found.group(0)
        if token not in names:
            return token
        start = found.start()
        before = re.search(r"([^\s(){}\[\],;.`\"]+)\.$", text[:start])
        if before and before.group(1) in aliases:
            return token
        if fields is not None and text[:start].endswith(".") and not text[:start].endswith(".."):
            fields[token] += 1
        return names[token]

    return TOKEN.sub(one, text)


def in_comment(text, names):
    """A comment respelled: what stands in backticks, and words with a hump."""
    text = re.sub(r"`[^`]*`", lambda m: replaced(m.group(0), names, set()), text)
    humps = {name: new for name, new in names.items() if re.search(r"[a-z][A-Z]", name)}
    return replaced(text, humps, set())


def respelled_antt(text, names, aliases, fields=None):
    lines = []
    for line in text.split("\n"):
        code = code_of(line)
        lines.append(replaced(code, names, aliases, fields) + in_comment(line[len(code):], names))
    return "\n".join(lines)


def respelled_rt(text, names, aliases, ghost):
    lines = []
    for line in text.split("\n"):
        at = line.find("//")
        code, comment = (line, "") if at < 0 else (line[:at], line[at:])
        lines.append(replaced(code, ghost, aliases) + in_comment(comment, names))
    return "\n".join(lines)


def main():
    own, where = {}, collections.defaultdict(set)
    for path in antt_files():
        for name, is_type in declared(path).items():
            own[name] = own.get(name, False) or is_type
            where[name].add(path)
    names = {}
    for name, is_type in own.items():
        new = spelled(name, is_type)
        if new != name and name not in KEPT:
            names[name] = new
    # where a lemma would get the name of a definition, the lemma takes `_lem`
    taken = collections.defaultdict(set)
    for name in own:
        taken[names.get(name, name)].add(name)
    for new, olds in sorted(taken.items()):
        if len(olds) > 1:
            stated = {name for name in olds if any("/specs/" in path for path in where[name])}
            stated = stated or {name for name in olds if re.search(r"[a-z][A-Z]", name)}
            for name in olds - stated:
                names[name] = new + "_lem"
            if len(stated) != 1:
                print(f"defined twice: {new}: {' '.join(sorted(olds))}, in specs: {' '.join(sorted(stated))}")
    fields = collections.Counter()
    changed = 0
    for path in antt_files() + rt_files():
        text = open(path).read()
        kit, aliases = of_kit(path)
        here = {name: new for name, new in names.items() if name not in kit}
        if path.endswith(".rt"):
            imported = set()
            for _, items in re.findall(r"ghost use ([^\s;{]+?)\.\{([^}]*)\}", text):
                imported.update(item for item in re.split(r"[,\s]+", items) if item)
            ghost = {name: new for name, new in here.items() if name in imported or re.search(r"[a-z][A-Z]|^[a-z]\w*-", name)}
            new_text = respelled_rt(text, here, aliases, ghost)
        else:
            new_text = respelled_antt(text, here, aliases, fields)
        tokens = set(TOKEN.findall(text))
        used = [name for name in here if name in tokens]
        by_new = collections.defaultdict(set)
        for name in used:
            by_new[here[name]].add(name)
        for new, olds in sorted(by_new.items()):
            if len(olds) > 1 or (new in tokens and new not in here):
                print(f"together: {path}: {' '.join(sorted(olds))} -> {new}{' (stands there)' if new in tokens else ''}")
        if new_text != text:
            changed += 1
            if not SHOW:
                open(path, "w").write(new_text)
    for path in sorted(glob.glob("crates/*/must-fail/*.edit")):
        lines, target = [], ""
        for line in open(path).read().split("\n"):
            if line.startswith("file: "):
                target = line
            if line.startswith(("old: ", "new: ")):
                humps = {name: new for name, new in names.items() if re.search(r"[a-z][A-Z]", name)}
                line = line[:5] + replaced(line[5:], names if target.endswith(".antt") else humps, set())
            lines.append(line)
        if not SHOW:
            open(path, "w").write("\n".join(lines))
    if SHOW:
        print("fields:", dict(fields))
        for name, new in sorted(names.items()):
            print(f"{name} -> {new}")
    print(f"{len(names)} names, {changed} files")


main()
