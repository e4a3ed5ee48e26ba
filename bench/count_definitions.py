#!/usr/bin/env python3
"""Counts what has to be read behind the sentence: python3 bench/count_definitions.py [TOP]

Begins with the names in the clause `headline` of `run`, in what `run` requires of a drive's owner and in the contracts
of the traits Drive, Source, Sink and Clock, and goes from each definition to those that it names, to the end. Prints
the count of definitions with their lines (without comments, blank lines and imports) by crate, or by part of a crate, and
that of the types of the code that they name; and the same without some of these beginnings.
"""
import collections
import os
import re
import sys

NAME = r"[A-Za-z_][A-Za-z0-9_']*"
# Where the folder of a part's definitions isn't named as the part: no two names may differ by capitals alone.
FOLDERS = {"placement_policy": "placement"}
USE = re.compile(r"(?:ghost )?(pub )?use Rattle\.([\w.'-]+?)(?:\.\{([^}]*)\}| as (\w+))?;?$")


def statements(text):
    """The lines of a text without comments, with imports that go over lines put together."""
    for line in text.split("\n"):
        yield line.split(" -- ")[0].rstrip() if not line.lstrip().startswith("--") else ""


def imported(lines):
    """What each name and each alias of a file stands for: (module, name) and module."""
    names, modules, again = {}, {}, []
    for line in lines:
        m = USE.match(line.strip())
        if not m:
            continue
        again_too, path, listed, alias = m.groups()
        if alias:
            modules[alias] = path
        for item in (listed or "").split(","):
            word = item.strip()
            if not word:
                continue
            old, _, new = word.partition(" as ")
            names[(new or old).strip()] = (path, old.strip())
            if again_too:
                again.append((new or old).strip())
    return names, modules, again


class Specs:
    """All definitions of all crates, and what each names."""

    def __init__(self, top):
        self.lines, self.words, self.owner, self.names, self.modules = {}, {}, {}, {}, {}
        for crate in sorted(os.listdir(os.path.join(top, "crates"))):
            folder = os.path.join(top, "crates", crate, "specs")
            for base, _, files in os.walk(folder):
                for file in files:
                    if file.endswith(".antt") and file != "Lib.antt":
                        path = os.path.relpath(os.path.join(base, file), folder)[:-5].replace("/", ".")
                        self.read(f"{crate}.specs.{path}", os.path.join(base, file))

    def read(self, module, path):
        lines = list(statements(open(path, encoding="utf-8").read()))
        self.names[module], self.modules[module], again = imported(lines)
        for name in again:
            self.owner[(module, name)] = self.names[module][name]
        current, data = None, False
        inside = None
        for line in lines:
            if not line.strip() or USE.match(line.strip()):
                continue
            start = re.match(r"^\s*(?:module _|(?:abbrev |unfoldable )?mutual\b)", line)
            if line.lstrip().startswith("open "):
                continue
            head = re.match(rf"^(\s*)(abbrev |unfoldable )?(pub )?(record |data )?({NAME})\b(.*)$", line)
            depth = len(line) - len(line.lstrip())
            if start:
                inside = depth + 2
                current = None
                self.module_words = re.findall(rf"{NAME}(?:\.{NAME})?", line)
                continue
            if inside is not None and depth < inside:
                inside = None
                self.module_words = []
            level = 0 if inside is None else inside
            if head and depth == level and (head[2] or head[4] or (" : " in line and head[5] not in ("where",))):
                current = (module, head[5])
                data = (head[4] or "").strip() == "data"
                self.lines.setdefault(current, 0)
                self.words.setdefault(current, set())
                self.owner[current] = current
                if inside is not None:
                    self.words[current].update(self.module_words)
            if current is None:
                continue
            self.lines[current] += 1
            self.words[current].update(re.findall(rf"{NAME}(?:\.{NAME})?", line))
            if data and depth == level + 2:
                member = re.match(rf"\s*({NAME}) :", line)
                if member:
                    self.owner[(module, member[1])] = current

    def resolve(self, module, word):
        first, _, rest = word.partition(".")
        if rest and first in self.modules.get(module, {}):
            return self.target(self.modules[module][first], rest)
        if (module, first) in self.owner:
            return self.target(module, first)
        if first in self.names.get(module, {}):
            return self.target(*self.names[module][first])
        return None

    def target(self, module, name):
        if ".specs.declared." in module:
            return ("type", module.replace(".TheVariants", ""))
        if ".specs.contracts." in module:
            return None
        seen = set()
        key = (module, name)
        while key in self.owner and self.owner[key] != key and key not in seen:
            seen.add(key)
            key = self.owner[key]
        return key if key in self.lines else None


def roots(specs, path, clauses):
    """What the clauses of a file of code name."""
    text = open(path, encoding="utf-8").read()
    names, modules, _ = imported(text.split("\n"))
    module = f"file {path}"
    specs.names[module], specs.modules[module] = names, modules
    words = set()
    for clause in clauses(text):
        words.update(re.findall(rf"{NAME}(?:\.{NAME})?", clause))
    return {specs.resolve(module, word) for word in words} - {None}


def clause(text, name):
    """The text of a clause of `run`, by its kind and name."""
    at = text.index(name, text.index("pub fn run"))
    depth = 0
    for end in range(at, len(text)):
        depth += {"{": 1, "}": -1}.get(text[end], 0)
        if depth == 0 and text[end] == "}":
            return text[at:end]


def closure(specs, todo):
    """All definitions and all types of the code that these name, to the end."""
    found, types = set(), set()
    todo = set(todo)
    while todo:
        key = todo.pop()
        if key[0] == "type":
            types.add(key[1])
        elif key not in found:
            found.add(key)
            todo |= {specs.resolve(key[0], word) for word in specs.words[key]} - {None} - found
    return found, types


def sums(specs, found):
    return f"{len(found)} definitions of {sum(specs.lines[key] for key in found):,} lines"


def unit(module):
    """The part of a crate to which a module of definitions belongs, or the crate where it is of no part."""
    crate, _, *path = module.split(".")
    name = re.sub(r"(?<!^)(?=[A-Z])", "_", path[0]).lower() if len(path) > 1 else crate
    return FOLDERS.get(name, name)


def count(top):
    """The definitions of all, and the found keys of each count by the name of what is left out or counted beside."""
    specs = Specs(top)
    source = lambda *parts: os.path.join(top, "crates", *parts)
    run = source("ltfs_server", "src", "server.rt")
    sentence = roots(specs, run, lambda text: [clause(text, "ensures headline")])
    owner = roots(specs, run, lambda text: [clause(text, f"requires {name}") for name in ("honest", "formats", "serves", "makes")])
    traits = set()
    for path in (source("tape_drive", "src", "drive.rt"), source("tape_edge", "src", "traits.rt")):
        traits |= roots(specs, path, lambda text: [text])
    law = {(f"ltfs_server.specs.{module}", name) for module, name in (("Sentence", "SurvivesInMemory"),)}
    found, types = closure(specs, sentence | owner | traits)
    return specs, types, {
        "all": found,
        "without the contracts of the traits": closure(specs, sentence | owner)[0],
        "without what `run` requires": closure(specs, sentence | traits)[0],
        "more for the law over the drive in memory": closure(specs, law)[0] - found,
    }


def units(found):
    """The found keys by crates and parts."""
    parts = collections.defaultdict(set)
    for key in found:
        parts[unit(key[0])].add(key)
    return parts


def main():
    specs, types, counted = count(sys.argv[1] if len(sys.argv) > 1 else ".")
    parts = units(counted["all"])
    for part in sorted(parts):
        print(f"{part:20} {sums(specs, parts[part])}")
    for name, found in counted.items():
        print(f"{name}: {sums(specs, found)}" + (f", {len(types)} types of the code" if name == "all" else ""))


if __name__ == "__main__":
    main()
