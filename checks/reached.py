#!/usr/bin/env python3
"""Tells which definitions the contract of a public function reaches, in the order in which to read them.

    checks/reached.py [FUNCTION] [--lines]

FUNCTION is `command` if none is given. A file of specs/ comes after every file whose definitions cite it, so that each
name is met before it is explained; types of the code come last, by file. With --lines each definition is listed with the
lines where it stands.
"""
import os
import re
import sys

TOP = os.path.dirname(os.path.dirname(os.path.abspath(__file__)))
GIVEN_OUT = re.compile(r"^pub use (Rattle\.[\w.]+)$", re.M)
USE = re.compile(r"^(?:\s*ghost\s+)?(?:pub\s+)?use\s+(Rattle\.[\w.]+?)\.\{([^}]*)\}", re.M)
ITEM = re.compile(r"^(?:abbrev |unfoldable )?(?:pub )?(?:(?:(record|data) )([^\s:({]+)|([^\s:({]+)(?= :))")
SKIPPED = ("use ", "pub use ", "pub mod ", "mod ", "--", "ruleset ", "infix", "unfolding ")
WORDS = re.compile(r"[^\s(){}\[\],;.λ⟦⟧]+")


class Source:
    """A file with its imports and what it defines: by name, its first line, its last, and its text."""

    def __init__(self, path):
        self.path = path
        with open(f"{TOP}/{path}", encoding="utf-8") as it:
            self.text = it.read()
        self.names, self.items = {}, {}
        for where, names in USE.findall(self.text):
            for name in names.split(","):
                far, _, near = name.strip().partition(" as ")
                self.names[near.strip() or far] = where, far

    def read_items(self):
        """Reads the definitions: one begins at a line in the first column, and its equations follow it."""
        name, lines = None, self.text.split("\n")
        for number, line in enumerate(lines, 1):
            if line and not line[0].isspace() and not line.startswith(SKIPPED):
                found = ITEM.match(line)
                if found:
                    name = found[2] or found[3]
                    self.items[name] = [number, number, "", found[1]]
            elif line.startswith(SKIPPED):
                name = None
            if name and line.strip():
                item = self.items[name]
                item[1], item[2] = number, item[2] + line + "\n"
                built = re.match(r"  (?:pub )?([^\s:]+) :", line) if item[3] == "data" else None
                if built:
                    self.names[built[1]] = None, name
        return self


def module_of(path):
    """The module's name of a file of specs/, as a `use` line has it."""
    _, crate, *rest = path[: -len(".antt")].split("/")
    return f"Rattle.{crate}." + ".".join(rest)


def sources():
    found = {}
    for folder, _, names in os.walk(f"{TOP}/crates"):
        for name in names:
            path = os.path.relpath(f"{folder}/{name}", TOP)
            if name.endswith(".antt") and "/specs/" in path and "/out/" not in path:
                found[module_of(path)] = Source(path).read_items()
    return found


def contract_of(function):
    """The file that has the public function, and the text of its contract."""
    for folder, _, names in os.walk(f"{TOP}/crates"):
        for name in names:
            path = os.path.relpath(f"{folder}/{name}", TOP)
            if name.endswith(".rt") and "/src/" in path:
                source = Source(path)
                found = re.search(rf"^pub fn {function}\b.*?^\{{", source.text, re.M | re.S)
                if found and "ensures" in found[0]:
                    return source, re.sub(r"//.*", "", found[0]), source.text[: found.start()].count("\n") + 1
    sys.exit(f"checks/reached.py: no public function {function} with a contract")


class Reach:
    def __init__(self, files):
        self.files, self.seen, self.types, self.cites = files, {}, {}, {}

    def named(self, source, text):
        """The imported or own names of a source that a text has."""
        words = set(WORDS.findall(text))
        for name in [*source.names, *source.items]:
            parts = [it for it in name.split("◌") if it]
            is_there = all(it in words for it in parts) if "◌" in name else name in words
            if is_there or name == "◌>>=◌" and "do" in words:
                yield name

    def follow(self, source, text, here=None):
        text = re.sub(r"--.*", "", text)
        for name in list(self.named(source, text)):
            if name in source.items:
                self.reach(module_of(source.path), name, here)
            elif source.names[name][0] is None:
                self.reach(module_of(source.path), source.names[name][1], here)
            else:
                self.reach(*source.names[name], here)

    def reach(self, module, name, here):
        """Notes a definition, or the type of the code that it is, and what it reaches."""
        found = re.match(r"Rattle\.(\w+)\.specs\.declared\.(.+)$", module)
        if found:
            crate, words = found[1], [it for it in found[2].split(".") if it != "TheVariants"]
            self.types.setdefault((crate, "/".join(words[:-1]) + ".rt"), set()).add(words[-1])
            return
        source = self.files.get(module)
        if not source:
            # The crate may give out another crate's file.
            crate, _, last = module.rpartition(".")
            lib = self.files.get(f"{crate}.Lib")
            for far in GIVEN_OUT.findall(lib.text) if lib else ():
                if far.rpartition(".")[2] == last and far != module:
                    return self.reach(far, name, here)
            return
        if name not in source.items and name in source.names:
            far = source.names[name]
            return self.reach(*(far if far[0] else (module, far[1])), here)
        if here and here != module:
            self.cites.setdefault(here, set()).add(module)
        if name in source.items and (module, name) not in self.seen:
            self.seen[module, name] = source.items[name]
            self.follow(source, source.items[name][2], module)

    def order(self):
        """The modules, each after all that cite it."""
        done, begun = [], set()

        def visit(module):
            if module not in begun:
                begun.add(module)
                for it in sorted(self.cites.get(module, ())):
                    visit(it)
                done.append(module)

        for module, _ in self.seen:
            visit(module)
        return done[::-1]


def main():
    words = [it for it in sys.argv[1:] if it != "--lines"]
    source, contract, line = contract_of(words[0] if words else "command")
    reach = Reach(sources())
    reach.follow(source, contract)
    print(f"{source.path}:{line}: the contract, {contract.count(chr(10))} lines")
    count = total = 0
    for module in reach.order():
        items = {name: it for (where, name), it in reach.seen.items() if where == module}
        lines = sum(last - first + 1 for first, last, _, _ in items.values())
        count, total = count + len(items), total + lines
        names = sorted(items, key=lambda it: items[it][0])
        print(f"{reach.files[module].path}: {len(items)} definitions, {lines} lines")
        for name in names if "--lines" in sys.argv else ():
            print(f"    {items[name][0]}-{items[name][1]}  {name}")
    for (crate, file), names in sorted(reach.types.items()):
        print(f"crates/{crate}/src/{file}: the type {', '.join(sorted(names))}")
    print(f"{count} definitions in {len(reach.order())} files, {total} lines; {sum(map(len, reach.types.values()))} types")


if __name__ == "__main__":
    main()
