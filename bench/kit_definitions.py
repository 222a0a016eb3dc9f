"""How many definitions of the toolchain's libraries some names rest on, counted in the sources of the kit that `rt`
is of.

Nothing is copied from there but numbers. A name that has no source there (what is built into the checker, types of a
library's code) counts nothing. A form that isn't understood ends the reading of its file: what comes after it then
counts nothing either, so the numbers are at most those that there are.
"""
import os
import re
import shutil

from definitions import Closure, Module


# Where the modules lie that aren't a crate's.
FOLDERS = {"lib": ("logic", "Lib"), "mathlib": ("antt", "port", "mathlib", "src")}


def place_of_kit():
    """The folder of the kit whose `rt` is on the path, or None."""
    rt = shutil.which("rt")
    top = rt and os.path.dirname(os.path.dirname(os.path.realpath(rt)))
    return top if top and os.path.isdir(os.path.join(top, "rattle", "core", "specs")) else None


class KitModule(Module):
    """A file of the kit, where definitions may stand indented under `mutual` or a nameless module."""
    def read(self, text):
        lines, is_within = [], False
        for line in text.split("\n"):
            if re.match(r"mutual\b|module _", line):
                is_within, line = True, ""
            elif line[:1] not in ("", " "):
                is_within = False
            lines.append(line[2:] if is_within else line)
        super().read("\n".join(lines))


class Modules(dict):
    """The modules of the kit by their paths, each read where it is asked for."""
    def __init__(self, top):
        super().__init__()
        self.top = top

    def get(self, path, default=None):
        if path not in self:
            self[path] = self.read(path)
        return self[path] or default

    def read(self, path):
        first, *rest = path.split(".")
        if first == "Rattle" and len(rest) > 2:
            folder = os.path.join(self.top, "rattle", rest[0], *rest[1:])
        elif first in FOLDERS and rest:
            folder = os.path.join(self.top, "rattle", *FOLDERS[first], *rest)
        else:
            return None
        file = folder + ".antt"
        if not os.path.exists(file):
            return None
        module = KitModule.__new__(KitModule)
        try:
            module.__init__(path, file)
        except SystemExit:
            pass
        return module


class KitClosure(Closure):
    def resolve(self, path, name):
        module = self.modules.get(path)
        if module is None:
            return None
        if name in module.definitions:
            return module.definitions[name]
        return self.resolve(*module.names[name]) if name in module.names else None


def sizes(names):
    """Of (path, name) pairs: by library how many definitions and lines they rest on; None where there is no kit."""
    top = place_of_kit()
    if top is None:
        return None
    closure = KitClosure(Modules(top))
    closure.wanted = []
    for path, name in names:
        found = closure.resolve(path, name)
        if found:
            closure.reach(found, None)
    while closure.wanted:
        found = closure.wanted.pop(0)
        closure.cite("\n".join(found.lines), found.module.names, found.module.modules, found.module.definitions, found)
    by_library = {}
    for each in closure.reached:
        parts = each.module.path.split(".")
        library = parts[1] if parts[0] == "Rattle" else "logic"
        library = {"core": "std", "std_alloc": "std"}.get(library, library)
        count = by_library.setdefault(library, [0, 0])
        count[0] += 1
        count[1] += len(each.lines)
    return by_library
