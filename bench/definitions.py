"""The definitions in crates/*/specs as text: what each file declares and brings in, and what a clause rests on.

Of each definition its lines without comments, the comment above its signature, its file and its line. It reads text,
and proves nothing. bench/closure and bench/believe use it.
"""
import os
import re
import sys

from crate_list import HERE, files_below, listed

NAME = r"[^\W\d][\w'-]*"
PATH = re.compile(r"%s(?:\.%s)*|◌[^\s,{}]+◌" % (NAME, NAME))
MODIFIERS = {"pub", "abbrev", "unfoldable", "record", "data", "opaque", "lossless", "erased"}
PASSED = re.compile(r"(pub )?mod\b|infix|unfolding\b")
OF_THE_PROGRAM = {"contracts", "proofs", "ghosts", "impls"}
SAYS = "bench/%s: " % os.path.basename(sys.argv[0])
# A comment up to the end of its line, or a text, in which two dashes begin none.
COMMENT = re.compile(r'(?m)"(?:\\.|[^"\\\n])*"|(^|\s)--.*$')
CLAUSE = re.compile(r"(?s)\b(requires|ensures)\b\s*([^{]*?)\s*\{(.*?)\}\s*(?=requires\b|ensures\b|\Z)")
USE = re.compile(r"use\s+([\w.+]+?)(?:\.\{([^}]*)\})?(?:\s+as\s+(%s))?\s*;?\s*$" % NAME, re.S)


class Definition:
    def __init__(self, module, name, line, comment=""):
        self.module, self.name, self.line, self.lines, self.comment = module, name, line, [], comment

    def place(self):
        return "%s:%d" % (os.path.relpath(self.module.file, HERE), self.line)


class Module:
    """A file of definitions: what it declares, and under which names it brings in what."""
    def __init__(self, path, file):
        self.path, self.file, self.definitions, self.names, self.modules = path, file, {}, {}, {}
        with open(file) as text:
            self.read(text.read())

    def read(self, text):
        self.raw = text.splitlines()
        text = re.sub(r"\{-.*?-\}", lambda it: re.sub(r"[^\n]", " ", it[0]), text, flags=re.S)
        text = COMMENT.sub(lambda it: it[0] if it[0].startswith('"') else it[1], text)
        current, line = None, 0
        for chunk in re.split(r"(?m)^(?=[^\s}])", text):
            first = chunk.split()[:1]
            if first == ["use"] or chunk.startswith("pub use "):
                self.bring_in(chunk[4:] if chunk.startswith("pub ") else chunk)
            elif first and not PASSED.match(chunk):
                current = self.define(chunk, line + 1, current)
            line += chunk.count("\n")

    def define(self, chunk, line, current):
        """Takes a piece of a definition; one that declares no name belongs to the one before it."""
        words = chunk.split()
        while words[0] in MODIFIERS:
            words = words[1:]
        is_new = words[1:2] == [":"] or words[0] != chunk.split()[0]
        if is_new and words[0] not in self.definitions:
            self.definitions[words[0]] = Definition(self, words[0], line, self.comment_above(line))
        current = self.definitions.get(words[0], current)
        if current is None:
            sys.exit(SAYS + "%s:%d: this isn't understood" % (self.file, line))
        current.lines += [each for each in chunk.splitlines() if each.strip()]
        if "data" in chunk.split()[:2]:
            for constructor in re.findall(r"(?m)^\s+(?:pub )?(%s) :" % NAME, chunk):
                self.definitions.setdefault(constructor, current)
        return current

    def comment_above(self, line):
        """The comment right above this line, without its dashes."""
        found = []
        while line >= 2 and self.raw[line - 2].startswith("--"):
            line -= 1
            found.insert(0, self.raw[line - 1].lstrip("-").strip())
        return " ".join(found)

    def bring_in(self, text):
        for name, path, alias in brought_in(text, self.file):
            if name:
                self.names[alias or name] = path, name
            else:
                self.modules[alias or path.rpartition(".")[2]] = path


def brought_in(text, file):
    """Each (name, path, alias) of a use line; without a name it is a whole module."""
    found = USE.match(" ".join(text.split()))
    if not found:
        sys.exit(SAYS + "%s: this isn't understood: %s" % (file, text.strip()))
    path, names, alias = found.groups()
    if names is None:
        return [(None, path, alias)]
    pairs = [each.split(" as ") for each in names.split(",") if each.strip()]
    return [(pair[0].strip(), path, pair[1].strip() if len(pair) > 1 else None) for pair in pairs]


def all_modules():
    found = {}
    for crate in listed():
        top = os.path.join(HERE, "crates", crate, "specs")
        for file in files_below(top, ".antt"):
            path = ".".join(["Rattle", crate, "specs"] + os.path.relpath(file, top)[:-len(".antt")].split(os.sep))
            found[path] = Module(path, file)
    return found


class Closure:
    """What some text rests on: the definitions that it cites, and those that they cite."""
    def __init__(self, modules):
        self.modules, self.reached, self.bad = modules, {}, []

    def resolve(self, path, name):
        """What a name of a module stands for: a definition, or None where it isn't followed."""
        module = self.modules.get(path)
        if module is None:
            crate = path.split(".")[1:2]
            is_ours = crate and any(each.split(".")[1] == crate[0] for each in self.modules)
            if is_ours and not {"declared", *OF_THE_PROGRAM} & set(path.split(".")):
                sys.exit(SAYS + "there is no %s" % path)
            return None
        if name in module.definitions:
            return module.definitions[name]
        if name in module.names:
            return self.resolve(*module.names[name])
        sys.exit(SAYS + "%s has no %s" % (path, name))

    def cited(self, text, names, modules, own=(), bound=()):
        """What a text cites, each as (definition, path, name, word); without a definition where it isn't followed."""
        own = own or {}
        for word in PATH.findall(text):
            first, _, rest = word.partition(".")
            if first in bound:
                continue
            if first in own:
                yield own[first], None, first, word
            elif first in names:
                path, name = names[first]
                yield self.found(path, name), path, name, word
            elif first in modules:
                path, name = modules[first], rest.partition(".")[0]
                yield self.found(path, name), path, name, word
            if "ghosts" in word.split("."):
                yield None, word, "", word
        for operator in [*names, *own]:
            # an operator is written around its operands: `◌+◌` as `a + b`
            if operator.startswith("◌") and all(part in text for part in operator.split("◌")):
                path, name = names.get(operator, (None, operator))
                yield own.get(operator) or self.resolve(path, name), path, name, operator

    def found(self, path, name):
        return None if not name or OF_THE_PROGRAM & set(path.split(".")) else self.resolve(path, name)

    def cite(self, text, names, modules, own, by):
        """Takes what a text cites."""
        for found, path, _, _ in self.cited(text, names, modules, own):
            if found:
                self.reach(found, by)
            elif path and OF_THE_PROGRAM & set(path.split(".")):
                self.bad.append((by, path))

    def reach(self, definition, by):
        if definition not in self.reached:
            self.reached[definition] = by
            self.wanted.append(definition)

    def follow(self, text, names, modules):
        self.wanted = []
        self.cite(text, names, modules, {}, None)
        while self.wanted:
            found = self.wanted.pop(0)
            self.cite("\n".join(found.lines), found.module.names, found.module.modules, found.module.definitions, found)

    def way_to(self, definition):
        while definition is not None:
            yield definition.name
            definition = self.reached[definition]


class Function:
    """A public function of a crate: its file and line, its sentences, and its clauses as (kind, name, text)."""
    def __init__(self, file, line, sentences, head):
        self.file, self.line, self.sentences, self.head = file, line, sentences, head
        self.clauses = [(kind, name, text.strip()) for kind, name, text in CLAUSE.findall(re.sub(r"(?m)//.*$", "", head))]


def brought_in_by(file, text):
    """The names and the modules that a file of code brings in for its clauses."""
    names, modules = {}, {}
    for line in re.findall(r"(?m)^ *ghost (use [^;]*;)", text):
        for name, path, alias in brought_in(line, file):
            if name:
                names[alias or name] = path, name
            else:
                modules[alias or path.rpartition(".")[2]] = path
    return names, modules


def function_of(crate, function):
    """A public function of a crate, or of a type in it (`Type::name`), and what its file brings in for its clauses."""
    kind, _, name = function.rpartition("::")
    for file in files_below(os.path.join(HERE, "crates", crate, "src"), ".rt"):
        with open(file) as it:
            text = it.read()
        if kind and not re.search(r"(?m)^pub (struct|enum|trait) %s\b" % kind, text):
            continue
        head = re.search(r"(?m)^( *)pub fn %s\b.*?^\1\{" % re.escape(name), text, re.S)
        if head and bool(head[1]) == bool(kind):
            above = text[:head.start()].rstrip("\n").split("\n")
            while above and above[-1].strip().startswith("#["):
                above.pop()
            sentences = []
            while above and above[-1].strip().startswith("///"):
                sentences.insert(0, above.pop().strip().lstrip("/").strip())
            line = text.count("\n", 0, head.start()) + 1
            return Function(file, line, " ".join(sentences), head[0][:-1].rstrip()), *brought_in_by(file, text)
    sys.exit(SAYS + "%s has no public function %s" % (crate, function))


def clauses_of(crate, function):
    """The clauses of a public function as texts, and what its file brings in for them."""
    found, names, modules = function_of(crate, function)
    return [text for _, _, text in found.clauses], names, modules
