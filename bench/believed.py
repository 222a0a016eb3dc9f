"""What the clauses of `run` rest on, as text: definitions and declared types, by subject, with what each cites and
the laws above them. bench/believe makes its page of it.
"""
import os
import re
import sys

from believe_tables import EQUATES, SUBJECTS, TELLS
from crate_list import HERE, files_below
from definitions import NAME, OF_THE_PROGRAM, Closure, Definition, all_modules, function_of

# A type that definitions see as another value: `impl Model for NAME` with its `ghost Value`.
MODEL = re.compile(r"(?s)\nimpl(?:<[^{]*?>)? Model for (\w+)[^{]*\{.*?ghost Value = \{ (.*?) \};")
FUNCTION = re.compile(r"(?m)^\s*(?:pub(?:\(crate\))? )?fn (\w+)")


class Type:
    """A type that the code declares: its file and line, its text without attributes, and its sentences."""
    def __init__(self, crate, path, name):
        self.crate, self.name, self.key = crate, name, ".".join([crate, *path, name])
        self.file = os.path.join(HERE, "crates", crate, "src", *(path or ["lib"])) + ".rt"
        with open(self.file) as file:
            text = file.read()
        head = re.search(r"(?m)^(?:pub(?:\(crate\))? )?(?:struct|enum) %s\b" % name, text)
        if not head:
            sys.exit("bench/believe: %s has no type %s" % (self.file, name))
        self.line = text.count("\n", 0, head.start()) + 1
        end = re.compile(r"(?m)^\}|;$").search(text, head.start())
        lines = [line.rstrip() for line in text[head.start():end.end()].splitlines()]
        self.lines = [line for line in lines if line and not line.strip().startswith("#[")]
        above = text[:head.start()].splitlines()
        while above and above[-1].startswith("#["):
            above.pop()
        sentences = []
        while above and re.match(r"///? ", above[-1]):
            sentences.insert(0, above.pop().lstrip("/").strip())
        self.comment = " ".join(sentences)
        self.brought = set(re.findall(r"(?m)^use [\w:]+::(\w+);", text))
        for names in re.findall(r"(?m)^use [\w:]+::\{([^}]*)\}", text):
            self.brought.update(re.findall(r"\w+", names))

    def place(self):
        return "%s:%d" % (os.path.relpath(self.file, HERE), self.line)

    def parts(self, types):
        """Those of these types that its fields have."""
        words = set(re.findall(r"\b[A-Z]\w+", "\n".join(line.partition("//")[0] for line in self.lines)))
        return [other for other in types if other is not self and other.name in words
                and (other.crate == self.crate or other.name in self.brought)]

    def fields(self):
        """The names of types behind a colon, or in the parentheses of a variant."""
        return re.findall(r"\b[A-Z]\w+", " ".join(re.findall(r"(?m)^ +[^/\n]*?[:(](.*)$", "\n".join(self.lines[1:]))))


def key_of(found):
    """The name with its crate and its file before it."""
    if isinstance(found, Type):
        return found.key
    parts = found.module.path.split(".")
    return ".".join([parts[1], *parts[3:], found.name])


def bound_in(lines):
    """Names that a definition binds itself: parameters, patterns, and what `λ`, `let` and `do` name."""
    found, text = set(), "\n".join(lines)
    for names in re.findall(r"[({]((?:%s )+):" % NAME, text) + re.findall(r"λ ((?:%s ?|_ ?)+)\." % NAME, text):
        found.update(names.split())
    found.update(re.findall(r"\blet (%s)" % NAME, text))
    found.update(re.findall(r"(?m)^\s+(%s) ←" % NAME, text))
    found.update(re.findall(r"(?m)^\s+(?:pub )?(%s) :" % NAME, text))
    for line in lines:
        left = re.match(r"(\S+ [^=]*?) = ", line + " ")
        if left and ":" not in left[1]:
            found.update(word for word in re.findall(NAME, left[1])[1:] if not word[0].isupper())
    return found


def case_of(lines, word):
    """Of a definition by cases the lines of the one with this word: its first line and those set in below it."""
    found, is_in = [], False
    for line in lines:
        if not line[0].isspace():
            is_in = bool(re.search(r"\b%s\b" % word, line))
        if is_in:
            found.append(line)
    return found


def is_plain_record(each):
    """A record of values alone, without arguments: it says nothing, and what cites it needs its fields."""
    is_record = re.match(r"pub record %s : Type 0 where" % NAME, each.lines[0])
    return bool(is_record) and "≡" not in "\n".join(each.lines)


def computes(each):
    """Whether it is a function to something else than a proposition."""
    first = each.lines[0].rstrip()
    return not re.search(r"\b(record|data)\b", first.split(":")[0]) and not re.search(r"Type [01]$", first)


class Believed:
    def __init__(self):
        self.function, names, modules = function_of("sigaudit", "run")
        self.closure = Closure(all_modules())
        self.closure.follow("\n".join(text for _, _, text in self.function.clauses), names, modules)
        self.definitions = list(self.closure.reached)
        self.by_key = {key_of(each): each for each in self.definitions}
        self.types, self.kit = {}, set()
        self.cites = {each: self.cited_by(each) for each in self.definitions}
        for each in self.types.values():
            self.cites[each] = each.parts(self.types.values())
        ours = {each.module.path.split(".")[1] for each in self.definitions}
        self.kit = {(path, name) for path, name in self.kit if path.split(".")[1] not in ours}
        self.subjects, self.homeless = self.by_subject()
        self.models = values_of_types()
        self.functions = {crate: functions_of(crate) for crate in ours}

    def cited_by(self, each, lines=None):
        """The definitions and declared types that it cites, or that these lines of it do, in order, without those that
        a bound variable hides."""
        found, module = [], each.module
        bound = bound_in(each.lines) - set(module.definitions)
        text = "\n".join(each.lines if lines is None else lines)
        for cited, path, name, _ in self.closure.cited(text, module.names, module.modules, module.definitions, bound):
            if cited is None and path and not OF_THE_PROGRAM & set(path.split(".")):
                cited = self.declared(path, name)
            if cited and cited is not each and cited not in found:
                found.append(cited)
        return found

    def under_cases(self, roots, cases):
        """All definitions that these lead to. Of those that `cases` names by key, the case with its word alone counts:
        these are functions by what the words ask for."""
        reached, wanted = set(), [self.by_key[key] for key in roots]
        while wanted:
            each = wanted.pop()
            if each in reached:
                continue
            reached.add(each)
            word = cases.get(key_of(each))
            lines = None if word is None else case_of(each.lines, word)
            wanted += [other for other in self.cited_by(each, lines) if isinstance(other, Definition)]
        return reached

    def declared(self, path, name):
        """The type of this path, or that of this variant; else the name is one of a library."""
        parts = path.split(".")
        is_ours = any(each.startswith("Rattle.%s." % parts[1]) for each in self.closure.modules)
        if "declared" not in parts or not is_ours:
            self.kit.add((path, name))
            return None
        where = parts[parts.index("declared") + 1:]
        if where[-1:] == ["TheVariants"]:
            where, name = where[:-2], where[-2]
        elif where and where[-1] == name:
            where = where[:-1]
        if "TheConstants" in where or not name:
            return None
        key = ".".join([parts[1], *where, name])
        if key not in self.types:
            self.types[key] = Type(parts[1], where, name)
        return self.types[key]

    def by_subject(self):
        """The definitions of each subject in order, and the files that have no subject."""
        place = {}
        for number, (_, files) in enumerate(SUBJECTS):
            for order, file in enumerate(files.split()):
                place[file] = number, order
        subjects, homeless = [[] for _ in SUBJECTS], set()
        for each in self.definitions:
            crate, file = key_of(each).split(".")[:2]
            where = place.get(crate + "." + file) or place.get(crate)
            if where is None:
                homeless.add(os.path.relpath(each.module.file, HERE))
            else:
                subjects[where[0]].append((where[1], each.module.file, each.line, each))
        in_files = [[each for *_, each in sorted(subject, key=lambda it: it[:3])] for subject in subjects]
        return [self.in_order(subject) for subject in in_files], homeless

    def in_order(self, definitions):
        """What is cited before what cites it, else as they stand."""
        wanted, done, out = {each: place for place, each in enumerate(definitions)}, set(), []

        def visit(each):
            if each in done:
                return
            done.add(each)
            for other in sorted(set(self.cites[each]) & set(wanted), key=wanted.get):
                visit(other)
            out.append(each)
        for each in definitions:
            visit(each)
        return out

    def with_types(self):
        """The subjects as the page shows them: each type, and each plain record, before what first cites it."""
        shown, out = set(), []

        def show(each, part):
            if each in shown:
                return
            shown.add(each)
            for other in self.cites[each]:
                if isinstance(other, Type) or is_plain_record(other):
                    show(other, part)
            part.append(each)
        for subject in self.subjects:
            out.append([])
            for each in subject:
                show(each, out[-1])
        return out

    def chain(self):
        """The longest way down from a clause, each definition once."""
        best = {}

        def way(each, above):
            if each not in best:
                below = [way(other, above | {each}) for other in self.cites[each]
                         if isinstance(other, Definition) and other not in above]
                best[each] = [each] + max(below, key=len, default=[])
            return best[each]
        sys.setrecursionlimit(10000)
        return max((way(each, frozenset()) for each in self.definitions), key=len)

    def is_again(self, each):
        """Whether it computes, and the code of its crate has a function of its name."""
        return computes(each) and each.name in self.functions[key_of(each).split(".")[0]]

    def under(self, laws):
        """Of each definition that a law says in other words, or that leads to such ones alone: these.

        What the law's other words rest on themselves isn't counted: it has to be believed either way.
        """
        laws = [law for law in laws if law.equates and law.key in self.by_key]
        equated = {self.by_key[law.key] for law in laws}
        needed, wanted = set(), [each for law in laws for each in law.sides(self, law.named)[0] if each not in equated]
        while wanted:
            each = wanted.pop()
            if each not in needed:
                needed.add(each)
                wanted += [other for other in self.cites[each] if other not in equated]
        citers = {each: [] for each in self.definitions}
        for each in self.definitions:
            for other in self.cites[each]:
                if isinstance(other, Definition):
                    citers[other].append(each)
        under, is_new = {each: {each} for each in equated}, True
        while is_new:
            is_new = False
            for each in self.definitions:
                is_only_on_the_way = citers[each] and all(other in under for other in citers[each])
                if each not in under and each not in needed and is_only_on_the_way and computes(each):
                    under[each] = set().union(*(under[other] for other in citers[each]))
                    is_new = True
        return under


def values_of_types():
    """Types that definitions see as another value: by name, as what; only where all types of that name agree."""
    found = {}
    for file in files_below(os.path.join(HERE, "crates"), ".rt"):
        with open(file) as it:
            for name, value in MODEL.findall(it.read()):
                found.setdefault(name, set()).add(value)
    return {name: min(values) for name, values in found.items() if len(values) == 1}


def functions_of(crate):
    """The names of all functions of a crate."""
    found = set()
    for file in files_below(os.path.join(HERE, "crates", crate, "src"), ".rt"):
        with open(file) as it:
            found.update(FUNCTION.findall(it.read()))
    return found


class Law:
    """A law above a definition: a public function, and of its clauses those that are meant."""
    def __init__(self, key, crate, name, named, equates):
        self.key, self.crate, self.name, self.named, self.equates = key, crate, name, named, equates
        self.function, self.names, self.modules = function_of(crate, name)
        self.texts = {name or "-": text for kind, name, text in self.function.clauses if kind == "ensures"}

    def anchor(self):
        return "law-" + re.sub(r"\W+", "-", "%s %s" % (self.crate, self.name))

    def sides(self, believed, named):
        """What these clauses cite of the closure, and the law's own definitions on the way, in order."""
        cited, own = [], []
        wanted = [("\n".join(self.texts[each] for each in named if each in self.texts), self.names, self.modules, {})]
        while wanted:
            for found, _, _, _ in believed.closure.cited(*wanted.pop(0)):
                if found is None or found in cited or found in own:
                    continue
                if found in believed.cites:
                    cited.append(found)
                else:
                    own.append(found)
                    module = found.module
                    wanted.append(("\n".join(found.lines), module.names, module.modules, module.definitions))
        return cited, own

    def wrong(self, believed):
        """What is wrong with it, or None."""
        found = believed.by_key.get(self.key)
        missing = [each for each in self.named if each not in self.texts]
        if found is None:
            return "%s isn't under the headline" % self.key
        if missing:
            return "%s of %s has no clause %s" % (self.name, self.crate, ", ".join(missing))
        if found not in self.sides(believed, self.named)[0]:
            return "%s of %s doesn't cite %s in %s" % (self.name, self.crate, self.key, ", ".join(self.named))
        return None


def laws_of():
    return [Law(key, crate, name, named, table is EQUATES) for table in (EQUATES, TELLS)
            for key, crate, name, *named in map(str.split, filter(str.strip, table.splitlines()))]
