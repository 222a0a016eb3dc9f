"""Looks up the clauses that a document names in brackets: [`clause`, `clause` of `call`; `law`].

A name is a clause of the call behind the next `of`. One without is a clause of `run`, or a public function (a law,
all of whose clauses are meant), or a definition on which the clauses of `run` rest. A call, unless it takes nothing
and is a law, has to be one that `run` or `main` reaches: by the names that stand before `(` in the bodies of
functions. A function of a type, as `Draft::apply`, is reached where its name is and some function that is reached, of
another type or of none, names the type; so `Session::apply` isn't reached by way of `Draft::apply`. It reads text, and
proves nothing. bench/quotes uses it.
"""
import os
import re

from crate_list import HERE, files_below, listed
from definitions import Closure, Function, all_modules, function_of

GROUP = re.compile(r"\[([^\[\]]*`[^\[\]]*)\](?!\()")
HEAD = re.compile(r"(?m)^( *)(?:pub(?:\(crate\))? )?fn (\w+)")


class Sources:
    """The functions of all crates but those of examples: public ones by name, and which names each one has in it."""
    def __init__(self):
        self.public, self.functions = {}, []
        for crate in listed():
            if crate.startswith("example_"):
                continue
            for file in files_below(os.path.join(HERE, "crates", crate, "src"), ".rt"):
                with open(file) as it:
                    self.read(file, re.sub(r"(?m)//.*$", "", it.read()))
        closure = Closure(all_modules())
        run, names, modules = function_of("sigaudit", "run")
        closure.follow("\n".join(text for _, _, text in run.clauses), names, modules)
        self.of_run = {name for kind, name, _ in run.clauses if kind == "ensures"}
        self.definitions = {each.name for each in closure.reached}
        self.reached = self.reach()

    def reach(self):
        """The functions that are reached from `run` and `main`: each as its type, or "", and its name."""
        reached, called, named = set(), {"run", "main"}, {""}
        while True:
            more = [each for each in self.functions if each[:2] not in reached and each[1] in called
                    and each[0] in named]
            if not more:
                return reached
            for owner, name, calls, words in more:
                reached.add((owner, name))
                called |= calls
                named |= words - {owner}

    def read(self, file, text):
        owner, heads = None, list(HEAD.finditer(text))
        for number, head in enumerate(heads):
            before = text[:head.start()]
            impl = re.findall(r"(?m)^(?:impl(?:<[^\n]*?>)? (?:\w+(?:<[^\n]*?>)? for )?(\w+)|\})", before)
            owner = (impl[-1] if impl else "") if head[1] else ""
            rest = text[head.start():heads[number + 1].start() if number + 1 < len(heads) else len(text)]
            cut = re.search(r"(?m)^%s\{" % head[1], rest)
            if not cut:
                continue
            body = rest[cut.start():]
            calls = set(re.findall(r"\b(\w+)(?:::<[^>]*>)?\(", body))
            # a call by `for`, `?` or an operator of a trait isn't seen; a value of a function is
            calls.update(re.findall(r"\b(?:map|for_each|and_then|all|any)\((?:\w+::)*(\w+)\)", body))
            self.functions.append((owner, head[2], calls, set(re.findall(r"\b[A-Z]\w*", rest))))
            if rest.lstrip().startswith("pub fn"):
                found = Function(file, text.count("\n", 0, head.start()) + 1, "", rest[:cut.start()])
                self.public.setdefault((owner + "::" if owner else "") + head[2], []).append(found)

    def clauses(self, call):
        return [{name for kind, name, _ in each.clauses if kind == "ensures"} for each in self.public.get(call, [])]

    def unreached(self, call):
        """What is wrong with a call that takes something and that `run` doesn't reach."""
        is_law = all(re.search(r"fn \w+(?:<[^()]*>)?\(\s*\)", each.head) for each in self.public[call])
        owner, _, name = call.rpartition("::")
        return [] if is_law or (owner, name) in self.reached else ["run doesn't reach %s" % call]


def wrong_claims(text, sources):
    """How many groups of names there are, and what is wrong with them."""
    groups, wrong = GROUP.findall(text), []
    for group in groups:
        wrong += ["[%s]: %s" % (group, each) for part in group.split(";") for each in wrong_names(part, sources)]
    return len(groups), wrong


def wrong_names(part, sources):
    """What is wrong with names between commas: those before an `of` are clauses of the call behind it."""
    waiting, wrong = [], []
    for item in part.split(","):
        names = re.findall(r"`([^`]*)`", item)
        waiting += names[:1]
        if " of `" in item:
            wrong += wrong_call(names[-1], waiting, sources)
            waiting = []
    return wrong + [each for name in waiting for each in wrong_alone(name, sources)]


def wrong_call(call, named, sources):
    """What is wrong with a call of which these clauses are named."""
    found = sources.clauses(call)
    if not found:
        return ["there is no public call %s" % call]
    if not any(set(named) <= clauses for clauses in found):
        return ["%s hasn't all of the clauses %s" % (call, ", ".join(named))]
    return sources.unreached(call)


def wrong_alone(name, sources):
    """What is wrong with a name without a call: a clause of run, a definition under its clauses, or a law."""
    if name in sources.of_run or name in sources.definitions:
        return []
    if name not in sources.public:
        return ["`%s` is no clause of run, no public call and no definition under it" % name]
    return sources.unreached(name)
