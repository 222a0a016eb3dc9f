"""What PROOF.txt says of a release: of what it was made, what the gate said, and how anybody repeats it. Not proved."""
import datetime
import hashlib
import os
import re
import subprocess
import sys

PROOF = """sigaudit %(version)s: what was proved, by what, and how to repeat it

commit                %(commit)s
toolchain             %(toolchain)s
sources               sha256 %(sources)s
                      of crates.txt, HANDLES and the %(count)d files below crates/, all that the gate reads
program's sources     sha256 %(program_sources)s
                      of those of them of which the program is made, as ./sigaudit counts them
object                %(object)s
                      what the compiler made, before it was linked
program               sha256 %(program)s
                      as the toolchain linked it
released program      sha256 %(released)s
                      bin/sigaudit of the package and of the archive: %(linked)s

The gate
--------
%(gate)s

To repeat it
------------
1. Take the commit, and the toolchain whose `rt version` is the line above. The sources are the same where

       find crates.txt HANDLES crates -name out -prune -o -type f -print | LC_ALL=C sort | xargs sha256sum | sha256sum

   prints their digest, at the top of the repository.
2. `.ci/run` there is the gate: it proves each crate from nothing, wants each wrong body refused, and runs the examples
   and the program. Its last line is `N passed, 0 failed`. docs/CARRY-ON.md says how long it takes.
3. `./sigaudit --demo 1` proves and builds the program; `sha256sum out/sigaudit out/sigaudit.o` are the digests of the
   program and the object above.
4. `packaging/build --gate LOG`, with what step 2 printed, makes the package and the archive anew, byte for byte.

What the proofs say and what they rest on stands in README.md, "What is proved". Of the recipes, sigaudit-NAME, nothing
is proved, nor of packaging/, which links the released program and packs it.
"""
NO_GATE = """No log of the gate was given to packaging/build. So this file says nothing of whether the proofs of these
sources pass: repeat them."""
GATE = """The log that was given to packaging/build (sha256 %s) ends with

%s

A log doesn't name its commit; that it is of this one is said by who made the release. Repeating it shows it."""


def text_of(path):
    with open(path, encoding="utf-8", errors="replace") as file:
        return file.read()


def digest(path):
    with open(path, "rb") as file:
        return hashlib.sha256(file.read()).hexdigest()


def said(words, folder):
    """What a command prints, without the line's end; nothing where it isn't there or fails."""
    try:
        made = subprocess.run(words, cwd=folder, stdin=subprocess.DEVNULL, capture_output=True, text=True)
    except FileNotFoundError:
        return ""
    return made.stdout.strip() if made.returncode == 0 else ""


class Facts:
    """What is known of a program, of the sources that stand here, and of the toolchain."""

    def __init__(self, here, program, object_file, log):
        self.here, self.program, self.object_file, self.log = here, program, object_file, log
        self.head = said(["git", "rev-parse", "HEAD"], here)
        if not self.head:
            sys.exit("build: a release is of a commit: call this in a clone of the repository")
        self.changed = bool(said(["git", "status", "--porcelain"], here))
        self.commit = self.head + (" with changes that aren't committed" if self.changed else "")
        self.epoch = said(["git", "log", "-1", "--format=%ct"], here)
        self.date = datetime.datetime.fromtimestamp(int(self.epoch), datetime.timezone.utc).strftime("%Y-%m-%d")
        self.sources, self.count = self.of_sources()
        self.program_sources = self.of_program()
        self.built_of = self.read_built_of()
        page = said(["rt", "doc"], here)
        self.kit = os.path.dirname(page)
        self.present_toolchain = said(["rt", "version"], here)
        if object_file and not page:
            sys.exit("build: linking wants the toolchain, and its command rt isn't on the path")
        self.gate_lines = self.read_gate()

    def of_sources(self):
        """The digest of all that the gate reads, as step 1 of the text makes it, and how many files there are."""
        names = []
        for where, folders, files in os.walk(os.path.join(self.here, "crates")):
            folders[:] = [name for name in folders if name != "out"]
            names += [os.path.relpath(os.path.join(where, name), self.here) for name in files]
        listed = sorted(names + ["crates.txt", "HANDLES"], key=os.fsencode)
        lines = "".join("%s  %s\n" % (digest(os.path.join(self.here, name)), name) for name in listed)
        return hashlib.sha256(lines.encode()).hexdigest(), len(names)

    def of_program(self):
        """The digest of what the program is made of, as ./sigaudit makes it: crates, what they stand on, files."""
        stands_on = {}
        for line in text_of(os.path.join(self.here, "crates.txt")).splitlines():
            name, colon, others = line.partition("#")[0].partition(":")
            if colon:
                stands_on[name.split()[0]] = others
        found, left = set(), ["program"]
        while left:
            name = left.pop()
            if name in stands_on and name not in found:
                found.add(name)
                left += stands_on[name].split()
        lines = sorted("%s:%s\n" % (name, stands_on[name]) for name in found)
        files = []
        for name in found:
            for part in ("src", "specs", "proofs"):
                for where, _, names in os.walk(os.path.join(self.here, "crates", name, part)):
                    files += [os.path.relpath(os.path.join(where, each), self.here) for each in names]
        lines += ["%s  %s\n" % (digest(os.path.join(self.here, name)), name) for name in sorted(files, key=os.fsencode)]
        return hashlib.sha256("".join(lines).encode()).hexdigest()

    def read_built_of(self):
        """What stands beside the program on its sources; they have to be those that stand here."""
        path = self.program + ".sources"
        if not os.path.exists(path):
            return {}
        found = dict(line.split(" ", 1) for line in text_of(path).splitlines() if " " in line)
        if found.get("program") != digest(self.program):
            sys.exit("build: %s is of another program than %s" % (path, self.program))
        if found.get("sources") != self.program_sources:
            sys.exit("build: %s was built from other sources than those that stand here: ./sigaudit builds it anew"
                     % self.program)
        return found

    def read_gate(self):
        """The last lines of what the proofs' part of the gate said; its log has to end well, with the tools' tests."""
        if not self.log:
            return []
        lines = [line.rstrip() for line in text_of(self.log).splitlines() if line.strip()]
        if not lines or not re.search(r"\b\d+ passed, 0 failed$", lines[-1]):
            sys.exit("build: %s isn't the log of a gate that passed: it ends with %s"
                     % (self.log, lines[-1] if lines else "nothing"))
        ended = [place for place, line in enumerate(lines) if re.fullmatch(r"\d+ passed, 0 failed", line)]
        return lines[:ended[0] + 1][-3:]

    def text(self, version, released, wants):
        object_said = "sha256 " + digest(self.object_file) if self.object_file else "not given"
        linked = ("linked anew\n                      with packaging/start.c, stripped" if self.object_file else
                  "the same file")
        gate = GATE % (digest(self.log), "\n".join("    " + line for line in self.gate_lines)) if self.log else NO_GATE
        return PROOF % {
            "version": version, "commit": self.commit, "sources": self.sources, "count": self.count,
            "toolchain": self.built_of.get("toolchain") or
            "not known: nothing beside the program says what built it" +
            (" (here rt version is %s)" % self.present_toolchain if self.present_toolchain else ""),
            "program_sources": self.program_sources + ("" if self.built_of else
            "\n                      (nothing beside the program says that it was built from them)"),
            "object": object_said, "program": digest(self.program), "released": digest(released),
            "linked": linked + ";\n                      it wants a C library of the GNU project from %s on" % wants,
            "gate": gate}

    def lacks(self, wants):
        """What a release should have and this one lacks, one line each."""
        if self.changed:
            yield "the repository has changes that aren't committed: nobody can repeat this"
        if not self.built_of:
            yield "nothing beside the program says from which sources it was built"
        if not self.object_file:
            yield "no object was given, so the program is packed as it is, for C libraries from %s on" % wants
        if not self.log:
            yield "no log of the gate was given"
