#!/usr/bin/env python3
"""Lays out what is installed of sigaudit below a folder that stands for /usr or another prefix. Not proved.

usage: packaging/lay_out.py --program PROGRAM --proof PROOF --date YYYY-MM-DD [--sources FILE] FOLDER

It is called at the top of the repository, by packaging/build for the archive and by packaging/debian/rules for the
package, and makes below FOLDER

bin/sigaudit            the program
bin/sigaudit-NAME       each recipe of examples/ by its installed name, a link to share/sigaudit/recipe
share/sigaudit          the recipes with their modules and the example's log, as examples/ has them; VERSION, and in
                        sources the digest of what the program was built from, where FILE says it
share/man               manual pages: sigaudit.1, sigaudit.5 of docs/FORMATS.md, one for each recipe of its head
share/bash-completion   the words of all of them
share/doc/sigaudit      the documents, PROOF.txt, and a link to the examples

The list of recipes is made of what examples/ has: each file that can be executed, and each makefile. Where a text
names a recipe as it is called in the repository (examples/hours), the installed copy has its installed name.
"""
import argparse
import os
import re
import shutil
import sys

sys.dont_write_bytecode = True
import pages

HERE = os.path.dirname(os.path.dirname(os.path.abspath(__file__)))
DOCUMENTS = ["README.md", "CONTRIBUTING.md", "SECURITY.md", "NOTICE", "docs"]


def files_below(folder):
    """All files below a folder of the repository, by their names in it, in order."""
    found = []
    for where, folders, names in os.walk(os.path.join(HERE, folder)):
        folders[:] = sorted(name for name in folders if name != "__pycache__")
        found += [os.path.relpath(os.path.join(where, name), os.path.join(HERE, folder)) for name in sorted(names)]
    return found


def recipes():
    """The recipes by their installed names: their files in examples/."""
    found = {}
    for path in files_below("examples"):
        if os.path.basename(path) == "Makefile":
            found["sigaudit-" + os.path.dirname(path)] = path
        elif os.access(os.path.join(HERE, "examples", path), os.X_OK):
            found["sigaudit-" + path.replace("/", "-")] = path
    return dict(sorted(found.items()))


def with_installed_names(text):
    """A text that names recipes as they are called in the repository, with their installed names."""
    text = re.sub(r"make -f examples/(\w+)/Makefile CORRIDOR=(\w+|\.\.)", r"sigaudit-\1 \2", text)
    text = re.sub(r"(\.\./)+sigaudit without it", "the installed one without it", text)
    for name, path in recipes().items():
        text = re.sub(r"\bexamples/%s\b(?![-./\w])|\bexamples/%s(?=\.(\s|$))" % (path, path), name, text)
    return text


def put(path, data, mode=0o644):
    os.makedirs(os.path.dirname(path), exist_ok=True)
    with open(path, "wb") as file:
        file.write(data if isinstance(data, bytes) else data.encode())
    os.chmod(path, mode)


def link(path, to):
    os.makedirs(os.path.dirname(path), exist_ok=True)
    os.symlink(to, path)


def read(path):
    with open(os.path.join(HERE, path), "rb") as file:
        return file.read()


def lay_out_recipes(share):
    """The files of examples/; those that are recipes name each other by their installed names."""
    for path in files_below("examples"):
        data, mode = read("examples/" + path), 0o644
        if path in recipes().values() or path.endswith(".py"):
            data = with_installed_names(data.decode())
            mode = 0o755 if path in recipes().values() and not path.endswith("Makefile") else 0o644
        put("%s/examples/%s" % (share, path), data, mode)
    put(share + "/recipe", read("packaging/recipe"), 0o755)
    link(share + "/sigaudit", "../../bin/sigaudit")


def lay_out_pages(man, version, date):
    put(man + "/man1/sigaudit.1", read("packaging/sigaudit.1").decode().replace("@VERSION@", version)
        .replace("@DATE@", date).replace("@RECIPES@", list_of_recipes()))
    put(man + "/man5/sigaudit.5", pages.of_document(
        "sigaudit", "what sigaudit reads and prints", read("docs/FORMATS.md").decode(), version, date))
    for name, path in recipes().items():
        head = with_installed_names(pages.head_of(os.path.join(HERE, "examples", path)))
        if path.endswith("Makefile"):
            head = head.replace("\n\n", "\n\nusage: %s FOLDER [-j N]\n\n" % name, 1)
        put("%s/man1/%s.1" % (man, name), pages.of_recipe(name, head, version, date))


def list_of_recipes():
    """The recipes, each with the first sentence of its head, as a list for the page of the program."""
    lines = []
    for name, path in recipes().items():
        summary = pages.summary_of(with_installed_names(pages.head_of(os.path.join(HERE, "examples", path))))
        lines += [".TP", ".BR %s (1)" % name.replace("-", "\\-"), pages.roff(summary)]
    return "\n".join(lines)


def lay_out_completion(folder):
    cases = []
    for name, path in recipes().items():
        head = pages.head_of(os.path.join(HERE, "examples", path))
        words = sorted(set(re.findall(r"(?<![\w-])--[a-z]+(?:-[a-z]+)*", head)))
        cases.append('    %s) words="%s" ;;' % (name, " ".join(words)))
    complete = "complete -F _sigaudit %s" % " ".join(recipes())
    text = read("packaging/completion.bash").decode()
    put(folder + "/sigaudit", text.replace("@RECIPES@", "\n".join(cases)).replace("@COMPLETE@", complete))
    for name in recipes():
        link("%s/%s" % (folder, name), "sigaudit")


def lay_out(folder, program, proof, sources, date):
    version = read("VERSION").decode().strip()
    share = folder + "/share/sigaudit"
    put(folder + "/bin/sigaudit", read(program), 0o755)
    for name in recipes():
        link("%s/bin/%s" % (folder, name), "../share/sigaudit/recipe")
    lay_out_recipes(share)
    put(share + "/VERSION", version + "\n")
    if sources:
        put(share + "/sources", "".join(line for line in read(sources).decode().splitlines(True)
                                        if line.startswith("sources ")))
    lay_out_pages(folder + "/share/man", version, date)
    lay_out_completion(folder + "/share/bash-completion/completions")
    doc = folder + "/share/doc/sigaudit"
    for name in DOCUMENTS:
        is_file = os.path.isfile(os.path.join(HERE, name))
        for path in [name] if is_file else [name + "/" + each for each in files_below(name)]:
            put("%s/%s" % (doc, path), read(path))
    put(doc + "/PROOF.txt", read(proof))
    link(doc + "/examples", "../../sigaudit/examples")


def main():
    parser = argparse.ArgumentParser(usage=__doc__.split("usage: ")[1].split("\n\n")[0])
    for word in ("--program", "--proof", "--date"):
        parser.add_argument(word, required=True)
    parser.add_argument("--sources")
    parser.add_argument("folder")
    given = parser.parse_args()
    paths = [path and os.path.abspath(path) for path in (given.folder, given.program, given.proof, given.sources)]
    lay_out(*paths, given.date)


if __name__ == "__main__":
    main()
