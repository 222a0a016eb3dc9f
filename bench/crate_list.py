"""What the scripts of this folder read from crates.txt: each crate of the repository with what it stands on.

Of a line `NAME words: LOWER LOWER ..` the words after the name say how it is built, and `#` starts a comment. What a
crate stands on is a crate of the list too, or a library of the toolchain, which the list doesn't have.
"""
import functools
import os

HERE = os.path.dirname(os.path.dirname(os.path.abspath(__file__)))


def listed(root=HERE):
    """Each crate of the repository with all that it stands on, in the order of the list."""
    crates = {}
    with open(os.path.join(root, "crates.txt")) as file:
        for line in file:
            name, colon, on = line.partition("#")[0].partition(":")
            if colon:
                crates[name.split()[0]] = on.split()
    return crates


def stands_on(root=HERE):
    """Each crate with those of the repository that it names itself."""
    crates = listed(root)
    return {name: [each for each in on if each in crates] for name, on in crates.items()}


def below(name, crates):
    """The crates that this one stands on, by way of others too."""
    found, wanted = [], list(crates[name])
    while wanted:
        each = wanted.pop()
        if each not in found:
            found.append(each)
            wanted += crates[each]
    return found


def ways_down(crates):
    """How many ways lead from each crate down to one that stands on none."""
    @functools.lru_cache(maxsize=None)
    def ways(name):
        return sum(map(ways, crates[name])) if crates[name] else 1
    return {name: ways(name) for name in crates}


def files_below(folder, ending):
    """The files of a folder and those below it with this ending, in order."""
    return sorted(os.path.join(at, name) for at, _, names in os.walk(folder) for name in names if name.endswith(ending))
