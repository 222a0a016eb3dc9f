"""The parts of bench/package on a release: its files, two builds, and its installation in a Debian."""
import hashlib
import os
import re
import shutil
import subprocess
import sys
import tarfile

sys.dont_write_bytecode = True
HERE = os.path.dirname(os.path.dirname(os.path.abspath(__file__)))
sys.path.insert(0, os.path.join(HERE, "packaging"))
import lay_out

INTERSECTION = os.path.join(HERE, "examples", "intersection")
VERSION = lay_out.read("VERSION").decode().strip()
ARCHIVE = "sigaudit-%s-x86_64-linux" % VERSION
PACKAGE = "sigaudit_%s_amd64.deb" % VERSION
PYTHON = (3, 11)


def digest(data):
    return hashlib.sha256(data).hexdigest()


def read(*path):
    with open(os.path.join(*path), "rb") as file:
        return file.read()


def run(words, **how):
    """A command with its status and what it wrote to both outputs, as text."""
    made = subprocess.run(words, stdin=subprocess.DEVNULL, stdout=subprocess.PIPE, stderr=subprocess.STDOUT, text=True,
                          errors="replace", **how)
    return made.returncode, made.stdout


# The files of a release.

def files(count, release):
    for line in read(release, "SHA256SUMS").decode().splitlines():
        wanted, name = line.split("  ")
        count.check("the digest of %s" % name, digest(read(release, name)) == wanted)
    with tarfile.open(os.path.join(release, ARCHIVE + ".tar.xz")) as archive:
        program = archive.extractfile(ARCHIVE + "/bin/sigaudit").read()
        proof = archive.extractfile(ARCHIVE + "/share/doc/sigaudit/PROOF.txt").read()
        owners = {(each.uid, each.gid, each.uname) for each in archive}
    count.check("PROOF.txt names the program of the archive", digest(program) in proof.decode(), proof.decode())
    count.check("PROOF.txt of the archive is that of the release", proof == read(release, "PROOF.txt"))
    count.check("the archive's files are nobody's", owners == {(0, 0, "")}, owners)
    if shutil.which("lintian"):
        status, said = run(["lintian", "--allow-root", "--fail-on", "error,warning", os.path.join(release, PACKAGE)])
        count.check("lintian", status == 0, said)
    else:
        print("files: lintian left out, it isn't there (the package lintian)")


# Two builds.

def builds(count, room):
    program = os.environ.get("SIGAUDIT") or os.path.join(HERE, "out", "sigaudit")
    if not os.access(program, os.X_OK):
        print("builds: left out, there is no program %s: ./sigaudit builds it, SIGAUDIT names another" % program)
        return
    made, log = [], os.path.join(room, "gate.log")
    lay_out.put(log, "rt: low proved\nrt: ok; handles allowed: none\n12 passed, 0 failed\n")
    places = {"one": {"TZ": "UTC", "LC_ALL": "C"}, "a longer name": {"TZ": "Asia/Tokyo", "LC_ALL": "C.UTF-8"}}
    for name, env in places.items():
        clone, out = os.path.join(room, name), os.path.join(room, name + " release")
        subprocess.run(["git", "clone", "-q", HERE, clone], check=True)
        words = ["packaging/build", "--program", os.path.abspath(program), "--gate", log, "--out", out]
        status, said = run(words, cwd=clone, env=dict(os.environ, **env), umask=0o077 if made else 0o022)
        count.check("packaging/build in the clone %r" % name, status == 0, said)
        made.append({each: digest(read(out, each)) for each in sorted(os.listdir(out))} if status == 0 else {})
    count.check("both builds are the same bytes", made[0] and made[0] == made[1], made)
    proof = read(room, "one release", "PROOF.txt").decode() if made[0] else ""
    count.check("PROOF.txt has the gate's last lines", "    12 passed, 0 failed\n" in proof, proof)
    lay_out.put(log, "12 passed, 1 failed\n")
    status, said = run([os.path.join(room, "one", words[0]), *words[1:]])
    count.check("the log of a gate that failed is refused", status == 1 and "isn't the log of a gate" in said, said)
    other = os.path.join(room, "other")
    lay_out.put(other, "#!/bin/sh\n", 0o755)
    lay_out.put(other + ".sources", "sources %064d\nprogram %s\n" % (0, digest(read(other))))
    status, said = run([os.path.join(room, "one", "packaging", "build"), "--program", other])
    count.check("a program of other sources is refused", status == 1 and "from other sources" in said, said)


# What --help says.

def answers_help(count, room):
    """All commands but `recipe`, which is called by other names, with a program that would fail."""
    for folder in ("bench", "examples", "packaging"):
        for path in lay_out.files_below(folder):
            command = os.path.join(HERE, folder, path)
            if not os.access(command, os.X_OK) or os.path.basename(path) in ("recipe", "rules"):
                continue
            status, said = run([command, "--help"], cwd=room, env=dict(os.environ, SIGAUDIT="/bin/false"), timeout=60)
            count.check("%s/%s --help" % (folder, path), "usage: " in said and status in (0, 2), said)
    count.check("none of them left a file", not os.listdir(room), os.listdir(room))


# A Debian.

class Debian:
    """A Debian in a folder; what runs in it has its own mounts, which end with it."""

    def __init__(self, folder):
        self.folder = folder

    def inside(self, command, user=False):
        """A shell command in it, as root or as the common user `user`: its status and what it wrote."""
        env = ["env", "-i", "PATH=/usr/sbin:/usr/bin:/sbin:/bin", "LC_ALL=C.UTF-8", "DEBIAN_FRONTEND=noninteractive"]
        who = ["setpriv", "--reuid=1000", "--regid=1000", "--clear-groups"] if user else []
        home = ["HOME=/home/user"] if user else ["HOME=/root"]
        mounts = 'mount -t proc proc "$0/proc" && mount -t devpts devpts "$0/dev/pts" && exec chroot "$0" "$@"'
        words = [*env, *home, *who, "sh", "-c", command]
        return run(["unshare", "--mount", "--", "sh", "-c", mounts, self.folder, *words])

    def path(self, name):
        return os.path.join(self.folder, name.lstrip("/"))

    def names(self):
        """All that stands in it but for what apt and dpkg keep of their own, logs, caches and temporary files."""
        passed = re.compile(r"(var/(lib/(dpkg|apt|systemd)|log|cache)|tmp|proc|dev|root|home|run)(/|$)"
                            r"|etc/[^/]*(-|\.cache|mtab)$")
        found = set()
        for where, folders, names in os.walk(self.folder):
            below = os.path.relpath(where, self.folder)
            folders[:] = [name for name in folders if not passed.match(os.path.normpath(os.path.join(below, name)))]
            found |= {os.path.normpath(os.path.join(below, name)) for name in folders + names}
        return {name for name in found if not passed.match(name)}


def made_debian(folder, suite, base, mirror):
    """A fresh Debian with a common user and what the tests of this use."""
    if base and os.path.isdir(base):
        subprocess.run(["cp", "-a", "--reflink=auto", base, folder], check=True)
    else:
        path = os.environ["PATH"] + ":/usr/sbin"
        status, said = run([shutil.which("debootstrap", path=path), "--variant=minbase", suite, folder, mirror])
        if status:
            sys.exit("bench/package: debootstrap of %s failed\n%s" % (suite, said[-1000:]))
    debian = Debian(folder)
    os.makedirs(debian.path("home/user"), exist_ok=True)
    os.chown(debian.path("home/user"), 1000, 1000)
    with open(debian.path("etc/passwd"), "a") as file:
        file.write("user:x:1000:1000::/home/user:/bin/sh\n")
    # Debian in a small form leaves manual pages out where this file says so.
    for name in ("docker", "excludes"):
        if os.path.exists(debian.path("etc/dpkg/dpkg.cfg.d/" + name)):
            os.remove(debian.path("etc/dpkg/dpkg.cfg.d/" + name))
    status, said = debian.inside("apt-get update -q && apt-get install -qy --no-install-recommends "
                                 "man-db bash-completion xz-utils make python3")
    if status:
        sys.exit("bench/package: apt in %s failed\n%s" % (suite, said[-1000:]))
    return debian


def debian(count, here, release, suite, shared):
    """Installs the package there and takes it away, then upgrades to it, then does the same with the archive."""
    for name in (PACKAGE, ARCHIVE + ".tar.xz"):
        shutil.copy(os.path.join(release, name), here.path("tmp"))
    check = lambda what, holds, seen="": count.check("%s: %s" % (suite, what), holds, seen)
    version = here.inside("python3 -ISc 'import sys; print(*sys.version_info[:2])'")[1].split()
    later = tuple(map(int, version)) >= PYTHON
    before = here.names()
    status, said = here.inside("apt-get install -qy --no-install-recommends /tmp/" + PACKAGE)
    check("the package installs", status == 0, said)
    program_answers(check, here, "/usr")
    pages_and_completion(check, here, "/usr")
    if later:
        here.inside("apt-get install -qy --no-install-recommends gnuplot-nox")
        commands_have_help(check, here)
        recipes_answer(check, here, repository_answers(shared, release), "")
        quotes(check, here)
        launcher_takes_it(check, here)
        here.inside("apt-get purge -qy --autoremove gnuplot-nox")
    else:
        print("%s: recipes left out, its Python is %s" % (suite, ".".join(version)))
        for name in lay_out.recipes():
            status, said = here.inside(name + " x")
            check("%s says which Python it wants" % name, status == 1 and "3.11" in said, said)
    fresh = here.names()
    status, said = here.inside("apt-get purge -qy sigaudit")
    left = sorted(name for name in here.names() - before if "sigaudit" in name)
    check("purge leaves nothing", status == 0 and not left, left or said)
    upgrade(check, here, release, fresh)
    archive(check, here, release, shared, later)


def program_answers(check, here, prefix, user=False, path=""):
    """README's first command, the example's audit, an undecided line and a refusal, as the example keeps them."""
    example = prefix + "/share/doc/sigaudit/examples/intersection"
    said = lambda command: here.inside("%s cd %s && %s" % (path, example, command), user)
    count = "sigaudit --count examples/intersection/h06.csv --signal 5101 --hour 2024-03-04T06"
    status, text = here.inside("%s cd %s/share/doc/sigaudit && %s" % (path, prefix, count), user)
    check("README's first command", (status, text) == (0, read(INTERSECTION, "count-06.txt").decode()), text)
    status, text = said("sigaudit --config config.toml --script audit.txt")
    check("the example's audit", (status, text) == (1, read(INTERSECTION, "audit-out.txt").decode()), text[-500:])
    status, text = said("sigaudit --config config.toml --script undecided.txt --rule 8 --at 2024-03-04T05:23:56.0")
    check("an undecided line", (status, text) == (0, read(INTERSECTION, "undecided-out.txt").decode()), text)
    status, text = said("sigaudit --count gone.csv --signal 5101 --hour 2024-03-04T06")
    check("a file that isn't there", (status, text) == (6, ""), text)


def pages_and_completion(check, here, prefix, path=""):
    pages = ["1 sigaudit", "5 sigaudit"] + ["1 " + name for name in lay_out.recipes()]
    status, text = here.inside(path + "; ".join("man -w " + page for page in pages))
    check("man -w of each page", [line.startswith(prefix) for line in text.splitlines()] == [True] * len(pages), text)
    status, text = here.inside(path + "; ".join("man --warnings=w %s 2>&1 >/dev/null" % page for page in pages))
    check("the pages have no faults", text == "", text)
    load = ". /usr/share/bash-completion/bash_completion; %s _completion_loader %s; COMP_WORDS=(%s); COMP_CWORD=%d; " \
           "_sigaudit; echo ${COMPREPLY[*]}"
    for words, wanted in (("sigaudit --co", "--config --count"), ("sigaudit --config x --", "--script --rule --at"),
                          ("sigaudit --count f --s", "--signal"), ("sigaudit-hours --day", "--day-first"),
                          ("sigaudit --config %s/share/doc/sigaudit/examples/intersection/c" % prefix,
                           "%s/share/doc/sigaudit/examples/intersection/config.toml" % prefix)):
        parts = words.split()
        status, text = here.inside("bash -c '%s' 2>&1" % (load % (path or ":;", parts[0], words, len(parts) - 1)))
        check("completion of %s" % words, text.strip() == wanted, text)


def commands_have_help(check, here):
    for name in lay_out.recipes():
        status, text = here.inside(name + " --help")
        check("%s --help" % name, "Traceback" not in text and ("usage: %s " % name) in text, text)


def same_below(check, what, one, other, but=()):
    """Whether two folders have the same files, byte for byte."""
    def found(top):
        return {os.path.relpath(os.path.join(where, name), top): read(where, name)
                for where, _, names in os.walk(top) for name in names if not name.endswith(but)}
    a, b = found(one), found(other)
    differ = sorted(name for name in a.keys() | b.keys() if a.get(name) != b.get(name))
    check(what, a and not differ, "differ: %s" % differ)


WHOLE = "--config config.toml --out whole o05.csv o06.csv o07.csv"


def repository_answers(shared, release):
    """The whole way and a corridor by this repository's recipes and the released program, made once."""
    own = os.path.join(shared, "own")
    if os.path.isdir(own):
        return own
    os.makedirs(own)
    program = os.path.join(shared, "program")
    with tarfile.open(os.path.join(release, ARCHIVE + ".tar.xz")) as packed:
        lay_out.put(program, packed.extractfile(ARCHIVE + "/bin/sigaudit").read(), 0o755)
    for name in ("config.toml", "o05.csv", "o06.csv", "o07.csv"):
        shutil.copy(os.path.join(INTERSECTION, name), own)
    recipe = lambda name: os.path.join(HERE, "examples", name)
    for command in ("%s %s" % (recipe("audit-export"), WHOLE), "%s c" % recipe("corridor/signals"),
                    "make -s -f %s CORRIDOR=c -j2" % recipe("corridor/Makefile")):
        run(["sh", "-c", command], cwd=own, env=dict(os.environ, SIGAUDIT=program))
    return own


def recipes_answer(check, here, own, path, drawn=True):
    """The whole way and a corridor by the installed names, beside the same by the repository's."""
    for name in ("config.toml", "o05.csv", "o06.csv", "o07.csv"):
        shutil.copy(os.path.join(INTERSECTION, name), here.path("home/user"))
    status, text = here.inside("%s cd && sigaudit-audit-export %s" % (path, WHOLE), user=True)
    check("the whole way", status in (0, 1) and "see whole" in text, text)
    same_below(check, "the whole way's files are those of the repository", os.path.join(own, "whole"),
               here.path("home/user/whole"), (".svg", ".html"))
    if drawn:
        svg = [name for name in os.listdir(here.path("home/user/whole")) if name.endswith(".svg")]
        check("pictures are drawn with gnuplot-nox", len(svg) >= 4, text)
    status, text = here.inside("%s cd && sigaudit-corridor-signals c && make -f "
                               "$(dirname $(readlink -f $(command -v sigaudit-corridor)))/examples/corridor/Makefile "
                               "CORRIDOR=c -j2" % path, user=True)
    check("the corridor with make -j2", status == 0, text)
    same_below(check, "the corridor's files are those of the repository", os.path.join(own, "c"),
               here.path("home/user/c"), (".svg", ".html"))
    status, text = here.inside("%s cd && sigaudit-corridor c -j2" % path, user=True)
    check("sigaudit-corridor finds nothing to do", status == 0 and "Nothing to be done" in text, text)
    here.inside("rm -rf /home/user/whole /home/user/c")


def quotes(check, here):
    """The documents' commands by their installed names, by bench/quotes, where the repository's own files aren't."""
    top = here.path("home/user/quoted")
    for name in ("bench/quotes", "README.md", "docs/GUIDE.md", "examples/README.md", "examples/intersection/README.md"):
        lay_out.put(os.path.join(top, name), lay_out.read(name), 0o755)
    shutil.copytree(INTERSECTION, os.path.join(top, "examples", "intersection"), dirs_exist_ok=True)
    lay_out.put(os.path.join(top, "sigaudit"), "#!/bin/sh\necho this is not the installed program\nexit 99\n", 0o755)
    here.inside("chown -R 1000:1000 /home/user/quoted")
    status, text = here.inside("SIGAUDIT=/usr/bin/sigaudit /home/user/quoted/bench/quotes --installed", user=True)
    check("the documents' commands by their installed names", status == 0 and ", 0 failed" in text, text)
    here.inside("rm -rf /home/user/quoted")


def launcher_takes_it(check, here):
    """A clone without the toolchain takes the installed program of its version, and says so."""
    os.makedirs(here.path("home/user/clone"))
    for name in ("sigaudit", "VERSION", "crates.txt"):
        shutil.copy(os.path.join(HERE, name), here.path("home/user/clone"))
    status, text = here.inside("cd /home/user/clone && ./sigaudit --demo 1", user=True)
    check("./sigaudit takes the installed program",
          status == 0 and "running /usr/bin/sigaudit of version" in text, text[:300])
    with open(here.path("home/user/clone/VERSION"), "w") as file:
        file.write("0.0.1\n")
    status, text = here.inside("cd /home/user/clone && ./sigaudit --demo 1", user=True)
    check("./sigaudit takes none of another version", status == 70, text[:300])
    here.inside("rm -rf /home/user/clone")


def upgrade(check, here, release, fresh):
    """From a package of version 0.9 with a command, a recipe and a document that are gone, to this one."""
    old = here.path("tmp/old")
    run(["dpkg-deb", "-R", os.path.join(release, PACKAGE), old])
    with open(old + "/DEBIAN/control") as file:
        text = file.read()
    with open(old + "/DEBIAN/control", "w") as file:
        file.write(re.sub(r"(?m)^Version: .*", "Version: 0.9", text))
    for name in ("usr/bin/sigaudit-old", "usr/share/sigaudit/examples/old.py", "usr/share/doc/sigaudit/OLD.md",
                 "usr/share/man/man1/sigaudit-old.1.gz"):
        with open(os.path.join(old, name), "w") as file:
            file.write("old\n")
    with open(old + "/usr/share/sigaudit/VERSION", "w") as file:
        file.write("0.9\n")
    os.remove(old + "/DEBIAN/md5sums")
    run(["dpkg-deb", "--root-owner-group", "-b", old, here.path("tmp/sigaudit_0.9_amd64.deb")])
    shutil.rmtree(old)
    status, said = here.inside("apt-get install -qy --no-install-recommends /tmp/sigaudit_0.9_amd64.deb && "
                               "cat /usr/share/sigaudit/VERSION")
    check("the package of 0.9 installs", status == 0 and said.endswith("0.9\n"), said)
    status, said = here.inside("apt-get install -qy --no-install-recommends /tmp/%s && "
                               "cat /usr/share/sigaudit/VERSION" % PACKAGE)
    check("it is upgraded", status == 0 and said.endswith(VERSION + "\n"), said)
    left = sorted(here.names() ^ fresh)
    check("the upgrade leaves what a fresh installation has", not [name for name in left if "sigaudit" in name], left)
    here.inside("apt-get purge -qy sigaudit")


def archive(check, here, release, shared, later):
    """The archive into a prefix of a common user, and away again."""
    path = "export PATH=$HOME/.local/bin:$PATH;"
    status, said = here.inside("cd && tar -xJf /tmp/%s.tar.xz && %s/install.sh .local" % (ARCHIVE, ARCHIVE), user=True)
    check("install.sh into a prefix", status == 0 and said.startswith("sigaudit %s is in" % VERSION), said)
    owned = here.inside("find /home/user/.local ! -user 1000 | wc -l")[1].strip()
    check("its files are the user's", owned == "0", owned)
    program_answers(check, here, "/home/user/.local", True, path)
    pages_and_completion(check, here, "/home/user/.local", "export PATH=/home/user/.local/bin:$PATH "
                         "XDG_DATA_HOME=/home/user/.local/share;")
    if later:
        recipes_answer(check, here, repository_answers(shared, release), path, drawn=False)
    twice = "cd && for how in '' --remove; do %s/install.sh $how .local; done; find .local" % ARCHIVE
    status, said = here.inside(twice, user=True)
    check("install.sh --remove leaves nothing", said.splitlines()[1:] == [".local"], said)
