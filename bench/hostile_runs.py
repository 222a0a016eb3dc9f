"""Where the runs of bench/hostile take place, and what they have in common."""
import contextlib
import os
import shutil
import stat
import subprocess
import sys
import tempfile

import hostile_data as data

HERE = os.path.dirname(os.path.dirname(os.path.abspath(__file__)))
MIB = 1048576
LIMIT = 120
MOST_KEPT = 20
STAMP = "2024-03-04T06"
SESSION = ["--config", "c", "--script", "s"]
OF_FILE = ["--signal", "7", "--hour", STAMP]
BASE = b'signal = "7"\nstart = "2024-03-04T06"\nhours = 2\n[[phase]]\nnumber = 2\nring = 1\nside = 1\n'
RULE = b'[[interval]]\nchannel = "phase 2"\ncolour = "Green"\nat_least = 150\n'
HEADER = b"SignalID,Timestamp,EventCode,EventParam\n"
GOOD = b"7,2024-03-04 06:00:00.0,1,2\n"


class Bench:
    """Where the runs take place, what they ran, and how many checks passed and failed."""

    def __init__(self, program, seed):
        self.top = tempfile.mkdtemp(prefix="sigaudit-hostile-")
        os.chmod(self.top, 0o755)
        self.program = shutil.copy(program, os.path.join(self.top, "sigaudit"))
        self.seed, self.passed, self.failed, self.made = seed, 0, 0, 0
        self.status = self.out = self.err = None

    def folder(self, files):
        """A new folder with these files, which is the place of the next runs."""
        if self.made:
            shutil.rmtree(self.place, ignore_errors=True)
        self.made += 1
        self.place = os.path.join(self.top, "run%d" % self.made)
        os.mkdir(self.place)
        for name, content in files.items():
            self.put(name, content)

    def put(self, name, content):
        with open(os.path.join(self.place, name), "wb") as file:
            file.write(content)

    def start(self, words, stdout=subprocess.PIPE, before=(), **more):
        """A run that has begun; `before` are the words of a program that runs ours."""
        words = [*before, self.program] + words
        return subprocess.Popen(words, cwd=self.place, stdin=subprocess.DEVNULL, stdout=stdout,
                                stderr=subprocess.PIPE, **more)

    def run(self, words, before=None, stdout=subprocess.PIPE, env=None, limit=LIMIT, **more):
        """One run; its status (below 0: the signal that ended it, None: it didn't end), standard output and error."""
        env = dict(os.environ, **env) if env else None
        try:
            child = self.start(words, stdout, preexec_fn=before, env=env, **more)
            try:
                self.out, self.err = child.communicate(timeout=limit)
                self.status = child.returncode
            except subprocess.TimeoutExpired:
                child.kill()
                self.out, self.err = child.communicate()
                self.status = None
        except OSError as error:
            sys.exit("hostile: the program can't be run: %s" % error)
        self.out = self.out or b""
        return self.status, self.out

    def check(self, name, fine, said=""):
        """Counts a check; one that failed is printed, and its files are kept."""
        if fine:
            self.passed += 1
            return
        self.failed += 1
        if self.failed > MOST_KEPT:
            print("failed: %s: %s status %s" % (name, said, self.status), flush=True)
            return
        kept = tempfile.mkdtemp(prefix="sigaudit-hostile-failed-")
        pipes = lambda where, names: [name for name in names if not os.path.exists(os.path.join(where, name))
                                      or stat.S_ISFIFO(os.stat(os.path.join(where, name)).st_mode)]
        with contextlib.suppress(shutil.Error):
            shutil.copytree(self.place, os.path.join(kept, "run"), symlinks=True, ignore=pipes)
        print("failed: %s: %s status %s, %d bytes written, standard error %r; seed %d, files in %s/run"
              % (name, said, self.status, len(self.out), (self.err or b"")[:100], self.seed, kept), flush=True)

    def expect(self, name, status, out=None):
        """The last run ended with this status, wrote this, and wrote nothing to standard error."""
        fine = self.status == status and not self.err and (out is None or self.out == out)
        self.check(name, fine, "wanted status %s%s;" % (status, "" if out is None else " and %r" % out[:100]))

    def expect_front(self, name, whole_status, whole, cut):
        """The last run is whole, or ended with the status `cut` after a prefix of the whole output."""
        whole_run = self.status == whole_status and self.out == whole
        fine = whole_run or self.status == cut and whole.startswith(self.out)
        self.check(name, fine and not self.err, "wanted the whole run, or status %d and a front;" % cut)


def left_out(name, why):
    print("%s: left out, %s" % (name, why), flush=True)


def stamp(tenth, sep="T"):
    hour, minute, second = 6 + tenth // data.HOUR, tenth // 600 % 60, tenth // 10 % 60
    return "%s%s%02d:%02d:%02d.%d" % (STAMP[:10], sep, hour, minute, second, tenth % 10)


def small_files():
    """A small session with loads, a contradiction, blanks and all questions; and a log, packed too."""
    service = ((0, 0), (0, 1), (250, 7), (250, 8), (285, 9))
    rows = [(at + cycle, code, 2) for cycle in range(0, 9000, 600) for at, code in service]
    rows += [(at, 82 - at % 2, 5) for at in range(7, 9000, 93)]
    log = HEADER + b"".join(b"7,%s,%d,%d\n" % (stamp(at, " ").encode(), code, n) for at, code, n in sorted(rows))
    config = BASE + RULE + b'[[ped]]\nnumber = 2\n[[preempt]]\nnumber = 1\n'
    config += b'[[approach]]\nname = "NB"\nphase = 2\nadvance = 5\n'
    script = ("load 0 f\naudit\nload 1 g\nblank %s %s\nmeasures\npoints 2\noffsets NB\nreplace 0 x\nverdicts 0\n"
              "withdraw 1\nload 1 p\nreplace 0 f\nunblank %s %s\nmeasures 1\naudit\n")
    script %= (stamp(3000), stamp(3500)) * 2
    against = b"7,2024-03-04 06:00:10.0,12,2\n7,2024-03-04 06:00:20.0,8,2\n"
    after = b"7,2024-03-04 07:00:01.0,0,2\n7,2024-03-04 07:00:01.0,1,2\n"
    packed = data.packed_hour("7", "2024-03-04T07", [(36010, 0, 2), (36010, 1, 2)], 36000)
    return {"c": config, "s": script.encode(), "f": log, "g": after, "x": against, "p": packed}
