"""What the scripts of this folder share: the built program, and a run with its time and peak memory.

The peak is that which GNU time (/usr/bin/time) reports of a child of its own: a child of this
process would be given the memory that Python had when it was started.
"""
import os
import subprocess
import sys
import tempfile
import time

HERE = os.path.dirname(os.path.dirname(os.path.abspath(__file__)))
GNU_TIME = "/usr/bin/time"


def built_program():
    """The path of the program that SIGAUDIT names, or of the built one, which is proved and built first if need be."""
    if os.environ.get("SIGAUDIT"):
        return os.path.abspath(os.environ["SIGAUDIT"])
    env = dict(os.environ, SIGAUDIT_PROVED="only")
    subprocess.run([os.path.join(HERE, "sigaudit")], stdout=subprocess.DEVNULL, env=env)
    return os.path.join(HERE, "out", "sigaudit")


def run(words, folder=None, output=subprocess.DEVNULL):
    """Runs the words in the folder; answers the seconds taken and the peak memory in MiB."""
    if not os.access(GNU_TIME, os.X_OK):
        sys.exit("GNU time is wanted as " + GNU_TIME)
    with tempfile.NamedTemporaryFile("r") as peak:
        start = time.perf_counter()
        child = subprocess.run(
            [GNU_TIME, "-q", "-f", "%M", "-o", peak.name] + words, cwd=folder, stdout=output
        )
        taken = time.perf_counter() - start
        if child.returncode != 0:
            sys.exit("failed with %d: %s" % (child.returncode, " ".join(words)))
        return taken, int(peak.read()) / 1024


def best(rounds, words, folder=None, output=subprocess.DEVNULL):
    """The least time of so many runs, and the peak memory of that run."""
    return min(run(words, folder, output) for _ in range(rounds))
