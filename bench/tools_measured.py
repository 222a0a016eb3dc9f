"""What the tools cost on a day: see bench/tools."""

from __future__ import annotations

import argparse
import cProfile
import datetime
import os
import pstats
import resource
import subprocess
import sys
import tarfile
import tempfile
from pathlib import Path

HERE = Path(__file__).resolve().parent
HEADER = "SignalID,Timestamp,EventCode,EventParam\n"
FIRST_DAY = datetime.date(2024, 3, 5)

# Bounds: seconds of processor time, megabytes, calls a row. Of several days only those of all steps together.
BOUNDS = {"help": 0.3, "config": 0.1, "hours": 0.9, "check": 0.3, "holes": 1.5, "faults": 1.0, "script": 0.1,
          "answer": 0.4, "doubts": 0.4, "fillings": 0.9, "tables": 0.8, "pictures": 0.5, "page": 1.0, "reading": 0.5,
          "whole": 5.0, "whole, no holes, no detectors": 2.5, "memory": 250.0, "calls a row": 1.0}
SEVERAL_DAYS = {"whole": 15.0, "calls a row": 1.0}


def write_days(count: int, folder: Path) -> tuple[Path, Path, int]:
    """Writes the log of some days as one CSV and its configuration; answers both and the number of rows."""
    with tarfile.open(HERE / "days" / "d1.tar.xz") as archive:
        names = sorted(name for name in archive.getnames() if name.endswith(".csv"))
        hours = [archive.extractfile(name).read().decode().removeprefix(HEADER) for name in names]
    day = "".join(hours)
    days = [day.replace(f",{FIRST_DAY}", f",{FIRST_DAY + datetime.timedelta(number)}") for number in range(count)]
    log, config = folder / "log.csv", folder / "config.toml"
    log.write_text(HEADER + "".join(days))
    text = (HERE.parent / "examples" / "intersection" / "config.toml").read_text()
    config.write_text(text.replace('start = "2024-03-04T05"', f'start = "{FIRST_DAY}T00"')
                      .replace("hours = 3\n", f"hours = {24 * count}\n"))
    return config, log, count * day.count("\n")


def spent() -> float:
    """Processor seconds of this process and of the programs that it ran."""
    return sum(sum(resource.getrusage(who)[:2]) for who in (resource.RUSAGE_SELF, resource.RUSAGE_CHILDREN))


def steps(config: Path, log: Path, out: Path) -> dict[str, float]:
    """Processor seconds of each step of the whole way; the first that wants a library pays for its start."""
    from sigaudit_tools.auditing import Notice
    from sigaudit_tools.publish import audit_export
    found: dict[str, float] = {}
    begun = spent()

    def told(notice: Notice) -> None:
        nonlocal begun
        if notice.said is not None:
            found[notice.step] = spent() - begun
        begun = spent()

    audit_export(config, [log], out, notify=told)
    return found


def child(*words: str) -> tuple[float, float]:
    """Processor seconds and megabytes of the tools with these words, in a process of their own."""
    with subprocess.Popen([sys.executable, "-m", "sigaudit_tools", *words], stdout=subprocess.DEVNULL) as made:
        _, status, used = os.wait4(made.pid, 0)
        made.returncode = os.waitstatus_to_exitcode(status)
    if made.returncode:
        sys.exit(f"sigaudit-tools {words[0]} ended with {made.returncode}")
    return used.ru_utime + used.ru_stime, used.ru_maxrss / 1024


def reading(log: Path) -> float:
    """Processor seconds of reading a log into events, libraries loaded before."""
    from sigaudit_tools.intake import read_export
    begun = spent()
    read_export(log)
    return spent() - begun


def calls(config: Path, log: Path) -> int:
    """Calls of functions, Python's and C's, from the log to holes and faults."""
    import sigaudit_tools as st
    settings = st.read_config(config)
    profile = cProfile.Profile()
    profile.enable()
    events = st.read_export(log, config=settings).events
    st.find_holes(settings, events, chances=False)
    st.find_faults(settings, events)
    profile.disable()
    return int(pstats.Stats(profile).total_calls)  # type: ignore[attr-defined]


def measure(config: Path, log: Path, folder: Path, number: int) -> dict[str, float]:
    """Each measure once."""
    whole = "audit-export", "--quiet", f"--config={config}"
    found = {"help": child("--help")[0], "reading": reading(log)}
    found |= steps(config, log, folder / f"steps-{number}")
    found["whole"], found["memory"] = child(*whole, f"--out={folder / f'whole-{number}'}", str(log))
    found["whole, no holes, no detectors"] = child(
        *whole, "--no-holes", "--no-detectors", f"--out={folder / f'less-{number}'}", str(log))[0]
    return found


def main() -> int:
    parser = argparse.ArgumentParser(description=__doc__)
    parser.add_argument("--days", type=int, default=1)
    parser.add_argument("--runs", type=int, default=3)
    given = parser.parse_args()
    with tempfile.TemporaryDirectory() as name:
        folder = Path(name)
        config, log, rows = write_days(given.days, folder)
        runs = [measure(config, log, folder, number) for number in range(given.runs)]
        least = {what: min(run[what] for run in runs) for what in runs[0]}
        least["calls a row"] = calls(config, log) / rows
    bounds = BOUNDS if given.days == 1 else SEVERAL_DAYS
    print(f"{rows} rows of {given.days} days")
    failed = 0
    for what, value in least.items():
        bound = bounds.get(what)
        failed += bound is not None and value > bound
        print(f"{what:32}{value:9.2f}" + (f"   at most {bound:g}" + " FAILED" * (value > bound) if bound else ""))
    print(f"{len(bounds) - failed} passed, {failed} failed")
    return int(failed > 0)


if __name__ == "__main__":
    sys.exit(main())
