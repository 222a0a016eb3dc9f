"""Runs the tests and counts: pytest's tests, and mypy and flake8 as one each."""

from __future__ import annotations

import os
import subprocess
import sys
import tempfile
import xml.etree.ElementTree
from pathlib import Path

HERE = Path(__file__).parent
LEAST_COVERED = 85


def pytest_arguments(names: list[str]) -> list[str]:
    """Files for the names that are files of tests, -k for others."""
    files = [HERE / f"test_{name}.py" for name in names]
    if all(file.is_file() for file in files):
        return [str(file) for file in files]
    return ["-k", " or ".join(names)]


def run_pytest(arguments: list[str]) -> tuple[int, int]:
    """Counts of tests that passed and failed; none of either is a failure."""
    with tempfile.TemporaryDirectory() as folder:
        report = Path(folder, "tests.xml")
        made = subprocess.run([sys.executable, "-m", "pytest", "-q", "-p", "no:cacheprovider", f"--junit-xml={report}",
                               *arguments], cwd=HERE.parent, env=os.environ | {"COVERAGE_FILE": f"{folder}/coverage"})
        if made.returncode not in (0, 1):
            print("no test has such a name" if made.returncode == 5 else f"pytest ended with {made.returncode}")
            return 0, 1
        suite = xml.etree.ElementTree.parse(report).getroot()[0]
        failed = int(suite.get("failures", 0)) + int(suite.get("errors", 0))
        passed = int(suite.get("tests", 0)) - failed - int(suite.get("skipped", 0))
        return passed, failed or made.returncode  # without a failed test 1 says that too few lines were reached


def name_program() -> None:
    """Lets the tests that want the program take the one that was built here, if the environment names no other."""
    top = HERE.parent.parent
    for path in (top / "crates" / "program" / "out" / "program", top / "out" / "sigaudit"):
        if path.is_file():
            os.environ.setdefault("SIGAUDIT", str(path))
    if not os.environ.get("SIGAUDIT"):
        print("left out: what wants the program, since SIGAUDIT names none and none is built here")


def run_checker(*words: str) -> tuple[int, int]:
    """1, 0 where a checker finds nothing, else 0, 1."""
    made = subprocess.run([sys.executable, "-m", *words], cwd=HERE.parent)
    return (0, 1) if made.returncode else (1, 0)


def main() -> int:
    names = sys.argv[1:]
    name_program()
    if names:
        counts = [run_pytest(pytest_arguments(names))]
    else:
        workers = str(os.cpu_count() or 1)
        counts = [
            run_pytest(["-n", workers, "--cov=sigaudit_tools", f"--cov-fail-under={LEAST_COVERED}",
                        "--cov-report=term:skip-covered"]),
            run_checker("mypy", "--strict", "--cache-dir", os.devnull),
            run_checker("flake8", "."),
        ]
    passed, failed = (sum(column) for column in zip(*counts))
    print(f"{passed} passed, {failed} failed")
    return int(failed > 0)


if __name__ == "__main__":
    sys.exit(main())
