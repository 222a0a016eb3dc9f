"""The proved program: where it is, which version, and how it is run."""

from __future__ import annotations

import dataclasses
import os
import re
import shutil
import subprocess
import tempfile
from collections.abc import Iterator
from pathlib import Path

from sigaudit_tools._version import VERSION
from sigaudit_tools.errors import ProgramError, ResourceError
from sigaudit_tools.times import stamp_of

NAME = "sigaudit"

_NUMBER = re.compile(r"\b(\d+\.\d+\.\d+)\b", re.ASCII)
_WAIT_S = 20.0


@dataclasses.dataclass(frozen=True)
class Program:
    """A built program.

    Attributes:
        path: the file that is run.
        version: its version; empty where nothing says it, as of a program that was just built.
    """

    path: Path
    version: str


def find_program(given: Path | str | None = None) -> Program:
    """The program that is run: the one that is given, else the environment's SIGAUDIT, the checkout's launcher, the
    one that is installed beside these tools, or the first on the path.

    Raises:
        ProgramError: there is none, or it is of another version than these tools.
    """
    path = next(_candidates(given), None)
    if path is None:
        raise ProgramError("there is no program sigaudit", remedy="install the package sigaudit, or set SIGAUDIT to it")
    if not path.is_file() or not os.access(path, os.X_OK):
        raise ProgramError("no program that can be run", str(path), "set SIGAUDIT to a built sigaudit")
    version = version_of(path)
    if version not in ("", VERSION):
        raise ProgramError(f"sigaudit {version}, and these are the tools of {VERSION}", str(path),
                           "take both of one version")
    return Program(path, version)


def version_of(path: Path) -> str:
    """The version of a program: by what stands beside it, else by what it says itself; empty where neither tells.

    Beside it: VERSION of the checkout for its launcher, share/sigaudit/VERSION of the package, PROOF.txt of a release.

    Raises:
        ProgramError: it can't be run.
    """
    folder = path.resolve().parent
    for beside in (folder / "VERSION", folder.parent / "share" / NAME / "VERSION", folder / "PROOF.txt",
                   folder.parent / "PROOF.txt"):
        if beside.is_file():
            found = _NUMBER.search(beside.read_text("utf-8", "replace").split("\n")[0])
            if found:
                return found[1]
    made = _call([str(path), "--version"], Path.cwd(), _WAIT_S)
    found = _NUMBER.search(made.stdout.decode("utf-8", "replace"))
    return found[1] if found and made.returncode == 0 else ""


def run(program: Program, config: Path, script: Path, folder: Path, *more: str) -> tuple[bytes, bool]:
    """What the program writes for a script.

    Args:
        program: the program.
        config, script: its files; relative names are taken in `folder`.
        folder: the folder in which it is called, so that of the files which the script names.
        more: further words, such as `--rule`, `34`, `--at`, a stamp.

    Returns:
        The answer, and whether a line of the script was refused.

    Raises:
        ProgramError: it refused the configuration, or ended otherwise than it says.
        ResourceError: a file or memory failed it.
    """
    made = _call([str(program.path), f"--config={config}", f"--script={script}", *more], folder)
    if made.returncode in (0, 1):
        return made.stdout, made.returncode == 1
    first = made.stdout.split(b"\n")[0].decode("utf-8", "replace")
    match made.returncode:
        case 3:
            raise ProgramError(first, str(config), "sigaudit-tools check names every mistake with its line")
        case 4 | 5 | 6:
            cause = {4: "a file couldn't be read", 5: "memory ran out", 6: "a file isn't there or is too long"}
            raise ResourceError(f"sigaudit ended with {made.returncode}: {cause[made.returncode]}", str(folder),
                                "docs/FORMATS.md has its limits")
        case code:
            raise ProgramError(f"ended with {code}: {first or 'it said nothing'}", str(program.path),
                               "try it by itself: sigaudit --demo 1")


def fillings(program: Program, config: Path, edits: str, folder: Path, rule: int, tenth: int) -> str:
    """The two fillings of an undecided verdict, as the program prints them for `--rule K --at T`.

    Args:
        program: the program.
        config: the configuration's file.
        edits: the lines that edit, before the audit that called it undecided.
        folder: the folder of the files that they name.
        rule: the rule's number.
        tenth: the tenth at which it is judged.

    Raises:
        ProgramError, ResourceError: as `run`.
    """
    with tempfile.NamedTemporaryFile("w", encoding="latin-1", newline="\n", suffix=".txt") as script:
        script.write(edits)
        script.flush()
        answer, _ = run(program, config, Path(script.name), folder, "--rule", str(rule), "--at", stamp_of(tenth))
    return answer.decode("latin-1")


def _candidates(given: Path | str | None) -> Iterator[Path]:
    """Files that may be the program, the first that counts first."""
    if given is not None:
        yield Path(given).absolute()
    if os.environ.get("SIGAUDIT"):
        yield Path(shutil.which(os.environ["SIGAUDIT"]) or os.environ["SIGAUDIT"]).absolute()
    here = Path(__file__).resolve().parent
    checkout = here.parent.parent
    if (checkout / "crates.txt").is_file() and (checkout / NAME).is_file():
        yield checkout / NAME
    for folder in here.parents:
        if (folder / "bin" / NAME).is_file():
            yield folder / "bin" / NAME
    found = shutil.which(NAME)
    if found:
        yield Path(found).absolute()


def _call(words: list[str], folder: Path, wait_s: float | None = None) -> subprocess.CompletedProcess[bytes]:
    """Runs a command. Its standard error is that of this process: the launcher says there how its building goes."""
    try:
        return subprocess.run(words, cwd=folder, stdin=subprocess.DEVNULL, stdout=subprocess.PIPE, timeout=wait_s)
    except subprocess.TimeoutExpired as error:
        raise ProgramError(f"no answer within {wait_s:.0f} s", words[0], "let it be built first: ./sigaudit --demo 1"
                           ) from error
    except OSError as error:
        raise ProgramError(f"can't be run: {error.strerror}", words[0], "set SIGAUDIT to a built sigaudit") from error
